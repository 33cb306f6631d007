/* Events, and errors: arguments on their way to the outbox. See server.h. */
#include "server.h"

#include <errno.h>
#include <stdio.h>
#include <string.h>

/* An event on its way from the compositor to the outbox. */
struct outgoing {
	struct wl_resource *resource;
	uint32_t opcode;
	const struct wl_message *message;
	const struct signature *signature;
	const union wl_argument *args;
	struct wl_resource *made; /* the resource of the object that it makes; null if it makes none */
	waywire_arg converted[WAYWIRE_MAX_ARGS];
};

/* ---- one event */

static void say_dropped(const struct wl_resource *resource, uint32_t opcode, const char *why)
{
	const struct wl_object *object = &resource->object;
	const char *name = opcode < (uint32_t)object->interface->event_count
		? object->interface->events[opcode].name : "?";
	log_line("%s@%u.%s is not sent: %s\n", object->interface->name, object->id, name, why);
}

/* The signature of an event. Null if tables cannot have it; then it says so. */
static const struct signature *signature_of(const struct wl_resource *resource, uint32_t opcode)
{
	const struct known_interface *known = resource->known;
	if (known && opcode < (uint32_t)known->was.event_count)
		return &known->signatures[(size_t)known->was.method_count + opcode];
	say_dropped(resource, opcode, "its interface cannot be served");
	return NULL;
}

static void say_null(const struct outgoing *event, size_t index)
{
	log_line("error marshalling arguments for %s (signature %s): null value passed for arg %i\n",
		event->message->name, event->message->signature, (int)index);
}

/* Whether the resources that an event names are of its client. If not, says so in libwayland's words. Finds the one
 * that the event makes. */
static bool find_resources(struct outgoing *event)
{
	for (size_t i = 0; i < event->signature->count; i++) {
		char letter = event->signature->letters[i];
		if (letter != 'o' && letter != 'n')
			continue;
		struct wl_resource *named = (struct wl_resource *)(void *)event->args[i].o;
		if (named && named->client != event->resource->client) {
			log_line("compositor bug: The compositor tried to use an object from one client in "
				"a '%s.%s' for a different client.\n",
				event->resource->object.interface->name, event->message->name);
			return false;
		}
		if (letter == 'n' && !named) {
			say_null(event, i);
			return false;
		}
		if (letter == 'n')
			event->made = named;
	}
	return true;
}

static waywire_object handle_of(const struct wl_object *object)
{
	return ((const struct wl_resource *)(const void *)object)->handle;
}

/* Converts the arguments. False if that cannot be; then it has said why. */
static bool convert(struct outgoing *event)
{
	size_t index;
	int error = arguments_convert(event->signature, event->args, handle_of, event->converted,
		&index);
	if (!error)
		return true;
	if (error == EINVAL)
		say_null(event, index);
	else
		log_line("error marshalling arguments for %s: dup failed: %s\n", event->message->name,
			strerror(error));
	return false;
}

/* Prints an event, or calls the loggers with it: its descriptors are the duplicates, and a new object is its id. */
static void tell(const struct outgoing *event)
{
	union wl_argument told[WAYWIRE_MAX_ARGS];
	for (size_t i = 0; i < event->signature->count; i++)
		if (event->signature->letters[i] == 'h')
			told[i].h = (int32_t)event->converted[i].u;
		else if (event->signature->letters[i] == 'n')
			told[i].n = event->args[i].o ? event->args[i].o->id : 0;
		else
			told[i] = event->args[i];
	log_tell(event->resource, event->message, event->opcode, told, true);
}

/* An event that the end does not write. One about an object that is gone is dropped, and any other ends the
 * connection, as in libwayland. */
static void refuse(const struct outgoing *event, waywire_status status)
{
	arguments_close(event->converted, event->signature->count);
	say_dropped(event->resource, event->opcode, status == WAYWIRE_FULL
		? "the client does not read" : waywire_strerror(status));
	if (status != WAYWIRE_STALE && status != WAYWIRE_BAD_OBJECT && status != WAYWIRE_TOO_OLD
		&& status != WAYWIRE_NO_SUCH_MESSAGE)
		client_fail(event->resource->client);
}

/* Writes an event whose arguments are converted. */
static void write_event(const struct outgoing *event)
{
	struct wl_client *client = event->resource->client;
	waywire_object made = { 0, 0 };
	waywire_status status = waywire_end_send(client->server.end, event->resource->handle,
		(uint16_t)event->opcode, event->converted, event->signature->count, &made, NULL);
	if (status) {
		refuse(event, status);
		return;
	}
	if (event->made && made.id && !resource_adopt(event->made, made))
		wl_client_post_no_memory(client);
	if (log_is_watching(client->display))
		tell(event);
}

/* Sends an event, and flushes it with the next flush of the client if it is posted. */
static void send_event(struct wl_resource *resource, uint32_t opcode,
	const struct signature *signature, const union wl_argument *args, bool is_posted)
{
	struct wl_client *client = resource->client;
	struct outgoing event;
	if (client->has_failed)
		return;
	event.resource = resource;
	event.opcode = opcode;
	event.message = &resource->object.interface->events[opcode];
	event.signature = signature;
	event.args = args;
	event.made = NULL;
	if ((!client->server.end && !client_end(client))
		|| (signature->has_object && !find_resources(&event)) || !convert(&event)) {
		client_fail(client);
		return;
	}
	write_event(&event);
	client->wants_flush |= is_posted;
}

/* ---- the calls */

EXPORT void wl_resource_post_event_array(struct wl_resource *resource, uint32_t opcode,
	union wl_argument *args)
{
	const struct signature *signature = signature_of(resource, opcode);
	if (signature)
		send_event(resource, opcode, signature, args, true);
}

EXPORT void wl_resource_queue_event_array(struct wl_resource *resource, uint32_t opcode,
	union wl_argument *args)
{
	const struct signature *signature = signature_of(resource, opcode);
	if (signature)
		send_event(resource, opcode, signature, args, false);
}

/* Sends an event whose arguments are listed. */
static void send_listed(struct wl_resource *resource, uint32_t opcode, va_list given,
	bool is_posted)
{
	union wl_argument args[WAYWIRE_MAX_ARGS];
	const struct signature *signature = signature_of(resource, opcode);
	if (!signature)
		return;
	arguments_read(signature, args, given);
	send_event(resource, opcode, signature, args, is_posted);
}

EXPORT void wl_resource_post_event(struct wl_resource *resource, uint32_t opcode, ...)
{
	va_list given;
	va_start(given, opcode);
	send_listed(resource, opcode, given, true);
	va_end(given);
}

EXPORT void wl_resource_queue_event(struct wl_resource *resource, uint32_t opcode, ...)
{
	va_list given;
	va_start(given, opcode);
	send_listed(resource, opcode, given, false);
	va_end(given);
}

/* ---- errors */

/* Prints wl_display.error, or calls the loggers with it. */
static void tell_error(struct wl_resource *resource, uint32_t code, const char *text)
{
	struct wl_client *client = resource->client;
	union wl_argument args[3];
	if (!log_is_watching(client->display))
		return;
	args[0].o = &resource->object;
	args[1].u = code;
	args[2].s = text;
	log_tell(client->display_resource, &wl_display_interface.events[DISPLAY_ERROR], DISPLAY_ERROR,
		args, true);
}

/* An error about an object that is not live is one about wl_display. */
EXPORT void wl_resource_post_error_vargs(struct wl_resource *resource, uint32_t code,
	const char *format, va_list args)
{
	struct wl_client *client = resource->client;
	char text[WAYWIRE_MAX_ERROR_TEXT + 1];
	vsnprintf(text, sizeof text, format, args);
	if (client->has_failed || !client->display_resource)
		return;
	client_fail(client);
	if (!client_end(client))
		return;
	tell_error(resource, code, text);
	if (waywire_server_post_error(client->server, resource->handle, code, text) == WAYWIRE_STALE)
		waywire_server_post_error(client->server, client->display_resource->handle, code, text);
}

EXPORT void wl_resource_post_error(struct wl_resource *resource, uint32_t code, const char *format,
	...)
{
	va_list args;
	va_start(args, format);
	wl_resource_post_error_vargs(resource, code, format, args);
	va_end(args);
}

/* Once wl_display is gone, so is the client. */
EXPORT void wl_client_post_implementation_error(struct wl_client *client, const char *format, ...)
{
	va_list args;
	va_start(args, format);
	if (client->display_resource)
		wl_resource_post_error_vargs(client->display_resource, IMPLEMENTATION, format, args);
	va_end(args);
}

EXPORT void wl_client_post_no_memory(struct wl_client *client)
{
	if (client->display_resource)
		wl_resource_post_error(client->display_resource, NO_MEMORY, "no memory");
}

EXPORT void wl_resource_post_no_memory(struct wl_resource *resource)
{
	wl_client_post_no_memory(resource->client);
}
