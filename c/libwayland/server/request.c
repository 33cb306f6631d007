/* Requests: reports on their way to the compositor's handlers, and what a client is told of a wrong one. See
 * server.h. */
#include "server.h"

#include <errno.h>
#include <stdlib.h>
#include <string.h>
#include <unistd.h>

/* Copies of strings and arrays begin at multiples of 8 bytes, and end with a NUL. */
#define ALIGNED(length) (((length) + 8) / 8 * 8)

/* A request on its way to its handler. A report is valid until the end changes, and a handler may change it: so it has
 * copies of the strings and arrays. */
struct incoming {
	struct wl_resource *resource;
	const struct wl_message *message;
	const struct signature *signature;
	size_t count;
	union wl_argument args[WAYWIRE_MAX_ARGS];
	struct wl_array arrays[WAYWIRE_MAX_ARGS];
	size_t used;
	char bytes[WAYWIRE_USUAL_LIMIT + 8 * WAYWIRE_MAX_ARGS];
};

static void close_descriptors(const waywire_report *report)
{
	for (size_t i = 0; i < report->token_count; i++)
		close((int)report->tokens[i]);
}

/* ---- arguments */

static char *copy(struct incoming *request, const waywire_arg *arg)
{
	char *to = request->bytes + request->used;
	if (arg->length)
		memcpy(to, arg->bytes, arg->length);
	to[arg->length] = '\0';
	request->used += ALIGNED(arg->length);
	return to;
}

static struct wl_array *copy_array(struct incoming *request, struct wl_array *array,
	const waywire_arg *arg)
{
	array->size = arg->length;
	array->alloc = 0; /* its data are not its own */
	array->data = copy(request, arg);
	return array;
}

/* Notes that a request has made an object. Returns its id. Without memory the client is lost. */
static uint32_t note_new(struct wl_client *client, waywire_object object)
{
	struct slot *slot = slot_make(client, object.id);
	if (slot) {
		slot->resource = NULL;
		slot->birth = object.birth;
		slot->is_fresh = true;
	} else {
		wl_client_post_no_memory(client);
	}
	return object.id;
}

/* Appends the three arguments of a bind that a report has as one: the interface, the version and the new id. */
static void take_bind(struct incoming *request, const waywire_arg *arg)
{
	union wl_argument *to = &request->args[request->count];
	to[0].s = copy(request, arg);
	to[1].u = arg->u;
	to[2].n = note_new(request->resource->client, arg->object);
	request->count += 3;
}

/* Appends an argument of a report. False if it is not one that the struct allows: a null, or an object without a
 * resource. */
static bool take_argument(struct incoming *request, const waywire_arg *arg)
{
	struct wl_client *client = request->resource->client;
	size_t index = request->count++;
	union wl_argument *to = &request->args[index];
	switch (arg->kind) {
	case WAYWIRE_INT:
	case WAYWIRE_FIXED:
		to->i = arg->i;
		return true;
	case WAYWIRE_STRING:
		to->s = copy(request, arg);
		return true;
	case WAYWIRE_ARRAY:
		to->a = copy_array(request, &request->arrays[index], arg);
		return true;
	case WAYWIRE_NEW:
		to->n = note_new(client, arg->object);
		return true;
	case WAYWIRE_OBJECT:
		to->o = (struct wl_object *)(void *)client_resource(client, arg->object.id);
		return to->o;
	case WAYWIRE_NULL_STRING:
	case WAYWIRE_NULL_OBJECT:
		to->o = NULL;
		return request->signature->nullable[index];
	default: /* a uint or a descriptor */
		to->u = arg->u;
		return true;
	}
}

/* ---- wrong requests, in libwayland's words */

/* Finds the message of a request. False if there is none; then the client was told why. */
static bool find_message(struct incoming *request, struct wl_client *client, uint32_t id,
	uint32_t opcode)
{
	struct wl_resource *resource = client_resource(client, id);
	const struct wl_interface *interface = resource ? resource->object.interface : NULL;
	request->resource = resource;
	if (!resource) {
		wl_resource_post_error(client->display_resource, INVALID_OBJECT, "invalid object %u", id);
		return false;
	}
	if (!resource->known || opcode >= (uint32_t)resource->known->was.method_count) {
		wl_resource_post_error(client->display_resource, INVALID_METHOD,
			"invalid method %d, object %s@%u", (int)opcode, interface->name, id);
		return false;
	}
	request->message = &interface->methods[opcode];
	request->signature = &resource->known->signatures[opcode];
	if (resource->version > 0 && (uint32_t)resource->version < request->signature->since) {
		wl_resource_post_error(client->display_resource, INVALID_METHOD,
			"invalid method %d (since %d < %d), object %s@%u", (int)opcode,
			resource->version, (int)request->signature->since, interface->name, id);
		return false;
	}
	return true;
}

static void refuse_arguments(const struct incoming *request)
{
	struct wl_resource *resource = request->resource;
	wl_resource_post_error(resource->client->display_resource, INVALID_METHOD,
		"invalid arguments for %s@%u.%s", resource->object.interface->name,
		resource->object.id, request->message->name);
}

/* Answers a bind that the end refuses, about the registry. */
static void refuse_bind(struct wl_client *client, const waywire_report *report)
{
	waywire_decoded bind;
	struct wl_resource *registry = client_resource(client, report->id);
	if (!registry || waywire_tables_decode(waywire_end_tables(client->server.end), REGISTRY_INDEX,
			1, WAYWIRE_FROM_CLIENT, report->text, report->text_length, &bind))
		return;
	globals_refuse(registry, bind.args[0].u, bind.args[1].bytes, bind.args[1].u);
}

/* Tells a client what is wrong with a request that cannot be read. */
static void answer_fault(struct wl_client *client, waywire_status status,
	const waywire_report *report)
{
	struct incoming request;
	if (status == WAYWIRE_FAULT_BAD_BIND)
		refuse_bind(client, report);
	else if (status == WAYWIRE_FAULT_TOO_MANY_OBJECTS || status == WAYWIRE_NO_MEMORY)
		wl_client_post_no_memory(client);
	else if (find_message(&request, client, report->id, report->opcode))
		refuse_arguments(&request);
	if (!client->has_failed && client->display_resource)
		wl_resource_post_error(client->display_resource, INVALID_METHOD, "%s",
			waywire_strerror(status));
	client_fail(client);
}

/* ---- calling */

/* Prints a request, or calls the loggers with it, and calls its handler. */
static void call_handler(struct incoming *request, uint32_t opcode)
{
	struct wl_resource *resource = request->resource;
	if (log_is_watching(resource->client->display))
		log_tell(resource, request->message, opcode, request->args, false);
	if (resource->dispatcher) {
		resource->dispatcher(resource->object.implementation, resource, opcode, request->message,
			request->args);
		return;
	}
	void (*const *functions)(void) = resource->object.implementation;
	if (!functions || !functions[opcode]) {
		log_line("listener function for opcode %u of %s is NULL\n", opcode,
			resource->object.interface->name);
		abort();
	}
	arguments_call(functions[opcode], resource->client, resource, request->signature, request->args,
		false);
}

/* Takes the arguments of a request. False if one is not allowed. */
static bool take_arguments(struct incoming *request, const waywire_report *report)
{
	size_t wanted = request->signature->count;
	request->count = request->used = 0;
	for (size_t i = 0; i < report->arg_count; i++) {
		const waywire_arg *arg = &report->args[i];
		if (arg->kind == WAYWIRE_BOUND && request->count + 3 <= wanted)
			take_bind(request, arg);
		else if (request->count == wanted || !take_argument(request, arg))
			return false;
	}
	return request->count == wanted;
}

/* Takes one request. Its descriptors are the handler's, or closed. */
static void take_request(struct wl_client *client, const waywire_report *report)
{
	struct incoming request;
	if (find_message(&request, client, report->target.id, report->opcode)
		&& !take_arguments(&request, report))
		refuse_arguments(&request);
	if (client->has_failed)
		close_descriptors(report);
	else
		call_handler(&request, report->opcode);
}

/* Takes the first request that waits. False if there is none, or none more. */
static bool take_next(struct wl_client *client)
{
	waywire_report report;
	waywire_status status = waywire_server_next_unanswered(client->server, &report);
	if (status == WAYWIRE_OUT_FULL) {
		if (client_make_room(client))
			return true;
		log_line("a request cannot be answered: the client does not read\n");
		client_fail(client);
	} else if (status) {
		answer_fault(client, status, &report);
	} else if (report.kind == WAYWIRE_MESSAGE) {
		take_request(client, &report);
		return true;
	}
	return false;
}

ssize_t requests_read(struct wl_client *client)
{
	if (!client_end(client)) {
		errno = ENOMEM;
		return -1;
	}
	ssize_t came = waywire_socket_fill(client->fd, client->server.end);
	while (came > 0 && !client->has_failed && take_next(client))
		;
	return came;
}
