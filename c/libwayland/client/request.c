/* Requests: the nine calls that write one. See client.h. */
#define _GNU_SOURCE
#include "client.h"

#include <errno.h>
#include <stdarg.h>

/* The opcode of wl_registry.bind, its signature, and its arguments. */
#define REGISTRY_BIND 0
#define BIND_SIGNATURE "usun"
enum { BIND_NAME, BIND_INTERFACE, BIND_VERSION, BIND_COUNT = 4 };

/* A request on its way from the program to the outbox. */
struct request {
	struct wl_proxy *proxy; /* its target */
	uint32_t opcode;
	const struct wl_message *message; /* null if the interface has no such request */
	const struct signature *signature;
	struct signature own; /* of a proxy that never had an object */
	union wl_argument *args;
	struct wl_proxy *made; /* the proxy of the object that it makes; null if it makes none */
	size_t new_index;      /* the argument that is the new object */
	bool is_bind;
};

static bool is_of_bind(const struct signature *signature)
{
	return signature->count == BIND_COUNT
		&& !memcmp(signature->letters, BIND_SIGNATURE, BIND_COUNT);
}

/* The signature of a request. Null if the interface has no such request, or a malformed one. */
static const struct signature *signature_of(struct request *request)
{
	const struct known_interface *known = request->proxy->known;
	const struct wl_interface *interface = request->proxy->object.interface;
	if (known)
		return request->opcode < (uint32_t)known->was.method_count
			? &known->signatures[request->opcode] : NULL;
	if (!interface->methods || interface->method_count <= 0
		|| request->opcode >= (uint32_t)interface->method_count)
		return NULL;
	const char *text = interface->methods[request->opcode].signature;
	return text && signature_read(&request->own, text) ? &request->own : NULL;
}

/* Finds the message of a request, and its signature. */
static void begin_request(struct request *request, struct wl_proxy *proxy, uint32_t opcode)
{
	static const struct signature none = { .count = 0 };
	request->proxy = proxy;
	request->opcode = opcode;
	request->made = NULL;
	request->is_bind = proxy->is_registry && opcode == REGISTRY_BIND;
	request->signature = signature_of(request);
	if (!request->signature || (request->is_bind && !is_of_bind(request->signature))) {
		request->message = NULL;
		request->signature = &none;
	} else {
		request->message = &proxy->object.interface->methods[opcode];
	}
}

/* ---- refusing */

static const char *name_of(const struct request *request)
{
	return request->message && request->message->name ? request->message->name : "?";
}

/* Says why a request is not sent. */
static void say_refused(const struct request *request, const char *why)
{
	const struct wl_object *object = &request->proxy->object;
	log_line("%s@%u: the request %s (%u) is not sent: %s\n", object->interface->name,
		object->id, name_of(request), request->opcode, why);
}

/* Refuses a request for good: the display fails with an errno. Returns false. */
static bool refuse(const struct request *request, int error, const char *why)
{
	say_refused(request, why);
	display_fail(request->proxy->display, error);
	return false;
}

/* A request that the client does not write. A target that is gone is no error unless the program waits for a new
 * object: the server may have ended it while the program could not know. */
static bool refuse_status(const struct request *request, waywire_status status)
{
	switch (status) {
	case WAYWIRE_FAILED: /* by wl_display.error, which waits to be dispatched */
		return false;
	case WAYWIRE_STALE:
		if (request->made)
			return refuse(request, EINVAL, waywire_strerror(status));
		say_refused(request, waywire_strerror(status));
		return false;
	case WAYWIRE_NO_MEMORY:
		return refuse(request, ENOMEM, waywire_strerror(status));
	case WAYWIRE_NO_IDS:
		return refuse(request, ENOSPC, waywire_strerror(status));
	case WAYWIRE_TOO_LONG:
	case WAYWIRE_TOO_LARGE:
		return refuse(request, E2BIG, waywire_strerror(status));
	default:
		return refuse(request, EINVAL, waywire_strerror(status));
	}
}

/* ---- the new object */

/* Finds the argument that is a new object. False if there is none. */
static bool find_new(struct request *request)
{
	if (!request->signature->has_new)
		return false;
	for (size_t i = 0; i < request->signature->count; i++)
		if (request->signature->letters[i] == 'n') {
			request->new_index = i;
			return true;
		}
	return false;
}

/* The name of the interface that the tables give the new object; null if the struct has none. */
static const char *name_of_new(const struct request *request)
{
	const struct wl_interface **types = request->message->types;
	if (request->is_bind)
		return request->args[BIND_INTERFACE].s;
	return types && types[request->new_index] ? types[request->new_index]->name : NULL;
}

/* Whether an object can be made whose interface is that of the proxy. */
static bool can_be_made(const struct request *request)
{
	const struct wl_interface *interface = request->made->object.interface;
	struct wl_display *display = request->proxy->display;
	const char *name = name_of_new(request);
	if (request->made->display != display || request->made->handle.id)
		return refuse(request, EINVAL, "its new object has an id already");
	if (!tables_learn(display, interface))
		return refuse(request, errno, "no object of this interface can be made");
	if (name != interface->name && (!name || strcmp(name, interface->name)))
		return refuse(request, EINVAL, "its new object is of another interface");
	return true;
}

/* ---- arguments */

static waywire_object handle_of(const struct wl_object *object)
{
	return ((const struct wl_proxy *)(const void *)object)->handle;
}

/* ---- writing */

/* Writes a request whose arguments are numbers alone, if there is room. */
static waywire_status write_words(const struct request *request)
{
	const struct wl_proxy *proxy = request->proxy;
	size_t count = request->signature->count;
	uint32_t words[WAYWIRE_MAX_ARGS];
	for (size_t i = 0; i < count; i++)
		words[i] = request->args[i].u;
	return waywire_end_send_words(proxy->display->client.end, proxy->handle, (uint16_t)request->opcode,
		words, count, NULL);
}

/* Writes a request to the outbox, if there is room. */
static waywire_status write_once(const struct request *request, const waywire_arg *args,
	waywire_object *made)
{
	const struct wl_proxy *proxy = request->proxy;
	waywire_client client = proxy->display->client;
	const union wl_argument *given = request->args;
	if (request->signature->is_of_numbers)
		return write_words(request);
	if (!request->is_bind)
		return waywire_end_send(client.end, proxy->handle, (uint16_t)request->opcode, args,
			request->signature->count, made, NULL);
	return waywire_client_bind_unannounced(client, proxy->handle, given[BIND_NAME].u,
		given[BIND_INTERFACE].s, given[BIND_VERSION].u, made);
}

/* Writes a request. As in libwayland 1.23, a socket that takes nothing is an error only if no more may wait. False
 * if it is refused. */
static bool write_request(const struct request *request, const waywire_arg *args,
	waywire_object *made)
{
	waywire_status status;
	while ((status = write_once(request, args, made)) == WAYWIRE_FULL)
		if (!display_make_room(request->proxy->display))
			return refuse(request, errno, "the socket takes no more");
	return status ? refuse_status(request, status) : true;
}

/* Prints a request. As in libwayland, its descriptors are the duplicates. */
static void print_request(const struct request *request, const waywire_arg *args, uint32_t made)
{
	union wl_argument printed_args[WAYWIRE_MAX_ARGS];
	struct printed_message printed = { &request->proxy->object, request->message, printed_args,
		false, true, false };
	for (size_t i = 0; i < request->signature->count; i++)
		if (request->signature->letters[i] == 'h')
			printed_args[i].h = (int32_t)args[i].u;
		else if (request->signature->letters[i] == 'n')
			printed_args[i].n = made;
		else
			printed_args[i] = request->args[i];
	log_message(&printed);
}

/* Sends a request whose message was found, and gives the new proxy its object. */
static void send_request(const struct request *request)
{
	waywire_arg args[WAYWIRE_MAX_ARGS];
	waywire_object made = { 0, 0 };
	bool is_of_numbers = request->signature->is_of_numbers; /* these are written as they are */
	size_t index;
	if (request->made && !can_be_made(request))
		return;
	int error = is_of_numbers ? 0
		: arguments_convert(request->signature, request->args, handle_of, args, &index);
	if (error) {
		refuse(request, error, "an argument cannot be sent");
		return;
	}
	if (!write_request(request, args, &made)) {
		if (!is_of_numbers)
			arguments_close(args, request->signature->count);
		return;
	}
	if (request->made)
		proxy_give_object(request->made, made);
	if (is_debugging())
		print_request(request, args, made.id);
}

/* ---- the calls */

/* Makes the proxy of the new object, or finds the one that the program has made. False if there is
 * none, or if the request is not one of its interface. */
static bool find_made(struct request *request, const struct wl_interface *interface,
	uint32_t version)
{
	union wl_argument *args = request->args;
	if (request->message && !find_new(request)) {
		if (interface) /* as in libwayland, that is no error of the connection */
			say_refused(request, "it makes no object");
		return !interface;
	}
	if (interface)
		request->made = proxy_create(request->proxy, interface, version);
	if (!request->message)
		return refuse(request, EINVAL, "its interface has none, or a malformed one");
	if (!interface) { /* the program has called wl_proxy_create */
		request->made = (struct wl_proxy *)args[request->new_index].o;
		return request->made || refuse(request, EINVAL, "its new object is null");
	}
	if (request->made)
		args[request->new_index].o = &request->made->object;
	return request->made;
}

/* Makes a request. Returns the proxy of the object that it makes, if `interface` says which; it is
 * returned also if the request is refused and the display has failed. */
static struct wl_proxy *make_request(struct request *request, const struct wl_interface *interface,
	uint32_t version, uint32_t flags, union wl_argument *args)
{
	struct wl_proxy *proxy = request->proxy;
	struct wl_display *display = proxy->display;
	request->args = args;
	pthread_mutex_lock(&display->mutex);
	if (find_made(request, interface, version) && !display->last_error)
		send_request(request);
	if (flags & WL_MARSHAL_FLAG_DESTROY)
		proxy_destroy(proxy);
	pthread_mutex_unlock(&display->mutex);
	return interface ? request->made : NULL;
}

EXPORT struct wl_proxy *wl_proxy_marshal_array_flags(struct wl_proxy *proxy, uint32_t opcode,
	const struct wl_interface *interface, uint32_t version, uint32_t flags,
	union wl_argument *args)
{
	struct request request;
	begin_request(&request, proxy, opcode);
	return make_request(&request, interface, version, flags, args);
}

EXPORT void wl_proxy_marshal_array(struct wl_proxy *proxy, uint32_t opcode, union wl_argument *args)
{
	wl_proxy_marshal_array_flags(proxy, opcode, NULL, 0, 0, args);
}

EXPORT struct wl_proxy *wl_proxy_marshal_array_constructor(struct wl_proxy *proxy, uint32_t opcode,
	union wl_argument *args, const struct wl_interface *interface)
{
	return wl_proxy_marshal_array_flags(proxy, opcode, interface, proxy->version, 0, args);
}

EXPORT struct wl_proxy *wl_proxy_marshal_array_constructor_versioned(struct wl_proxy *proxy,
	uint32_t opcode, union wl_argument *args, const struct wl_interface *interface,
	uint32_t version)
{
	return wl_proxy_marshal_array_flags(proxy, opcode, interface, version, 0, args);
}

/* Makes a request whose arguments are listed. */
static struct wl_proxy *make_listed(struct wl_proxy *proxy, uint32_t opcode,
	const struct wl_interface *interface, uint32_t version, uint32_t flags, va_list given)
{
	struct request request;
	union wl_argument args[WAYWIRE_MAX_ARGS];
	begin_request(&request, proxy, opcode);
	arguments_read(request.signature, args, given);
	return make_request(&request, interface, version, flags, args);
}

EXPORT struct wl_proxy *wl_proxy_marshal_flags(struct wl_proxy *proxy, uint32_t opcode,
	const struct wl_interface *interface, uint32_t version, uint32_t flags, ...)
{
	va_list given;
	va_start(given, flags);
	struct wl_proxy *made = make_listed(proxy, opcode, interface, version, flags, given);
	va_end(given);
	return made;
}

EXPORT void wl_proxy_marshal(struct wl_proxy *proxy, uint32_t opcode, ...)
{
	va_list given;
	va_start(given, opcode);
	make_listed(proxy, opcode, NULL, 0, 0, given);
	va_end(given);
}

EXPORT struct wl_proxy *wl_proxy_marshal_constructor(struct wl_proxy *proxy, uint32_t opcode,
	const struct wl_interface *interface, ...)
{
	va_list given;
	va_start(given, interface);
	struct wl_proxy *made = make_listed(proxy, opcode, interface, proxy->version, 0, given);
	va_end(given);
	return made;
}

EXPORT struct wl_proxy *wl_proxy_marshal_constructor_versioned(struct wl_proxy *proxy,
	uint32_t opcode, const struct wl_interface *interface, uint32_t version, ...)
{
	va_list given;
	va_start(given, version);
	struct wl_proxy *made = make_listed(proxy, opcode, interface, version, 0, given);
	va_end(given);
	return made;
}
