/* Events: copies of what the client reports, until something listens. See client.h. */
#include "client.h"

#include <errno.h>
#include <stdlib.h>
#include <string.h>
#include <unistd.h>

/* The opcodes of wl_display's events, and the codes of its errors. */
#define DISPLAY_ERROR 0
#define DISPLAY_DELETE_ID 1
#define INVALID_OBJECT 0
#define INVALID_METHOD 1
#define NO_MEMORY 2
#define IMPLEMENTATION 3

/* The opcode of wl_registry.global, and two of its arguments. */
#define REGISTRY_GLOBAL 0
#define GLOBAL_INTERFACE 1
#define GLOBAL_VERSION 2

/* Arrays and strings are copied to multiples of 8 bytes. */
#define ALIGNED(length) (((length) + 7) / 8 * 8)

/* ---- making and dropping them */

/* Makes an event with room for `room` bytes after its arguments. Null with errno. `signature` is that of its
 * message, and outlives the event. */
static struct event *new_event(struct wl_proxy *proxy, const struct signature *signature,
	uint32_t opcode, size_t room)
{
	struct event *event = malloc(sizeof *event + signature->count * sizeof *event->args + room);
	if (!event)
		return NULL;
	event->proxy = proxy;
	proxy->references++;
	event->message = &proxy->object.interface->events[opcode];
	event->opcode = opcode;
	event->was_delivered = false;
	event->is_stray = false;
	event->signature = signature;
	return event;
}

/* Whether an argument is a proxy, or null. */
static bool is_object(const struct event *event, size_t index)
{
	return event->signature->letters[index] == 'o' || event->signature->letters[index] == 'n';
}

static void free_event(struct event *event)
{
	for (size_t i = 0; i < event->signature->count; i++) {
		union wl_argument *arg = &event->args[i];
		if (event->signature->letters[i] == 'h' && !event->was_delivered)
			close(arg->h);
		if (is_object(event, i) && arg->o)
			proxy_release((struct wl_proxy *)arg->o);
	}
	proxy_release(event->proxy);
	free(event);
}

/* Makes null the arguments whose proxies the program has destroyed since they were read. */
static void drop_destroyed(struct event *event)
{
	for (size_t i = 0; i < event->signature->count; i++) {
		if (!is_object(event, i))
			continue;
		struct wl_proxy *proxy = (struct wl_proxy *)event->args[i].o;
		if (!proxy || !proxy->is_destroyed)
			continue;
		proxy_release(proxy);
		event->args[i].o = NULL;
	}
}

/* Destroys the proxy that an event has made, if the program will never see it. It has seen it, or will, if another
 * event names it. */
static void destroy_made(const struct event *event)
{
	for (size_t i = 0; i < event->signature->count; i++) {
		struct wl_proxy *made = (struct wl_proxy *)event->args[i].o;
		if (event->signature->letters[i] != 'n' || !made || made->is_shown)
			continue;
		int own = 2 + made->is_held; /* the program's, this event's and the client's */
		if (made->references == own)
			proxy_destroy(made);
	}
}

/* Remembers that the program sees the proxies of an event. */
static void show_proxies(const struct event *event)
{
	for (size_t i = 0; i < event->signature->count; i++)
		if (is_object(event, i) && event->args[i].o)
			((struct wl_proxy *)event->args[i].o)->is_shown = true;
}

/* The last events come first: each is gone before the one that made what it names. */
void queue_drain(struct wl_event_queue *queue)
{
	while (!wl_list_empty(&queue->events)) {
		struct event *event = wl_container_of(queue->events.prev, event, link);
		wl_list_remove(&event->link);
		drop_destroyed(event); /* another event may have shown the program what this one made */
		destroy_made(event);
		free_event(event);
	}
}

static void put_in_queue(struct wl_event_queue *queue, struct event *event)
{
	if (!queue) {
		log_line("%s@%u: the queue of its event %s is destroyed\n",
			event->proxy->object.interface->name, event->proxy->object.id,
			event->message->name);
		/* A test of libwayland reads this line. */
		log_line("Tried to add event to destroyed queue\n");
		abort();
	}
	wl_list_insert(queue->events.prev, &event->link);
}

/* ---- copying a message */

/* Whether an argument of a report is what a letter of a signature requires. A new object of no interface is an
 * `n` there, and a number in the tables. */
static bool is_of_letter(const waywire_arg *arg, char letter)
{
	switch (arg->kind) {
	case WAYWIRE_INT:
		return letter == 'i';
	case WAYWIRE_UINT:
		return letter == 'u' || letter == 'n';
	case WAYWIRE_FIXED:
		return letter == 'f';
	case WAYWIRE_STRING:
	case WAYWIRE_NULL_STRING:
		return letter == 's';
	case WAYWIRE_OBJECT:
	case WAYWIRE_NULL_OBJECT:
	case WAYWIRE_DEAD_OBJECT:
		return letter == 'o';
	case WAYWIRE_NEW:
		return letter == 'n';
	case WAYWIRE_ARRAY:
		return letter == 'a';
	case WAYWIRE_FD:
		return letter == 'h';
	}
	return false;
}

static bool is_null(const waywire_arg *arg)
{
	return arg->kind == WAYWIRE_NULL_STRING || arg->kind == WAYWIRE_NULL_OBJECT;
}

/* How much memory the arrays and strings of a report need, after the arguments. */
struct sizes {
	size_t arrays, bytes;
};

/* The signature of the event that a report is for. Null if the interface of its proxy has no such event, because the
 * tables were made from another struct. */
static const struct signature *signature_of(const struct wl_proxy *proxy,
	const waywire_report *report)
{
	const struct known_interface *known = proxy->known;
	if (report->opcode >= (uint32_t)known->was.event_count)
		return NULL;
	return &known->signatures[known->was.method_count + (int)report->opcode];
}

/* Measures an event. False if its arguments are not those of the signature: the tables allow null for more. */
static bool measure(const struct signature *signature, const waywire_report *report,
	struct sizes *sizes)
{
	sizes->arrays = sizes->bytes = 0;
	if (signature->count != report->arg_count)
		return false;
	for (size_t i = 0; i < signature->count; i++) {
		const waywire_arg *arg = &report->args[i];
		if (!is_of_letter(arg, signature->letters[i])
			|| (is_null(arg) && !signature->nullable[i]))
			return false;
		if (arg->kind == WAYWIRE_ARRAY)
			sizes->arrays += sizeof(struct wl_array);
		if (arg->kind == WAYWIRE_ARRAY || arg->kind == WAYWIRE_STRING)
			sizes->bytes += ALIGNED(arg->length + 1);
	}
	return true;
}

/* Where the next array, and the next bytes, of an event are copied to. */
struct behind {
	struct wl_array *array;
	char *bytes;
};

/* Copies bytes, followed by a NUL. */
static char *copy_bytes(struct behind *behind, const waywire_arg *arg)
{
	char *copy = behind->bytes;
	if (arg->length)
		memcpy(copy, arg->bytes, arg->length);
	copy[arg->length] = '\0';
	behind->bytes += ALIGNED(arg->length + 1);
	return copy;
}

static struct wl_array *copy_array(struct behind *behind, const waywire_arg *arg)
{
	struct wl_array *array = behind->array++;
	array->size = arg->length;
	array->alloc = 0; /* its data are not its own */
	array->data = copy_bytes(behind, arg);
	return array;
}

static struct wl_object *referenced(struct wl_proxy *proxy)
{
	if (!proxy)
		return NULL;
	proxy->references++;
	return &proxy->object;
}

/* Copies one argument. The proxy of a new object is null until it is made. */
static void copy_argument(const struct wl_display *display, const waywire_arg *arg, char letter,
	struct behind *behind, union wl_argument *to)
{
	switch (letter) {
	case 'i':
	case 'f':
		to->i = arg->i;
		break;
	case 'u':
		to->u = arg->u;
		break;
	case 'h':
		to->h = (int32_t)arg->u;
		break;
	case 's':
		to->s = arg->kind == WAYWIRE_STRING ? copy_bytes(behind, arg) : NULL;
		break;
	case 'a':
		to->a = copy_array(behind, arg);
		break;
	case 'o':
		to->o = arg->kind == WAYWIRE_NULL_OBJECT ? NULL
			: referenced(proxy_of(display, arg->object));
		break;
	default:
		to->o = NULL;
		break;
	}
}

/* Offers wl_fixes at no version above 1, which is that of all tables: a program that bound another
 * could not be served. */
static void limit_fixes(struct event *event)
{
	if (!event->proxy->is_registry || event->opcode != REGISTRY_GLOBAL
		|| event->signature->count <= GLOBAL_VERSION
		|| strcmp(event->args[GLOBAL_INTERFACE].s, "wl_fixes"))
		return;
	if (event->args[GLOBAL_VERSION].u > 1)
		event->args[GLOBAL_VERSION].u = 1;
}

/* Makes the proxy of a new object. False with errno. */
static bool make_new(struct event *event, size_t index, waywire_object object)
{
	struct wl_proxy *maker = event->proxy;
	const struct wl_interface **types = event->message->types;
	const struct wl_interface *interface = types ? types[index] : NULL;
	if (!interface) {
		errno = EINVAL;
		return false;
	}
	if (!tables_agree(maker->display, interface))
		return false;
	struct wl_proxy *made = proxy_create(maker, interface, maker->version);
	if (!made)
		return false;
	proxy_give_object(made, object);
	event->args[index].o = referenced(made);
	return true;
}

/* Copies a message for a proxy, and makes the proxy of an object that it makes. Null with errno;
 * its descriptors are closed then. */
static struct event *copy_message(struct wl_proxy *proxy, const waywire_report *report)
{
	const struct signature *signature = signature_of(proxy, report);
	struct sizes sizes;
	size_t new_index = WAYWIRE_MAX_ARGS;
	if (!signature || !measure(signature, report, &sizes)) {
		log_line("%s@%u: event %u is none of its interface, or has a wrong null\n",
			proxy->object.interface->name, proxy->object.id, report->opcode);
		report_close_descriptors(report);
		errno = signature ? EINVAL : EFAULT; /* as in libwayland */
		return NULL;
	}
	struct event *event = new_event(proxy, signature, report->opcode,
		sizes.arrays + sizes.bytes);
	if (!event) {
		report_close_descriptors(report);
		return NULL;
	}
	union wl_argument *end = event->args + signature->count;
	struct behind behind = { (void *)end, (char *)end + sizes.arrays };
	for (size_t i = 0; i < signature->count; i++) {
		const waywire_arg *arg = &report->args[i];
		copy_argument(proxy->display, arg, signature->letters[i], &behind,
			&event->args[i]);
		if (arg->kind == WAYWIRE_NEW)
			new_index = i;
	}
	limit_fixes(event);
	/* Last, since this ends the report. */
	if (new_index < WAYWIRE_MAX_ARGS
		&& !make_new(event, new_index, report->args[new_index].object)) {
		free_event(event);
		return NULL;
	}
	return event;
}

/* ---- what reports say */

/* Whether libwayland still knows the object of a report as a zombie: the client made it, and its
 * interface has an event with a descriptor. Any other object is printed as unknown. */
static bool is_zombie(const waywire_report *report)
{
	const struct wl_proxy *proxy = report->user;
	return proxy && report->target.id < WAYWIRE_FIRST_SERVER_ID && proxy->gets_descriptors;
}

/* Drops a message for an object whose proxy the program has destroyed. */
static void discard(const waywire_report *report, size_t length)
{
	if (is_debugging())
		log_discarded(is_zombie(report), report->target.id, report->opcode,
			report->token_count, length);
	report_close_descriptors(report);
}

/* The object whose id the new object has taken over is gone. */
static void end_replaced(const waywire_report *report)
{
	if (report->replaced_user)
		proxy_let_go(report->replaced_user);
}

static int take_message(const waywire_report *report, size_t length)
{
	struct wl_proxy *proxy = report->user;
	if (!proxy || proxy->is_destroyed) {
		discard(report, length);
		end_replaced(report);
		return 0;
	}
	struct wl_proxy *replaced = report->replaced_user;
	struct event *event = copy_message(proxy, report);
	if (event)
		put_in_queue(proxy->queue, event);
	if (replaced)
		proxy_let_go(replaced);
	return event ? 0 : -1;
}

/* A delete_id counts among the events of the next dispatch, but has none of its own unless there is
 * something to print. */
static int take_delete_id(struct wl_display *display, uint32_t id, bool is_stray)
{
	static const struct signature signature = { .count = 1, .letters = { 'u' } };
	if (!is_stray && !is_debugging()) {
		display->deleted_count++;
		return 0;
	}
	struct event *event = new_event(&display->proxy, &signature, DISPLAY_DELETE_ID, 0);
	if (!event)
		return -1;
	event->args[0].u = id;
	event->is_stray = is_stray;
	put_in_queue(&display->display_queue, event);
	return 0;
}

/* The error takes effect when it is dispatched. One about an id of no object is a fault, as in
 * libwayland. */
static int take_error(struct wl_display *display, const waywire_report *report)
{
	static const struct signature signature = { .count = 3, .letters = { 'o', 'u', 's' } };
	if (report->named == WAYWIRE_NULL_OBJECT) {
		log_line("unknown object %u: error %u: %s\n", report->id, report->code,
			report->text);
		errno = EINVAL;
		return -1;
	}
	struct event *event = new_event(&display->proxy, &signature, DISPLAY_ERROR,
		report->text_length + 1);
	if (!event)
		return -1;
	char *text = (char *)(event->args + signature.count);
	memcpy(text, report->text, report->text_length);
	text[report->text_length] = '\0';
	event->args[0].o = referenced(proxy_of(display, report->target));
	event->args[1].u = report->code;
	event->args[2].s = text;
	put_in_queue(&display->display_queue, event);
	return 0;
}

int event_take(struct wl_display *display, const waywire_report *report, size_t length)
{
	switch (report->kind) {
	case WAYWIRE_MESSAGE:
		return take_message(report, length);
	case WAYWIRE_DISCARDED:
		discard(report, length);
		end_replaced(report);
		return 0;
	case WAYWIRE_DELETED:
		if (report->user)
			proxy_let_go(report->user);
		return take_delete_id(display, report->target.id, false);
	case WAYWIRE_STRAY:
		return take_delete_id(display, report->id, true);
	case WAYWIRE_ERROR:
		return take_error(display, report);
	}
	return 0;
}

/* ---- dispatching */

static void print_event(const struct event *event, bool is_discarded)
{
	struct printed_message printed = { &event->proxy->object, event->message, event->args,
		true, false, is_discarded };
	if (is_debugging())
		log_message(&printed);
}

/* The errno of a wl_display.error about an object of this interface. */
static int errno_of(const struct wl_interface *interface, uint32_t code)
{
	if (!interface || strcmp(interface->name, wl_display_interface.name))
		return EPROTO;
	switch (code) {
	case INVALID_OBJECT:
	case INVALID_METHOD:
		return EINVAL;
	case NO_MEMORY:
		return ENOMEM;
	case IMPLEMENTATION:
		return EPROTO;
	}
	return EFAULT;
}

/* The connection ends by wl_display.error. No thread waits for a reader now. */
static void hear_error(struct wl_display *display, const struct event *event)
{
	const struct wl_object *object = event->args[0].o;
	uint32_t code = event->args[1].u;
	pthread_mutex_unlock(&display->mutex);
	if (object)
		log_line("%s@%u: error %d: %s\n", object->interface->name, object->id, (int)code,
			event->args[2].s);
	else
		log_line("[destroyed object]: error %d: %s\n", (int)code, event->args[2].s);
	pthread_mutex_lock(&display->mutex);
	if (display->last_error)
		return;
	display->last_error = errno_of(object ? object->interface : NULL, code);
	display->protocol_error.interface = object ? object->interface : NULL;
	display->protocol_error.id = object ? object->id : 0;
	display->protocol_error.code = code;
}

static void hear_display(struct wl_display *display, const struct event *event)
{
	print_event(event, false);
	if (event->opcode == DISPLAY_ERROR)
		hear_error(display, event);
	else if (event->is_stray)
		log_line("delete_id of an id that has no object: %u\n", event->args[0].u);
}

/* Calls what listens to a proxy, without the lock. */
static void hear(struct event *event)
{
	struct wl_proxy *proxy = event->proxy;
	print_event(event, false);
	event->was_delivered = true;
	if (proxy->dispatcher) {
		proxy->dispatcher(proxy->object.implementation, proxy, event->opcode,
			event->message, event->args);
		return;
	}
	void (*const *functions)(void) = proxy->object.implementation;
	if (!functions[event->opcode]) {
		log_line("the listener of %s@%u has no function for the event %s\n",
			proxy->object.interface->name, proxy->object.id, event->message->name);
		abort();
	}
	arguments_call(functions[event->opcode], proxy->user_data, proxy, event->signature,
		event->args, true);
}

void queue_dispatch_first(struct wl_display *display, struct wl_event_queue *queue)
{
	struct event *event = wl_container_of(queue->events.next, event, link);
	struct wl_proxy *proxy = event->proxy;
	wl_list_remove(&event->link);
	drop_destroyed(event);
	if (proxy->is_destroyed) {
		print_event(event, true);
		destroy_made(event);
	} else if (proxy == &display->proxy) {
		hear_display(display, event);
	} else if (proxy->dispatcher || proxy->object.implementation) {
		show_proxies(event);
		pthread_mutex_unlock(&display->mutex);
		hear(event);
		pthread_mutex_lock(&display->mutex);
	}
	free_event(event);
}
