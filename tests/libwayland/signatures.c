/* A request and an event of each kind of signature: each letter, up to 20 arguments, mixed,
 * nullable, with the number of a version before it. The bytes and the descriptors of the request
 * are compared with what they must be, and so are the arguments with which the event reaches a
 * listener, or, for every other signature, a dispatcher. Prints how many signatures there were. */
#define _GNU_SOURCE
#define COUNT_CLOSES
#include "thing.h"
#include "wire.h"
#include <sys/stat.h>

#define MOST_ARGS 20
/* How many interfaces a connection is given. */
#define AT_ONCE 100

struct signature {
	char text[128];
	char letters[MOST_ARGS + 1];
	int count, new_at, is_null[MOST_ARGS];
	const struct wl_interface *types[MOST_ARGS];
	struct wl_message request, event;
	char name[16];
	struct wl_interface interface;
};

static struct wl_display *display;
static struct wl_registry *registry;
static struct wl_proxy *thing;
static int peer;
static uint32_t next_server_id;
/* The event that is under way: its signature, its object, and what it made. */
static struct signature *awaited;
static struct wl_proxy *target, *made;
static int has_come;
static ino_t files[MOST_ARGS];
static struct wire wire;
/* Where the id of the new object is in the message that is written. */
static size_t new_id_place;
static char where[128];

static void fail(const char *what, int at)
{
	fprintf(stderr, "signature %s: argument %d: %s\n", where, at, what);
	exit(1);
}

/* ---- the values of arguments, by their index */

static uint32_t number_at(int at)
{
	return 0x80000001u + (uint32_t)at * 0x01234567u;
}

static const char *text_at(int at)
{
	return "a text of so many bytes" + at % 24;
}

static struct wl_array array_at(int at)
{
	static const char bytes[] = "0123456789abcdefghijk";
	struct wl_array array = { (size_t)at, (size_t)at, (void *)(uintptr_t)bytes };
	return array;
}

static struct wl_proxy *object_at(int at)
{
	return awaited->types[at] == &thing_interface || at % 2 ? thing : target;
}

static ino_t file_of(int descriptor)
{
	struct stat file;
	return fstat(descriptor, &file) ? 0 : file.st_ino;
}

/* Writes the arguments; the new object, if there is one, has this id. */
static void put_args(const struct signature *its, uint32_t new_id)
{
	for (int at = 0; at < its->count; at++) {
		struct wl_array array = array_at(at);
		switch (its->letters[at]) {
		case 's':
			put_text(&wire, its->is_null[at] ? NULL : text_at(at));
			break;
		case 'a':
			put_array(&wire, array.data, array.size);
			break;
		case 'o':
			put_word(&wire, its->is_null[at] ? 0 : wl_proxy_get_id(object_at(at)));
			break;
		case 'n':
			new_id_place = wire.length;
			put_word(&wire, new_id);
			break;
		case 'h':
			put_descriptor(&wire, new_descriptor());
			files[at] = file_of(wire.descriptors[wire.count - 1]);
			break;
		default:
			put_word(&wire, number_at(at));
		}
	}
}

/* ---- events */

static void check_object(int at, struct wl_proxy *object)
{
	if (object != (awaited->is_null[at] ? NULL : object_at(at)))
		fail("another object", at);
}

static void check_made(int at, struct wl_proxy *object)
{
	made = object;
	if (!made || strcmp(wl_proxy_get_class(made), "thing") || wl_proxy_get_version(made) != 9 ||
		wl_proxy_get_id(made) != next_server_id)
		fail("another new object", at);
}

static void check_arg(int at, uintptr_t value)
{
	struct wl_array wanted = array_at(at), *array = (struct wl_array *)value;
	switch (awaited->letters[at]) {
	case 's':
		if (awaited->is_null[at] ? value != 0 : strcmp((char *)value, text_at(at)))
			fail("another text", at);
		break;
	case 'a':
		if (array->size != wanted.size || memcmp(array->data, wanted.data, wanted.size))
			fail("another array", at);
		break;
	case 'o':
		check_object(at, (struct wl_proxy *)value);
		break;
	case 'n':
		check_made(at, (struct wl_proxy *)value);
		break;
	case 'h':
		if (file_of((int)value) != files[at] || close((int)value))
			fail("another descriptor", at);
		break;
	default:
		if ((uint32_t)value != number_at(at))
			fail("another number", at);
	}
}

static void check_event(void *data, struct wl_proxy *proxy, const uintptr_t *values)
{
	MUST(data == awaited && proxy == target && wl_proxy_get_user_data(proxy) == data);
	for (int at = 0; at < awaited->count; at++)
		check_arg(at, values[at]);
	has_come++;
}

/* On x86-64 all arguments of events are passed alike, so this serves events that have fewer. */
static void on_event(void *data, struct wl_proxy *proxy, uintptr_t a0, uintptr_t a1, uintptr_t a2,
	uintptr_t a3, uintptr_t a4, uintptr_t a5, uintptr_t a6, uintptr_t a7, uintptr_t a8,
	uintptr_t a9, uintptr_t a10, uintptr_t a11, uintptr_t a12, uintptr_t a13, uintptr_t a14,
	uintptr_t a15, uintptr_t a16, uintptr_t a17, uintptr_t a18, uintptr_t a19)
{
	uintptr_t values[MOST_ARGS] = { a0, a1, a2, a3, a4, a5, a6, a7, a8, a9, a10, a11, a12, a13, a14,
		a15, a16, a17, a18, a19 };
	check_event(data, proxy, values);
}

static int on_dispatched(const void *calls, void *proxy, uint32_t opcode,
	const struct wl_message *message, union wl_argument *args)
{
	uintptr_t values[MOST_ARGS] = { 0 };
	MUST(calls == &registry && !opcode && message == &awaited->event);
	for (int at = 0; at < awaited->count; at++)
		values[at] = strchr("soan", awaited->letters[at]) ? (uintptr_t)args[at].s : args[at].u;
	check_event(wl_proxy_get_user_data(proxy), proxy, values);
	return 0;
}

static void send_event(struct signature *its)
{
	has_come = 0;
	made = NULL;
	begin_message(&wire, wl_proxy_get_id(target), 0);
	put_args(its, next_server_id);
	end_message(&wire);
	send_wire(&wire, peer);
	if (wl_display_dispatch(display) < 0)
		fail(strerror(errno), -1);
	MUST(has_come == 1);
	if (made) {
		next_server_id++;
		wl_proxy_destroy(made);
	}
}

/* ---- requests */

/* Reads what the client has sent: the end of it must be the message that the wire has, with the
 * same files in their order. */
static void compare_request(void)
{
	static unsigned char bytes[16384];
	char control[1024];
	struct iovec part = { bytes, sizeof bytes };
	struct msghdr head = { .msg_iov = &part, .msg_iovlen = 1, .msg_control = control,
		.msg_controllen = sizeof control };
	ssize_t length = recvmsg(peer, &head, MSG_CMSG_CLOEXEC);
	if (length < (ssize_t)wire.length ||
		memcmp(bytes + (size_t)length - wire.length, wire.bytes, wire.length))
		fail("other bytes of the request", -1);
	size_t count = 0;
	for (struct cmsghdr *header = CMSG_FIRSTHDR(&head); header; header = CMSG_NXTHDR(&head, header)) {
		int found[MOST_DESCRIPTORS];
		size_t size = header->cmsg_len - CMSG_LEN(0);
		MUST(count + size / sizeof(int) <= wire.count);
		memcpy(found, CMSG_DATA(header), size);
		for (size_t at = 0; at < size / sizeof(int); at++) {
			if (file_of(found[at]) != file_of(wire.descriptors[count++]))
				fail("another descriptor of the request", (int)at);
			close(found[at]);
		}
	}
	if (count != wire.count)
		fail("other descriptors of the request", (int)count);
}

/* The arguments as a program gives them, with these arrays and the wire's descriptors. */
static void set_args(const struct signature *its, union wl_argument *args, struct wl_array *arrays)
{
	size_t descriptor = 0;
	for (int at = 0; at < its->count; at++) {
		arrays[at] = array_at(at);
		switch (its->letters[at]) {
		case 's':
			args[at].s = its->is_null[at] ? NULL : text_at(at);
			break;
		case 'a':
			args[at].a = &arrays[at];
			break;
		case 'o':
			args[at].o = its->is_null[at] ? NULL : (struct wl_object *)object_at(at);
			break;
		case 'n':
			args[at].o = NULL;
			break;
		case 'h':
			args[at].h = wire.descriptors[descriptor++];
			break;
		default:
			args[at].u = number_at(at);
		}
	}
}

static void send_request(const struct signature *its)
{
	union wl_argument args[MOST_ARGS];
	struct wl_array arrays[MOST_ARGS];
	begin_message(&wire, wl_proxy_get_id(target), 0);
	put_args(its, 0);
	set_args(its, args, arrays);
	struct wl_proxy *object = wl_proxy_marshal_array_flags(target, 0,
		its->new_at < 0 ? NULL : &thing_interface, 1, 0, args);
	/* The id of a new object is known only now. */
	if (its->new_at >= 0) {
		MUST(object);
		uint32_t id = wl_proxy_get_id(object);
		memcpy(wire.bytes + new_id_place, &id, sizeof id);
	}
	end_message(&wire);
	if (wl_display_flush(display) < 0)
		fail(strerror(errno), -1);
	compare_request();
	clear_wire(&wire);
	if (object) {
		put_message(&wire, 1, 1, 1, wl_proxy_get_id(object));
		wl_proxy_destroy(object);
		send_wire(&wire, peer);
	}
}

/* ---- signatures */

static int number_of_signatures;
static uint32_t random_state = 1;

static uint32_t random_below(uint32_t limit)
{
	random_state = random_state * 1103515245u + 12345u;
	return (random_state >> 16) % limit;
}

/* Takes a signature apart, and makes an interface with a request and an event of it. */
static void prepare(struct signature *its, const char *text)
{
	memset(its, 0, sizeof *its);
	snprintf(its->text, sizeof its->text, "%s", text);
	snprintf(where, sizeof where, "%s", text);
	snprintf(its->name, sizeof its->name, "s%d", number_of_signatures++);
	its->new_at = -1;
	int is_nullable = 0;
	for (const char *at = text + strspn(text, "0123456789"); *at; at++) {
		if (*at == '?') {
			is_nullable = 1;
			continue;
		}
		its->letters[its->count] = *at;
		its->is_null[its->count] = is_nullable && its->count % 3 != 1 && *at != 'a';
		if (*at == 'n') {
			its->new_at = its->count;
			its->types[its->count] = &thing_interface;
		} else if (*at == 'o') {
			its->types[its->count] = its->count % 2 ? &thing_interface : &its->interface;
		}
		is_nullable = 0;
		its->count++;
	}
	its->request = (struct wl_message){ "request", its->text, its->types };
	its->event = (struct wl_message){ "event", its->text, its->types };
	its->interface = (struct wl_interface){ its->name, 9, 1, &its->request, 1, &its->event };
}

static void try(struct signature *its, const char *text)
{
	static void (*calls[])(void) = { (void (*)(void))on_event };
	prepare(its, text);
	awaited = its;
	target = wl_proxy_marshal_flags((struct wl_proxy *)registry, WL_REGISTRY_BIND, &its->interface,
		9, 0, 1, its->name, 9, NULL);
	MUST(target);
	if (number_of_signatures % 2)
		MUST(!wl_proxy_add_listener(target, calls, its));
	else
		MUST(!wl_proxy_add_dispatcher(target, on_dispatched, &registry, its));
	send_request(its);
	send_event(its);
	put_message(&wire, 1, 1, 1, wl_proxy_get_id(target));
	wl_proxy_destroy(target);
	send_wire(&wire, peer);
}

static void repeated(char *text, const char *letter, int count)
{
	*text = 0;
	while (count-- > 0)
		strcat(text, letter);
}

/* Random letters: at most one new object; some are nullable, some follow the number of a version. */
static void mixed(char *text, int count, int new_at)
{
	static const char letters[] = "iufsoah";
	text += sprintf(text, "%.*s", (int)random_below(2), "3");
	for (int at = 0; at < count; at++) {
		char letter = at == new_at ? 'n' : letters[random_below(7)];
		if (strchr("so", letter) && !random_below(2))
			*text++ = '?';
		*text++ = letter;
	}
	*text = 0;
}

/* The text of a signature by its number; whether there is one. */
static int signature_of(char *text, int number)
{
	static const char *const letters[] = { "i", "u", "f", "s", "o", "a", "h", "?s", "?o", "?a" };
	if (number < 10 * (MOST_ARGS + 1)) {
		repeated(text, letters[number / (MOST_ARGS + 1)], number % (MOST_ARGS + 1));
		return 1;
	}
	number -= 10 * (MOST_ARGS + 1);
	if (number < MOST_ARGS * MOST_ARGS) {
		mixed(text, 1 + number / MOST_ARGS, number % MOST_ARGS);
		return 1;
	}
	mixed(text, (int)random_below(MOST_ARGS + 1), -1);
	return number < 1000;
}

static void open_connection(void)
{
	int sockets[2];
	make_pair(sockets);
	peer = sockets[1];
	display = wl_display_connect_to_fd(sockets[0]);
	MUST(display);
	registry = wl_display_get_registry(display);
	thing = bind_thing(registry, 1);
	MUST(thing);
	next_server_id = FIRST_SERVER_ID;
}

static void close_connection(void)
{
	MUST(!wl_display_get_error(display));
	wl_proxy_destroy(thing);
	wl_registry_destroy(registry);
	wl_display_disconnect(display);
	close(peer);
}

int main(void)
{
	static struct signature all[AT_ONCE];
	char text[128];
	int before = count_open();
	for (int number = 0; signature_of(text, number); number++) {
		if (number % AT_ONCE == 0) {
			if (number)
				close_connection();
			open_connection();
		}
		try(&all[number % AT_ONCE], text);
	}
	close_connection();
	MUST(count_open() == before && !closed_twice);
	printf("%d signatures\n", number_of_signatures);
	return 0;
}
