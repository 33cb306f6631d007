/* Requests and events at the limits of libwayland, and beyond: long ones, null arguments, numbers
 * that are no descriptors or no objects, and a compositor that reads nothing. Prints a line for
 * each, which is a process of its own: what the call came to, and the error of the display.
 *
 *     limits [NUMBER]
 *
 * With NUMBER only that one is tried, in this process. */
#define _GNU_SOURCE
#define COUNT_CLOSES
#include "thing.h"
#include "wire.h"

static struct wl_display *display;
static struct wl_registry *registry;
static struct wl_proxy *thing;
static int peer;
static struct wire wire;
static unsigned events;
static int destroys_seen; /* whether what an event shows is destroyed at once */
static struct wl_proxy *seen; /* what an event has shown, else */

static int count_event(const void *data, void *proxy, uint32_t opcode,
	const struct wl_message *message, union wl_argument *args)
{
	(void)data, (void)proxy, (void)message;
	events++;
	if (opcode == THING_POINTS && destroys_seen)
		wl_proxy_destroy((struct wl_proxy *)args[1].o);
	else if (opcode == THING_POINTS)
		seen = (struct wl_proxy *)args[1].o;
	return 0;
}

static char *text_of(size_t length)
{
	char *text = malloc(length + 1);
	MUST(text);
	memset(text, 'x', length);
	text[length] = 0;
	return text;
}

/* ---- requests */

static void share_text(size_t length)
{
	char *text = text_of(length);
	int descriptor = new_descriptor();
	share_thing(thing, text, descriptor);
	close(descriptor);
	free(text);
}

static void share_no_descriptor(size_t number)
{
	share_thing(thing, "text", -(int)number);
}

static void set_title(size_t length)
{
	struct wl_proxy *shell = wl_proxy_marshal_flags((struct wl_proxy *)registry, WL_REGISTRY_BIND,
		&wl_shell_surface_interface, 1, 0, 2, "wl_shell_surface", 1, NULL);
	char *text = length ? text_of(length - 1) : NULL;
	wl_shell_surface_set_title((struct wl_shell_surface *)shell, text);
	free(text);
	wl_proxy_destroy(shell);
}

static void no_object(size_t number)
{
	(void)number;
	struct wl_proxy *manager = wl_proxy_marshal_flags((struct wl_proxy *)registry, WL_REGISTRY_BIND,
		&wl_data_device_manager_interface, 1, 0, 2, "wl_data_device_manager", 1, NULL);
	struct wl_data_device *device = wl_data_device_manager_get_data_device(
		(struct wl_data_device_manager *)manager, NULL);
	if (device)
		wl_data_device_destroy(device);
	wl_proxy_destroy(manager);
}

static void bind_above_version(size_t version)
{
	struct wl_proxy *proxy = wl_proxy_marshal_flags((struct wl_proxy *)registry, WL_REGISTRY_BIND,
		&thing_interface, (uint32_t)version, 0, 2, "thing", (uint32_t)version, NULL);
	if (proxy)
		wl_proxy_destroy(proxy);
}

static void many_descriptors(size_t count)
{
	int descriptor = new_descriptor();
	while (count-- > 0)
		share_thing(thing, "text", descriptor);
	close(descriptor);
}

/* The compositor reads nothing, and the socket and all queues are full in the end. */
static void never_read(size_t count)
{
	while (count-- > 0 && !wl_display_get_error(display)) {
		struct wl_callback *callback = wl_display_sync(display);
		if (callback)
			wl_callback_destroy(callback);
	}
}

static void never_read_descriptors(size_t count)
{
	int descriptor = new_descriptor();
	while (count-- > 0 && !wl_display_get_error(display))
		share_thing(thing, "text", descriptor);
	close(descriptor);
}

/* ---- events */

static void text_event(size_t length)
{
	char *text = text_of(length);
	begin_message(&wire, wl_proxy_get_id(thing), THING_TEXT);
	put_text(&wire, text);
	put_array(&wire, NULL, 0);
	put_word(&wire, 1);
	put_word(&wire, 2);
	end_message(&wire);
	free(text);
}

static void size_event(size_t size)
{
	begin_message(&wire, wl_proxy_get_id(thing), THING_TEXT);
	wire.bytes[wire.length - 2] = (unsigned char)size;
	wire.bytes[wire.length - 1] = (unsigned char)(size >> 8);
	for (int word = 0; word < 40; word++)
		put_word(&wire, 0);
}

static void opcode_event(size_t opcode)
{
	put_message(&wire, wl_proxy_get_id(thing), (uint16_t)opcode, 2, 1, 1);
}

static void object_event(size_t id)
{
	put_message(&wire, wl_proxy_get_id(thing), THING_POINTS, 2, (uint32_t)id,
		wl_proxy_get_id(thing));
}

static void null_object_event(size_t number)
{
	(void)number;
	put_message(&wire, wl_proxy_get_id(thing), THING_POINTS, 2, 0, 0);
}

static void other_object_event(size_t number)
{
	(void)number;
	put_message(&wire, wl_proxy_get_id(thing), THING_POINTS, 2, 2, wl_proxy_get_id(thing));
}

static void null_text_event(size_t number)
{
	(void)number;
	begin_message(&wire, wl_proxy_get_id((struct wl_proxy *)registry), 0);
	put_word(&wire, 1);
	put_word(&wire, 0);
	put_word(&wire, 1);
	end_message(&wire);
}

static void new_object_event(size_t id)
{
	put_message(&wire, wl_proxy_get_id(thing), THING_MADE, 1, (uint32_t)id);
}

static void no_descriptor_event(size_t number)
{
	(void)number;
	put_message(&wire, wl_proxy_get_id(thing), THING_SHARED, 1, 1);
}

static void target_event(size_t id)
{
	put_message(&wire, (uint32_t)id, 0, 1, 1);
}

static void many_event(size_t count)
{
	while (count-- > 0)
		put_message(&wire, wl_proxy_get_id((struct wl_proxy *)registry), 1, 1, 1);
}

/* Reads what the compositor sends into the queue of `thing`. */
static void read_wire(void)
{
	struct wl_event_queue *empty = wl_display_create_queue(display);
	send_wire(&wire, peer);
	clear_wire(&wire);
	MUST(empty && !wl_display_prepare_read_queue(display, empty));
	MUST(!wl_display_read_events(display));
	wl_event_queue_destroy(empty);
}

/* An object is made by an event that waits in one queue, and an event of another queue shows it. Then it is
 * destroyed, at once or after the first queue is. */
static void seen_in_two_queues_event(size_t destroys)
{
	struct wl_event_queue *first = wl_display_create_queue(display);
	struct wl_event_queue *second = wl_display_create_queue(display);
	MUST(first && second);
	destroys_seen = (int)destroys;
	wl_proxy_set_queue(thing, first);
	put_message(&wire, wl_proxy_get_id(thing), THING_MADE, 1, FIRST_SERVER_ID);
	read_wire();
	wl_proxy_set_queue(thing, second);
	put_message(&wire, wl_proxy_get_id(thing), THING_POINTS, 2, 0, FIRST_SERVER_ID);
	read_wire();
	MUST(wl_display_dispatch_queue_pending(display, second) == 1);
	wl_event_queue_destroy(first);
	wl_proxy_set_queue(thing, NULL);
	wl_event_queue_destroy(second);
	if (seen)
		wl_proxy_destroy(seen);
}

/* The maker of an object is destroyed before its event is dispatched, and another event shows the object. */
static void seen_after_its_maker_event(size_t number)
{
	struct wl_proxy *maker = bind_thing(registry, 3);
	MUST(maker && !number);
	wl_proxy_add_dispatcher(maker, count_event, NULL, NULL);
	put_message(&wire, wl_proxy_get_id(maker), THING_MADE, 1, FIRST_SERVER_ID);
	put_message(&wire, wl_proxy_get_id(thing), THING_POINTS, 2, 0, FIRST_SERVER_ID);
	read_wire();
	wl_proxy_destroy(maker);
	MUST(wl_display_dispatch_pending(display) == 2 && seen);
	wl_proxy_destroy(seen);
}

static void delete_event(size_t id)
{
	put_message(&wire, 1, 1, 1, (uint32_t)id);
}

static const struct {
	void (*does)(size_t number);
	size_t number;
	const char *name;
} cases[] = {
	/* The names of those that are events end with that word. */
#define CASE(does, number) { does, number, #does }
	CASE(share_text, 0), CASE(share_text, 4075), CASE(share_text, 4079), CASE(share_text, 4080),
	CASE(share_text, 4083), CASE(share_text, 4084), CASE(share_text, 4100), CASE(share_text, 9000),
	CASE(share_text, 65519), CASE(share_text, 65536), CASE(share_text, 70000),
	CASE(share_no_descriptor, 1), CASE(share_no_descriptor, 7),
	CASE(set_title, 0), CASE(set_title, 1), CASE(set_title, 4084), CASE(set_title, 4085),
	CASE(set_title, 5000), CASE(no_object, 0), CASE(bind_above_version, 2),
	CASE(many_descriptors, 28), CASE(many_descriptors, 29), CASE(many_descriptors, 200),
	CASE(never_read, 4000000), CASE(never_read_descriptors, 400000),
	CASE(text_event, 0), CASE(text_event, 4067), CASE(text_event, 4068), CASE(text_event, 5000),
	CASE(text_event, 9000), CASE(size_event, 0), CASE(size_event, 4), CASE(size_event, 7),
	CASE(size_event, 8), CASE(size_event, 10), CASE(size_event, 4100), CASE(size_event, 65535),
	CASE(opcode_event, 4), CASE(opcode_event, 65535), CASE(object_event, 77),
	CASE(object_event, FIRST_SERVER_ID), CASE(null_object_event, 0), CASE(other_object_event, 0),
	CASE(null_text_event, 0), CASE(new_object_event, 0), CASE(new_object_event, 77),
	CASE(new_object_event, FIRST_SERVER_ID + 1), CASE(new_object_event, FIRST_SERVER_ID),
	CASE(new_object_event, 0xffffffff), CASE(no_descriptor_event, 0),
	CASE(many_event, 1000), CASE(seen_in_two_queues_event, 1), CASE(seen_in_two_queues_event, 0),
	CASE(seen_after_its_maker_event, 0), CASE(delete_event, 0),
	CASE(delete_event, 1), CASE(delete_event, 77),
	CASE(delete_event, FIRST_SERVER_ID), CASE(target_event, 0), CASE(target_event, 77),
};
#define CASES (sizeof cases / sizeof cases[0])

/* What the client has sent, but for what it sends when it begins. */
static size_t sent_bytes(void)
{
	static char bytes[65536];
	char control[1024];
	size_t sent = 0;
	for (;;) {
		struct iovec part = { bytes, sizeof bytes };
		struct msghdr head = { .msg_iov = &part, .msg_iovlen = 1, .msg_control = control,
			.msg_controllen = sizeof control };
		ssize_t more = recvmsg(peer, &head, MSG_DONTWAIT | MSG_CMSG_CLOEXEC);
		if (more <= 0)
			return sent;
		sent += (size_t)more;
		for (struct cmsghdr *header = CMSG_FIRSTHDR(&head); header; header = CMSG_NXTHDR(&head, header))
			for (size_t at = 0; at < (header->cmsg_len - CMSG_LEN(0)) / sizeof(int); at++)
				close(((int *)(void *)CMSG_DATA(header))[at]);
	}
}

static int play(const void *its)
{
	size_t number = *(const size_t *)its;
	int sockets[2], before = count_open();
	make_pair(sockets);
	peer = sockets[1];
	display = wl_display_connect_to_fd(sockets[0]);
	registry = wl_display_get_registry(display);
	thing = bind_thing(registry, 1);
	wl_proxy_add_dispatcher(thing, count_event, NULL, NULL);
	wl_proxy_add_dispatcher((struct wl_proxy *)registry, count_event, NULL, NULL);
	wl_display_flush(display);
	sent_bytes();
	limit_waiting(display, 4096);
	cases[number].does(cases[number].number);
	int is_stuck = cases[number].does == never_read || cases[number].does == never_read_descriptors;
	int status = is_stuck ? 0 : wl_display_flush(display) < 0;
	size_t sent = is_stuck ? 0 : sent_bytes();
	if (wire.length)
		send_wire(&wire, peer);
	if (!is_stuck)
		shutdown(peer, SHUT_WR);
	errno = 0; /* if it is 0, the error of an unknown event in libwayland is EFAULT */
	for (int turn = 0; !is_stuck && turn < 2000 && wl_display_dispatch(display) >= 0; turn++)
		continue;
	printf("%s %zu: flush %d, %zu bytes, error %s, %u events", cases[number].name,
		cases[number].number, status, sent, name_of(wl_display_get_error(display)), events);
	wl_proxy_destroy(thing);
	wl_registry_destroy(registry);
	wl_display_disconnect(display);
	sent_bytes();
	close(peer);
	if (count_open() != before || closed_twice)
		printf(", DESCRIPTORS: %d left open, %d closed twice", count_open() - before, closed_twice);
	printf("\n");
	return 0;
}

int main(int argc, char **argv)
{
	wl_log_set_handler_client(quiet);
	if (argc > 1)
		return play(&(size_t){ (size_t)atoi(argv[1]) % CASES });
	for (size_t number = 0; number < CASES; number++) {
		int status = play_apart(play, &number);
		if (status)
			printf("%s %zu: CRASHED by signal %d, status %d\n", cases[number].name,
				cases[number].number, WTERMSIG(status), WEXITSTATUS(status));
		fflush(stdout);
	}
	return 0;
}
