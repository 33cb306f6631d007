/* A client of libwayland at our server, over a socket: some thousand messages of many kinds,
 * descriptors both ways, objects that are destroyed while events for them are on their way, ids used
 * again, and wl_display.error at the end. The client runs in a child. */
#define _GNU_SOURCE
#include "descriptors.h"

#include <errno.h>
#include <poll.h>
#include <sys/wait.h>
#include <wayland-client.h>

#define ROUNDS 600
#define ERROR_CODE 7
#define ERROR_TEXT "enough"

static int memory_with(uint32_t number)
{
	int fd = memfd_create("number", MFD_CLOEXEC);
	MUST(fd >= 0 && write(fd, &number, sizeof number) == sizeof number);
	return fd;
}

/* The number in memory, whose descriptor is closed. */
static uint32_t number_in(int fd)
{
	uint32_t number = 0;
	MUST(pread(fd, &number, sizeof number, 0) == sizeof number);
	close(fd);
	return number;
}

/* ---- the client, of libwayland */

static struct wl_compositor *compositor;
static struct wl_shm *shm;
static struct wl_seat *seat;
static uint32_t keymaps, moves, frames, round_number, dead_names;

static void announced(void *data, struct wl_registry *registry, uint32_t name, const char *interface,
	uint32_t version)
{
	(void)data;
	if (!strcmp(interface, "wl_compositor"))
		compositor = wl_registry_bind(registry, name, &wl_compositor_interface, version);
	else if (!strcmp(interface, "wl_shm"))
		shm = wl_registry_bind(registry, name, &wl_shm_interface, version);
	else if (!strcmp(interface, "wl_seat"))
		seat = wl_registry_bind(registry, name, &wl_seat_interface, version);
}

static void withdrawn(void *data, struct wl_registry *registry, uint32_t name)
{
	(void)data, (void)registry, (void)name;
}

static const struct wl_registry_listener registry_events = { announced, withdrawn };

static void on_keymap(void *data, struct wl_keyboard *keyboard, uint32_t format, int32_t fd,
	uint32_t size)
{
	(void)data, (void)keyboard;
	MUST(format == 1 && number_in(fd) == size);
	keymaps++;
}

static void on_keys(void *data, struct wl_keyboard *keyboard, uint32_t serial,
	struct wl_surface *surface, struct wl_array *keys)
{
	(void)data, (void)keyboard;
	const uint32_t *first = keys->data;
	MUST(keys->size == 8 && first[0] == serial && first[1] == 9);
	if (!surface)
		dead_names++;
}

static void on_leave(void *data, struct wl_keyboard *keyboard, uint32_t serial, struct wl_surface *surface)
{
	(void)data, (void)keyboard, (void)serial, (void)surface;
}

static void on_key(void *data, struct wl_keyboard *keyboard, uint32_t serial, uint32_t time, uint32_t key,
	uint32_t state)
{
	(void)data, (void)keyboard;
	MUST(serial == time && key == time + 1 && state == 1);
}

static const struct wl_keyboard_listener keyboard_events = { on_keymap, on_keys, on_leave, on_key, NULL,
	NULL };

static void on_enter(void *data, struct wl_pointer *pointer, uint32_t serial, struct wl_surface *surface,
	wl_fixed_t x, wl_fixed_t y)
{
	(void)data, (void)pointer, (void)serial, (void)surface, (void)x, (void)y;
}

static void on_pointer_leave(void *data, struct wl_pointer *pointer, uint32_t serial,
	struct wl_surface *surface)
{
	(void)data, (void)pointer, (void)serial, (void)surface;
}

static void on_motion(void *data, struct wl_pointer *pointer, uint32_t time, wl_fixed_t x, wl_fixed_t y)
{
	(void)data, (void)pointer;
	MUST(time == round_number && x == (wl_fixed_t)time * 3 && y == -(wl_fixed_t)time);
	moves++;
}

static const struct wl_pointer_listener pointer_events = { on_enter, on_pointer_leave, on_motion, NULL,
	NULL, NULL, NULL, NULL, NULL };

static void on_frame(void *data, struct wl_callback *callback, uint32_t time)
{
	(void)data;
	MUST(time == round_number);
	wl_callback_destroy(callback);
	frames++;
}

static const struct wl_callback_listener frame_events = { on_frame };

static void seat_can(void *data, struct wl_seat *wl_seat, uint32_t capabilities)
{
	(void)data, (void)wl_seat;
	MUST(capabilities == 3);
}

static void seat_is(void *data, struct wl_seat *wl_seat, const char *name)
{
	(void)data, (void)wl_seat;
	MUST(!strcmp(name, "the seat"));
}

static const struct wl_seat_listener seat_events = { seat_can, seat_is };

static void play_round(struct wl_display *display)
{
	round_number++;
	struct wl_surface *surface = wl_compositor_create_surface(compositor);
	struct wl_region *region = wl_compositor_create_region(compositor);
	MUST(wl_proxy_get_id((struct wl_proxy *)surface) < 64);
	wl_region_add(region, -1, 2, -3, (int32_t)round_number);
	wl_surface_set_input_region(surface, region);
	wl_surface_set_input_region(surface, NULL);
	wl_region_destroy(region);
	wl_surface_damage(surface, (int32_t)round_number, 0, 0, 0);
	wl_callback_add_listener(wl_surface_frame(surface), &frame_events, NULL);
	wl_surface_commit(surface);
	struct wl_keyboard *brief = wl_seat_get_keyboard(seat);
	wl_keyboard_release(brief);
	struct wl_keyboard *keyboard = wl_seat_get_keyboard(seat);
	wl_keyboard_add_listener(keyboard, &keyboard_events, NULL);
	int fd = memory_with(round_number);
	struct wl_shm_pool *pool = wl_shm_create_pool(shm, fd, (int32_t)round_number);
	close(fd);
	wl_shm_pool_destroy(pool);
	wl_surface_destroy(surface); /* events that name it are on their way */
	MUST(wl_display_roundtrip(display) >= 0);
	wl_keyboard_release(keyboard);
}

static int be_client(int fd)
{
	struct wl_display *display = wl_display_connect_to_fd(fd);
	MUST(display);
	struct wl_registry *registry = wl_display_get_registry(display);
	wl_registry_add_listener(registry, &registry_events, NULL);
	MUST(wl_display_roundtrip(display) >= 0 && compositor && shm && seat);
	wl_seat_add_listener(seat, &seat_events, NULL);
	struct wl_pointer *pointer = wl_seat_get_pointer(seat);
	wl_pointer_add_listener(pointer, &pointer_events, NULL);
	MUST(wl_display_roundtrip(display) >= 0);
	int before = count_open();
	while (round_number < ROUNDS)
		play_round(display);
	MUST(wl_display_roundtrip(display) >= 0);
	MUST(count_open() == before);
	MUST(keymaps == ROUNDS && moves == ROUNDS && frames == ROUNDS && dead_names == ROUNDS);
	struct wl_surface *surface = wl_compositor_create_surface(compositor);
	wl_surface_set_buffer_scale(surface, -1);
	MUST(wl_display_roundtrip(display) < 0 && errno == EPROTO);
	const struct wl_interface *interface;
	uint32_t id;
	MUST(wl_display_get_protocol_error(display, &interface, &id) == ERROR_CODE);
	MUST(interface == &wl_surface_interface && id == wl_proxy_get_id((struct wl_proxy *)surface));
	wl_display_disconnect(display);
	return 0;
}

/* ---- our server */

static waywire_tables *tables;
static int socket_to;
static waywire_server server;
static waywire_object pointer_at;
static uint32_t pools, keyboards;
static size_t messages;
static bool ended;

static void event(waywire_object target, uint16_t opcode, const waywire_arg *args, size_t count)
{
	waywire_status status = waywire_end_send(server.end, target, opcode, args, count, NULL, NULL);
	if (status)
		fprintf(stderr, "%u/%u opcode %u: %s\n", target.id, (unsigned)target.birth, opcode,
			waywire_strerror(status));
	MUST(!status);
	messages++;
}

static void on_bind(const waywire_report *report)
{
	waywire_object object = report->args[1].object;
	MUST(report->args[1].kind == WAYWIRE_BOUND);
	if (strcmp(report->args[1].bytes, "wl_seat"))
		return;
	waywire_arg capabilities = waywire_uint(3), name = waywire_string("the seat");
	event(object, WAYWIRE_WL_SEAT_EVENT_CAPABILITIES, &capabilities, 1);
	event(object, WAYWIRE_WL_SEAT_EVENT_NAME, &name, 1);
}

static void on_seat(const waywire_report *report)
{
	waywire_object object = report->args[0].object;
	if (report->opcode == WAYWIRE_WL_SEAT_REQUEST_GET_POINTER) {
		pointer_at = object;
	} else {
		MUST(report->opcode == WAYWIRE_WL_SEAT_REQUEST_GET_KEYBOARD);
		waywire_arg args[] = { waywire_uint(1), waywire_fd((uint32_t)memory_with(++keyboards)),
			waywire_uint(keyboards) };
		event(object, WAYWIRE_WL_KEYBOARD_EVENT_KEYMAP, args, 3);
		waywire_arg key[] = { waywire_uint(keyboards), waywire_uint(keyboards),
			waywire_uint(keyboards + 1), waywire_uint(1) };
		event(object, WAYWIRE_WL_KEYBOARD_EVENT_KEY, key, 4);
	}
}

static waywire_object surface_at, frame_at;
static uint32_t damaged;

static void on_surface(const waywire_report *report)
{
	const waywire_arg *args = report->args;
	waywire_arg moved[] = { waywire_uint(0), waywire_fixed(0), waywire_fixed(0) };
	waywire_arg time;
	surface_at = report->target;
	switch (report->opcode) {
	case WAYWIRE_WL_SURFACE_REQUEST_DAMAGE:
		damaged = (uint32_t)args[0].i;
		moved[0] = waywire_uint(damaged);
		moved[1] = waywire_fixed(args[0].i * 3);
		moved[2] = waywire_fixed(-args[0].i);
		event(pointer_at, WAYWIRE_WL_POINTER_EVENT_MOTION, moved, 3);
		break;
	case WAYWIRE_WL_SURFACE_REQUEST_FRAME:
		frame_at = args[0].object;
		break;
	case WAYWIRE_WL_SURFACE_REQUEST_COMMIT:
		time = waywire_uint(damaged);
		event(frame_at, WAYWIRE_WL_CALLBACK_EVENT_DONE, &time, 1);
		MUST(waywire_end_live(server.end, frame_at, NULL, NULL) == WAYWIRE_NOT_FOUND);
		break;
	case WAYWIRE_WL_SURFACE_REQUEST_SET_INPUT_REGION:
		MUST(args[0].kind == WAYWIRE_OBJECT || args[0].kind == WAYWIRE_NULL_OBJECT);
		break;
	case WAYWIRE_WL_SURFACE_REQUEST_SET_BUFFER_SCALE:
		MUST(args[0].i == -1);
		MUST(!waywire_server_post_error(server, report->target, ERROR_CODE, ERROR_TEXT));
		ended = true;
		break;
	}
}

static void on_pool(const waywire_report *report)
{
	MUST(number_in((int)report->args[1].u) == ++pools && report->args[2].i == (int32_t)pools);
}

static bool is(const char *name, size_t length, const char *other)
{
	return length == strlen(other) && !memcmp(name, other, length);
}

static void read_request(const waywire_report *report)
{
	uint16_t interface;
	const char *name;
	size_t length;
	waywire_arg number = waywire_uint(0);
	messages++;
	MUST(report->kind == WAYWIRE_MESSAGE);
	if (waywire_end_live(server.end, report->target, &interface, NULL))
		return; /* it was destroyed */
	MUST(!waywire_tables_name(tables, interface, &name, &length));
	if (is(name, length, "wl_display") && report->opcode == WAYWIRE_WL_DISPLAY_REQUEST_SYNC)
		event(report->args[0].object, WAYWIRE_WL_CALLBACK_EVENT_DONE, &number, 1);
	else if (is(name, length, "wl_registry"))
		on_bind(report);
	else if (is(name, length, "wl_seat"))
		on_seat(report);
	else if (is(name, length, "wl_surface"))
		on_surface(report);
	else if (is(name, length, "wl_shm"))
		on_pool(report);
	else if (is(name, length, "wl_region"))
		MUST(report->args[0].i == -1 && report->args[2].i == -3);
}

/* The second keyboard of a round hears of the round's surface, which the client has destroyed, though
 * the request for that is not read yet, and of two keys in an array. */
static void on_keyboard_made(const waywire_report *report)
{
	if (keyboards % 2 || report->opcode != WAYWIRE_WL_SEAT_REQUEST_GET_KEYBOARD)
		return;
	uint32_t keys[] = { keyboards, 9 };
	waywire_arg args[] = { waywire_uint(keyboards), waywire_of(surface_at),
		waywire_array(keys, sizeof keys) };
	event(report->args[0].object, WAYWIRE_WL_KEYBOARD_EVENT_ENTER, args, 3);
}

static void serve(void)
{
	while (!ended) {
		waywire_report report;
		waywire_status status = waywire_end_next(server.end, &report);
		if (status)
			fprintf(stderr, "%s at %zu\n", waywire_strerror(status), (size_t)report.offset);
		MUST(!status);
		if (report.kind == WAYWIRE_NOTHING)
			break;
		uint32_t before = keyboards;
		read_request(&report);
		if (keyboards > before)
			on_keyboard_made(&report);
	}
	if (!ended)
		MUST(!waywire_server_announce(server, NULL, NULL));
}

/* Flushes, and waits until something comes. */
static void wait_for_more(int socket, waywire_end *end)
{
	for (;;) {
		struct pollfd wanted = { socket, POLLIN, 0 };
		if (waywire_socket_flush(socket, end)) {
			MUST(errno == EAGAIN);
			wanted.events |= POLLOUT;
		}
		MUST(poll(&wanted, 1, 120000) == 1);
		if (wanted.revents & ~POLLOUT) {
			MUST(waywire_socket_fill(socket, end) > 0);
			return;
		}
	}
}

static void add(const char *name, uint32_t version)
{
	uint16_t interface;
	MUST(!waywire_tables_interface(tables, name, &interface));
	MUST(!waywire_server_add_global(server, interface, version, NULL));
}

int main(void)
{
	waywire_sizes sizes = { 65536, 64, 65536, 64 };
	int sockets[2], status;
	make_pair(sockets);
	pid_t child = fork();
	MUST(child >= 0);
	if (!child) {
		close(sockets[0]);
		return be_client(sockets[1]);
	}
	close(sockets[1]);
	MUST(!waywire_tables_core(&tables));
	MUST(!waywire_server_new(tables, &sizes, &server));
	socket_to = sockets[0];
	add("wl_compositor", 4);
	add("wl_shm", 1);
	add("wl_seat", 5);
	while (!ended) {
		wait_for_more(socket_to, server.end);
		serve();
	}
	MUST(!waywire_socket_flush(socket_to, server.end));
	MUST(pools == ROUNDS && keyboards == 2 * ROUNDS);
	MUST(waitpid(child, &status, 0) == child && status == 0);
	waywire_tables_free(tables);
	waywire_socket_close(socket_to, server.end);
	waywire_end_free(server.end);
	printf("%zu messages\n", messages);
	return 0;
}
