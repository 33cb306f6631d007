/* A client and a server of waywire in two processes, over a socket pair: see sockets.h. OUT_BYTES and IN_BYTES in the
 * environment are the sizes of the server's queues, instead of the usual ones. */
#define _GNU_SOURCE
#include "sockets.h"

#include <sys/epoll.h>
#include <waywire-core.h>
#include <waywire-socket.h>

static waywire_tables *tables;

static void begin(void)
{
	MUST(!waywire_tables_core(&tables));
}

/* ---- the server */

static waywire_server server;
static waywire_wl_pointer served_pointer;
static waywire_wl_callback awaited;

static void on_damage(void *data, waywire_wl_surface surface, int32_t x, int32_t y, int32_t width, int32_t height)
{
	(void)data, (void)surface, (void)x, (void)y, (void)width, (void)height;
	damages++;
}

static void on_frame(void *data, waywire_wl_surface surface, waywire_wl_callback callback)
{
	(void)data, (void)surface;
	awaited = callback;
}

static void on_commit(void *data, waywire_wl_surface surface)
{
	(void)data, (void)surface;
	for (uint64_t i = 0; i < burst; i++)
		MUST(!waywire_wl_pointer_send_motion(server, served_pointer, (uint32_t)i, 256, 512));
	if (awaited.object.id)
		MUST(!waywire_wl_callback_send_done(server, awaited, 0));
	awaited.object.id = 0;
}

static void on_get_pointer(void *data, waywire_wl_seat seat, waywire_wl_pointer pointer)
{
	(void)data, (void)seat;
	served_pointer = pointer;
}

static const struct waywire_wl_surface_requests surface_requests = { .damage = on_damage, .frame = on_frame,
	.commit = on_commit };
static const struct waywire_wl_seat_requests seat_requests = { .get_pointer = on_get_pointer };
static const waywire_listener of_server[] = {
	{ WAYWIRE_WL_SURFACE_NAME, waywire_wl_surface_request_dispatcher, &surface_requests },
	{ WAYWIRE_WL_SEAT_NAME, waywire_wl_seat_request_dispatcher, &seat_requests },
};

static waywire_connection *new_server(int socket)
{
	const char *out = getenv("OUT_BYTES"), *in = getenv("IN_BYTES");
	waywire_sizes sizes = { out ? strtoul(out, NULL, 10) : 0, 64, in ? strtoul(in, NULL, 10) : 0, 256, 0 };
	waywire_connection *made = waywire_connection_of_server(tables, out && in ? &sizes : NULL, socket);
	MUST(made);
	MUST(!waywire_connection_add_global(made, WAYWIRE_WL_COMPOSITOR_NAME, 4, NULL));
	MUST(!waywire_connection_add_global(made, WAYWIRE_WL_SEAT_NAME, 5, NULL));
	MUST(!waywire_connection_implement(made, of_server, 2, NULL));
	return made;
}

static void serve(int socket)
{
	waywire_connection *connection = new_server(socket);
	server = waywire_connection_server(connection);
	while (waywire_connection_dispatch(connection, -1) >= 0)
		;
	MUST(errno == EPIPE);
	waywire_connection_close(connection);
}

static int polled;

static void open_connections(const int *sockets, size_t count)
{
	MUST((polled = epoll_create1(EPOLL_CLOEXEC)) >= 0);
	for (size_t i = 0; i < count; i++) {
		struct epoll_event event = { EPOLLIN, { .ptr = new_server(sockets[i]) } };
		MUST(!epoll_ctl(polled, EPOLL_CTL_ADD, sockets[i], &event));
	}
}

static void read_connections(void)
{
	struct epoll_event found[32];
	int count = epoll_wait(polled, found, 32, -1);
	MUST(count > 0);
	for (int i = 0; i < count; i++)
		MUST(waywire_connection_dispatch(found[i].data.ptr, 0) >= 0);
}

/* ---- the client */

static waywire_connection *connection;
static waywire_client client;
static waywire_wl_compositor compositor;
static waywire_wl_seat seat;
static waywire_wl_surface surface;
static uint64_t motions, answers;

static void on_global(void *data, waywire_wl_registry registry, uint32_t name, const char *interface, uint32_t version)
{
	(void)data;
	if (!strcmp(interface, WAYWIRE_WL_COMPOSITOR_NAME))
		MUST(!waywire_wl_compositor_bind(client, registry, name, version, &compositor));
	else
		MUST(!waywire_wl_seat_bind(client, registry, name, version, &seat));
}

static void on_motion(void *data, waywire_wl_pointer pointer, uint32_t time, int32_t x, int32_t y)
{
	(void)data, (void)pointer, (void)time, (void)x, (void)y;
	motions++;
}

static void on_done(void *data, waywire_wl_callback callback, uint32_t number)
{
	(void)data, (void)callback, (void)number;
	answers++;
}

static const struct waywire_wl_registry_events registry_events = { .global = on_global };
static const struct waywire_wl_pointer_events pointer_events = { .motion = on_motion };
static const struct waywire_wl_callback_events callback_events = { .done = on_done };
static const waywire_listener of_client[] = {
	{ WAYWIRE_WL_REGISTRY_NAME, waywire_wl_registry_event_dispatcher, &registry_events },
	{ WAYWIRE_WL_POINTER_NAME, waywire_wl_pointer_event_dispatcher, &pointer_events },
	{ WAYWIRE_WL_CALLBACK_NAME, waywire_wl_callback_event_dispatcher, &callback_events },
};

/* Dispatches until so many motions and answers have come. */
static void await(uint64_t wanted_motions, uint64_t wanted_answers)
{
	while (motions < wanted_motions || answers < wanted_answers)
		MUST(waywire_connection_dispatch(connection, -1) >= 0);
}

static waywire_wl_display display(void)
{
	return waywire_wl_display_of(waywire_end_display(client.end));
}

static void sync_once(uint64_t count)
{
	waywire_wl_callback callback;
	(void)count;
	MUST(!waywire_wl_display_sync(client, display(), &callback));
	await(0, answers + 1);
}

static void damage(uint64_t count)
{
	for (uint64_t i = 0; i < count; i++)
		MUST(!waywire_wl_surface_damage(client, surface, 1, 2, 3, 4));
	sync_once(1);
}

static void motion(uint64_t count)
{
	MUST(!waywire_wl_surface_commit(client, surface));
	await(motions + count, 0);
}

static void frame(uint64_t count)
{
	waywire_wl_callback callback;
	MUST(!waywire_wl_surface_frame(client, surface, &callback));
	MUST(!waywire_wl_surface_damage(client, surface, 0, 0, 100, 100));
	MUST(!waywire_wl_surface_commit(client, surface));
	await(motions + count, answers + 1);
}

static void open_client(int socket)
{
	waywire_wl_registry registry;
	waywire_wl_pointer pointer;
	connection = waywire_connection_of_client(tables, NULL, socket);
	MUST(connection && !waywire_connection_implement(connection, of_client, 3, NULL));
	client = waywire_connection_client(connection);
	MUST(!waywire_wl_display_get_registry(client, display(), &registry));
	sync_once(1);
	MUST(!waywire_wl_compositor_create_surface(client, compositor, &surface));
	MUST(!waywire_wl_seat_get_pointer(client, seat, &pointer));
	sync_once(1);
}

static void end_client(void)
{
	waywire_connection_close(connection);
	waywire_tables_free(tables);
}
