/* A client and a server of libwayland in two processes, over a socket pair: see sockets.h. Both use a
 * wl_dispatcher_func_t, which is faster than generated listeners. */
#define _GNU_SOURCE
#include "sockets.h"

#include <wayland-client.h>
#include <wayland-server.h>

static void begin(void)
{
}

/* ---- the server */

static struct wl_display *server;
static struct wl_event_loop *loop;
static struct wl_resource *served_pointer, *awaited;
static bool is_gone;

static int on_request(const void *interface, void *target, uint32_t opcode, const struct wl_message *message,
	union wl_argument *arguments);

static struct wl_resource *new_resource(struct wl_client *of, const struct wl_interface *interface, int version,
	uint32_t id)
{
	struct wl_resource *made = wl_resource_create(of, interface, version, id);
	MUST(made);
	wl_resource_set_dispatcher(made, on_request, interface, NULL, NULL);
	return made;
}

static void on_commit(void)
{
	for (uint64_t i = 0; i < burst; i++)
		wl_pointer_send_motion(served_pointer, (uint32_t)i, 256, 512);
	if (!awaited)
		return;
	wl_callback_send_done(awaited, 0);
	wl_resource_destroy(awaited);
	awaited = NULL;
}

static int on_request(const void *interface, void *target, uint32_t opcode, const struct wl_message *message,
	union wl_argument *arguments)
{
	struct wl_client *of = wl_resource_get_client(target);
	(void)message;
	if (interface == &wl_surface_interface && opcode == WL_SURFACE_DAMAGE)
		damages++;
	else if (interface == &wl_surface_interface && opcode == WL_SURFACE_FRAME)
		awaited = new_resource(of, &wl_callback_interface, 1, arguments[0].n);
	else if (interface == &wl_surface_interface && opcode == WL_SURFACE_COMMIT)
		on_commit();
	else if (interface == &wl_compositor_interface)
		new_resource(of, &wl_surface_interface, 4, arguments[0].n);
	else
		served_pointer = new_resource(of, &wl_pointer_interface, 5, arguments[0].n);
	return 0;
}

static void bind_global(struct wl_client *of, void *interface, uint32_t version, uint32_t id)
{
	new_resource(of, interface, (int)version, id);
}

static void new_server(void)
{
	server = wl_display_create();
	MUST(server);
	loop = wl_display_get_event_loop(server);
	wl_global_create(server, &wl_compositor_interface, 4, (void *)&wl_compositor_interface, bind_global);
	wl_global_create(server, &wl_seat_interface, 5, (void *)&wl_seat_interface, bind_global);
}

static void on_client_gone(struct wl_listener *listener, void *data)
{
	(void)listener, (void)data;
	is_gone = true;
}

static void serve(int socket)
{
	struct wl_listener gone = { .notify = on_client_gone };
	new_server();
	struct wl_client *served = wl_client_create(server, socket);
	MUST(served);
	wl_client_add_destroy_listener(served, &gone);
	while (!is_gone) {
		wl_display_flush_clients(server);
		wl_event_loop_dispatch(loop, -1);
	}
	wl_display_destroy(server);
}

static void open_connections(const int *sockets, size_t count)
{
	new_server();
	for (size_t i = 0; i < count; i++)
		MUST(wl_client_create(server, sockets[i]));
}

static void read_connections(void)
{
	wl_display_flush_clients(server);
	wl_event_loop_dispatch(loop, -1);
}

/* ---- the client */

static struct wl_display *display;
static struct wl_compositor *compositor;
static struct wl_seat *seat;
static struct wl_surface *surface;
static struct wl_pointer *pointer;
static struct wl_registry *registry;
static uint64_t motions, answers;

static int on_event(const void *interface, void *target, uint32_t opcode, const struct wl_message *message,
	union wl_argument *arguments)
{
	(void)message;
	if (interface == &wl_pointer_interface) {
		motions++;
	} else if (interface == &wl_callback_interface) {
		answers++;
		wl_callback_destroy(target);
	} else if (opcode == 0 && !strcmp(arguments[1].s, "wl_compositor")) {
		compositor = wl_registry_bind(registry, arguments[0].u, &wl_compositor_interface, 4);
	} else if (opcode == 0 && !strcmp(arguments[1].s, "wl_seat")) {
		seat = wl_registry_bind(registry, arguments[0].u, &wl_seat_interface, 5);
	}
	return 0;
}

static void listen_to(void *proxy, const struct wl_interface *interface)
{
	MUST(proxy && !wl_proxy_add_dispatcher(proxy, on_event, interface, NULL));
}

/* Dispatches until so many motions and answers have come. */
static void await(uint64_t wanted_motions, uint64_t wanted_answers)
{
	while (motions < wanted_motions || answers < wanted_answers)
		MUST(wl_display_dispatch(display) >= 0);
}

static void sync_once(uint64_t count)
{
	(void)count;
	listen_to(wl_display_sync(display), &wl_callback_interface);
	await(0, answers + 1);
}

static void damage(uint64_t count)
{
	for (uint64_t i = 0; i < count; i++)
		wl_surface_damage(surface, 1, 2, 3, 4);
	sync_once(1);
}

static void motion(uint64_t count)
{
	wl_surface_commit(surface);
	await(motions + count, 0);
}

static void frame(uint64_t count)
{
	listen_to(wl_surface_frame(surface), &wl_callback_interface);
	wl_surface_damage(surface, 0, 0, 100, 100);
	wl_surface_commit(surface);
	await(motions + count, answers + 1);
}

static void open_client(int socket)
{
	display = wl_display_connect_to_fd(socket);
	MUST(display);
	registry = wl_display_get_registry(display);
	listen_to(registry, &wl_registry_interface);
	sync_once(1);
	surface = wl_compositor_create_surface(compositor);
	pointer = wl_seat_get_pointer(seat);
	listen_to(pointer, &wl_pointer_interface);
	sync_once(1);
}

static void end_client(void)
{
	wl_display_disconnect(display);
}
