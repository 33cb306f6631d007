/* A compositor for one client that pastes. Once the client has shown its window, it gets the selection, and at the
 * same time something is dragged over the window.
 *
 *     dragging SOCKET
 *
 * The text of the selection is "copied", and that of the drag is "dragged". */
#define _GNU_SOURCE
#include "wayland.h"
#include "xdg-shell.h"
#include "descriptors.h"

#include <errno.h>
#include <poll.h>

static waywire_connection *connection;
static waywire_server server;
static waywire_wl_data_device device;
static waywire_wl_buffer attached;
static waywire_wl_data_offer copied;

static void on_get_toplevel(void *data, waywire_xdg_surface xdg_surface, waywire_xdg_toplevel toplevel)
{
	(void)data;
	MUST(!ww_xdg_toplevel_send_configure(server, toplevel, 0, 0, NULL, 0));
	MUST(!ww_xdg_surface_send_configure(server, xdg_surface, 1));
}

static const struct ww_xdg_surface_requests xdg_surface_requests = { .get_toplevel = on_get_toplevel };

static void on_get_data_device(void *data, waywire_wl_data_device_manager manager, waywire_wl_data_device made,
	waywire_wl_seat seat)
{
	(void)data, (void)manager, (void)seat;
	device = made;
}

static const struct ww_wl_data_device_manager_requests manager_requests = {
	.get_data_device = on_get_data_device };

static waywire_wl_data_offer make_offer(void)
{
	waywire_wl_data_offer made;
	MUST(!ww_wl_data_device_send_data_offer(server, device, &made));
	MUST(!ww_wl_data_offer_send_offer(server, made, "text/plain"));
	return made;
}

static void on_attach(void *data, waywire_wl_surface surface, waywire_wl_buffer buffer, int32_t x, int32_t y)
{
	(void)data, (void)surface, (void)x, (void)y;
	attached = buffer;
}

/* All of these events go to the client at once. */
static void on_commit(void *data, waywire_wl_surface surface)
{
	(void)data;
	if (!attached.object.id)
		return;
	attached.object.id = 0;
	copied = make_offer();
	MUST(!ww_wl_data_device_send_selection(server, device, copied));
	MUST(!ww_wl_data_device_send_enter(server, device, 2, surface, 0, 0, make_offer()));
}

static const struct waywire_wl_surface_requests surface_requests = {
	.attach = on_attach, .commit = on_commit };

static void on_receive(void *data, waywire_wl_data_offer offer, const char *type, int fd)
{
	const char *text = waywire_object_equal(offer.object, copied.object) ? "copied" : "dragged";
	(void)data, (void)type;
	MUST(write(fd, text, strlen(text)) == (ssize_t)strlen(text) && !close(fd));
}

static const struct ww_wl_data_offer_requests offer_requests = { .receive = on_receive };

static const waywire_listener listeners[] = {
	{ WAYWIRE_WL_SURFACE_NAME, waywire_wl_surface_request_dispatcher, &surface_requests },
	{ WW_XDG_SURFACE_NAME, ww_xdg_surface_request_dispatcher, &xdg_surface_requests },
	{ WW_WL_DATA_DEVICE_MANAGER_NAME, ww_wl_data_device_manager_request_dispatcher, &manager_requests },
	{ WW_WL_DATA_OFFER_NAME, ww_wl_data_offer_request_dispatcher, &offer_requests },
};

static const char *const globals[] = { WAYWIRE_WL_COMPOSITOR_NAME, WAYWIRE_WL_SHM_NAME, WAYWIRE_WL_SEAT_NAME,
	WW_XDG_WM_BASE_NAME, WW_WL_DATA_DEVICE_MANAGER_NAME };

/* Serves a client until it closes its connection. */
static void serve(const waywire_tables *tables, int socket)
{
	connection = waywire_connection_of_server(tables, NULL, socket);
	MUST(connection);
	server = waywire_connection_server(connection);
	for (size_t i = 0; i < sizeof globals / sizeof *globals; i++)
		MUST(!waywire_connection_add_global(connection, globals[i], 1, NULL));
	MUST(!waywire_connection_implement(connection, listeners, sizeof listeners / sizeof *listeners, NULL));
	while (waywire_connection_dispatch(connection, WAIT) > 0)
		;
	const waywire_failure *failure = waywire_connection_failure(connection);
	MUST(failure && (failure->error == EPIPE || failure->error == ECONNRESET));
	waywire_connection_close(connection);
}

int main(int argc, char **argv)
{
	static const char text[] = WW_XDG_SHELL_TABLES WW_WAYLAND_TABLES;
	int open_before = count_open();
	waywire_tables *tables = core_and(text);
	MUST(argc == 2);
	waywire_listening_socket *listening = waywire_socket_listen(argv[1]);
	MUST(listening);
	struct pollfd polled = { waywire_listening_socket_fd(listening), POLLIN, 0 };
	MUST(poll(&polled, 1, WAIT) > 0);
	int socket = waywire_listening_socket_accept(listening);
	MUST(socket >= 0);
	serve(tables, socket);
	waywire_listening_socket_close(listening);
	waywire_tables_free(tables);
	MUST(count_open() == open_before);
	return 0;
}
