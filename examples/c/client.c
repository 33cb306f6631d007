/* A client: opens a window of one colour over xdg-shell, and closes it once the compositor has
 * taken the picture in. With --paste, it prints the text that is copied before it closes the
 * window: a compositor sends it only to the client that has the keyboard focus.
 *
 *     client [--paste] */
#define _GNU_SOURCE
#include "wayland.h"
#include "xdg-shell.h"

#include <err.h>
#include <fcntl.h>
#include <poll.h>
#include <stdio.h>
#include <sys/mman.h>
#include <unistd.h>
#include <waywire-core.h>
#include <waywire-socket.h>

#define SIDE 64
/* How long the compositor may take to answer, in milliseconds. */
#define WAIT 120000

#define COLOUR 0xff336699u

static waywire_connection *connection;
static waywire_client client;
static waywire_wl_compositor compositor;
static waywire_wl_shm shm;
static waywire_xdg_wm_base wm_base;
static waywire_wl_seat seat;
static waywire_wl_data_device_manager manager;
static bool configured;

/* Types of text that can be printed, the best first. */
static const char *const types[] = { "text/plain;charset=utf-8", "UTF8_STRING", "text/plain" };
#define TYPES (sizeof types / sizeof *types)

/* An offer, and the index of its best type; TYPES if it has none. */
struct offer {
	waywire_wl_data_offer offer;
	size_t best;
};

/* The last offer, until wl_data_device.selection names it, and the offer of the clipboard. */
static struct offer pending = { .best = TYPES }, selection = { .best = TYPES };
static bool is_told; /* of the selection */

static void must(waywire_status status)
{
	if (status)
		errx(1, "%s", waywire_strerror(status));
}

static void must_listen(waywire_object object, waywire_dispatcher *dispatch, const void *calls)
{
	must(waywire_connection_listen(connection, object, dispatch, calls, NULL));
}

/* The compositor has answered, so many messages. */
static void must_answer(int count)
{
	const waywire_failure *failure = waywire_connection_failure(connection);
	if (count <= 0)
		errx(1, "%s", failure ? failure->text : "the compositor does not answer");
}

static void on_global(void *data, waywire_wl_registry registry, uint32_t name,
	const char *interface, uint32_t version)
{
	if (!strcmp(interface, WAYWIRE_WL_COMPOSITOR_NAME))
		must(waywire_wl_compositor_bind(client, registry, name, 1, &compositor));
	else if (!strcmp(interface, WAYWIRE_WL_SHM_NAME))
		must(waywire_wl_shm_bind(client, registry, name, 1, &shm));
	else if (!strcmp(interface, WW_XDG_WM_BASE_NAME))
		must(ww_xdg_wm_base_bind(client, registry, name, 1, &wm_base));
	else if (!strcmp(interface, WAYWIRE_WL_SEAT_NAME))
		must(waywire_wl_seat_bind(client, registry, name, 1, &seat));
	else if (!strcmp(interface, WW_WL_DATA_DEVICE_MANAGER_NAME))
		must(ww_wl_data_device_manager_bind(client, registry, name, 1, &manager));
}

static const struct waywire_wl_registry_events registry_events = { .global = on_global };

static void on_ping(void *data, waywire_xdg_wm_base base, uint32_t serial)
{
	must(ww_xdg_wm_base_pong(client, base, serial));
}

static const struct ww_xdg_wm_base_events wm_base_events = { .ping = on_ping };

static void on_configure(void *data, waywire_xdg_surface xdg_surface, uint32_t serial)
{
	must(ww_xdg_surface_ack_configure(client, xdg_surface, serial));
	configured = true;
}

static const struct ww_xdg_surface_events xdg_surface_events = { .configure = on_configure };

/* ---- the window */

static waywire_wl_buffer make_buffer(void)
{
	int32_t size = SIDE * SIDE * 4;
	int fd = memfd_create("picture", MFD_CLOEXEC);
	if (fd < 0 || ftruncate(fd, size))
		err(1, "memory");
	uint32_t *pixels = mmap(NULL, (size_t)size, PROT_READ | PROT_WRITE, MAP_SHARED, fd, 0);
	if (pixels == MAP_FAILED)
		err(1, "memory");
	for (size_t i = 0; i < SIDE * SIDE; i++)
		pixels[i] = COLOUR;
	munmap(pixels, (size_t)size);
	waywire_wl_shm_pool pool;
	waywire_wl_buffer buffer;
	must(waywire_wl_shm_create_pool(client, shm, fd, size, &pool));
	must(waywire_wl_shm_pool_create_buffer(client, pool, 0, SIDE, SIDE, SIDE * 4,
		WAYWIRE_WL_SHM_FORMAT_XRGB8888, &buffer));
	must(waywire_wl_shm_pool_destroy(client, pool));
	return buffer;
}

static waywire_wl_surface surface;
static waywire_xdg_surface xdg_surface;
static waywire_xdg_toplevel toplevel;
static waywire_wl_buffer buffer;

static void open_window(void)
{
	must(waywire_wl_compositor_create_surface(client, compositor, &surface));
	must(ww_xdg_wm_base_get_xdg_surface(client, wm_base, surface, &xdg_surface));
	must(ww_xdg_surface_get_toplevel(client, xdg_surface, &toplevel));
	must_listen(xdg_surface.object, ww_xdg_surface_event_dispatcher, &xdg_surface_events);
	must(ww_xdg_toplevel_set_title(client, toplevel, "waywire"));
	must(waywire_wl_surface_commit(client, surface));
	while (!configured)
		must_answer(waywire_connection_dispatch(connection, WAIT));

	buffer = make_buffer();
	must(waywire_wl_surface_attach(client, surface, buffer, 0, 0));
	must(waywire_wl_surface_damage(client, surface, 0, 0, SIDE, SIDE));
	must(waywire_wl_surface_commit(client, surface));
	must_answer(waywire_connection_roundtrip(connection, WAIT));
}

static void close_window(void)
{
	must(ww_xdg_toplevel_destroy(client, toplevel));
	must(ww_xdg_surface_destroy(client, xdg_surface));
	must(waywire_wl_surface_destroy(client, surface));
	must(waywire_wl_buffer_destroy(client, buffer));
}

/* ---- the clipboard */

static void drop_offer(struct offer *offer)
{
	if (offer->offer.object.id)
		must(ww_wl_data_offer_destroy(client, offer->offer));
	*offer = (struct offer){ .best = TYPES };
}

/* An offer is for the clipboard, or for something that is dragged over the window. A later event
 * says which. */
static void on_data_offer(void *data, waywire_wl_data_device device, waywire_wl_data_offer made)
{
	drop_offer(&pending);
	pending.offer = made;
}

static void on_selection(void *data, waywire_wl_data_device device, waywire_wl_data_offer selected)
{
	is_told = true;
	drop_offer(&selection);
	if (waywire_object_equal(selected.object, pending.offer.object)) {
		selection = pending;
		pending = (struct offer){ .best = TYPES };
	}
}

/* What was dragged has left the window. */
static void on_leave(void *data, waywire_wl_data_device device)
{
	drop_offer(&pending);
}

static const struct ww_wl_data_device_events device_events = {
	.data_offer = on_data_offer, .selection = on_selection, .leave = on_leave };

static void on_offer(void *data, waywire_wl_data_offer offer, const char *type)
{
	if (!waywire_object_equal(offer.object, pending.offer.object))
		return;
	for (size_t i = 0; i < pending.best; i++)
		if (!strcmp(type, types[i]))
			pending.best = i;
}

static const struct ww_wl_data_offer_events offer_events = { .offer = on_offer };

/* Asks for the clipboard, before the window gets the focus. */
static void open_clipboard(void)
{
	static const waywire_listener listener = {
		WW_WL_DATA_OFFER_NAME, ww_wl_data_offer_event_dispatcher, &offer_events };
	waywire_wl_data_device device;
	if (!seat.object.id || !manager.object.id)
		errx(1, "the compositor has no wl_seat or wl_data_device_manager");
	must(ww_wl_data_device_manager_get_data_device(client, manager, seat, &device));
	must_listen(device.object, ww_wl_data_device_event_dispatcher, &device_events);
	must(waywire_connection_implement(connection, &listener, 1, NULL));
}

/* Prints what comes from a pipe, to its end. */
static void print_all(int pipe)
{
	struct pollfd polled = { pipe, POLLIN, 0 };
	char bytes[4096];
	ssize_t count;
	do {
		if (poll(&polled, 1, WAIT) <= 0)
			errx(1, "the text does not come");
		count = read(pipe, bytes, sizeof bytes);
		if (count < 0 || fwrite(bytes, 1, (size_t)count, stdout) != (size_t)count)
			err(1, "the text");
	} while (count);
	if (fflush(stdout))
		err(1, "the text");
}

/* Prints the text that is copied. The end of the pipe that is sent is closed here once it has
 * gone, so the pipe ends when the client that has copied the text closes its own. */
static void paste(void)
{
	int ends[2];
	while (!is_told)
		must_answer(waywire_connection_dispatch(connection, WAIT));
	if (selection.best == TYPES)
		errx(1, "no text is copied");
	if (pipe2(ends, O_CLOEXEC))
		err(1, "a pipe");
	must(ww_wl_data_offer_receive(client, selection.offer, types[selection.best], ends[1]));
	if (waywire_connection_drain(connection, WAIT))
		err(1, "the compositor");
	print_all(ends[0]);
	close(ends[0]);
	drop_offer(&selection);
}

/* ---- the connection */

/* Connects, with the interfaces of the core, of xdg-shell and of clipboards. */
static void connect_client(void)
{
	static const char text[] = WW_XDG_SHELL_TABLES WW_WAYLAND_TABLES;
	waywire_tables *core, *tables;
	must(waywire_tables_core(&core));
	must(waywire_tables_read(core, text, strlen(text), &tables, NULL, NULL));
	connection = waywire_connection_connect(tables, NULL, NULL);
	if (!connection)
		err(1, "the compositor");
	waywire_tables_free(core);
	waywire_tables_free(tables);
	client = waywire_connection_client(connection);
}

/* Binds the globals that are wanted. */
static void bind_globals(void)
{
	waywire_wl_registry registry;
	waywire_wl_display display = waywire_wl_display_of(waywire_end_display(client.end));
	must(waywire_wl_display_get_registry(client, display, &registry));
	must_listen(registry.object, waywire_wl_registry_event_dispatcher, &registry_events);
	must_answer(waywire_connection_roundtrip(connection, WAIT));
	if (!compositor.object.id || !shm.object.id || !wm_base.object.id)
		errx(1, "the compositor has no wl_compositor, wl_shm or xdg_wm_base");
	must_listen(wm_base.object, ww_xdg_wm_base_event_dispatcher, &wm_base_events);
}

int main(int argc, char **argv)
{
	bool pastes = argc == 2 && !strcmp(argv[1], "--paste");
	if (argc != 1 && !pastes)
		errx(1, "there is one option, --paste");
	connect_client();
	bind_globals();
	if (pastes)
		open_clipboard();
	open_window();
	if (pastes)
		paste();
	else
		printf("client: the compositor took a picture of %d by %d\n", SIDE, SIDE);
	close_window();
	waywire_connection_close(connection);
	return 0;
}
