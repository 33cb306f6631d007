/* Clients that ask the example compositor for more than it has: for events without room in an outbox, for too many
 * surfaces, and for a descriptor when none is left. It ends these clients, and goes on serving another one.
 *
 *     greedy SOCKET */
#define _GNU_SOURCE
#include "wayland.h"
#include "xdg-shell.h"
#include "descriptors.h"

/* Offers of so many types for so many devices do not fit an outbox. The first few devices fill it except for the
 * length of one type, and the others fill that with shorter events. */
#define DEVICES 64
#define TYPES 64
#define LONG 240

/* More descriptors than the compositor may open. */
#define MOST_POOLS 64

/* With these a client has more objects than it may. */
#define SURFACES 50000

struct side {
	waywire_connection *connection;
	waywire_client client;
	waywire_wl_compositor compositor;
	waywire_wl_shm shm;
	waywire_wl_seat seat;
	waywire_xdg_wm_base wm_base;
	waywire_wl_data_device_manager manager;
};

static waywire_tables *tables;

static void on_global(void *data, waywire_wl_registry registry, uint32_t name, const char *interface,
	uint32_t version)
{
	struct side *side = data;
	(void)version;
	if (!strcmp(interface, WAYWIRE_WL_COMPOSITOR_NAME))
		MUST(!waywire_wl_compositor_bind(side->client, registry, name, 1, &side->compositor));
	if (!strcmp(interface, WAYWIRE_WL_SHM_NAME))
		MUST(!waywire_wl_shm_bind(side->client, registry, name, 1, &side->shm));
	if (!strcmp(interface, WAYWIRE_WL_SEAT_NAME))
		MUST(!waywire_wl_seat_bind(side->client, registry, name, 1, &side->seat));
	if (!strcmp(interface, WW_XDG_WM_BASE_NAME))
		MUST(!ww_xdg_wm_base_bind(side->client, registry, name, 1, &side->wm_base));
	if (!strcmp(interface, WW_WL_DATA_DEVICE_MANAGER_NAME))
		MUST(!ww_wl_data_device_manager_bind(side->client, registry, name, 1, &side->manager));
}

static const struct waywire_wl_registry_events registry_events = { .global = on_global };

static void connect_side(struct side *side, const char *path)
{
	waywire_wl_registry registry;
	*side = (struct side){ .connection = waywire_connection_connect(tables, NULL, path) };
	MUST(side->connection);
	side->client = waywire_connection_client(side->connection);
	MUST(!waywire_wl_display_get_registry(side->client,
		waywire_wl_display_of(waywire_end_display(side->client.end)), &registry));
	MUST(!waywire_connection_listen(side->connection, registry.object, waywire_wl_registry_event_dispatcher,
		&registry_events, side));
	MUST(waywire_connection_roundtrip(side->connection, WAIT) > 0);
	MUST(side->compositor.object.id && side->shm.object.id && side->seat.object.id);
	MUST(side->wm_base.object.id && side->manager.object.id);
}

/* The compositor goes on serving a client. */
static void must_be_served(struct side *side)
{
	MUST(waywire_connection_roundtrip(side->connection, WAIT) > 0);
}

/* ---- an outbox without room */

/* Selects a source with many types, at one of many devices. */
static void copy(struct side *side)
{
	waywire_wl_data_source source;
	waywire_wl_data_device device;
	char type[LONG + 1];
	MUST(!ww_wl_data_device_manager_create_data_source(side->client, side->manager, &source));
	for (int i = 0; i < TYPES; i++) {
		snprintf(type, sizeof type, "%0*d", LONG, i);
		MUST(!ww_wl_data_source_offer(side->client, source, type));
	}
	for (int i = 0; i < DEVICES; i++)
		MUST(!ww_wl_data_device_manager_get_data_device(side->client, side->manager, side->seat, &device));
	MUST(!ww_wl_data_device_set_selection(side->client, device, source, 0));
}

/* Shows a picture in a window, which gets the focus, and asks for the next frame. */
static void show(struct side *side)
{
	waywire_client client = side->client;
	waywire_wl_surface surface;
	waywire_xdg_surface xdg_surface;
	waywire_xdg_toplevel toplevel;
	waywire_wl_shm_pool pool;
	waywire_wl_buffer buffer;
	waywire_wl_callback callback;
	MUST(!waywire_wl_compositor_create_surface(client, side->compositor, &surface));
	MUST(!ww_xdg_wm_base_get_xdg_surface(client, side->wm_base, surface, &xdg_surface));
	MUST(!ww_xdg_surface_get_toplevel(client, xdg_surface, &toplevel));
	MUST(!waywire_wl_shm_create_pool(client, side->shm, new_descriptor(4096), 4096, &pool));
	MUST(!waywire_wl_shm_pool_create_buffer(client, pool, 0, 32, 32, 128, WAYWIRE_WL_SHM_FORMAT_XRGB8888,
		&buffer));
	MUST(!waywire_wl_surface_attach(client, surface, buffer, 0, 0));
	MUST(!waywire_wl_surface_frame(client, surface, &callback));
	MUST(!waywire_wl_surface_commit(client, surface));
}

/* When its window gets the focus, a client is sent more offers than its outbox has room for. */
static void test_devices(const char *path, struct side *other)
{
	struct side side;
	connect_side(&side, path);
	copy(&side);
	show(&side);
	while (waywire_connection_dispatch(side.connection, WAIT) > 0)
		;
	MUST(waywire_connection_failure(side.connection));
	waywire_connection_close(side.connection);
	must_be_served(other);
}

/* ---- too many objects */

static void test_surfaces(const char *path, struct side *other)
{
	struct side side;
	waywire_wl_surface surface;
	connect_side(&side, path);
	for (int i = 0; i < SURFACES; i++) {
		if (i % 1000 == 0)
			waywire_connection_drain(side.connection, WAIT);
		MUST(!waywire_wl_compositor_create_surface(side.client, side.compositor, &surface));
	}
	while (waywire_connection_dispatch(side.connection, WAIT) > 0)
		;
	const waywire_failure *failure = waywire_connection_failure(side.connection);
	MUST(failure && failure->kind == WAYWIRE_ERROR);
	MUST(failure->code == WAYWIRE_WL_DISPLAY_ERROR_NO_MEMORY);
	waywire_connection_close(side.connection);
	must_be_served(other);
}

/* ---- no descriptor */

/* Whether a client that has given the compositor so many descriptors gets a keyboard, for which the compositor opens
 * one more. */
static bool gets_keyboard(const char *path, int pools)
{
	struct side side;
	waywire_wl_shm_pool pool;
	waywire_wl_keyboard keyboard;
	connect_side(&side, path);
	for (int i = 0; i < pools; i++)
		MUST(!waywire_wl_shm_create_pool(side.client, side.shm, new_descriptor(1), 1, &pool));
	MUST(!waywire_wl_seat_get_keyboard(side.client, side.seat, &keyboard));
	bool is_served = waywire_connection_roundtrip(side.connection, WAIT) > 0;
	MUST(is_served || waywire_connection_failure(side.connection));
	waywire_connection_close(side.connection);
	return is_served;
}

/* With one descriptor more each time, the keyboard is the first that lacks one. The other client is served once the
 * descriptors of the one before are closed. */
static void test_descriptors(const char *path, struct side *other)
{
	for (int pools = 0; gets_keyboard(path, pools); pools++) {
		MUST(pools < MOST_POOLS);
		must_be_served(other);
	}
	must_be_served(other);
}

int main(int argc, char **argv)
{
	static const char text[] = WW_XDG_SHELL_TABLES WW_WAYLAND_TABLES;
	struct side other;
	int open_before = count_open();
	MUST(argc == 2);
	tables = core_and(text);
	connect_side(&other, argv[1]);
	test_devices(argv[1], &other);
	test_surfaces(argv[1], &other);
	test_descriptors(argv[1], &other);
	waywire_connection_close(other.connection);
	waywire_tables_free(tables);
	MUST(count_open() == open_before);
	return 0;
}
