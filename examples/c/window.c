/* Surfaces, their buffers, and windows over xdg-shell: says what colour each buffer has that is
 * committed to a surface. */
#include "server.h"

#include <fcntl.h>
#include <stdio.h>
#include <stdlib.h>
#include <unistd.h>

/* The memory of a pool, or of a buffer in one. */
struct memory {
	struct client *client;
	int descriptor;
	int32_t offset, width, height;
};

/* What is attached to a surface, who waits for its next frame, and the window that it shows. */
struct surface {
	struct client *client;
	waywire_wl_buffer buffer;
	waywire_wl_callback callback;
	waywire_xdg_surface xdg_surface; /* of a window that is to be configured */
	waywire_xdg_toplevel toplevel;
	bool is_shown; /* as a window, which has had the focus */
};

/* The surface of an xdg_surface. */
struct role {
	struct client *client;
	waywire_wl_surface surface;
};

/* ---- memory */

static void free_memory(void *data)
{
	close(((struct memory *)data)->descriptor);
	free(data);
}

static void set_memory(struct client *client, waywire_object object, struct memory memory)
{
	if (memory.descriptor < 0)
		post_no_descriptor(client);
	else
		*(struct memory *)new_data(client, object, sizeof memory, free_memory) = memory;
}

static void on_create_pool(void *data, waywire_wl_shm shm, waywire_wl_shm_pool pool, int fd,
	int32_t size)
{
	set_memory(data, pool.object, (struct memory){ data, fd, 0, 0, 0 });
}

static const struct waywire_wl_shm_requests shm_requests = { .create_pool = on_create_pool };

static void on_create_buffer(void *data, waywire_wl_shm_pool pool, waywire_wl_buffer buffer,
	int32_t offset, int32_t width, int32_t height, int32_t stride, uint32_t format)
{
	const struct memory *memory = data;
	int descriptor = fcntl(memory->descriptor, F_DUPFD_CLOEXEC, 0);
	set_memory(memory->client, buffer.object, (struct memory){
		memory->client, descriptor, offset, width, height });
}

static const struct waywire_wl_shm_pool_requests pool_requests = {
	.create_buffer = on_create_buffer };

/* ---- surfaces */

static void on_create_surface(void *data, waywire_wl_compositor compositor,
	waywire_wl_surface surface)
{
	struct surface *made = new_data(data, surface.object, sizeof *made, free);
	made->client = data;
}

static const struct waywire_wl_compositor_requests compositor_requests = {
	.create_surface = on_create_surface };

static void on_attach(void *data, waywire_wl_surface surface, waywire_wl_buffer buffer, int32_t x,
	int32_t y)
{
	((struct surface *)data)->buffer = buffer;
}

/* The window may just have got the focus, and with it many events. */
static void answer(struct surface *surface)
{
	struct client *client = surface->client;
	if (surface->callback.object.id)
		may(client, waywire_wl_callback_send_done(client->server, surface->callback,
			milliseconds()));
	surface->callback.object.id = 0;
}

static void on_frame(void *data, waywire_wl_surface surface, waywire_wl_callback callback)
{
	answer(data); /* one waits at a time */
	((struct surface *)data)->callback = callback;
}

/* A new window gets the focus once it has a picture. */
static void show(struct surface *surface, waywire_wl_surface picture)
{
	struct client *client = surface->client;
	if (surface->is_shown || !is_live(client, surface->toplevel.object))
		return;
	surface->is_shown = true;
	client->window = (struct window){ picture, surface->toplevel };
	focus_on(client);
}

/* The first commit of a window is answered by a configure. */
static void configure(struct surface *surface)
{
	struct client *client = surface->client;
	if (!surface->xdg_surface.object.id)
		return;
	may(client, ww_xdg_toplevel_send_configure(client->server, surface->toplevel, 0, 0,
		NULL, 0));
	may(client, ww_xdg_surface_send_configure(client->server, surface->xdg_surface,
		next_serial()));
	surface->xdg_surface.object.id = 0;
}

static void on_commit(void *data, waywire_wl_surface picture)
{
	struct surface *surface = data;
	struct client *client = surface->client;
	const struct memory *buffer = waywire_connection_data(client->connection,
		surface->buffer.object);
	uint32_t pixel;
	configure(surface);
	if (buffer && pread(buffer->descriptor, &pixel, sizeof pixel, buffer->offset)
			== sizeof pixel) {
		printf("server: a picture of %d by %d, its first pixel %08x\n", buffer->width,
			buffer->height, pixel);
		must(waywire_wl_buffer_send_release(client->server, surface->buffer));
		show(surface, picture);
	}
	surface->buffer.object.id = 0;
	answer(surface);
}

static const struct waywire_wl_surface_requests surface_requests = {
	.attach = on_attach, .frame = on_frame, .commit = on_commit };

/* ---- windows */

static void on_get_xdg_surface(void *data, waywire_xdg_wm_base base,
	waywire_xdg_surface xdg_surface, waywire_wl_surface surface)
{
	struct role *role = new_data(data, xdg_surface.object, sizeof *role, free);
	*role = (struct role){ data, surface };
}

static const struct ww_xdg_wm_base_requests wm_base_requests = {
	.get_xdg_surface = on_get_xdg_surface };

static void on_get_toplevel(void *data, waywire_xdg_surface xdg_surface,
	waywire_xdg_toplevel toplevel)
{
	const struct role *role = data;
	struct surface *surface = waywire_connection_data(role->client->connection,
		role->surface.object);
	if (!surface)
		return;
	surface->xdg_surface = xdg_surface;
	surface->toplevel = toplevel;
	surface->is_shown = false;
}

/* There is no place for menus: each is closed at once. */
static void on_get_popup(void *data, waywire_xdg_surface xdg_surface, waywire_xdg_popup popup,
	waywire_xdg_surface parent, waywire_xdg_positioner positioner)
{
	const struct role *role = data;
	must(ww_xdg_popup_send_popup_done(role->client->server, popup));
}

static const struct ww_xdg_surface_requests xdg_surface_requests = {
	.get_toplevel = on_get_toplevel, .get_popup = on_get_popup };

static const waywire_listener listeners[] = {
	{ WAYWIRE_WL_COMPOSITOR_NAME, waywire_wl_compositor_request_dispatcher,
		&compositor_requests },
	{ WAYWIRE_WL_SURFACE_NAME, waywire_wl_surface_request_dispatcher, &surface_requests },
	{ WAYWIRE_WL_SHM_NAME, waywire_wl_shm_request_dispatcher, &shm_requests },
	{ WAYWIRE_WL_SHM_POOL_NAME, waywire_wl_shm_pool_request_dispatcher, &pool_requests },
	{ WW_XDG_WM_BASE_NAME, ww_xdg_wm_base_request_dispatcher, &wm_base_requests },
	{ WW_XDG_SURFACE_NAME, ww_xdg_surface_request_dispatcher, &xdg_surface_requests },
};

void serve_windows(struct client *client)
{
	must(waywire_connection_implement(client->connection, listeners,
		sizeof listeners / sizeof *listeners, client));
}
