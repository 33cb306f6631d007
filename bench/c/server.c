/* The loops by which a libwayland-server is measured, over whichever the loader finds.
 *
 *     server NAME TIMES
 *
 * The process is a compositor that does next to nothing. Its client is this program again, over libwayland-client, in
 * a process of its own, so that valgrind, which does not follow it, counts the compositor alone. It ends with its
 * client.
 *
 * damage: wl_surface.damage and commit; frame: attach, damage, frame and commit, which are answered by release, done
 * and delete_id; frames: the same, answered by ten releases more; region: a region is made, filled, set and destroyed;
 * roundtrip: wl_display.sync. */
#define _GNU_SOURCE
#include "../../tests/must.h"
#include <string.h>
#include <sys/mman.h>
#include <sys/wait.h>
#include <unistd.h>
#include <wayland-client.h>
#include <wayland-server.h>

#define BEFORE_A_ROUND_TRIP 20
#define MORE_RELEASES 10
#define SIDE 64

/* ---- the compositor */

static struct wl_display *display;
static int releases = 1;

struct surface {
	struct wl_resource *buffer, *frame;
};

static void destroys(struct wl_client *client, struct wl_resource *resource)
{
	(void)client;
	wl_resource_destroy(resource);
}

static void attaches(struct wl_client *client, struct wl_resource *resource, struct wl_resource *buffer, int32_t x,
	int32_t y)
{
	struct surface *surface = wl_resource_get_user_data(resource);
	(void)client, (void)x, (void)y;
	surface->buffer = buffer;
}

static void ignores_box(struct wl_client *client, struct wl_resource *resource, int32_t x, int32_t y, int32_t width,
	int32_t height)
{
	(void)client, (void)resource, (void)x, (void)y, (void)width, (void)height;
}

static void makes_frame(struct wl_client *client, struct wl_resource *resource, uint32_t id)
{
	struct surface *surface = wl_resource_get_user_data(resource);
	surface->frame = wl_resource_create(client, &wl_callback_interface, 1, id);
}

static void ignores_region(struct wl_client *client, struct wl_resource *resource, struct wl_resource *region)
{
	(void)client, (void)resource, (void)region;
}

static void commits(struct wl_client *client, struct wl_resource *resource)
{
	struct surface *surface = wl_resource_get_user_data(resource);
	(void)client;
	for (int count = 0; surface->buffer && count < releases; count++)
		wl_buffer_send_release(surface->buffer);
	if (surface->frame) {
		wl_callback_send_done(surface->frame, 5);
		wl_resource_destroy(surface->frame);
	}
	surface->buffer = surface->frame = NULL;
}

static const struct wl_surface_interface of_surface = {
	.destroy = destroys,
	.attach = attaches,
	.damage = ignores_box,
	.frame = makes_frame,
	.set_opaque_region = ignores_region,
	.set_input_region = ignores_region,
	.commit = commits,
};
static const struct wl_region_interface of_region = { destroys, ignores_box, ignores_box };

static void frees(struct wl_resource *resource)
{
	free(wl_resource_get_user_data(resource));
}

static void makes_surface(struct wl_client *client, struct wl_resource *resource, uint32_t id)
{
	int version = wl_resource_get_version(resource);
	struct wl_resource *made = wl_resource_create(client, &wl_surface_interface, version, id);
	wl_resource_set_implementation(made, &of_surface, calloc(1, sizeof(struct surface)), frees);
}

static void makes_region(struct wl_client *client, struct wl_resource *resource, uint32_t id)
{
	int version = wl_resource_get_version(resource);
	struct wl_resource *made = wl_resource_create(client, &wl_region_interface, version, id);
	wl_resource_set_implementation(made, &of_region, NULL, NULL);
}

static const struct wl_compositor_interface of_compositor = { makes_surface, makes_region };

static void binds(struct wl_client *client, void *data, uint32_t version, uint32_t id)
{
	struct wl_resource *made = wl_resource_create(client, &wl_compositor_interface, (int)version, id);
	(void)data;
	wl_resource_set_implementation(made, &of_compositor, NULL, NULL);
}

static void is_gone(struct wl_listener *listener, void *client)
{
	(void)listener, (void)client;
	wl_display_terminate(display);
}

/* Serves one client until it is gone. */
static void serve(int socket)
{
	struct wl_listener listener = { .notify = is_gone };
	display = wl_display_create();
	MUST(display && wl_global_create(display, &wl_compositor_interface, 4, NULL, binds));
	MUST(!wl_display_init_shm(display));
	struct wl_client *client = wl_client_create(display, socket);
	MUST(client);
	wl_client_add_destroy_listener(client, &listener);
	wl_display_run(display);
	wl_display_destroy(display);
}

/* ---- the client */

static struct wl_display *connection;
static struct wl_compositor *compositor;
static struct wl_shm *shm;
static struct wl_surface *surface;
static struct wl_buffer *buffer;
static int frames_done;

static void on_global(void *data, struct wl_registry *registry, uint32_t name, const char *interface, uint32_t version)
{
	(void)data, (void)version;
	if (!strcmp(interface, "wl_compositor"))
		compositor = wl_registry_bind(registry, name, &wl_compositor_interface, 4);
	else if (!strcmp(interface, "wl_shm"))
		shm = wl_registry_bind(registry, name, &wl_shm_interface, 1);
}

static void on_global_remove(void *data, struct wl_registry *registry, uint32_t name)
{
	(void)data, (void)registry, (void)name;
}

static const struct wl_registry_listener of_registry = { on_global, on_global_remove };

static void on_done(void *data, struct wl_callback *callback, uint32_t time)
{
	(void)data, (void)time;
	frames_done++;
	wl_callback_destroy(callback);
}

static const struct wl_callback_listener of_frame = { on_done };

static void roundtrip(int time)
{
	(void)time;
	MUST(wl_display_roundtrip(connection) >= 0);
}

static void sometimes_roundtrip(int time)
{
	if (time % BEFORE_A_ROUND_TRIP == 0)
		roundtrip(time);
}

static void damage(int time)
{
	wl_surface_damage(surface, 0, 0, 5, 5);
	wl_surface_commit(surface);
	sometimes_roundtrip(time);
}

static void frame(int time)
{
	int before = frames_done;
	(void)time;
	wl_surface_attach(surface, buffer, 0, 0);
	wl_surface_damage(surface, 0, 0, 5, 5);
	wl_callback_add_listener(wl_surface_frame(surface), &of_frame, NULL);
	wl_surface_commit(surface);
	while (frames_done == before)
		MUST(wl_display_dispatch(connection) >= 0);
}

static void region(int time)
{
	struct wl_region *made = wl_compositor_create_region(compositor);
	wl_region_add(made, 0, 0, 5, 5);
	wl_surface_set_input_region(surface, made);
	wl_region_destroy(made);
	sometimes_roundtrip(time);
}

static const struct {
	const char *name;
	int releases;
	void (*once)(int time);
} loops[] = {
	{ "damage", 1, damage },
	{ "frame", 1, frame },
	{ "frames", 1 + MORE_RELEASES, frame },
	{ "region", 1, region },
	{ "roundtrip", 1, roundtrip },
};

static void connect_to(int socket)
{
	int size = SIDE * SIDE * 4, file = memfd_create("buffer", MFD_CLOEXEC);
	connection = wl_display_connect_to_fd(socket);
	MUST(connection && file >= 0 && !ftruncate(file, size));
	wl_registry_add_listener(wl_display_get_registry(connection), &of_registry, NULL);
	roundtrip(0);
	MUST(compositor && shm);
	surface = wl_compositor_create_surface(compositor);
	struct wl_shm_pool *pool = wl_shm_create_pool(shm, file, size);
	buffer = wl_shm_pool_create_buffer(pool, 0, SIDE, SIDE, SIDE * 4, WL_SHM_FORMAT_ARGB8888);
	roundtrip(0);
}

/* Starts this program as the client. Returns the compositor's socket. */
static int start_client(char **argv)
{
	int sockets[2];
	make_pair(sockets);
	pid_t child = fork();
	MUST(child >= 0);
	if (!child) {
		char number[16];
		snprintf(number, sizeof number, "%d", dup(sockets[1]));
		execl(argv[0], argv[0], argv[1], argv[2], number, NULL);
		_exit(127);
	}
	close(sockets[1]);
	return sockets[0];
}

int main(int argc, char **argv)
{
	size_t at = 0;
	int status;
	MUST(argc == 3 || argc == 4);
	while (strcmp(loops[at].name, argv[1]))
		MUST(++at < sizeof loops / sizeof loops[0]);
	if (argc == 3) {
		releases = loops[at].releases;
		serve(start_client(argv));
		MUST(wait(&status) >= 0 && !status);
		return 0;
	}
	connect_to(atoi(argv[3]));
	for (int time = atoi(argv[2]); time > 0; time--)
		loops[at].once(time - 1);
	roundtrip(0);
	wl_display_disconnect(connection);
	return 0;
}
