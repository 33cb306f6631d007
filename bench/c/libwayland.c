/* Sends messages between a client and a server of libwayland in one process, so that the instructions
 * of a message can be counted: the work of calls.c, over libwayland. bench/c/run.py and bench/rust/run.py count it.
 *
 * The words are: how messages are dispatched (`dispatcher`: by wl_dispatcher_func_t; `listener`: by
 * the generated listeners and libffi), the case (`damage`, `motion`, `surface` or `title`), the number
 * of objects that are open beside those of the case, how many messages go by one flush, and how often
 * that is done. The exit status is 0 if every message was read.
 */
#include <stdbool.h>
#include <stdint.h>
#include <stdio.h>
#include <stdlib.h>
#include <string.h>
#include <sys/socket.h>
#include <wayland-client.h>
#include <wayland-server.h>

#define TITLE 1000

static bool by_listener;
static uint64_t requests_read, events_read;

static struct wl_resource *server_pointer;

static struct wl_compositor *compositor;
static struct wl_seat *seat;
static struct wl_shell *shell;

/* The server. */

static int on_request(const void *implementation, void *target, uint32_t opcode,
                      const struct wl_message *message, union wl_argument *arguments);

static const struct wl_surface_interface surface_calls;
static const struct wl_shell_surface_interface shell_surface_calls;
static const struct wl_compositor_interface compositor_calls;
static const struct wl_seat_interface seat_calls;
static const struct wl_shell_interface shell_calls;

static struct wl_resource *made(struct wl_client *client, const struct wl_interface *interface,
                                uint32_t version, uint32_t id, const void *calls)
{
    struct wl_resource *resource = wl_resource_create(client, interface, (int)version, id);
    if (resource == NULL)
        abort();
    if (by_listener)
        wl_resource_set_implementation(resource, calls, NULL, NULL);
    else
        wl_resource_set_dispatcher(resource, on_request, interface, NULL, NULL);
    return resource;
}

static struct wl_resource *made_by(struct wl_resource *maker, const struct wl_interface *interface,
                                   uint32_t id, const void *calls)
{
    requests_read++;
    return made(wl_resource_get_client(maker), interface, (uint32_t)wl_resource_get_version(maker),
                id, calls);
}

static int on_request(const void *implementation, void *target, uint32_t opcode,
                      const struct wl_message *message, union wl_argument *arguments)
{
    (void)message;
    if (implementation == &wl_compositor_interface && opcode == WL_COMPOSITOR_CREATE_SURFACE) {
        made_by(target, &wl_surface_interface, arguments[0].n, NULL);
    } else if (implementation == &wl_seat_interface && opcode == WL_SEAT_GET_POINTER) {
        server_pointer = made_by(target, &wl_pointer_interface, arguments[0].n, NULL);
    } else if (implementation == &wl_shell_interface) {
        made_by(target, &wl_shell_surface_interface, arguments[0].n, NULL);
    } else {
        requests_read++;
        if (implementation == &wl_surface_interface && opcode == WL_SURFACE_DESTROY)
            wl_resource_destroy(target);
    }
    return 0;
}

static void create_surface(struct wl_client *client, struct wl_resource *resource, uint32_t id)
{
    (void)client;
    made_by(resource, &wl_surface_interface, id, &surface_calls);
}

static void get_pointer(struct wl_client *client, struct wl_resource *resource, uint32_t id)
{
    (void)client;
    server_pointer = made_by(resource, &wl_pointer_interface, id, NULL);
}

static void get_shell_surface(struct wl_client *client, struct wl_resource *resource, uint32_t id,
                              struct wl_resource *surface)
{
    (void)client;
    (void)surface;
    made_by(resource, &wl_shell_surface_interface, id, &shell_surface_calls);
}

static void destroy(struct wl_client *client, struct wl_resource *resource)
{
    (void)client;
    requests_read++;
    wl_resource_destroy(resource);
}

static void damage(struct wl_client *client, struct wl_resource *resource, int32_t x, int32_t y,
                   int32_t width, int32_t height)
{
    (void)client, (void)resource, (void)x, (void)y, (void)width, (void)height;
    requests_read++;
}

static void set_title(struct wl_client *client, struct wl_resource *resource, const char *title)
{
    (void)client, (void)resource, (void)title;
    requests_read++;
}

static const struct wl_surface_interface surface_calls = {.destroy = destroy, .damage = damage};
static const struct wl_shell_surface_interface shell_surface_calls = {.set_title = set_title};
static const struct wl_compositor_interface compositor_calls = {.create_surface = create_surface};
static const struct wl_seat_interface seat_calls = {.get_pointer = get_pointer};
static const struct wl_shell_interface shell_calls = {.get_shell_surface = get_shell_surface};

static void bind_compositor(struct wl_client *client, void *data, uint32_t version, uint32_t id)
{
    (void)data;
    made(client, &wl_compositor_interface, version, id, &compositor_calls);
}

static void bind_seat(struct wl_client *client, void *data, uint32_t version, uint32_t id)
{
    (void)data;
    made(client, &wl_seat_interface, version, id, &seat_calls);
}

static void bind_shell(struct wl_client *client, void *data, uint32_t version, uint32_t id)
{
    (void)data;
    made(client, &wl_shell_interface, version, id, &shell_calls);
}

/* The client. */

static int on_event(const void *implementation, void *target, uint32_t opcode,
                    const struct wl_message *message, union wl_argument *arguments)
{
    (void)implementation, (void)target, (void)opcode, (void)message, (void)arguments;
    events_read++;
    return 0;
}

static void motion(void *data, struct wl_pointer *pointer, uint32_t time, wl_fixed_t x, wl_fixed_t y)
{
    (void)data, (void)pointer, (void)time, (void)x, (void)y;
    events_read++;
}

static const struct wl_pointer_listener pointer_calls = {.motion = motion};

static void on_global(void *data, struct wl_registry *registry, uint32_t name, const char *interface,
                      uint32_t version)
{
    (void)data;
    if (strcmp(interface, "wl_compositor") == 0)
        compositor = wl_registry_bind(registry, name, &wl_compositor_interface, version);
    else if (strcmp(interface, "wl_seat") == 0)
        seat = wl_registry_bind(registry, name, &wl_seat_interface, version);
    else if (strcmp(interface, "wl_shell") == 0)
        shell = wl_registry_bind(registry, name, &wl_shell_interface, version);
}

static const struct wl_registry_listener registry_calls = {.global = on_global};

/* Both. */

struct ends {
    struct wl_display *server, *client;
    struct wl_event_loop *loop;
    struct wl_surface *surface;
    struct wl_shell_surface *shell_surface;
    struct wl_pointer *pointer;
};

static void to_server(struct ends *ends)
{
    wl_display_flush(ends->client);
    wl_event_loop_dispatch(ends->loop, 0);
}

static void to_client(struct ends *ends)
{
    wl_display_flush_clients(ends->server);
    while (wl_display_prepare_read(ends->client) != 0)
        wl_display_dispatch_pending(ends->client);
    wl_display_read_events(ends->client);
    wl_display_dispatch_pending(ends->client);
}

static void open_ends(struct ends *ends)
{
    int sockets[2];
    if (socketpair(AF_UNIX, SOCK_STREAM | SOCK_CLOEXEC, 0, sockets) != 0)
        abort();
    ends->server = wl_display_create();
    ends->loop = wl_display_get_event_loop(ends->server);
    wl_client_create(ends->server, sockets[0]);
    wl_global_create(ends->server, &wl_compositor_interface, wl_compositor_interface.version, NULL,
                     bind_compositor);
    wl_global_create(ends->server, &wl_seat_interface, 5, NULL, bind_seat);
    wl_global_create(ends->server, &wl_shell_interface, 1, NULL, bind_shell);
    ends->client = wl_display_connect_to_fd(sockets[1]);
    struct wl_registry *registry = wl_display_get_registry(ends->client);
    wl_registry_add_listener(registry, &registry_calls, NULL);
    to_server(ends);
    to_client(ends);
    ends->surface = wl_compositor_create_surface(compositor);
    ends->shell_surface = wl_shell_get_shell_surface(shell, ends->surface);
    ends->pointer = wl_seat_get_pointer(seat);
    if (by_listener)
        wl_pointer_add_listener(ends->pointer, &pointer_calls, NULL);
    else
        wl_proxy_add_dispatcher((struct wl_proxy *)ends->pointer, on_event, NULL, NULL);
    to_server(ends);
}

/* Writes so many messages of the case, and reads them at the other end. */
static bool exchange(struct ends *ends, const char *name, uint64_t count, const char *title)
{
    uint64_t requests = requests_read, events = events_read;
    if (strcmp(name, "motion") == 0) {
        for (uint64_t i = 0; i < count; i++)
            wl_pointer_send_motion(server_pointer, (uint32_t)i, 256, 512);
        to_client(ends);
        return events_read - events == count;
    }
    bool makes = strcmp(name, "surface") == 0;
    for (uint64_t i = 0; i < count; i++) {
        if (makes)
            wl_surface_destroy(wl_compositor_create_surface(compositor));
        else if (strcmp(name, "title") == 0)
            wl_shell_surface_set_title(ends->shell_surface, title);
        else
            wl_surface_damage(ends->surface, 1, 2, 3, 4);
    }
    uint64_t wanted = makes ? 2 * count : count;
    do {
        to_server(ends);
    } while (requests_read - requests < wanted && wl_display_get_error(ends->client) == 0);
    if (makes)
        to_client(ends);
    return requests_read - requests == wanted;
}

int main(int count, char **words)
{
    if (count != 6)
        return 2;
    by_listener = strcmp(words[1], "listener") == 0;
    const char *name = words[2];
    uint64_t objects = strtoull(words[3], NULL, 10), batch = strtoull(words[4], NULL, 10),
             times = strtoull(words[5], NULL, 10);
    char title[TITLE + 1];
    memset(title, 'a', TITLE);
    title[TITLE] = 0;
    struct ends ends;
    open_ends(&ends);
    for (uint64_t i = 0; i < objects; i++) {
        wl_compositor_create_surface(compositor);
        if (i % 100 == 99)
            to_server(&ends);
    }
    to_server(&ends);
    for (uint64_t i = 0; i < times; i++)
        if (!exchange(&ends, name, batch, title))
            return 1;
    return 0;
}
