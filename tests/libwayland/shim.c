/* What a preloaded library such as that of gtk4-layer-shell does: it has a copy of libwayland's private struct
 * wl_proxy, reads the library's proxies through it, and passes in proxies of its own, which have no other fields. */
#define _GNU_SOURCE
#include "wire.h"
#include <wayland-client.h>

/* The sizes and the order of libwayland's fields; the last one came with libwayland 1.23. */
struct shim_proxy {
	const struct wl_interface *interface;
	const void *implementation;
	uint32_t id;
	struct wl_display *display;
	struct wl_event_queue *queue;
	uint32_t flags;
	int references;
	void *user_data;
	wl_dispatcher_func_t dispatcher;
	uint32_t version;
	const char *const *tag;
	struct wl_list queue_link;
};

enum { DESTROYED = 2, WRAPPER = 4 };

static struct wl_display *display;
static struct wl_event_queue *queue;

static int ignore(const void *implementation, void *proxy, uint32_t opcode,
	const struct wl_message *message, union wl_argument *args)
{
	(void)implementation, (void)proxy, (void)opcode, (void)message, (void)args;
	return 0;
}

/* Reads a proxy of the library. */
static void read_proxy(void)
{
	static const char *const tag = "a tag";
	struct wl_display *wrapper = wl_proxy_create_wrapper(display);
	wl_proxy_set_queue((struct wl_proxy *)wrapper, queue);
	struct wl_proxy *registry = (struct wl_proxy *)wl_display_get_registry(wrapper);
	const struct shim_proxy *read = (const void *)registry;
	MUST(!wl_proxy_add_dispatcher(registry, ignore, &display, &queue));
	wl_proxy_set_tag(registry, &tag);
	MUST(read->interface == &wl_registry_interface && read->implementation == &display);
	MUST(read->id == wl_proxy_get_id(registry) && read->display == display);
	MUST(read->queue == queue && !read->flags && read->references > 0);
	MUST(read->user_data == &queue && read->dispatcher == ignore);
	MUST(read->version == wl_proxy_get_version(registry) && read->tag == &tag);
	MUST(((const struct shim_proxy *)(const void *)wrapper)->flags == WRAPPER);
	wl_proxy_wrapper_destroy(wrapper);
	wl_proxy_destroy(registry);
}

/* Passes in a proxy with a link that is in no list, or is null. */
static void pass_proxy(int has_link)
{
	static void (*const listener[])(void) = { NULL };
	static const char *const tag = "another tag";
	struct shim_proxy *own = calloc(1, sizeof *own);
	MUST(own);
	struct wl_proxy *proxy = (void *)own;
	own->interface = &wl_seat_interface;
	own->id = 7;
	own->display = display;
	own->references = 1;
	own->version = 3;
	if (has_link)
		wl_list_init(&own->queue_link);
	MUST(!wl_proxy_add_listener(proxy, (void (**)(void))(uintptr_t)listener, own));
	MUST(own->implementation == listener && own->user_data == own);
	MUST(wl_proxy_add_dispatcher(proxy, ignore, NULL, NULL) < 0);
	MUST(wl_proxy_get_listener(proxy) == listener && wl_proxy_get_user_data(proxy) == own);
	wl_proxy_set_user_data(proxy, &queue);
	wl_proxy_set_tag(proxy, &tag);
	MUST(own->user_data == &queue && own->tag == &tag && wl_proxy_get_tag(proxy) == &tag);
	MUST(wl_proxy_get_version(proxy) == 3 && wl_proxy_get_id(proxy) == 7);
	MUST(!strcmp(wl_proxy_get_class(proxy), "wl_seat"));
	wl_proxy_set_queue(proxy, queue);
	MUST(own->queue == queue && !own->flags && own->references == 1);
	if (own->queue_link.next)
		wl_list_remove(&own->queue_link);
	free(own);
}

int main(void)
{
	int sockets[2];
	wl_log_set_handler_client(quiet);
	make_pair(sockets);
	display = wl_display_connect_to_fd(sockets[0]);
	MUST(display && (queue = wl_display_create_queue(display)));
	read_proxy();
	pass_proxy(0);
	pass_proxy(1);
	wl_event_queue_destroy(queue);
	wl_display_disconnect(display);
	close(sockets[1]);
	return 0;
}
