/* Proxies: how they are made, what holds them, and what the program keeps in them. See client.h. */
#include "client.h"

#include <assert.h>
#include <errno.h>
#include <stdlib.h>
#include <string.h>

/* ---- references */

void proxy_attach(struct wl_proxy *proxy, struct wl_event_queue *queue)
{
	if (proxy->queue_link.next)
		wl_list_remove(&proxy->queue_link);
	proxy->queue = queue;
	if (queue)
		wl_list_insert(queue->proxies.prev, &proxy->queue_link);
}

void proxy_release(struct wl_proxy *proxy)
{
	if (!--proxy->references)
		free(proxy);
}

void proxy_let_go(struct wl_proxy *proxy)
{
	if (proxy->is_held) {
		proxy->is_held = false;
		proxy_release(proxy);
	}
}

static bool is_of_server(waywire_object object)
{
	return object.id >= WAYWIRE_FIRST_SERVER_ID;
}

void proxy_give_object(struct wl_proxy *proxy, waywire_object object)
{
	proxy->handle = object;
	proxy->object.id = object.id;
	proxy->known = known_find(&proxy->display->known, proxy->object.interface);
	proxy->is_registry = !strcmp(proxy->object.interface->name, wl_registry_interface.name);
	if (waywire_end_set_user(proxy->display->client.end, object, proxy)) {
		display_fail(proxy->display, ENOMEM);
		return;
	}
	proxy->is_held = true;
	proxy->references++;
}

/* Whether an event of an interface, which may be malformed, has a descriptor. */
static bool has_descriptor_event(const struct wl_interface *interface)
{
	for (int opcode = 0; interface->events && opcode < interface->event_count; opcode++) {
		const char *signature = interface->events[opcode].signature;
		if (signature && strchr(signature, 'h'))
			return true;
	}
	return false;
}

/* The last report of an object that the client made is its delete_id, and until then the client
 * holds the proxy. An object that the server made has no last report, so the client's pointer is
 * taken back when the program destroys the proxy. If the object is dead by then, the pointer stays,
 * but is never followed: see `proxy_of`. */
void proxy_destroy(struct wl_proxy *proxy)
{
	if (proxy->is_wrapper) {
		log_line("wl_proxy_destroy was called with the wrapper %p\n", (void *)proxy);
		abort();
	}
	if (proxy->is_destroyed) {
		log_line("wl_proxy_destroy was called twice with %p\n", (void *)proxy);
		abort();
	}
	proxy->is_destroyed = true;
	proxy_attach(proxy, NULL);
	if (is_debugging()) /* its interface may be unloaded before the next event comes */
		proxy->gets_descriptors = has_descriptor_event(proxy->object.interface);
	if (proxy->is_held && is_of_server(proxy->handle)) {
		waywire_end_set_user(proxy->display->client.end, proxy->handle, NULL);
		proxy->is_held = false;
		proxy->references--; /* the program has another */
	}
	proxy_release(proxy);
}

struct wl_proxy *proxy_of(const struct wl_display *display, waywire_object object)
{
	const waywire_end *end = display->client.end;
	if (is_of_server(object) && waywire_end_live(end, object, NULL, NULL))
		return NULL;
	struct wl_proxy *proxy = waywire_end_user(end, object);
	return proxy && !proxy->is_destroyed ? proxy : NULL;
}

/* ---- making and destroying */

struct wl_proxy *proxy_create(struct wl_proxy *factory, const struct wl_interface *interface,
	uint32_t version)
{
	struct wl_proxy *proxy = calloc(1, sizeof *proxy);
	if (!proxy)
		return NULL;
	proxy->object.interface = interface;
	proxy->display = factory->display;
	proxy_attach(proxy, factory->queue);
	proxy->references = 1;
	proxy->version = version;
	return proxy;
}

EXPORT struct wl_proxy *wl_proxy_create(struct wl_proxy *factory,
	const struct wl_interface *interface)
{
	struct wl_display *display = factory->display;
	pthread_mutex_lock(&display->mutex);
	struct wl_proxy *proxy = proxy_create(factory, interface, factory->version);
	pthread_mutex_unlock(&display->mutex);
	return proxy;
}

EXPORT void wl_proxy_destroy(struct wl_proxy *proxy)
{
	struct wl_display *display = proxy->display;
	pthread_mutex_lock(&display->mutex);
	proxy_destroy(proxy);
	pthread_mutex_unlock(&display->mutex);
}

EXPORT void *wl_proxy_create_wrapper(void *proxy)
{
	struct wl_proxy *wrapped = proxy;
	struct wl_proxy *wrapper = calloc(1, sizeof *wrapper);
	if (!wrapper)
		return NULL;
	pthread_mutex_lock(&wrapped->display->mutex);
	wrapper->object.interface = wrapped->object.interface;
	wrapper->object.id = wrapped->object.id;
	wrapper->display = wrapped->display;
	proxy_attach(wrapper, wrapped->queue);
	wrapper->references = 1;
	wrapper->is_wrapper = true;
	wrapper->is_registry = wrapped->is_registry;
	wrapper->version = wrapped->version;
	wrapper->handle = wrapped->handle;
	wrapper->known = wrapped->known;
	pthread_mutex_unlock(&wrapped->display->mutex);
	return wrapper;
}

EXPORT void wl_proxy_wrapper_destroy(void *wrapper)
{
	struct wl_proxy *proxy = wrapper;
	if (!proxy->is_wrapper) {
		log_line("wl_proxy_wrapper_destroy was called with %p, which is no wrapper\n",
			wrapper);
		abort();
	}
	if (proxy->queue) { /* without a queue, the display may be gone, too */
		struct wl_display *display = proxy->display;
		pthread_mutex_lock(&display->mutex);
		proxy_attach(proxy, NULL);
		pthread_mutex_unlock(&display->mutex);
	}
	free(proxy);
}

/* ---- what listens */

static int set_listener(struct wl_proxy *proxy, wl_dispatcher_func_t dispatcher,
	const void *implementation, void *data)
{
	if (proxy->is_wrapper) {
		log_line("the proxy %p is a wrapper, and has no listener\n", (void *)proxy);
		abort();
	}
	if (proxy->object.implementation || proxy->dispatcher) {
		log_line("the proxy %p has a listener already\n", (void *)proxy);
		return -1;
	}
	proxy->object.implementation = implementation;
	proxy->dispatcher = dispatcher;
	proxy->user_data = data;
	return 0;
}

EXPORT int wl_proxy_add_listener(struct wl_proxy *proxy, void (**implementation)(void), void *data)
{
	return set_listener(proxy, NULL, implementation, data);
}

EXPORT int wl_proxy_add_dispatcher(struct wl_proxy *proxy, wl_dispatcher_func_t dispatcher,
	const void *implementation, void *data)
{
	return set_listener(proxy, dispatcher, implementation, data);
}

EXPORT const void *wl_proxy_get_listener(struct wl_proxy *proxy)
{
	return proxy->object.implementation;
}

EXPORT void wl_proxy_set_queue(struct wl_proxy *proxy, struct wl_event_queue *queue)
{
	struct wl_display *display = proxy->display;
	pthread_mutex_lock(&display->mutex);
	assert(!queue || queue->display == display);
	proxy_attach(proxy, queue ? queue : &display->default_queue);
	pthread_mutex_unlock(&display->mutex);
}

/* ---- what the program keeps in a proxy, and asks of it */

EXPORT void wl_proxy_set_user_data(struct wl_proxy *proxy, void *data)
{
	proxy->user_data = data;
}

EXPORT void *wl_proxy_get_user_data(struct wl_proxy *proxy)
{
	return proxy->user_data;
}

EXPORT void wl_proxy_set_tag(struct wl_proxy *proxy, const char *const *tag)
{
	proxy->tag = tag;
}

EXPORT const char *const *wl_proxy_get_tag(struct wl_proxy *proxy)
{
	return proxy->tag;
}

EXPORT uint32_t wl_proxy_get_version(struct wl_proxy *proxy)
{
	return proxy->version;
}

EXPORT uint32_t wl_proxy_get_id(struct wl_proxy *proxy)
{
	return proxy->object.id;
}

EXPORT const char *wl_proxy_get_class(struct wl_proxy *proxy)
{
	return proxy->object.interface->name;
}

EXPORT const struct wl_interface *wl_proxy_get_interface(struct wl_proxy *proxy)
{
	return proxy->object.interface;
}

EXPORT struct wl_display *wl_proxy_get_display(struct wl_proxy *proxy)
{
	return proxy->display;
}

EXPORT struct wl_event_queue *wl_proxy_get_queue(const struct wl_proxy *proxy)
{
	return proxy->queue;
}
