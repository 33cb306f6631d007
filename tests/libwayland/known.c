/* What the library knows of an interface: it reads the signatures of the messages once, and again if another interface
 * lies at the address, as after a plug-in was unloaded. */
#define _GNU_SOURCE
#include "wire.h"
#include <wayland-client.h>

static struct wl_display *display;
static struct wl_registry *registry;
static int peer;
static const struct wl_interface *types[4];
static char signature[] = "uu";
static const struct wl_message first[] = { { "first", signature, types } };
static const struct wl_message second[] = { { "second", "i", types }, { "third", "", types } };

/* The bytes that the client has sent. */
static size_t sent(void)
{
	char bytes[4096];
	MUST(wl_display_flush(display) >= 0);
	ssize_t came = recv(peer, bytes, sizeof bytes, MSG_DONTWAIT);
	return came < 0 ? 0 : (size_t)came;
}

static struct wl_proxy *bind_it(const struct wl_interface *interface)
{
	struct wl_proxy *proxy = wl_registry_bind(registry, 1, interface, 1);
	MUST(proxy && sent());
	return proxy;
}

static unsigned heard;

static int hear(const void *data, void *proxy, uint32_t opcode, const struct wl_message *message,
	union wl_argument *args)
{
	(void)data, (void)proxy, (void)opcode, (void)message;
	heard += args[0].u + args[1].u;
	return 0;
}

static void send_event(struct wl_proxy *proxy)
{
	static struct wire wire;
	put_message(&wire, wl_proxy_get_id(proxy), 0, 2, 30, 4);
	send_wire(&wire, peer);
	MUST(wl_display_dispatch(display) >= 0);
}

int main(void)
{
	int sockets[2];
	make_pair(sockets);
	peer = sockets[1];
	display = wl_display_connect_to_fd(sockets[0]);
	MUST(display);
	registry = wl_display_get_registry(display);
	struct wl_interface interface = { "first", 1, 1, first, 1, first };
	struct wl_proxy *proxy = bind_it(&interface);
	MUST(!wl_proxy_add_dispatcher(proxy, hear, NULL, NULL));
	signature[1] = 'x'; /* nobody reads it again */
	wl_proxy_marshal(proxy, 0, 1, 2);
	MUST(sent() == 16);
	send_event(proxy);
	MUST(heard == 34);
	wl_proxy_destroy(proxy);
	interface = (struct wl_interface){ "second", 1, 2, second, 0, NULL };
	proxy = bind_it(&interface);
	wl_proxy_marshal(proxy, 0, 1);
	wl_proxy_marshal(proxy, 1);
	MUST(sent() == 12 + 8 && !wl_display_get_error(display));
	wl_proxy_destroy(proxy);
	wl_registry_destroy(registry);
	wl_display_disconnect(display);
	close(peer);
	return 0;
}
