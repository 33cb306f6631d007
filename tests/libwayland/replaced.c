/* A compositor that uses an id of its own again, while the program has the proxy of the old object. libwayland ends the
 * connection. */
#define _GNU_SOURCE
#include "thing.h"
#include "wire.h"

static struct wl_display *display;
static struct wl_registry *registry;
static struct wire wire;
static int peer;
static struct wl_proxy *made[2];
static unsigned count, heard;

static int keep_made(const void *data, void *proxy, uint32_t opcode, const struct wl_message *message,
	union wl_argument *args)
{
	(void)proxy;
	if (message->signature[0] == 'n' && opcode == *(const uint32_t *)data)
		made[count++ & 1] = (struct wl_proxy *)args[0].o;
	return 0;
}

static int hear(const void *data, void *proxy, uint32_t opcode, const struct wl_message *message,
	union wl_argument *args)
{
	(void)data, (void)opcode, (void)message, (void)args;
	heard |= proxy == made[0] ? 1 : 2;
	return 0;
}

/* The event makes two objects with one id. Returns the error of the display. The event 0 of the id then comes to the
 * second proxy. */
static int make_twice(struct wl_proxy *maker, uint32_t opcode, const char *text)
{
	uint32_t id = wl_proxy_get_id(maker);
	count = heard = 0;
	wl_proxy_add_dispatcher(maker, keep_made, &opcode, NULL);
	for (int i = 0; i < 2; i++)
		put_message(&wire, id, (uint16_t)opcode, 1, FIRST_SERVER_ID);
	send_wire(&wire, peer);
	if (wl_display_dispatch(display) < 0)
		return wl_display_get_error(display);
	MUST(count == 2 && made[0] != made[1]);
	for (int i = 0; i < 2; i++)
		wl_proxy_add_dispatcher(made[i], hear, NULL, NULL);
	begin_message(&wire, FIRST_SERVER_ID, 0);
	put_text(&wire, text);
	end_message(&wire);
	send_wire(&wire, peer);
	MUST(wl_display_dispatch(display) >= 0 && heard == 2);
	wl_proxy_destroy(made[0]);
	wl_proxy_destroy(made[1]);
	return 0;
}

static void connect_pair(void)
{
	int sockets[2];
	make_pair(sockets);
	peer = sockets[1];
	display = wl_display_connect_to_fd(sockets[0]);
	MUST(display);
	registry = wl_display_get_registry(display);
}

static void disconnect(void)
{
	wl_registry_destroy(registry);
	wl_display_disconnect(display);
	close(peer);
}

/* An offer of the clipboard. */
static void offers(void)
{
	connect_pair();
	struct wl_seat *seat = wl_registry_bind(registry, 1, &wl_seat_interface, 1);
	struct wl_data_device_manager *manager = wl_registry_bind(registry, 2,
		&wl_data_device_manager_interface, 3);
	struct wl_data_device *device = wl_data_device_manager_get_data_device(manager, seat);
	MUST(!make_twice((struct wl_proxy *)device, 0, "text/plain"));
	wl_data_device_destroy(device);
	wl_data_device_manager_destroy(manager);
	wl_seat_destroy(seat);
	disconnect();
}

/* An object of the core, made by an event of a private protocol. */
static void surfaces(void)
{
	static const struct wl_interface *types[] = { &wl_surface_interface };
	static const struct wl_message events[] = { { "made", "n", types } };
	static const struct wl_interface interface = { "surface_maker", 1, 0, NULL, 1, events };
	connect_pair();
	struct wl_proxy *maker = wl_registry_bind(registry, 1, &interface, 1);
	MUST(make_twice(maker, 0, "") == EINVAL);
	wl_proxy_destroy(maker);
	disconnect();
}

int main(void)
{
	wl_log_set_handler_client(quiet);
	offers();
	surfaces();
	return 0;
}
