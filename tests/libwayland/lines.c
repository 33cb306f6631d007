/* What WAYLAND_DEBUG prints, at a server that is this program: with the same library at hand, or one that is alike,
 * the lines on stderr are the same but for their times. */
#include "wire.h"
#include <poll.h>
#include <wayland-client.h>

/* ---- an interface with each kind of argument, both ways */

static const struct wl_interface probe;
static const struct wl_interface *all_types[] = {
	NULL, NULL, NULL, NULL, NULL, &probe, &probe, &probe, NULL, NULL };
static const struct wl_interface *no_types[10];

static const struct wl_message requests[] = {
	{ "all", "iufs?so?onah", all_types },
	{ "fixed", "2ff", no_types },
	{ "destroy", "", no_types },
};
static const struct wl_message events[] = {
	{ "all", "iufs?so?onah", all_types },
	{ "fixed", "2ff", no_types },
	{ "nothing", "", no_types },
	{ "any", "3?o", no_types },
};
static const struct wl_interface probe = { "probe", 3, 3, requests, 4, events };

static void on_all(void *data, struct wl_proxy *proxy, int32_t i, uint32_t u, wl_fixed_t f,
	const char *s, const char *null, struct wl_proxy *o, struct wl_proxy *null_object,
	struct wl_proxy *made, struct wl_array *a, int32_t fd)
{
	struct wl_proxy **kept = data;
	MUST(i == -2 && u == 4000000000u && f == -384 && !strcmp(s, "a \"text\"") && !null);
	MUST(o == proxy && !null_object && wl_proxy_get_id(made) == 0xff000000u && a->size == 5);
	*kept = made;
	close(fd);
}

static void on_fixed(void *data, struct wl_proxy *proxy, wl_fixed_t one, wl_fixed_t other)
{
	(void)data, (void)proxy, (void)one, (void)other;
}

static void on_nothing(void *data, struct wl_proxy *proxy)
{
	(void)data, (void)proxy;
}

static void on_any(void *data, struct wl_proxy *proxy, struct wl_proxy *other)
{
	(void)data, (void)proxy, (void)other;
}

static const struct {
	void (*all)(void *, struct wl_proxy *, int32_t, uint32_t, wl_fixed_t, const char *, const char *,
		struct wl_proxy *, struct wl_proxy *, struct wl_proxy *, struct wl_array *, int32_t);
	void (*fixed)(void *, struct wl_proxy *, wl_fixed_t, wl_fixed_t);
	void (*nothing)(void *, struct wl_proxy *);
	void (*any)(void *, struct wl_proxy *, struct wl_proxy *);
} listener = { on_all, on_fixed, on_nothing, on_any };

/* ---- the server */

static struct wire wire;
static int server;

static void send_all(uint32_t id, uint32_t made)
{
	begin_message(&wire, id, 0);
	put_word(&wire, (uint32_t)-2);
	put_word(&wire, 4000000000u);
	put_word(&wire, (uint32_t)-384);
	put_text(&wire, "a \"text\"");
	put_text(&wire, NULL);
	put_word(&wire, id);
	put_word(&wire, 0);
	put_word(&wire, made);
	put_array(&wire, "\1\0\0\0\2", 5);
	put_descriptor(&wire, dup(STDIN_FILENO));
	end_message(&wire);
	send_wire(&wire, server);
}

static void send_word(uint32_t id, uint16_t opcode, uint32_t word)
{
	put_message(&wire, id, opcode, 1, word);
	send_wire(&wire, server);
}

/* ---- the client */

static const wl_fixed_t numbers[] = { 0, 1, -1, 127, 128, 255, 256, 257, -255, -256, -257, 384, -384, 25600, -25601,
	INT32_MAX, INT32_MIN, INT32_MIN + 1 };

/* Dispatches until nothing more has come. */
static void dispatch_all(struct wl_display *display)
{
	struct pollfd ready = { wl_display_get_fd(display), POLLIN, 0 };
	while (poll(&ready, 1, 0) > 0)
		printf("dispatched: %d\n", wl_display_dispatch(display));
}

static void send_requests(struct wl_proxy *proxy)
{
	struct wl_array array = { 3, 0, "abc" };
	for (size_t i = 0; i + 1 < sizeof numbers / sizeof *numbers; i++)
		wl_proxy_marshal_flags(proxy, 1, NULL, 3, 0, numbers[i], numbers[i + 1]);
	for (int i = 0; i < 2; i++) {
		struct wl_proxy *made = wl_proxy_marshal_flags(proxy, 0, &probe, 3, 0, -1, 4294967295u, 100,
			i ? "" : "text", i ? "null" : NULL, proxy, i ? proxy : NULL, NULL, &array, 0);
		MUST(made);
		wl_proxy_marshal_flags(made, 2, NULL, 3, WL_MARSHAL_FLAG_DESTROY);
	}
}

/* Events that are queued as their object is destroyed, and events for one that is destroyed. */
static void discard(struct wl_display *display, struct wl_proxy *proxy, uint32_t made)
{
	uint32_t id = wl_proxy_get_id(proxy);
	send_all(id, made);
	put_message(&wire, id, 2, 0);
	send_wire(&wire, server);
	MUST(!wl_display_prepare_read(display));
	MUST(!wl_display_read_events(display));
	wl_proxy_marshal_flags(proxy, 2, NULL, 3, WL_MARSHAL_FLAG_DESTROY);
	printf("dispatched: %d\n", wl_display_dispatch_pending(display));
}

/* An event for a destroyed object of an interface without descriptors. */
static void discard_callback(struct wl_display *display)
{
	struct wl_callback *callback = wl_display_sync(display);
	MUST(callback);
	uint32_t id = wl_proxy_get_id((struct wl_proxy *)callback);
	wl_callback_destroy(callback);
	send_word(id, 0, 5);
	send_word(1, 1, id);
	printf("dispatched: %d\n", wl_display_dispatch(display));
}

static void end_with_an_error(struct wl_display *display, uint32_t id)
{
	const struct wl_interface *interface;
	uint32_t about;
	begin_message(&wire, 1, 0);
	put_word(&wire, id);
	put_word(&wire, 77);
	put_text(&wire, "a reason");
	end_message(&wire);
	send_wire(&wire, server);
	printf("dispatched: %d\n", wl_display_dispatch(display));
	uint32_t code = wl_display_get_protocol_error(display, &interface, &about);
	printf("error %d: %u, %s@%u\n", wl_display_get_error(display), code, interface ? interface->name : "none", about);
}

int main(void)
{
	int pair[2];
	struct wl_proxy *made = NULL;
	setvbuf(stdout, NULL, _IONBF, 0);
	make_pair(pair);
	server = pair[1];
	struct wl_display *display = wl_display_connect_to_fd(pair[0]);
	MUST(display);
	struct wl_registry *registry = wl_display_get_registry(display);
	send_word(2, 1, 17);
	printf("dispatched: %d\n", wl_display_dispatch(display));
	struct wl_proxy *proxy = wl_registry_bind(registry, 7, &probe, 3);
	MUST(proxy && !wl_proxy_add_listener(proxy, (void (**)(void))(void *)&listener, &made));
	send_requests(proxy);
	send_all(3, 0xff000000u);
	put_message(&wire, 3, 1, 2, (uint32_t)INT32_MIN, 333);
	send_wire(&wire, server);
	send_word(3, 3, 3);
	send_word(3, 3, 0);
	send_word(1, 1, 4);
	dispatch_all(display);
	MUST(made);
	wl_proxy_marshal_flags(made, 1, NULL, 3, 0, 1, 2);
	discard(display, proxy, 0xff000001u);
	printf("dispatched: %d\n", wl_display_dispatch_pending(display));
	discard_callback(display);
	end_with_an_error(display, 0xff000000u);
	wl_proxy_destroy(made);
	wl_registry_destroy(registry);
	wl_display_disconnect(display);
	return 0;
}
