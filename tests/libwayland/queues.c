/* Queues that are destroyed while proxies are attached to them, as libwayland 1.23 has it: the proxies are named, and
 * an event for one of them ends the program. libwayland 1.21 writes that event into freed memory. */
#define _GNU_SOURCE
#include "wire.h"
#include <wayland-client.h>

static struct wl_display *display;
static int peer;
static char said[4096];

static void keep_lines(const char *format, va_list list)
{
	size_t length = strlen(said);
	vsnprintf(said + length, sizeof said - length, format, list);
}

/* Whether the lines name a proxy. */
static int is_named(void *proxy)
{
	char line[64];
	snprintf(line, sizeof line, "  %s#%u\n", wl_proxy_get_class(proxy), wl_proxy_get_id(proxy));
	return strstr(said, line) != NULL;
}

static void on_done(void *data, struct wl_callback *callback, uint32_t number)
{
	(void)callback;
	*(uint32_t *)data += number;
}

static const struct wl_callback_listener of_callback = { on_done };

/* A callback of a queue, which counts into `sum`. */
static struct wl_callback *sync_to(struct wl_event_queue *queue, uint32_t *sum)
{
	struct wl_callback *callback = wl_display_sync(display);
	MUST(callback);
	wl_proxy_set_queue((struct wl_proxy *)callback, queue);
	wl_callback_add_listener(callback, &of_callback, sum);
	return callback;
}

/* Sends the event of a callback, and reads it. */
static void answer(struct wl_callback *callback, uint32_t number)
{
	static struct wire wire;
	uint32_t id = wl_proxy_get_id((struct wl_proxy *)callback);
	put_message(&wire, id, 0, 1, number);
	put_message(&wire, 1, 1, 1, id);
	send_wire(&wire, peer);
	MUST(!wl_display_prepare_read(display) && !wl_display_read_events(display));
}

static void connect_pair(void)
{
	int sockets[2];
	make_pair(sockets);
	peer = sockets[1];
	display = wl_display_connect_to_fd(sockets[0]);
	MUST(display);
}

static void disconnect(void)
{
	wl_display_disconnect(display);
	close(peer);
}

/* Those that are attached are named, and no others. Each can be destroyed, or get another queue. */
static void names_the_attached(void)
{
	uint32_t sum = 0;
	connect_pair();
	struct wl_event_queue *queue = wl_display_create_queue(display);
	struct wl_event_queue *other = wl_display_create_queue(display);
	struct wl_callback *attached = sync_to(queue, &sum), *moved = sync_to(queue, &sum);
	struct wl_callback *gone = sync_to(queue, &sum), *kept = sync_to(queue, &sum);
	struct wl_display *wrapper = wl_proxy_create_wrapper(display);
	wl_proxy_set_queue((struct wl_proxy *)wrapper, queue);
	wl_proxy_set_queue((struct wl_proxy *)moved, other);
	MUST(!*said);
	struct wl_callback *made = wl_display_sync(wrapper);
	wl_event_queue_destroy(queue);
	MUST(strchr(said, '\n') && is_named(attached) && is_named(gone) && is_named(kept));
	MUST(is_named(wrapper) && is_named(made) && !is_named(moved));
	wl_callback_destroy(gone);
	answer(gone, 1);
	wl_callback_destroy(made);
	wl_callback_destroy(wl_display_sync(wrapper)); /* it has no queue either */
	wl_proxy_set_queue((struct wl_proxy *)kept, NULL);
	answer(kept, 20);
	MUST(wl_display_dispatch_pending(display) > 0 && sum == 20);
	answer(moved, 300);
	MUST(wl_display_dispatch_queue_pending(display, other) > 0 && sum == 320);
	wl_callback_destroy(attached);
	wl_callback_destroy(moved);
	wl_callback_destroy(kept);
	wl_proxy_wrapper_destroy(wrapper);
	*said = '\0';
	wl_event_queue_destroy(other);
	MUST(!*said);
	disconnect();
}

/* What the display's own queue has is not named. A wrapper of it may be destroyed after the display. */
static void outlives_the_display(void)
{
	connect_pair();
	struct wl_display *wrapper = wl_proxy_create_wrapper(display);
	*said = '\0';
	disconnect();
	MUST(!*said);
	wl_proxy_wrapper_destroy(wrapper);
}

/* An event whose queue is destroyed has nowhere to go. */
static int gets_an_event(const void *unused)
{
	uint32_t sum = 0;
	(void)unused;
	connect_pair();
	struct wl_event_queue *queue = wl_display_create_queue(display);
	struct wl_callback *callback = sync_to(queue, &sum);
	wl_event_queue_destroy(queue);
	answer(callback, 1);
	return 0;
}

int main(int argc, char **argv)
{
	(void)argv;
	wl_log_set_handler_client(keep_lines);
	if (argc > 1)
		return gets_an_event(NULL);
	names_the_attached();
	outlives_the_display();
	int status = play_apart(gets_an_event, NULL);
	MUST(WIFSIGNALED(status) && WTERMSIG(status) == SIGABRT);
	return 0;
}
