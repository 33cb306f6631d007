/* Eight threads share one display. Each has a queue of its own. They use callbacks, make and destroy
 * objects and queues, and read by hand and by dispatch.
 *
 *     threads ROUNDS [REQUESTS]
 *
 * The compositor is this program again, in a process that valgrind does not follow. With REQUESTS, it
 * ends after this many requests, and then each thread must end with an error. */
#define _GNU_SOURCE
#include "compositor.h"
#include <poll.h>
#include <pthread.h>

#define THREADS 8
#define CALLBACKS 5

static int rounds;

static void on_done(void *data, struct wl_callback *callback, uint32_t number)
{
	(void)number;
	wl_callback_destroy(callback);
	++*(int *)data;
}

static const struct wl_callback_listener of_callback = { on_done };

/* Reads and dispatches by hand; every other time only if something is there. Whether that went
 * well, as of all that follow. */
static int reads_by_hand(struct wl_event_queue *queue, int waits)
{
	struct pollfd its = { wl_display_get_fd(display), POLLIN, 0 };
	while (wl_display_prepare_read_queue(display, queue))
		if (wl_display_dispatch_queue_pending(display, queue) < 0)
			return 0;
	if (wl_display_flush(display) < 0 && errno != EPIPE) {
		wl_display_cancel_read(display);
		return 0;
	}
	if (poll(&its, 1, waits ? -1 : 0) < 1)
		wl_display_cancel_read(display);
	else if (wl_display_read_events(display))
		return 0;
	return wl_display_dispatch_queue_pending(display, queue) >= 0;
}

static int uses(struct wl_event_queue *queue, struct wl_display *own, struct wl_compositor *maker,
	int round)
{
	static __thread int came;
	came = 0;
	for (int i = 0; i < CALLBACKS; i++) {
		struct wl_callback *callback = wl_display_sync(own);
		struct wl_region *region = wl_compositor_create_region(maker);
		MUST(callback && region);
		wl_callback_add_listener(callback, &of_callback, &came);
		wl_region_add(region, 0, 0, round, i);
		wl_region_destroy(region);
	}
	while (came < CALLBACKS)
		if (round % 3 ? wl_display_dispatch_queue(display, queue) < 0
			: !reads_by_hand(queue, round % 2))
			return 0;
	return wl_display_roundtrip_queue(display, queue) >= 0;
}

/* Returns the display if all went well to the end. */
static void *work(void *data)
{
	int goes_on = 1;
	(void)data;
	for (int round = 0; round < rounds && goes_on; round++) {
		struct wl_event_queue *queue = wl_display_create_queue(display);
		struct wl_display *own = wl_proxy_create_wrapper(display);
		struct wl_compositor *maker = wl_proxy_create_wrapper(compositor);
		MUST(queue && own && maker);
		wl_proxy_set_queue((struct wl_proxy *)own, queue);
		wl_proxy_set_queue((struct wl_proxy *)maker, queue);
		goes_on = uses(queue, own, maker, round);
		wl_proxy_wrapper_destroy(maker);
		wl_proxy_wrapper_destroy(own);
		if (goes_on)
			wl_event_queue_destroy(queue);
	}
	return goes_on ? display : NULL;
}

int main(int argc, char **argv)
{
	pthread_t threads[THREADS];
	if (is_compositor(argc, argv))
		return 0;
	MUST(argc > 1);
	int before = count_open();
	long most = argc > 2 ? atol(argv[2]) : 0;
	rounds = atoi(argv[1]);
	connect_to_compositor(argv[0], most);
	for (int at = 0; at < THREADS; at++)
		MUST(!pthread_create(&threads[at], NULL, work, NULL));
	for (int at = 0; at < THREADS; at++) {
		void *went_well;
		MUST(!pthread_join(threads[at], &went_well) && !went_well == (most != 0));
	}
	MUST(!wl_display_get_error(display) == !most);
	disconnect();
	MUST(count_open() == before);
	return 0;
}
