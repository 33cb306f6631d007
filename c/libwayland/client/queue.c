/* Queues, and the calls that wait for events and dispatch them. See client.h. */
#define _GNU_SOURCE
#include "client.h"

#include <assert.h>
#include <errno.h>
#include <limits.h>
#include <poll.h>
#include <stdlib.h>
#include <string.h>
#include <time.h>

/* ---- queues */

void queue_init(struct wl_event_queue *queue, struct wl_display *display)
{
	wl_list_init(&queue->events);
	wl_list_init(&queue->proxies);
	queue->display = display;
	queue->name = NULL;
}

EXPORT struct wl_event_queue *wl_display_create_queue_with_name(struct wl_display *display,
	const char *name)
{
	struct wl_event_queue *queue = malloc(sizeof *queue);
	if (!queue)
		return NULL;
	queue_init(queue, display);
	if (name && !(queue->name = strdup(name))) {
		free(queue);
		return NULL;
	}
	return queue;
}

EXPORT struct wl_event_queue *wl_display_create_queue(struct wl_display *display)
{
	return wl_display_create_queue_with_name(display, NULL);
}

EXPORT const char *wl_event_queue_get_name(const struct wl_event_queue *queue)
{
	const struct wl_display *display = queue->display;
	if (queue == &display->default_queue)
		return "Default Queue";
	return queue == &display->display_queue ? "Display Queue" : queue->name;
}

void queue_detach_all(struct wl_event_queue *queue)
{
	struct wl_proxy *proxy, *next;
	wl_list_for_each_safe(proxy, next, &queue->proxies, queue_link)
		proxy_attach(proxy, NULL);
}

/* Names the proxies of a queue that is destroyed before them: an event for one of them ends the program. As in
 * libwayland 1.23, the mark between the interface and the id is `#`. */
static void warn_of_attached(const struct wl_event_queue *queue)
{
	const struct wl_proxy *proxy;
	if (wl_list_empty(&queue->proxies))
		return;
	log_line("warning: the queue \"%s\" (%p) is destroyed before these proxies of it:\n",
		queue->name ? queue->name : "", (const void *)queue);
	wl_list_for_each(proxy, &queue->proxies, queue_link)
		log_line("  %s#%u\n", proxy->object.interface->name, proxy->object.id);
}

EXPORT void wl_event_queue_destroy(struct wl_event_queue *queue)
{
	struct wl_display *display = queue->display;
	pthread_mutex_lock(&display->mutex);
	queue_drain(queue);
	warn_of_attached(queue);
	queue_detach_all(queue);
	pthread_mutex_unlock(&display->mutex);
	free(queue->name);
	free(queue);
}

/* ---- dispatching what was read */

/* Dispatches at most so many events of a queue, after those of the display. Returns how many there
 * were, the delete_id that were read counted, or -1 with errno. */
static int dispatch_most(struct wl_display *display, struct wl_event_queue *queue, int most)
{
	struct wl_event_queue *display_queue = &display->display_queue;
	int count = 0;
	pthread_mutex_lock(&display->mutex);
	while (!display->last_error && count < most && !wl_list_empty(&display_queue->events)) {
		queue_dispatch_first(display, display_queue);
		count++;
	}
	if (!display->last_error && display->deleted_count && count < most) {
		int deleted = display->deleted_count;
		if (deleted > most - count)
			deleted = most - count;
		display->deleted_count -= deleted;
		count += deleted;
	}
	while (!display->last_error && count < most && !wl_list_empty(&queue->events)) {
		queue_dispatch_first(display, queue);
		count++;
	}
	if (display->last_error) {
		errno = display->last_error;
		count = -1;
	}
	pthread_mutex_unlock(&display->mutex);
	return count;
}

EXPORT int wl_display_dispatch_queue_pending(struct wl_display *display,
	struct wl_event_queue *queue)
{
	return dispatch_most(display, queue, INT_MAX);
}

EXPORT int wl_display_dispatch_pending(struct wl_display *display)
{
	return dispatch_most(display, &display->default_queue, INT_MAX);
}

EXPORT int wl_display_dispatch_queue_pending_single(struct wl_display *display,
	struct wl_event_queue *queue)
{
	return dispatch_most(display, queue, 1);
}

EXPORT int wl_display_dispatch_pending_single(struct wl_display *display)
{
	return dispatch_most(display, &display->default_queue, 1);
}

/* ---- waiting */

#define NO_END INT64_MAX
#define NANOSECONDS 1000000000

static int64_t nanoseconds(const struct timespec *time)
{
	if (time->tv_sec > NO_END / NANOSECONDS - 1)
		return NO_END;
	if (time->tv_sec < 0)
		return 0;
	return (int64_t)time->tv_sec * NANOSECONDS + time->tv_nsec;
}

static int64_t moment(void)
{
	struct timespec now;
	clock_gettime(CLOCK_MONOTONIC, &now);
	return nanoseconds(&now);
}

/* The end of a time that begins now. Null is no limit. */
static int64_t end_of(const struct timespec *timeout)
{
	if (!timeout)
		return NO_END;
	int64_t now = moment(), length = nanoseconds(timeout);
	return length > NO_END - now ? NO_END : now + length;
}

/* Waits for the socket until a moment. Returns 1 if it is ready, 0 if the time is over, and -1 with
 * errno. */
static int wait_until(const struct wl_display *display, short events, int64_t end)
{
	struct pollfd polled = { display->fd, events, 0 };
	int ready;
	do {
		int64_t left = end == NO_END ? 0 : end - moment();
		if (left < 0)
			left = 0;
		struct timespec time = { left / NANOSECONDS, left % NANOSECONDS };
		ready = ppoll(&polled, 1, end == NO_END ? NULL : &time, NULL);
	} while (ready < 0 && errno == EINTR);
	return ready;
}

/* Sends what waits, until all has gone. Returns as `wait_until`. It is no error that the compositor
 * has gone: it may have said why. A connection may have ended with EAGAIN: then there is nothing to
 * wait for. */
static int send_until(struct wl_display *display, int64_t end)
{
	while (wl_display_flush(display) < 0) {
		if (errno == EPIPE)
			return 1;
		if (errno != EAGAIN || wl_display_get_error(display))
			return -1;
		int ready = wait_until(display, POLLOUT, end);
		if (ready <= 0)
			return ready;
	}
	return 1;
}

/* ---- waiting for events */

EXPORT int wl_display_dispatch_queue_timeout(struct wl_display *display,
	struct wl_event_queue *queue, const struct timespec *timeout)
{
	if (wl_display_prepare_read_queue(display, queue))
		return wl_display_dispatch_queue_pending(display, queue);
	int64_t end = end_of(timeout);
	int ready = send_until(display, end);
	if (ready > 0)
		ready = wait_until(display, POLLIN, end);
	if (ready <= 0) {
		int error = errno;
		wl_display_cancel_read(display);
		errno = error;
		return ready;
	}
	if (wl_display_read_events(display))
		return -1;
	return wl_display_dispatch_queue_pending(display, queue);
}

EXPORT int wl_display_dispatch_timeout(struct wl_display *display, const struct timespec *timeout)
{
	return wl_display_dispatch_queue_timeout(display, &display->default_queue, timeout);
}

EXPORT int wl_display_dispatch_queue(struct wl_display *display, struct wl_event_queue *queue)
{
	return wl_display_dispatch_queue_timeout(display, queue, NULL);
}

EXPORT int wl_display_dispatch(struct wl_display *display)
{
	return wl_display_dispatch_queue_timeout(display, &display->default_queue, NULL);
}

/* ---- round trips */

#define DISPLAY_SYNC 0

static void on_done(void *data, struct wl_proxy *callback, uint32_t serial)
{
	(void)serial;
	*(bool *)data = true;
	wl_proxy_destroy(callback);
}

/* Asks for a callback whose event goes to a queue, by a wrapper of the display that is not
 * allocated. Null with errno. */
static struct wl_proxy *sync_in_queue(struct wl_display *display, struct wl_event_queue *queue)
{
	struct wl_proxy wrapper = { .object = display->proxy.object, .display = display,
		.queue = queue, .is_wrapper = true, .handle = display->proxy.handle,
		.known = display->proxy.known };
	return wl_proxy_marshal_flags(&wrapper, DISPLAY_SYNC, &wl_callback_interface, 0, 0, NULL);
}

EXPORT int wl_display_roundtrip_queue(struct wl_display *display, struct wl_event_queue *queue)
{
	static void (*listener[])(void) = { (void (*)(void))on_done };
	bool is_done = false;
	int count = 0;
	assert(queue->display == display);
	struct wl_proxy *callback = sync_in_queue(display, queue);
	if (!callback)
		return -1;
	wl_proxy_add_listener(callback, listener, &is_done);
	while (!is_done && count >= 0)
		count = wl_display_dispatch_queue(display, queue);
	if (count < 0 && !is_done) {
		int error = errno;
		wl_proxy_destroy(callback);
		errno = error;
	}
	return count;
}

EXPORT int wl_display_roundtrip(struct wl_display *display)
{
	return wl_display_roundtrip_queue(display, &display->default_queue);
}
