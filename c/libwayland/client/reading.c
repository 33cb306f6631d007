/* Reading by several threads. Each that wants to read says so before it polls; the last of them
 * reads for all, and the others wait for it. See client.h. */
#include "client.h"

#include <errno.h>

/* Receives once. Returns 1 if something came, 0 if nothing is there, and -1 with errno. */
static int receive(struct wl_display *display)
{
	ssize_t came = waywire_socket_fill(display->fd, display->client.end);
	if (came > 0)
		return 1;
	if (!came) {
		errno = EPIPE;
	} else if (errno == EAGAIN) {
		return 0;
	} else if (errno == ENOBUFS) {
		errno = EOVERFLOW; /* descriptors came that belong to no message */
	}
	return -1;
}

/* How many bytes wait in the inbox, apart from a constant. It is needed only for printing. */
static size_t room_of(const waywire_end *end)
{
	return is_debugging() ? waywire_end_in_room(end).bytes : 0;
}

/* Says what is wrong with a message that came. Returns -1 with errno: as in libwayland, EFAULT for an event that the
 * interface does not have. */
static int refuse(const waywire_report *report, waywire_status status)
{
	log_line("the compositor sent a wrong message: %s%s%s (byte %llu)\n",
		waywire_strerror(status), report->spelling ? ": " : "",
		report->spelling ? waywire_strspelling(report->spelling) : "",
		(unsigned long long)report->offset);
	report_close_descriptors(report);
	errno = status == WAYWIRE_FAULT_UNKNOWN_MESSAGE ? EFAULT : EINVAL;
	return -1;
}

/* Puts all messages that came into the queues. -1 with errno if the connection has to end. */
static int read_reports(struct wl_display *display)
{
	waywire_end *end = display->client.end;
	waywire_report report;
	for (;;) {
		size_t room = room_of(end);
		waywire_status status = waywire_end_next(end, &report);
		if (status == WAYWIRE_FAILED)
			return 0; /* behind wl_display.error */
		if (status == WAYWIRE_NO_MEMORY) {
			errno = ENOMEM;
			return -1;
		}
		if (status)
			return refuse(&report, status);
		if (report.kind == WAYWIRE_NOTHING)
			return 0;
		if (event_take(display, &report, room_of(end) - room))
			return -1;
	}
}

/* wl_display.error was read, and nothing more is. A program may dispatch only if reading brings something new: so
 * what waits in the queue of the display is dispatched here. Returns 0 if another thread is doing that, else -1 with
 * the error's errno. */
static int hear_waiting_error(struct wl_display *display)
{
	struct wl_event_queue *queue = &display->display_queue;
	while (!display->last_error && !wl_list_empty(&queue->events))
		queue_dispatch_first(display, queue);
	reading_wake(display);
	errno = display->last_error;
	return display->last_error ? -1 : 0;
}

/* Reads, or waits until another thread has. -1 with errno. */
static int read_events(struct wl_display *display)
{
	if (--display->reader_count) {
		uint32_t serial = display->read_serial;
		while (display->read_serial == serial)
			pthread_cond_wait(&display->has_read, &display->mutex);
		if (!display->last_error)
			return 0;
		errno = display->last_error;
		return -1;
	}
	if (waywire_end_has_failed(display->client.end))
		return hear_waiting_error(display);
	int came = receive(display);
	if (came < 0 || (came && read_reports(display))) {
		int error = errno;
		display_fail(display, error);
		errno = error;
		return -1;
	}
	reading_wake(display);
	return 0;
}

static void cancel_read(struct wl_display *display)
{
	if (!--display->reader_count)
		reading_wake(display);
}

EXPORT int wl_display_read_events(struct wl_display *display)
{
	int result = -1;
	pthread_mutex_lock(&display->mutex);
	if (display->last_error) {
		cancel_read(display);
		errno = display->last_error;
	} else {
		result = read_events(display);
	}
	pthread_mutex_unlock(&display->mutex);
	return result;
}

EXPORT void wl_display_cancel_read(struct wl_display *display)
{
	pthread_mutex_lock(&display->mutex);
	cancel_read(display);
	pthread_mutex_unlock(&display->mutex);
}

EXPORT int wl_display_prepare_read_queue(struct wl_display *display, struct wl_event_queue *queue)
{
	int result = 0;
	pthread_mutex_lock(&display->mutex);
	if (wl_list_empty(&queue->events)) {
		display->reader_count++;
	} else {
		errno = EAGAIN;
		result = -1;
	}
	pthread_mutex_unlock(&display->mutex);
	return result;
}

EXPORT int wl_display_prepare_read(struct wl_display *display)
{
	return wl_display_prepare_read_queue(display, &display->default_queue);
}
