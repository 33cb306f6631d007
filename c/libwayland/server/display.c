/* Displays: see server.h. */
#include "server.h"

#include <errno.h>
#include <stdlib.h>
#include <sys/eventfd.h>
#include <unistd.h>

/* How many bytes may wait for a client that does not read. */
#define MOST_WAITING 65536

static int on_wake(int fd, uint32_t mask, void *data)
{
	uint64_t count;
	(void)mask;
	(void)data;
	return read(fd, &count, sizeof count) < 0 && errno != EAGAIN;
}

/* Makes the loop of a display, and what wakes it. False with errno; what was made is kept. */
static bool make_loop(struct wl_display *display)
{
	display->loop = wl_event_loop_create();
	if (!display->loop)
		return false;
	display->wake_fd = eventfd(0, EFD_CLOEXEC | EFD_NONBLOCK);
	if (display->wake_fd < 0)
		return false;
	display->wake = wl_event_loop_add_fd(display->loop, display->wake_fd, WL_EVENT_READABLE,
		on_wake, NULL);
	return display->wake;
}

/* Frees what a display has besides its sockets, globals and clients. */
static void free_display(struct wl_display *display)
{
	if (display->wake)
		wl_event_source_remove(display->wake);
	if (display->wake_fd >= 0)
		close(display->wake_fd);
	if (display->loop)
		wl_event_loop_destroy(display->loop);
	tables_end(display);
	wl_array_release(&display->shm_formats);
	free(display);
}

EXPORT struct wl_display *wl_display_create(void)
{
	struct wl_display *display = calloc(1, sizeof *display);
	if (!display)
		return NULL;
	log_read_debug("server");
	display->wake_fd = -1;
	display->most_waiting = MOST_WAITING;
	wl_list_init(&display->globals);
	wl_list_init(&display->sockets);
	wl_list_init(&display->clients);
	wl_list_init(&display->loggers);
	signal_init(&display->destroy);
	signal_init(&display->client_created);
	wl_array_init(&display->shm_formats);
	if (make_loop(display) && tables_init(display))
		return display;
	int error = errno;
	free_display(display);
	errno = error;
	return NULL;
}

/* As in libwayland, clients stay: the compositor destroys them before. Loggers may be destroyed later. */
EXPORT void wl_display_destroy(struct wl_display *display)
{
	struct wl_list *logger, *next;
	signal_emit_last(&display->destroy, display);
	sockets_close(display);
	globals_free(display);
	for (logger = display->loggers.next; logger != &display->loggers; logger = next) {
		next = logger->next;
		wl_list_init(logger);
	}
	free_display(display);
}

EXPORT struct wl_event_loop *wl_display_get_event_loop(struct wl_display *display)
{
	return display->loop;
}

EXPORT uint32_t wl_display_get_serial(struct wl_display *display)
{
	return display->serial;
}

EXPORT uint32_t wl_display_next_serial(struct wl_display *display)
{
	return ++display->serial;
}

/* It can be called from a signal's handler. */
EXPORT void wl_display_terminate(struct wl_display *display)
{
	uint64_t one = 1;
	int error = errno;
	display->is_running = false;
	while (write(display->wake_fd, &one, sizeof one) < 0 && errno == EINTR)
		;
	errno = error;
}

EXPORT void wl_display_run(struct wl_display *display)
{
	display->is_running = true;
	while (display->is_running) {
		wl_display_flush_clients(display);
		wl_event_loop_dispatch(display->loop, -1);
	}
}

EXPORT void wl_display_add_destroy_listener(struct wl_display *display,
	struct wl_listener *listener)
{
	signal_add(&display->destroy, listener);
}

EXPORT struct wl_listener *wl_display_get_destroy_listener(struct wl_display *display,
	wl_notify_func_t notify)
{
	return signal_get(&display->destroy, notify);
}

EXPORT void wl_display_add_client_created_listener(struct wl_display *display,
	struct wl_listener *listener)
{
	signal_add(&display->client_created, listener);
}
