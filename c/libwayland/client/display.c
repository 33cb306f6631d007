/* Displays: connecting, sending, and how a connection ends. See client.h. */
#define _GNU_SOURCE
#include "client.h"

#include <errno.h>
#include <limits.h>
#include <stdlib.h>
#include <sys/un.h>
#include <unistd.h>

#define OUTBOX 65536

/* A libwayland whose buffers grow can send many descriptors before the bytes of their messages. Of those that wait
 * to be sent the process has duplicates, so these are as few as libwayland's 28 and those of a message. */
static const waywire_sizes display_sizes = { OUTBOX, 48, 65536, 256, WAYWIRE_USUAL_LIMIT };

/* ---- errors */

void reading_wake(struct wl_display *display)
{
	display->read_serial++;
	pthread_cond_broadcast(&display->has_read);
}

void display_fail(struct wl_display *display, int error)
{
	if (display->last_error)
		return;
	display->last_error = error ? error : EFAULT;
	reading_wake(display);
}

EXPORT int wl_display_get_error(struct wl_display *display)
{
	pthread_mutex_lock(&display->mutex);
	int error = display->last_error;
	pthread_mutex_unlock(&display->mutex);
	return error;
}

EXPORT uint32_t wl_display_get_protocol_error(struct wl_display *display,
	const struct wl_interface **interface, uint32_t *id)
{
	pthread_mutex_lock(&display->mutex);
	uint32_t code = display->protocol_error.code;
	if (interface)
		*interface = display->protocol_error.interface;
	if (id)
		*id = display->protocol_error.id;
	pthread_mutex_unlock(&display->mutex);
	return code;
}

/* ---- connecting */

/* Sets up a display with a client. */
static void init_display(struct wl_display *display)
{
	struct wl_proxy *proxy = &display->proxy;
	queue_init(&display->display_queue, display);
	queue_init(&display->default_queue, display);
	wl_list_init(&display->backlog.parcels);
	pthread_mutex_init(&display->mutex, NULL);
	pthread_cond_init(&display->has_read, NULL);
	proxy->object.interface = &wl_display_interface;
	proxy->object.implementation = display; /* it has a listener already */
	proxy->display = display;
	proxy_attach(proxy, &display->default_queue);
	proxy->user_data = display;
	proxy->references = 1;
	if (!tables_agree(display, proxy->object.interface))
		display_fail(display, errno);
	proxy_give_object(proxy, waywire_end_display(display->client.end));
}

/* Frees a display whose descriptor is closed and whose end is given up. */
static void free_display(struct wl_display *display)
{
	waywire_end_free(display->client.end);
	pthread_mutex_destroy(&display->mutex);
	pthread_cond_destroy(&display->has_read);
	known_drop(&display->known);
	free(display);
}

EXPORT struct wl_display *wl_display_connect_to_fd(int fd)
{
	log_read_debug("client");
	struct wl_display *display = calloc(1, sizeof *display);
	if (!display || !tables_make_client(display, &display_sizes)) {
		if (display)
			known_drop(&display->known);
		free(display);
		waywire_socket_close(fd, NULL);
		return NULL;
	}
	display->fd = fd;
	init_display(display);
	if (!display->last_error)
		return display;
	errno = display->last_error;
	waywire_socket_close(fd, NULL);
	free_display(display);
	return NULL;
}

/* Says on stderr why the environment has no address of a compositor. errno is kept. */
static void explain(const char *name)
{
	const char *folder = getenv("XDG_RUNTIME_DIR");
	if (!name)
		name = getenv("WAYLAND_DISPLAY");
	if (!name)
		name = "wayland-0";
	if (errno == ENAMETOOLONG)
		log_line("the path of the socket %s is longer than %zu bytes\n", name,
			sizeof((struct sockaddr_un *)0)->sun_path - 1);
	else if (errno == ENOENT && *name != '/' && (!folder || *folder != '/'))
		log_line("XDG_RUNTIME_DIR is not set to an absolute path\n");
}

EXPORT struct wl_display *wl_display_connect(const char *name)
{
	bool is_inherited = getenv("WAYLAND_SOCKET");
	int fd = waywire_socket_connect(name);
	if (fd >= 0)
		return wl_display_connect_to_fd(fd);
	if (!is_inherited)
		explain(name);
	return NULL;
}

/* Ends the client's references to the proxies of its objects. */
static void let_go_of_all(struct wl_display *display)
{
	const waywire_end *end = display->client.end;
	waywire_object object = { 0, 0 };
	while (!waywire_end_object_after(end, object.id, &object)) {
		struct wl_proxy *proxy = NULL;
		/* The pointer of a dead object of the server may be invalid. */
		if (object.id < WAYWIRE_FIRST_SERVER_ID || !waywire_end_live(end, object, NULL, NULL))
			proxy = waywire_end_user(end, object);
		if (proxy)
			proxy_let_go(proxy);
	}
}

/* What was not flushed is dropped, as in libwayland. The proxies that the program has not destroyed
 * are its own to free no more. */
EXPORT void wl_display_disconnect(struct wl_display *display)
{
	queue_drain(&display->default_queue);
	queue_drain(&display->display_queue);
	let_go_of_all(display);
	queue_detach_all(&display->default_queue);
	backlog_drop(&display->backlog);
	waywire_socket_close(display->fd, display->client.end);
	free_display(display);
}

EXPORT int wl_display_get_fd(struct wl_display *display)
{
	return display->fd;
}

/* ---- sending */

int display_flush(struct wl_display *display)
{
	if (backlog_send(&display->backlog, display->fd))
		return -1;
	return waywire_socket_flush(display->fd, display->client.end);
}

size_t display_waiting_bytes(const struct wl_display *display)
{
	return display_sizes.out_bytes - waywire_end_out_room(display->client.end).bytes;
}

bool display_make_room(struct wl_display *display)
{
	size_t before = display_waiting_bytes(display);
	if (!display_flush(display))
		return true;
	if (errno != EAGAIN)
		return false;
	if (display_waiting_bytes(display) < before)
		return true;
	if (display->most_waiting && display->backlog.bytes + before + OUTBOX > display->most_waiting)
		return false;
	return backlog_take(&display->backlog, display->client.end);
}

/* Sends what waits, unless the connection has ended. The lock is taken. A compositor that has gone
 * may have said why: that can still be read. */
static int flush_unless_ended(struct wl_display *display)
{
	if (display->last_error) {
		errno = display->last_error;
		return -1;
	}
	int result = display_flush(display);
	if (result && errno != EAGAIN && errno != EPIPE)
		display_fail(display, errno);
	return result;
}

EXPORT int wl_display_flush(struct wl_display *display)
{
	pthread_mutex_lock(&display->mutex);
	size_t waits = display_waiting_bytes(display) + display->backlog.bytes;
	int result = flush_unless_ended(display);
	pthread_mutex_unlock(&display->mutex);
	return result ? -1 : waits < INT_MAX ? (int)waits : INT_MAX;
}

/* A limit below the size of the outbox is no less than that: see `display_make_room`. */
EXPORT void wl_display_set_max_buffer_size(struct wl_display *display, size_t most)
{
	pthread_mutex_lock(&display->mutex);
	display->most_waiting = most;
	pthread_mutex_unlock(&display->mutex);
}

void report_close_descriptors(const waywire_report *report)
{
	int error = errno;
	for (size_t i = 0; i < report->token_count; i++)
		close((int)report->tokens[i]);
	errno = error;
}
