/* The sockets at which clients connect, over waywire-socket.h, whose locks are those of libwayland. See server.h. */
#define _GNU_SOURCE
#include "server.h"

#include <errno.h>
#include <stdio.h>
#include <stdlib.h>
#include <string.h>
#include <sys/socket.h>
#include <sys/stat.h>
#include <unistd.h>

/* The last of the names wayland-0, wayland-1, .. that are tried. */
#define LAST_NUMBER 32

struct socket {
	struct wl_list link;
	waywire_listening_socket *listening; /* null: the compositor has passed in `fd` */
	int fd;
	struct wl_event_source *source;
};

static int on_client(int fd, uint32_t mask, void *data)
{
	(void)mask;
	int accepted = accept4(fd, NULL, NULL, SOCK_CLOEXEC);
	if (accepted < 0) {
		if (errno != EAGAIN)
			log_line("failed to accept: %s\n", strerror(errno));
	} else if (!wl_client_create(data, accepted)) {
		close(accepted);
	}
	return 1;
}

/* Waits for clients at a descriptor, which is that of `listening` if that is not null. False with errno; then both
 * are still the caller's. */
static bool add(struct wl_display *display, int fd, waywire_listening_socket *listening)
{
	struct socket *socket = calloc(1, sizeof *socket);
	if (!socket)
		return false;
	socket->source = wl_event_loop_add_fd(display->loop, fd, WL_EVENT_READABLE, on_client, display);
	if (!socket->source) {
		free(socket);
		return false;
	}
	socket->fd = fd;
	socket->listening = listening;
	wl_list_insert(display->sockets.prev, &socket->link);
	return true;
}

void sockets_close(struct wl_display *display)
{
	struct socket *socket, *next;
	wl_list_for_each_safe(socket, next, &display->sockets, link) {
		wl_event_source_remove(socket->source);
		if (socket->listening)
			waywire_listening_socket_close(socket->listening);
		else
			close(socket->fd);
		free(socket);
	}
}

/* Says why there is no socket of a name. errno is kept. */
static void explain(const char *name)
{
	if (errno == EADDRINUSE)
		log_line("unable to lock lockfile %s.lock, maybe another compositor is running\n", name);
	else if (errno == ENOENT && *name != '/')
		log_line("error: XDG_RUNTIME_DIR is invalid or not set in the environment\n");
	else if (errno == ENAMETOOLONG)
		log_line("error: the path of the socket %s exceeds 108 bytes\n", name);
	else
		log_line("bind() failed with error: %s\n", strerror(errno));
}

/* Returns the socket's name; null with errno. */
static const char *add_name(struct wl_display *display, const char *name)
{
	waywire_listening_socket *listening = waywire_socket_listen(name);
	if (!listening)
		return NULL;
	if (add(display, waywire_listening_socket_fd(listening), listening))
		return waywire_listening_socket_name(listening);
	int error = errno;
	waywire_listening_socket_close(listening);
	errno = error;
	return NULL;
}

EXPORT int wl_display_add_socket(struct wl_display *display, const char *name)
{
	if (!name)
		name = getenv("WAYLAND_DISPLAY");
	if (!name)
		name = "wayland-0";
	if (add_name(display, name))
		return 0;
	explain(name);
	return -1;
}

EXPORT const char *wl_display_add_socket_auto(struct wl_display *display)
{
	for (int number = 0; number <= LAST_NUMBER; number++) {
		char name[32];
		snprintf(name, sizeof name, "wayland-%d", number);
		const char *added = add_name(display, name);
		if (added)
			return added;
		if (errno != EADDRINUSE) {
			explain(name);
			return NULL;
		}
	}
	errno = EINVAL;
	return NULL;
}

EXPORT int wl_display_add_socket_fd(struct wl_display *display, int fd)
{
	struct stat found;
	if (fd < 0 || fstat(fd, &found) || !S_ISSOCK(found.st_mode))
		return -1;
	return add(display, fd, NULL) ? 0 : -1;
}
