/* Listening: see waywire-socket.h. */
#define _GNU_SOURCE
#include "socket.h"

#include <errno.h>
#include <fcntl.h>
#include <stdio.h>
#include <stdlib.h>
#include <sys/file.h>
#include <sys/socket.h>
#include <sys/stat.h>
#include <unistd.h>

/* The last of the names wayland-1, wayland-2, .. that are tried. */
#define LAST_NUMBER 32
#define BACKLOG 128
/* How often a lock file is opened that others remove meanwhile. */
#define TRIES 100
#define LOCK_MODE (S_IRUSR | S_IWUSR | S_IRGRP | S_IWGRP)

struct waywire_listening_socket {
	int fd, lock; /* -1: not open */
	struct sockaddr_un address;
	size_t name; /* where the name begins in the path */
	char lock_path[sizeof(((struct sockaddr_un *)NULL)->sun_path) + sizeof ".lock"];
};

/* Closes a descriptor, and leaves errno. */
static void close_quietly(int *fd)
{
	int error = errno;
	if (*fd >= 0)
		close(*fd);
	*fd = -1;
	errno = error;
}

static void unlink_quietly(const char *path)
{
	int error = errno;
	unlink(path);
	errno = error;
}

/* Whether the open lock file is still the one at its path: whoever held it may have removed it. */
static bool has_lock_path(const struct waywire_listening_socket *listening)
{
	struct stat open, found;
	return !fstat(listening->lock, &open) && !stat(listening->lock_path, &found)
		&& open.st_dev == found.st_dev && open.st_ino == found.st_ino;
}

/* Takes the lock of the path; false with errno, EADDRINUSE if another has it. */
static bool take_lock(struct waywire_listening_socket *listening)
{
	for (int i = 0; i < TRIES; i++) {
		listening->lock = open(listening->lock_path, O_RDWR | O_CREAT | O_CLOEXEC, LOCK_MODE);
		if (listening->lock < 0)
			return false;
		if (flock(listening->lock, LOCK_EX | LOCK_NB)) {
			if (errno == EWOULDBLOCK)
				errno = EADDRINUSE;
			close_quietly(&listening->lock);
			return false;
		}
		if (has_lock_path(listening))
			return true;
		close_quietly(&listening->lock);
	}
	errno = EADDRINUSE;
	return false;
}

static void give_lock(struct waywire_listening_socket *listening)
{
	unlink_quietly(listening->lock_path);
	close_quietly(&listening->lock);
}

/* Removes the socket of a server that is gone, whose lock we have. What is no socket stays, and the
 * path cannot be bound. */
static void remove_stale(const struct waywire_listening_socket *listening)
{
	struct stat found;
	if (!lstat(listening->address.sun_path, &found) && S_ISSOCK(found.st_mode))
		unlink(listening->address.sun_path);
}

/* Binds the path, whose lock we have, and listens there. */
static bool bind_path(struct waywire_listening_socket *listening)
{
	remove_stale(listening);
	listening->fd = socket(AF_UNIX, SOCK_STREAM | SOCK_CLOEXEC | SOCK_NONBLOCK, 0);
	if (listening->fd < 0)
		return false;
	if (!bind(listening->fd, (struct sockaddr *)&listening->address, sizeof listening->address)) {
		if (!listen(listening->fd, BACKLOG))
			return true;
		unlink_quietly(listening->address.sun_path);
	}
	close_quietly(&listening->fd);
	return false;
}

/* Listens under a name; false with errno. */
static bool listen_at(struct waywire_listening_socket *listening, const char *name)
{
	if (!*name) {
		errno = EINVAL;
		return false;
	}
	if (!socket_address(&listening->address, name))
		return false;
	listening->name = strlen(listening->address.sun_path) - strlen(name);
	snprintf(listening->lock_path, sizeof listening->lock_path, "%s.lock", listening->address.sun_path);
	if (!take_lock(listening))
		return false;
	if (bind_path(listening))
		return true;
	give_lock(listening);
	return false;
}

/* Listens under the first name that is free. */
static bool listen_at_next(struct waywire_listening_socket *listening)
{
	for (int number = 1; number <= LAST_NUMBER; number++) {
		char name[32];
		snprintf(name, sizeof name, "wayland-%d", number);
		if (listen_at(listening, name))
			return true;
	}
	return false;
}

waywire_listening_socket *waywire_socket_listen(const char *name)
{
	struct waywire_listening_socket *listening = calloc(1, sizeof *listening);
	if (!listening)
		return NULL;
	listening->fd = listening->lock = -1;
	if (name ? listen_at(listening, name) : listen_at_next(listening))
		return listening;
	int error = errno;
	free(listening);
	errno = error;
	return NULL;
}

int waywire_listening_socket_fd(const waywire_listening_socket *listening)
{
	return listening->fd;
}

const char *waywire_listening_socket_name(const waywire_listening_socket *listening)
{
	return listening->address.sun_path + listening->name;
}

int waywire_listening_socket_accept(const waywire_listening_socket *listening)
{
	int fd;
	do
		fd = accept4(listening->fd, NULL, NULL, SOCK_CLOEXEC);
	while (fd < 0 && (errno == EINTR || errno == ECONNABORTED));
	return fd;
}

void waywire_listening_socket_close(waywire_listening_socket *listening)
{
	if (!listening)
		return;
	unlink_quietly(listening->address.sun_path);
	close_quietly(&listening->fd);
	give_lock(listening);
	free(listening);
}
