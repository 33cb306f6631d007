/* Connecting: see waywire-socket.h. */
#define _GNU_SOURCE
#include "socket.h"

#include <errno.h>
#include <fcntl.h>
#include <limits.h>
#include <stdio.h>
#include <stdlib.h>
#include <sys/socket.h>
#include <sys/time.h>
#include <unistd.h>

bool socket_address(struct sockaddr_un *address, const char *name)
{
	const char *folder = "";
	if (*name != '/') {
		folder = getenv("XDG_RUNTIME_DIR");
		if (!folder || *folder != '/') {
			errno = ENOENT;
			return false;
		}
	}
	memset(address, 0, sizeof *address);
	address->sun_family = AF_UNIX;
	int length = snprintf(address->sun_path, sizeof address->sun_path, "%s%s%s", folder,
		*folder ? "/" : "", name);
	if (length >= 0 && (size_t)length < sizeof address->sun_path)
		return true;
	errno = ENAMETOOLONG;
	return false;
}

/* The descriptor that a text names; -1 with errno. */
static int descriptor_in(const char *text)
{
	char *behind;
	errno = 0;
	long number = strtol(text, &behind, 10);
	if (!errno && (number > INT_MAX || number < INT_MIN))
		errno = ERANGE;
	if (!errno && (behind == text || *behind))
		errno = EINVAL;
	return errno ? -1 : (int)number;
}

/* The socket that WAYLAND_SOCKET names, which is open. */
static int inherited(const char *text)
{
	int error = errno, fd = descriptor_in(text);
	if (errno)
		return -1;
	errno = error;
	int flags = fcntl(fd, F_GETFD);
	if (flags < 0)
		return -1;
	fcntl(fd, F_SETFD, flags | FD_CLOEXEC);
	unsetenv("WAYLAND_SOCKET");
	return fd;
}

/* Limits how long `connect` waits; the kernel takes 0 for no limit. */
static bool set_limit(int fd, struct timeval limit)
{
	return !setsockopt(fd, SOL_SOCKET, SO_SNDTIMEO, &limit, sizeof limit);
}

/* Connects a socket within this time, whatever signals come. Afterwards it has no limit; false with errno. */
static bool connect_within(int fd, const struct sockaddr_un *address, int milliseconds)
{
	int64_t end = connection_moment() + milliseconds;
	int failed;
	do {
		int64_t left = end - connection_moment();
		if (left < 0)
			left = 0;
		if (milliseconds >= 0
			&& !set_limit(fd, (struct timeval){ left / 1000, left % 1000 * 1000 + 1 }))
			return false;
		failed = connect(fd, (const struct sockaddr *)address, sizeof *address);
	} while (failed && errno == EINTR);
	return !failed && (milliseconds < 0 || set_limit(fd, (struct timeval){ 0, 0 }));
}

int waywire_socket_connect_to(const char *name, int milliseconds)
{
	struct sockaddr_un address;
	if (!name)
		name = getenv("WAYLAND_DISPLAY");
	if (!socket_address(&address, name ? name : "wayland-0"))
		return -1;
	int fd = socket(AF_UNIX, SOCK_STREAM | SOCK_CLOEXEC, 0);
	if (fd >= 0 && !connect_within(fd, &address, milliseconds)) {
		int error = errno;
		close(fd);
		errno = error;
		return -1;
	}
	return fd;
}

int waywire_socket_connect(const char *name)
{
	const char *open = getenv("WAYLAND_SOCKET");
	return open ? inherited(open) : waywire_socket_connect_to(name, -1);
}
