/* The tool's own socket, and the compositor's. */
#define _GNU_SOURCE
#include "inspect.h"

#include <errno.h>
#include <stdio.h>
#include <stdlib.h>
#include <sys/socket.h>
#include <unistd.h>

/* How many names are tried if they are taken. */
#define NAMES 32
/* How long the compositor may take to have room for a connection, in milliseconds. */
#define PATIENCE 5000

/* The compositor's path, which has at most 107 bytes and a zero. */
static char compositor[108];

/* XDG_RUNTIME_DIR, which is an absolute path, as libwayland asks. */
static const char *runtime_folder(void)
{
	const char *folder = getenv("XDG_RUNTIME_DIR");
	if (!folder || !*folder)
		fail("XDG_RUNTIME_DIR is not set");
	if (*folder != '/')
		fail("XDG_RUNTIME_DIR is not an absolute path: %s", folder);
	return folder;
}

void find_compositor(void)
{
	const char *name = getenv("WAYLAND_DISPLAY");
	if (!name || !*name)
		name = "wayland-0";
	bool is_path = *name == '/';
	int length = snprintf(compositor, sizeof compositor, "%s%s%s", is_path ? "" : runtime_folder(),
		is_path ? "" : "/", name);
	if (length < 0 || (size_t)length >= sizeof compositor)
		fail("the path of the compositor's socket %s is too long", name);
}

int connect_to_compositor(void)
{
	int made = waywire_socket_connect_to(compositor, PATIENCE);
	if (made < 0)
		notice("no compositor at %s: %s", compositor, strerror(errno));
	return made;
}

waywire_listening_socket *listen_in_runtime_folder(void)
{
	const char *folder = runtime_folder();
	waywire_listening_socket *made = NULL;
	char name[64];
	errno = EADDRINUSE;
	for (int i = 0; !made && errno == EADDRINUSE && i < NAMES; i++) {
		snprintf(name, sizeof name, i ? "waywire-%ld-%d" : "waywire-%ld", (long)getpid(), i);
		made = waywire_socket_listen(name);
	}
	if (!made && errno == ENAMETOOLONG)
		fail("XDG_RUNTIME_DIR is too long for the path of a socket");
	if (!made)
		fail("cannot bind %s/%s: %s", folder, name, strerror(errno));
	return made;
}

bool is_at_end(int socket)
{
	char byte;
	ssize_t came = recv(socket, &byte, 1, MSG_PEEK | MSG_DONTWAIT);
	return came == 0 || (came < 0 && errno != EAGAIN && errno != EINTR);
}

bool is_hung_up(int socket)
{
	struct pollfd polled = { socket, 0, 0 };
	return poll(&polled, 1, 0) > 0 && polled.revents & (POLLHUP | POLLERR);
}
