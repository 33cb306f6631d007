/* What waits behind a socket that takes no more. */
#ifndef WAYWIRE_WAYLAND_BACKLOG_H
#define WAYWIRE_WAYLAND_BACKLOG_H

#include "wayland-abi.h"

#include <waywire-socket.h>

/* It goes before what is in the outbox. */
struct backlog {
	struct wl_list parcels;
	size_t bytes; /* in all parcels, without those that were sent */
};

/* Moves the outbox into the backlog. False with errno if there is no memory for all of it: the rest stays. */
bool backlog_take(struct backlog *backlog, waywire_end *end);

/* Sends the backlog. Returns 0 when nothing is left, or -1 with errno, as waywire_socket_send. */
int backlog_send(struct backlog *backlog, int socket);

/* Closes the descriptors of the backlog, and frees all. */
void backlog_drop(struct backlog *backlog);

#endif
