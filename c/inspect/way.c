/* One direction of a session. */
#define _GNU_SOURCE
#include "inspect.h"

#include <errno.h>
#include <unistd.h>

bool way_waits(const struct way *way)
{
	return way->from < way->to;
}

void way_close_descriptors(struct way *way)
{
	while (way->descriptor_count)
		close(way->descriptors[--way->descriptor_count]);
}

enum came way_read(struct way *way)
{
	const waywire_part parts[2] = { { way->bytes, PIECE_BYTES }, { NULL, 0 } };
	ssize_t came = waywire_socket_receive_up_to(way->source, parts, way->descriptors,
		PIECE_DESCRIPTORS, &way->descriptor_count);
	if (came < 0 && (errno == EMFILE || errno == EOVERFLOW))
		return CAME_TOO_MANY;
	if (!came || (came < 0 && (errno == EPIPE || errno == ECONNRESET)))
		return CAME_END;
	if (came < 0)
		return CAME_NOTHING;
	way->from = 0;
	way->to = (size_t)came;
	return CAME_PIECE;
}

void way_write(struct way *way)
{
	const waywire_part parts[2] = { { way->bytes + way->from, way->to - way->from }, { NULL, 0 } };
	ssize_t sent = waywire_socket_send(way->target, parts, way->descriptors, way->descriptor_count);
	way->is_later = sent < 0 && (errno == ETOOMANYREFS || errno == ENOBUFS || errno == ENOMEM);
	if (sent < 0 && (way->is_later || errno == EAGAIN))
		return;
	way_close_descriptors(way); /* they went with the first byte */
	if (sent < 0) {
		way->is_open = false; /* the target is gone */
		way->from = way->to;
		return;
	}
	way->from += (size_t)sent;
}
