/* What waits behind a socket that takes no more. An outbox has a fixed size; what it cannot hold is moved here, and is
 * sent before what is in the outbox. See backlog.h. */
#include "backlog.h"

#include <errno.h>
#include <stdlib.h>
#include <string.h>
#include <unistd.h>

/* Bytes of the outbox, and the descriptors that go with the first of them. */
struct parcel {
	struct wl_list link;
	size_t length, sent;
	size_t descriptor_count;
	int descriptors[WAYWIRE_MAX_ARGS];
	char bytes[];
};

static void close_descriptors(struct parcel *parcel)
{
	while (parcel->descriptor_count)
		close(parcel->descriptors[--parcel->descriptor_count]);
}

static void end_parcel(struct parcel *parcel)
{
	close_descriptors(parcel);
	wl_list_remove(&parcel->link);
	free(parcel);
}

/* Copies what one sendmsg would send. Null with errno. */
static struct parcel *new_parcel(const waywire_part parts[2], const uint32_t *tokens, size_t count)
{
	size_t length = parts[0].length + parts[1].length;
	struct parcel *parcel = malloc(sizeof *parcel + length);
	if (!parcel)
		return NULL;
	parcel->length = length;
	parcel->sent = 0;
	parcel->descriptor_count = count;
	for (size_t i = 0; i < count; i++)
		parcel->descriptors[i] = (int)tokens[i];
	if (parts[0].length)
		memcpy(parcel->bytes, parts[0].bytes, parts[0].length);
	if (parts[1].length)
		memcpy(parcel->bytes + parts[0].length, parts[1].bytes, parts[1].length);
	return parcel;
}

bool backlog_take(struct backlog *backlog, waywire_end *end)
{
	waywire_part parts[2];
	uint32_t tokens[WAYWIRE_MAX_ARGS];
	size_t count;
	while (!waywire_end_peek(end, parts, tokens, WAYWIRE_MAX_ARGS, &count)
		&& parts[0].length + parts[1].length) {
		struct parcel *parcel = new_parcel(parts, tokens, count);
		if (!parcel)
			return false;
		wl_list_insert(backlog->parcels.prev, &parcel->link);
		backlog->bytes += parcel->length;
		waywire_end_sent(end, parcel->length);
	}
	return true;
}

int backlog_send(struct backlog *backlog, int socket)
{
	while (!wl_list_empty(&backlog->parcels)) {
		struct parcel *parcel = wl_container_of(backlog->parcels.next, parcel, link);
		waywire_part parts[2] = { { parcel->bytes + parcel->sent, parcel->length - parcel->sent },
			{ NULL, 0 } };
		ssize_t sent = waywire_socket_send(socket, parts, parcel->descriptors,
			parcel->descriptor_count);
		if (sent < 0)
			return -1;
		close_descriptors(parcel); /* they went with the first byte */
		parcel->sent += (size_t)sent;
		backlog->bytes -= (size_t)sent;
		if (parcel->sent == parcel->length)
			end_parcel(parcel);
	}
	return 0;
}

void backlog_drop(struct backlog *backlog)
{
	struct parcel *parcel, *next;
	wl_list_for_each_safe(parcel, next, &backlog->parcels, link)
		end_parcel(parcel);
	backlog->bytes = 0;
}
