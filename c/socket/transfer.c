/* Bytes and descriptors through a socket, and between it and an end: see waywire-socket.h. */
#define _GNU_SOURCE
#include "socket.h"

#include <errno.h>
#include <limits.h>
#include <sys/socket.h>
#include <unistd.h>

#define MOST WAYWIRE_SOCKET_DESCRIPTORS
/* The most descriptors that the kernel passes at once, its SCM_MAX_FD. */
#define MOST_OF_KERNEL 253

/* What sendmsg and recvmsg take. A control message is aligned as its length is, a size_t. */
struct parcel {
	struct msghdr message;
	struct iovec parts[2];
	size_t control[CMSG_SPACE(MOST_OF_KERNEL * sizeof(int)) / sizeof(size_t)];
};

/* The control data, a kilobyte, are not cleared: the kernel reads and writes no more than `msg_controllen` of them. */
static void begin_parcel(struct parcel *parcel, const waywire_part parts[2])
{
	memset(&parcel->message, 0, sizeof parcel->message);
	for (int i = 0; i < 2; i++) {
		parcel->parts[i].iov_base = parts[i].bytes;
		parcel->parts[i].iov_len = parts[i].length;
	}
	parcel->message.msg_iov = parcel->parts;
	parcel->message.msg_iovlen = 2;
}

ssize_t waywire_socket_send(int socket, const waywire_part parts[2], const int *descriptors,
	size_t count)
{
	struct parcel parcel;
	ssize_t sent;
	if (count > MOST_OF_KERNEL || (!parts[0].length && !parts[1].length)) {
		errno = EINVAL; /* without a byte the kernel would drop the descriptors */
		return -1;
	}
	begin_parcel(&parcel, parts);
	if (count) {
		parcel.message.msg_control = parcel.control;
		parcel.message.msg_controllen = CMSG_SPACE(count * sizeof *descriptors);
		memset(parcel.control, 0, parcel.message.msg_controllen);
		struct cmsghdr *header = CMSG_FIRSTHDR(&parcel.message);
		header->cmsg_level = SOL_SOCKET;
		header->cmsg_type = SCM_RIGHTS;
		header->cmsg_len = CMSG_LEN(count * sizeof *descriptors);
		memcpy(CMSG_DATA(header), descriptors, count * sizeof *descriptors);
	}
	do
		sent = sendmsg(socket, &parcel.message, MSG_NOSIGNAL | MSG_DONTWAIT);
	while (sent < 0 && errno == EINTR);
	return sent;
}

static void close_all(const int *descriptors, size_t count)
{
	int error = errno;
	while (count)
		close(descriptors[--count]);
	errno = error;
}

/* Takes the descriptors out of what came; returns how many they are. */
static size_t descriptors_of(struct msghdr *message, int *descriptors)
{
	size_t count = 0;
	for (struct cmsghdr *header = CMSG_FIRSTHDR(message); header; header = CMSG_NXTHDR(message, header)) {
		if (header->cmsg_level != SOL_SOCKET || header->cmsg_type != SCM_RIGHTS)
			continue;
		size_t size = header->cmsg_len - CMSG_LEN(0);
		memcpy(descriptors + count, CMSG_DATA(header), size);
		count += size / sizeof *descriptors;
	}
	return count;
}

ssize_t waywire_socket_receive_up_to(int socket, const waywire_part parts[2], int *descriptors,
	size_t room, size_t *count)
{
	struct parcel parcel;
	ssize_t came;
	*count = 0;
	if (!parts[0].length && !parts[1].length) {
		errno = ENOBUFS; /* 0 would say that the stream has ended */
		return -1;
	}
	begin_parcel(&parcel, parts);
	parcel.message.msg_control = parcel.control;
	/* If this were CMSG_SPACE, the kernel would fill its padding with one descriptor more. */
	parcel.message.msg_controllen
		= CMSG_LEN((room < MOST_OF_KERNEL ? room : MOST_OF_KERNEL) * sizeof *descriptors);
	do
		came = recvmsg(socket, &parcel.message, MSG_CMSG_CLOEXEC | MSG_DONTWAIT);
	while (came < 0 && errno == EINTR);
	if (came < 0)
		return -1;
	size_t found = descriptors_of(&parcel.message, descriptors);
	if (parcel.message.msg_flags & MSG_CTRUNC) {
		close_all(descriptors, found);
		errno = found < room ? EMFILE : EOVERFLOW;
		return -1;
	}
	*count = found;
	return came;
}

ssize_t waywire_socket_receive(int socket, const waywire_part parts[2], int descriptors[MOST],
	size_t *count)
{
	return waywire_socket_receive_up_to(socket, parts, descriptors, MOST, count);
}

/* ---- an end */

void report_close_tokens(const uint32_t *tokens, size_t count)
{
	int error = errno;
	while (count)
		close((int)tokens[--count]);
	errno = error;
}

/* Unlike waywire_end_peek, `goes` looks at no more than the message that the first byte is of. */
bool socket_has_waiting(const waywire_end *end)
{
	return waywire_end_goes(end, 1, WAYWIRE_MAX_ARGS).bytes;
}

int socket_flush_end(int socket, waywire_end *end, bool *went)
{
	waywire_part parts[2];
	uint32_t tokens[WAYWIRE_MAX_ARGS];
	int descriptors[WAYWIRE_MAX_ARGS];
	size_t count;
	*went = false;
	if (!end) {
		errno = EINVAL;
		return -1;
	}
	while (socket_has_waiting(end)) {
		waywire_end_peek(end, parts, tokens, WAYWIRE_MAX_ARGS, &count);
		for (size_t i = 0; i < count; i++)
			descriptors[i] = (int)tokens[i];
		ssize_t sent = waywire_socket_send(socket, parts, descriptors, count);
		if (sent < 0)
			return -1;
		waywire_end_sent(end, (size_t)sent);
		close_all(descriptors, count); /* they went with the first byte */
		*went = true;
	}
	return 0;
}

int waywire_socket_flush(int socket, waywire_end *end)
{
	bool went;
	return socket_flush_end(socket, end, &went);
}

void connection_drop_outbox(waywire_end *end)
{
	waywire_part parts[2];
	uint32_t tokens[WAYWIRE_MAX_ARGS];
	size_t count;
	while (!waywire_end_peek(end, parts, tokens, WAYWIRE_MAX_ARGS, &count)
		&& waywire_end_sent(end, parts[0].length + parts[1].length).bytes)
		report_close_tokens(tokens, count);
}

ssize_t waywire_socket_fill(int socket, waywire_end *end)
{
	waywire_part parts[2] = { { NULL, 0 }, { NULL, 0 } };
	waywire_amounts fed;
	uint32_t tokens[MOST];
	int descriptors[MOST];
	size_t count;
	if (waywire_end_in_room(end).tokens < MOST) {
		errno = ENOBUFS;
		return -1;
	}
	waywire_end_space(end, parts);
	ssize_t came = waywire_socket_receive(socket, parts, descriptors, &count);
	if (came <= 0)
		return came;
	for (size_t i = 0; i < count; i++)
		tokens[i] = (uint32_t)descriptors[i];
	/* It takes in all, since there was room. */
	waywire_end_received(end, (size_t)came, tokens, count, &fed);
	return came;
}

void waywire_socket_close(int socket, waywire_end *end)
{
	uint32_t tokens[MOST];
	size_t count = 0;
	int error = errno;
	do
		report_close_tokens(tokens, count);
	while (end && !waywire_end_take_waiting_tokens(end, tokens, MOST, &count) && count);
	if (socket >= 0)
		close(socket);
	errno = error;
}
