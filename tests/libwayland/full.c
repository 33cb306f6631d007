/* A compositor that stops reading and reads again, while much more waits for it than the outbox of its client can hold.
 *
 * Without a limit all that was sent waits, as with libwayland 1.23. With a limit the connection ends once the socket
 * takes nothing. */
#define _GNU_SOURCE
#include "wire.h"
#include <fcntl.h>
#include <sys/stat.h>
#include <wayland-client.h>

#define REQUESTS 200000
#define POOLS 200
#define OUTBOX 65536

static struct wl_display *display;
static int peer;

/* Writes requests of 12 bytes, until the connection ends. */
static void write_requests(size_t count)
{
	while (count-- > 0 && !wl_display_get_error(display)) {
		struct wl_callback *callback = wl_display_sync(display);
		if (callback)
			wl_callback_destroy(callback);
	}
}

/* The compositor reads all that the socket has. */
static void read_all(void)
{
	char bytes[65536];
	while (recv(peer, bytes, sizeof bytes, MSG_DONTWAIT) > 0)
		continue;
}

static void connect_pair(void)
{
	int sockets[2], smallest = 1;
	make_pair(sockets);
	peer = sockets[1];
	MUST(!setsockopt(sockets[0], SOL_SOCKET, SO_SNDBUF, &smallest, sizeof smallest));
	display = wl_display_connect_to_fd(sockets[0]);
	MUST(display);
}

static void disconnect(void)
{
	wl_display_disconnect(display);
	close(peer);
}

/* ---- with a limit */

/* The socket holds less than a flush has to send, so each flush of a full outbox sends only a part of it. */
static void takes_a_part(void)
{
	while (!(wl_display_flush(display) < 0 && errno == EAGAIN))
		write_requests(1);
	write_requests(4000);
	for (int turn = 0; turn < 200; turn++) {
		read_all();
		write_requests(100);
		MUST(!wl_display_get_error(display));
	}
}

/* The connection has ended, because the socket took nothing. Then the compositor reads. */
static void has_ended(void)
{
	write_requests(20000);
	MUST(wl_display_get_error(display) == EAGAIN);
	read_all();
	MUST(wl_display_dispatch(display) == -1 && errno == EAGAIN);
	MUST(wl_display_flush(display) == -1 && errno == EAGAIN);
	MUST(wl_display_roundtrip(display) == -1);
}

/* How many requests it takes until a display with this limit ends. */
static size_t requests_until_it_ends(size_t most)
{
	size_t count = 0;
	connect_pair();
	limit_waiting(display, most);
	for (; !wl_display_get_error(display); count++)
		write_requests(1);
	MUST(wl_display_get_error(display) == EAGAIN);
	disconnect();
	return count;
}

static void is_limited(void)
{
	connect_pair();
	limit_waiting(display, OUTBOX);
	takes_a_part();
	has_ended();
	disconnect();
	size_t least = requests_until_it_ends(1), more = requests_until_it_ends(4 * OUTBOX);
	MUST(least == requests_until_it_ends(OUTBOX) && least * 12 > OUTBOX);
	MUST((more - least) * 12 > 2 * OUTBOX && (more - least) * 12 <= 3 * OUTBOX);
}

/* ---- without one */

/* What the compositor has read: the requests, and the descriptors, each with the place of the first byte that was
 * read with it. */
static unsigned char *came;
static size_t length;
static struct {
	size_t place;
	off_t size;
} descriptors[POOLS];
static size_t count;

/* Reads once. False if there is nothing. */
static int read_once(void)
{
	char control[CMSG_SPACE(MOST_DESCRIPTORS * sizeof(int))];
	struct iovec part = { came + length, 65536 };
	struct msghdr head = { .msg_iov = &part, .msg_iovlen = 1, .msg_control = control,
		.msg_controllen = sizeof control };
	ssize_t more = recvmsg(peer, &head, MSG_DONTWAIT | MSG_CMSG_CLOEXEC);
	if (more <= 0)
		return 0;
	for (struct cmsghdr *header = CMSG_FIRSTHDR(&head); header; header = CMSG_NXTHDR(&head, header))
		for (size_t at = 0; at < (header->cmsg_len - CMSG_LEN(0)) / sizeof(int); at++) {
			struct stat file;
			int descriptor = ((int *)(void *)CMSG_DATA(header))[at];
			MUST(count < POOLS && !fstat(descriptor, &file));
			descriptors[count].place = length;
			descriptors[count++].size = file.st_size;
			close(descriptor);
		}
	length += (size_t)more;
	return 1;
}

/* Each pool has a file of another size. */
static void write_pool(struct wl_shm *shm, int size)
{
	int descriptor = new_descriptor();
	MUST(!ftruncate(descriptor, size));
	wl_shm_pool_destroy(wl_shm_create_pool(shm, descriptor, size));
	close(descriptor);
}

/* Each request is there, once and in order, and each descriptor came no later than the first byte of its message. */
static void check_what_came(void)
{
	uint32_t words[4], syncs = 0, next_id = 2;
	size_t pools = 0;
	for (size_t at = 0; at < length; at += words[1] >> 16) {
		MUST(length - at >= 8);
		memcpy(words, came + at, length - at < sizeof words ? length - at : sizeof words);
		if (words[0] == 1) {
			MUST(words[1] >> 16 == 12 && words[2] == next_id++);
			syncs += !(words[1] & 0xffff);
		} else if (words[0] == 3 && words[1] >> 16 == 16 && !(words[1] & 0xffff)) {
			MUST(words[2] == next_id++ && pools < count);
			MUST(descriptors[pools].size == (off_t)words[3]);
			MUST(descriptors[pools].place <= at && words[3] == ++pools);
		} else if (words[0] == 2) {
			next_id++; /* the bind */
		}
	}
	MUST(syncs == REQUESTS && pools == POOLS && count == POOLS);
}

static void has_no_limit(void)
{
	connect_pair();
	came = malloc(16 * REQUESTS + 64 * POOLS + 65536 * 2);
	MUST(came);
	struct wl_registry *registry = wl_display_get_registry(display);
	struct wl_shm *shm = wl_registry_bind(registry, 1, &wl_shm_interface, 1);
	for (int pool = 1; pool <= POOLS; pool++) {
		write_requests(REQUESTS / POOLS);
		write_pool(shm, pool);
	}
	MUST(!wl_display_get_error(display));
	for (int flushed = -1; flushed < 0;) {
		flushed = wl_display_flush(display);
		MUST(flushed >= 0 || errno == EAGAIN);
		while (read_once())
			continue;
	}
	check_what_came();
	write_requests(20000);
	write_pool(shm, 1); /* it is dropped, and its descriptor is closed */
	wl_shm_destroy(shm);
	wl_registry_destroy(registry);
	free(came);
	disconnect();
}

int main(void)
{
	int before = count_open();
	alarm(HANGS);
	wl_log_set_handler_client(quiet);
	is_limited();
	has_no_limit();
	MUST(count_open() == before);
	return 0;
}
