/* A client whose program moves the bytes itself: the loop of docs/GUIDE.md, with its steps 2 to 5. It reads which
 * globals there are, sends a descriptor (the memory of a wl_shm_pool), destroys the pool, and receives a
 * descriptor (the keymap of a keyboard). */
#define _GNU_SOURCE 1
#include <err.h>
#include <errno.h>
#include <poll.h>
#include <stdio.h>
#include <string.h>
#include <sys/mman.h>
#include <unistd.h>
#include <waywire-core.h>
#include <waywire-socket.h>

static waywire_tables *tables;
static waywire_client client;
static waywire_wl_shm shm;
static waywire_wl_seat seat;

/* Ends the program if a call was refused. Such a call has written nothing. */
static void must(waywire_status status)
{
	if (status)
		errx(1, "%s", waywire_strerror(status));
}

/* An event. `interface` points into the end, until a call changes the end. */
static void on_global(void *data, waywire_wl_registry registry, uint32_t name,
	const char *interface, uint32_t version)
{
	(void)data, (void)version;
	if (!strcmp(interface, WAYWIRE_WL_SHM_NAME))
		must(waywire_wl_shm_bind(client, registry, name, 1, &shm));
	else if (!strcmp(interface, WAYWIRE_WL_SEAT_NAME))
		must(waywire_wl_seat_bind(client, registry, name, 1, &seat));
}

/* An event with a descriptor, which is the callback's to close. */
static void on_keymap(void *data, waywire_wl_keyboard keyboard, uint32_t format, int fd,
	uint32_t size)
{
	(void)data, (void)keyboard, (void)format;
	printf("a keymap of %u bytes\n", (unsigned)size);
	close(fd);
}

static const struct waywire_wl_registry_events registry_events = { .global = on_global };
static const struct waywire_wl_keyboard_events keyboard_events = { .keymap = on_keymap };
static const waywire_listener listeners[] = {
	{ WAYWIRE_WL_KEYBOARD_NAME, waywire_wl_keyboard_event_dispatcher, &keyboard_events },
	{ WAYWIRE_WL_REGISTRY_NAME, waywire_wl_registry_event_dispatcher, &registry_events },
};

/* Step 5: reads all messages that came. Returns whether `last` was among those that ended. */
static bool read_messages(waywire_object last)
{
	bool has_ended = false;
	for (;;) {
		waywire_report report;
		waywire_status status = waywire_end_next(client.end, &report);
		if (waywire_is_fault(status)) /* the compositor broke a rule: the end has failed */
			errx(1, "byte %llu: %s", (unsigned long long)report.offset, waywire_strerror(status));
		must(status);
		if (report.kind == WAYWIRE_ERROR) /* the compositor has ended the connection */
			errx(1, "object %u: %s", (unsigned)report.id, report.text);
		if (report.kind == WAYWIRE_NOTHING)
			return has_ended;
		if (report.kind == WAYWIRE_DELETED && waywire_object_equal(report.target, last))
			has_ended = true;
		else if (!waywire_dispatch(tables, listeners, 2, NULL, &report))
			for (size_t it = 0; it < report.token_count; it++)
				close((int)report.tokens[it]); /* no callback has got it */
	}
}

/* Steps 2 to 5, until the compositor has answered all that was sent. */
static void round_trip(int socket)
{
	waywire_wl_callback callback;
	bool has_ended = false;
	must(waywire_wl_display_sync(client, waywire_wl_display_of(waywire_end_display(client.end)),
		&callback));
	while (!has_ended) {
		bool waits = waywire_socket_flush(socket, client.end) < 0; /* the socket takes no more */
		/* If the compositor has closed the socket, it may have said why: that can still be read. */
		if (waits && errno != EAGAIN && errno != EPIPE && errno != ECONNRESET)
			err(1, "the socket");
		struct pollfd polled = { socket, (short)(waits ? POLLIN | POLLOUT : POLLIN), 0 };
		if (poll(&polled, 1, -1) < 0 && errno != EINTR)
			err(1, "poll");
		ssize_t count = waywire_socket_fill(socket, client.end);
		if (count == 0 || (count < 0 && errno == ECONNRESET)) /* reset: it had not read all */
			errx(1, "the compositor has gone");
		if (count < 0 && errno != EAGAIN)
			err(1, "the socket");
		has_ended = read_messages(callback.object);
	}
}

int main(void)
{
	const waywire_sizes sizes = { 65536, 64, 65536, 256, WAYWIRE_USUAL_LIMIT };
	must(waywire_tables_core(&tables));
	must(waywire_client_new(tables, &sizes, &client));
	int socket = waywire_socket_connect(NULL);
	if (socket < 0)
		err(1, "no compositor");

	waywire_wl_registry registry;
	must(waywire_wl_display_get_registry(client,
		waywire_wl_display_of(waywire_end_display(client.end)), &registry));
	round_trip(socket); /* on_global was called */
	if (!shm.object.id || !seat.object.id)
		errx(1, "no wl_shm or no wl_seat");

	int memory = memfd_create("pixels", MFD_CLOEXEC);
	if (memory < 0 || ftruncate(memory, 4096))
		err(1, "memory");
	waywire_wl_shm_pool pool;
	must(waywire_wl_shm_create_pool(client, shm, memory, 4096, &pool)); /* flush closes `memory` */
	must(waywire_wl_shm_pool_destroy(client, pool)); /* from here on `pool` is WAYWIRE_STALE */

	waywire_wl_keyboard keyboard;
	must(waywire_wl_seat_get_keyboard(client, seat, &keyboard));
	round_trip(socket); /* on_keymap was called */

	waywire_socket_close(socket, client.end); /* and each descriptor that still waits */
	waywire_end_free(client.end);
	waywire_tables_free(tables);
	return 0;
}
