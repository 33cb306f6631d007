/* How a client ends if the bytes of its compositor are cut at each place, if the compositor dies there,
 * and if each byte is changed. Prints a line for each.
 *
 *     cuts [STEP]
 *
 * Each client is a process of its own, so that a crash is also a line. With STEP all clients are in this
 * process, as valgrind needs it, and only each STEPth byte is tried. The session ends with an error of
 * the compositor if it is cut, or if a byte of the error is changed. */
#define _GNU_SOURCE
#define COUNT_CLOSES
#include "session.h"

/* How a byte is changed, or how the session ends there. */
static const char *const ways[] = { "cut", "dies", "more", "ones", "zero", "sign" };
enum { CUT, DIES, MORE, ONES, ZERO, SIGN, WAYS };

static unsigned char changed(unsigned char byte, int way)
{
	switch (way) {
	case MORE: return (unsigned char)(byte + 1);
	case ONES: return 0xff;
	case ZERO: return 0;
	default: return byte ^ 0x80;
	}
}

/* Dispatches until an error. A client whose compositor dies also sends. */
static int dispatched(struct wl_display *display, int way)
{
	int status, turns = 0;
	do {
		if (way == DIES) {
			struct wl_callback *callback = wl_display_sync(display);
			if (callback)
				wl_callback_destroy(callback);
		}
		errno = 0;
		status = wl_display_dispatch(display);
	} while (status >= 0 && ++turns < 50);
	return status;
}

/* A way, and the index of a byte. */
struct cut {
	int way;
	size_t index;
};

static int play(const void *cut)
{
	int way = ((const struct cut *)cut)->way;
	size_t index = ((const struct cut *)cut)->index;
	static struct wire wire;
	static struct session session;
	int before = count_open(), sockets[2];
	closed_twice = 0;
	clear_wire(&wire);
	write_session(&wire);
	if (way < MORE || index >= wire.length)
		put_error(&wire);
	size_t length = way < MORE ? index : wire.length;
	if (way >= MORE)
		wire.bytes[index] = changed(wire.bytes[index], way);
	make_pair(sockets);
	open_session(&session, sockets[0]);
	MUST(session.display);
	send_part(&wire, length, sockets[1]);
	clear_wire(&wire);
	if (way == DIES)
		close(sockets[1]);
	else
		shutdown(sockets[1], SHUT_WR);
	int status = dispatched(session.display, way), error = errno;
	const struct wl_interface *interface = NULL;
	uint32_t id = 0, code = wl_display_get_protocol_error(session.display, &interface, &id);
	printf("%s %zu: %d %s, error %s, protocol error %u of %s@%u, ", ways[way], index, status,
		name_of(error), name_of(wl_display_get_error(session.display)), code,
		interface ? interface->name : "-", id);
	printf("events %u, sum %u, with the descriptor of another %u", session.events, session.sum,
		session.another);
	close_session(&session);
	if (way != DIES)
		close(sockets[1]);
	int left = count_open() - before;
	if (left || closed_twice || session.not_open)
		printf(", DESCRIPTORS: %d left open, %d closed twice, %d not open", left, closed_twice,
			session.not_open);
	printf("\n");
	return 0;
}

int main(int argc, char **argv)
{
	static struct wire whole;
	size_t step = argc > 1 ? (size_t)atoi(argv[1]) : 0;
	wl_log_set_handler_client(quiet);
	write_session(&whole);
	put_error(&whole);
	size_t length = whole.length;
	clear_wire(&whole);
	for (int way = 0; way < WAYS; way++)
		for (size_t i = 0; i < length + (way < MORE); i += step ? step : 1) {
			struct cut cut = { way, i };
			int status = step ? play(&cut) : play_apart(play, &cut);
			if (status)
				printf("%s %zu: CRASHED by signal %d, status %d\n", ways[way], i, WTERMSIG(status),
					WEXITSTATUS(status));
			fflush(stdout);
		}
	return 0;
}
