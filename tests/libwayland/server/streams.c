/* What a compositor makes of a client whose bytes are cut at each place or changed at each place in three ways, and of
 * one that is cut and dies. Prints a line for each.
 *
 *     streams [STEP]
 *
 * Each is played in a process of its own, so that a crash is also a line. With STEP all are played in this process, as
 * valgrind needs it, and only each STEPth byte is tried. */
#define _GNU_SOURCE
#define COUNT_CLOSES
#include "session.h"

/* How a byte is changed, or how the session ends there. */
static const char *const ways[] = { "cut", "split", "dies", "more", "ones", "sign" };
enum { CUT, SPLIT, DIES, MORE, ONES, SIGN, WAYS };

static unsigned char changed(unsigned char byte, int way)
{
	return way == MORE ? (unsigned char)(byte + 1) : way == ONES ? 0xff : byte ^ 0x80;
}

/* A way, and the index of a byte. */
struct change {
	int way;
	size_t index;
};

/* Sends the rest of a wire, whose descriptors were sent with its beginning. */
static void send_rest(const struct wire *wire, size_t from, int socket)
{
	if (from < wire->length)
		send(socket, wire->bytes + from, wire->length - from, MSG_NOSIGNAL);
}

static int play(const void *given)
{
	static struct peer peer;
	static struct wire wire;
	int way = ((const struct change *)given)->way, before = count_open();
	size_t index = ((const struct change *)given)->index;
	calls = sum = not_open = 0;
	closed_twice = 0;
	display = wl_display_create();
	MUST(display && wl_global_create(display, &thing_interface, 1, NULL, binds_thing));
	open_peer(&peer);
	write_session(&wire);
	if (way >= MORE)
		wire.bytes[index] = changed(wire.bytes[index], way);
	send_part(&wire, way < MORE ? index : wire.length, peer.socket);
	if (way == DIES)
		shutdown(peer.socket, SHUT_RDWR);
	serve(&peer);
	if (way == SPLIT)
		send_rest(&wire, index, peer.socket);
	serve(&peer);
	clear_wire(&wire);
	struct heard heard = parse(NULL, &peer);
	printf("%s %zu: ended %d, errors %u, deletes %u, others %u, calls %u, sum %u", ways[way], index, peer.has_ended,
		heard.errors, heard.deletes, heard.others, calls, sum);
	close_display();
	close(peer.socket);
	int left = count_open() - before;
	if (left || closed_twice || not_open)
		printf(", DESCRIPTORS: %d left open, %d closed twice, %d not open", left, closed_twice, not_open);
	printf("\n");
	return 0;
}

int main(int argc, char **argv)
{
	static struct wire whole;
	size_t step = argc > 1 ? (size_t)atoi(argv[1]) : 0;
	wl_log_set_handler_server(quiet);
	write_session(&whole);
	size_t length = whole.length;
	clear_wire(&whole);
	for (int way = 0; way < WAYS; way++)
		for (size_t at = 0; at < length; at += step ? step : 1) {
			struct change change = { way, at };
			int status = step ? play(&change) : play_apart(play, &change);
			if (status)
				printf("%s %zu: CRASHED by signal %d, status %d\n", ways[way], at, WTERMSIG(status),
					WEXITSTATUS(status));
			fflush(stdout);
		}
	return 0;
}
