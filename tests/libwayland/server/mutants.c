/* Sessions of clients that are wrong in places: requests that were changed, cut, left out, repeated or exchanged, with
 * descriptors where none belong, in pieces. The compositor ends some of the clients. It must not end itself, nor keep a
 * descriptor; the sanitizers, or valgrind, look at the rest.
 *
 *     mutants COUNT SEED
 */
#define _GNU_SOURCE
#define COUNT_CLOSES
#include "session.h"

#define MOST_REQUESTS 64

/* Requests one by one: each a wire of its own. */
static struct wire requests[MOST_REQUESTS];
static int count;
static uint64_t state;

/* A number below another one; 0 below 0. */
static uint32_t below(uint32_t most)
{
	state ^= state << 13;
	state ^= state >> 7;
	state ^= state << 17;
	return most ? (uint32_t)((state * 0x2545f4914f6cdd1du) >> 33) % most : 0;
}

/* Cuts the written session into its requests. Its descriptors go with the first ones. */
static void cut_into_requests(struct wire *wire)
{
	size_t at = 0;
	for (count = 0; at < wire->length; count++) {
		uint32_t second;
		memcpy(&second, wire->bytes + at + 4, sizeof second);
		memset(&requests[count], 0, sizeof requests[count]);
		requests[count].length = second >> 16;
		memcpy(requests[count].bytes, wire->bytes + at, requests[count].length);
		at += second >> 16;
	}
}

/* A session: the usual one, and requests of the core. */
static void write_requests(void)
{
	static struct wire wire;
	uint32_t id = LAST + 1;
	write_session(&wire);
	put_bind(&wire, 2, "wl_compositor", 4, id++);
	put_bind(&wire, 3, "wl_shm", 1, id++);
	for (uint32_t more = below(12); more; more--) {
		uint32_t surface = id++;
		put_message(&wire, LAST + 1, below(2), 1, surface);
		put_message(&wire, surface, (uint16_t)below(10), 1, id);
		if (below(2))
			put_message(&wire, 1, (uint16_t)below(2), 1, id++);
		if (below(2))
			put_message(&wire, surface, SURFACE_DESTROY, 0);
	}
	put_message(&wire, LAST + 2, 0, 2, id, 4096);
	cut_into_requests(&wire);
	clear_wire(&wire);
}

static void change(struct wire *wire)
{
	size_t at = below((uint32_t)wire->length);
	if (below(2))
		wire->bytes[at] ^= (unsigned char)(1u << below(8));
	else
		wire->bytes[at] = (unsigned char)below(256);
}

/* Changes one request, or the order of two. */
static void mutate(void)
{
	int at = (int)below((uint32_t)count), other = (int)below((uint32_t)count);
	struct wire kept = requests[at];
	switch (below(5)) {
	case 0:
		requests[at].length = 4 * below((uint32_t)(kept.length / 4));
		break;
	case 1:
		requests[at] = requests[other];
		break;
	case 2:
		requests[at] = requests[other];
		requests[other] = kept;
		break;
	default:
		if (kept.length)
			change(&requests[at]);
	}
}

/* Sends some of what is left, sometimes with a descriptor, and serves. */
static void send_some(struct wire *all, size_t *sent, struct peer *peer)
{
	static struct wire piece;
	size_t length = 1 + below((uint32_t)(all->length - *sent));
	memcpy(piece.bytes, all->bytes + *sent, length);
	piece.length = length;
	for (uint32_t more = below(4); more > 1; more--)
		put_descriptor(&piece, new_descriptor());
	*sent += length;
	asks(peer, &piece);
}

static void play(struct peer *peer)
{
	static struct wire all;
	size_t sent = 0;
	write_requests();
	for (uint32_t more = below(5); more; more--)
		mutate();
	all.length = 0;
	for (int at = 0; at < count; at++) {
		memcpy(all.bytes + all.length, requests[at].bytes, requests[at].length);
		all.length += requests[at].length;
	}
	open_peer(peer);
	while (sent < all.length && !peer->has_ended) {
		send_some(&all, &sent, peer);
		parse(NULL, peer);
	}
	close(peer->socket);
	serve(peer);
}

int main(int argc, char **argv)
{
	static struct peer peer;
	MUST(argc == 3);
	wl_log_set_handler_server(quiet);
	state = 88172645463325252u + strtoul(argv[2], NULL, 10);
	int before = count_open(), ended = 0;
	display = wl_display_create();
	MUST(display && wl_global_create(display, &thing_interface, 1, NULL, binds_thing));
	add_compositor();
	MUST(!wl_display_init_shm(display));
	for (int more = atoi(argv[1]); more; more--) {
		play(&peer);
		ended += peer.has_ended;
	}
	MUST(wl_list_empty(wl_display_get_client_list(display)));
	close_display();
	MUST(count_open() == before && !closed_twice && !not_open);
	printf("%d clients were ended\n", ended);
	return 0;
}
