/* What tests of two ends share that have nothing between them: a client, a server, and what goes from one to the
 * other. */
#ifndef PAIR_H
#define PAIR_H

#include "must.h"

struct pair {
	waywire_client client;
	waywire_server server;
	waywire_wl_display display;
	waywire_wl_registry registry;
};

/* All that waits at one end goes to the other. Returns how many bytes that was. */
static inline size_t carry(waywire_end *from, waywire_end *to)
{
	static unsigned char bytes[65536];
	uint32_t tokens[64];
	waywire_amounts taken, fed;
	MUST(!waywire_end_take(from, bytes, sizeof bytes, tokens, 64, &taken));
	MUST(!waywire_end_feed(to, bytes, taken.bytes, tokens, taken.tokens, &fed));
	MUST(fed.bytes == taken.bytes && fed.tokens == taken.tokens);
	return taken.bytes;
}

static inline size_t to_server(struct pair *pair)
{
	return carry(pair->client.end, pair->server.end);
}

static inline size_t to_client(struct pair *pair)
{
	return carry(pair->server.end, pair->client.end);
}

/* Carries what waits, and reads a message of it. */
static inline waywire_report reads(waywire_end *from, waywire_end *to)
{
	waywire_report report;
	carry(from, to);
	MUST(!waywire_end_next(to, &report) && report.kind == WAYWIRE_MESSAGE);
	return report;
}

static inline waywire_report server_reads(struct pair *pair)
{
	return reads(pair->client.end, pair->server.end);
}

static inline waywire_wl_registry get_registry(waywire_client client)
{
	waywire_wl_registry made;
	waywire_wl_display display = waywire_wl_display_of(waywire_end_display(client.end));
	MUST(!waywire_wl_display_get_registry(client, display, &made));
	return made;
}

/* Both ends, and a registry that both have. */
static inline void open_pair(struct pair *pair, const waywire_tables *tables, const waywire_sizes *sizes)
{
	MUST(!waywire_client_new(tables, sizes, &pair->client));
	MUST(!waywire_server_new(tables, sizes, &pair->server));
	pair->display = waywire_wl_display_of(waywire_end_display(pair->client.end));
	pair->registry = get_registry(pair->client);
	server_reads(pair);
}

static inline void close_pair(struct pair *pair)
{
	waywire_end_free(pair->client.end);
	waywire_end_free(pair->server.end);
}

/* The index of an interface in the tables that an end has now. */
static inline uint16_t index_of(const waywire_end *end, const char *interface)
{
	uint16_t index;
	MUST(!waywire_tables_interface(waywire_end_tables(end), interface, &index));
	return index;
}

static inline uint32_t newest(const waywire_end *end, const char *interface)
{
	uint32_t version;
	MUST(!waywire_tables_version(waywire_end_tables(end), index_of(end, interface), &version));
	return version;
}

/* Advertises an interface, and returns an object of it, of its newest version, that both ends have. */
static inline waywire_object bound(struct pair *pair, const char *interface)
{
	uint16_t index = index_of(pair->server.end, interface);
	uint32_t version = newest(pair->server.end, interface), name = 0, last = 0;
	waywire_report report;
	waywire_object made;
	MUST(!waywire_server_add_global(pair->server, index, version, &name));
	MUST(!waywire_server_announce(pair->server, NULL, NULL));
	to_client(pair);
	do {
		MUST(!waywire_end_next(pair->client.end, &report));
		if (report.kind == WAYWIRE_MESSAGE)
			last = report.args[0].u;
	} while (report.kind != WAYWIRE_NOTHING);
	MUST(name == last); /* the returned name is the one that is announced */
	MUST(!waywire_client_bind(pair->client, pair->registry.object, name, interface, version, &made));
	report = server_reads(pair);
	MUST(waywire_object_equal(report.args[1].object, made) && report.args[1].u == version);
	return made;
}

/* What the calls that only ask say about an end. */
struct state {
	const waywire_tables *tables;
	size_t numbers[7];
};

static inline struct state state_of(const waywire_end *end)
{
	waywire_amounts room = waywire_end_in_room(end), goes = waywire_end_goes(end, SIZE_MAX, SIZE_MAX);
	return (struct state){ waywire_end_tables(end), { room.bytes, room.tokens, goes.bytes, goes.tokens,
		waywire_end_object_count(end), waywire_end_has_failed(end), waywire_end_is_drained(end) } };
}

static inline bool is_state_of(const waywire_end *end, struct state state)
{
	struct state now = state_of(end);
	return now.tables == state.tables && !memcmp(now.numbers, state.numbers, sizeof now.numbers);
}

#endif
