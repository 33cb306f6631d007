/* Messages and descriptors through a socket whose buffer is small, so that it takes a part of what it is given:
 * what is in the queues is written and read where it lies, and all of it arrives once, in order. Nothing is left
 * open. */
#define _GNU_SOURCE
#include "descriptors.h"

#include <errno.h>

#define POOLS 4000

/* Room for some messages, of no common divisor with their lengths. */
static const waywire_sizes sizes = { 4099, 64, 4097, 64 };
static waywire_tables *tables;
static waywire_client client;
static waywire_server server;
static int next_pool;

struct link {
	int socket;
	waywire_end *end;
};

static struct link of_client, of_server;

/* Sends what waits; whether all of it went. */
static bool flush(const struct link *link)
{
	bool all_went = !waywire_socket_flush(link->socket, link->end);
	MUST(all_went || errno == EAGAIN);
	return all_went;
}

/* Receives; whether something came. */
static bool fill(const struct link *link)
{
	ssize_t came = waywire_socket_fill(link->socket, link->end);
	MUST(came > 0 || (came < 0 && errno == EAGAIN));
	return came > 0;
}

/* Reads all that came, and looks that the pools are the next ones, each with its own descriptor. */
static void read_requests(void)
{
	waywire_report report;
	while (!waywire_end_next(server.end, &report) && report.kind != WAYWIRE_NOTHING) {
		MUST(report.kind == WAYWIRE_MESSAGE);
		if (report.arg_count != 3)
			continue;
		MUST(report.args[1].kind == WAYWIRE_FD && report.args[2].i == ++next_pool);
		MUST(length_of((int)report.args[1].u) == next_pool);
	}
	MUST(report.kind == WAYWIRE_NOTHING);
}

static void read_events(void)
{
	waywire_report report;
	do
		MUST(!waywire_end_next(client.end, &report));
	while (report.kind != WAYWIRE_NOTHING);
}

/* What waits at the client goes, in as many parts as the socket takes. Returns how many times it was full. */
static int carry(void)
{
	for (int full = 0;; full++) {
		bool all_went = flush(&of_client);
		while (fill(&of_server))
			read_requests();
		if (all_went)
			return full;
	}
}

static waywire_wl_shm bind_shm(void)
{
	waywire_wl_registry registry;
	waywire_wl_shm shm;
	waywire_report report;
	uint16_t index;
	MUST(!waywire_wl_display_get_registry(client, waywire_wl_display_of(waywire_end_display(client.end)),
		&registry));
	carry();
	MUST(!waywire_tables_interface(tables, WAYWIRE_WL_SHM_NAME, &index));
	MUST(!waywire_server_add_global(server, index, 1, NULL));
	MUST(!waywire_server_announce(server, NULL, NULL) && flush(&of_server));
	MUST(fill(&of_client) && !waywire_end_next(client.end, &report));
	MUST(!waywire_wl_shm_bind(client, registry, 1, 1, &shm));
	carry();
	return shm;
}

/* Sends pools, each with a descriptor, and lets them go by. */
static int send_pools(waywire_wl_shm shm)
{
	int full = 0;
	for (int i = 1; i <= POOLS; i++) {
		waywire_status status;
		waywire_wl_shm_pool pool;
		int descriptor = new_descriptor(i);
		while ((status = waywire_wl_shm_create_pool(client, shm, descriptor, i, &pool)) == WAYWIRE_FULL)
			full += carry();
		MUST(!status);
		while ((status = waywire_wl_shm_pool_destroy(client, pool)) == WAYWIRE_FULL)
			full += carry();
		MUST(!status);
		MUST(flush(&of_server));
		if (fill(&of_client))
			read_events();
	}
	return full + carry();
}

/* What no end gives or takes. */
static void refused(void)
{
	waywire_part parts[2];
	uint32_t token;
	size_t count;
	waywire_amounts amounts;
	MUST(waywire_end_peek(NULL, parts, &token, 1, &count) == WAYWIRE_NULL);
	MUST(waywire_end_peek(client.end, NULL, &token, 1, &count) == WAYWIRE_NULL);
	MUST(waywire_end_peek(client.end, parts, NULL, 1, &count) == WAYWIRE_NULL);
	MUST(waywire_end_peek(client.end, parts, &token, 1, NULL) == WAYWIRE_NULL);
	MUST(waywire_end_received(NULL, 0, NULL, 0, &amounts) == WAYWIRE_NULL);
	MUST(waywire_end_received(server.end, 0, NULL, 1, &amounts) == WAYWIRE_NULL);
	MUST(waywire_end_received(server.end, 0, NULL, 0, NULL) == WAYWIRE_NULL);
	amounts = waywire_end_sent(client.end, 1000);
	MUST(!amounts.bytes && !amounts.tokens);
}

/* A failed end has no space, and what waits there can go. */
static void failed(void)
{
	static const unsigned char bad_size[] = { 1, 0, 0, 0, 0, 0, 4, 0 };
	waywire_part parts[2];
	waywire_amounts amounts;
	waywire_report report;
	uint32_t tokens[WAYWIRE_MAX_ARGS];
	size_t count;
	waywire_end_space(server.end, parts);
	MUST(parts[0].length + parts[1].length == sizes.in_bytes);
	memcpy(parts[0].bytes, bad_size, sizeof bad_size < parts[0].length ? sizeof bad_size : parts[0].length);
	if (parts[0].length < sizeof bad_size)
		memcpy(parts[1].bytes, bad_size + parts[0].length, sizeof bad_size - parts[0].length);
	MUST(!waywire_end_received(server.end, sizeof bad_size, NULL, 0, &amounts));
	MUST(amounts.bytes == sizeof bad_size && !amounts.tokens);
	MUST(waywire_is_fault(waywire_end_next(server.end, &report)));
	waywire_end_space(server.end, parts);
	MUST(!parts[0].length && !parts[1].length);
	MUST(waywire_end_received(server.end, 1, NULL, 0, &amounts) == WAYWIRE_FAILED && !amounts.bytes);
	MUST(!waywire_end_peek(server.end, parts, tokens, WAYWIRE_MAX_ARGS, &count));
	MUST(parts[0].length + parts[1].length >= 20 && !count);
}

int main(void)
{
	int sockets[2], smallest = 1;
	int before = count_open();
	make_pair(sockets);
	MUST(!setsockopt(sockets[0], SOL_SOCKET, SO_SNDBUF, &smallest, sizeof smallest));
	MUST(!waywire_tables_core(&tables));
	MUST(!waywire_client_new(tables, &sizes, &client));
	MUST(!waywire_server_new(tables, &sizes, &server));
	of_client = (struct link){ sockets[0], client.end };
	of_server = (struct link){ sockets[1], server.end };
	int full = send_pools(bind_shm());
	MUST(full && next_pool == POOLS);
	refused();
	failed();
	waywire_socket_close(of_client.socket, client.end);
	waywire_socket_close(of_server.socket, server.end);
	MUST(count_open() == before);
	waywire_end_free(client.end);
	waywire_end_free(server.end);
	waywire_tables_free(tables);
	return 0;
}
