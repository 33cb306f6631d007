/* Clients that come and go, that never read, that flood a compositor, and that die: another client is served all the
 * time, and nothing is left of those that are gone.
 *
 *     clients COUNT
 *
 * COUNT clients come and go. */
#define _GNU_SOURCE
#define COUNT_CLOSES
#include "session.h"
#include <malloc.h>
#include <signal.h>

/* What may wait for one client, in bytes. */
#define MOST_WAITING (8 << 20)

static struct peer served, other;
static struct wire wire;

/* The bytes that are allocated, also those of large blocks. */
static size_t in_use(void)
{
	struct mallinfo2 now = mallinfo2();
	return now.uordblks + now.hblkhd;
}

static void begin(void)
{
	display = wl_display_create();
	MUST(display && wl_global_create(display, &thing_interface, 1, NULL, binds_thing));
	open_peer(&served);
	put_message(&wire, 1, GET_REGISTRY, 1, REGISTRY);
	MUST(hears(NULL, &served, &wire).globals == 1);
}

/* The client that is served all the time asks once, and is answered. Its id is free again then. */
static void must_be_served(void)
{
	put_message(&wire, 1, SYNC, 1, REGISTRY + 1);
	struct heard heard = hears(NULL, &served, &wire);
	MUST(heard.deletes == 1 && heard.others == 1 && !served.has_ended);
}

static void end(void)
{
	must_be_served();
	close_display();
	close(served.socket);
}

static void plays_a_session(bool is_closed_first)
{
	open_peer(&other);
	write_session(&wire);
	if (is_closed_first) {
		send_wire(&wire, other.socket);
		shutdown(other.socket, SHUT_RDWR);
		serve(&served);
	} else {
		asks(&other, &wire);
		MUST(parse(NULL, &other).others == 3);
	}
	close(other.socket);
	serve(&served);
	MUST(wl_list_length(wl_display_get_client_list(display)) == 1);
}

/* After the first hundred, which fill what is kept, nothing more is allocated, and no descriptor stays open. */
static void come_and_go(int count)
{
	begin();
	size_t before = 0;
	int open_before = 0;
	for (int at = 0; at < count; at++) {
		if (at == 100) {
			before = in_use();
			open_before = count_open();
		}
		plays_a_session(at % 2);
		if (at % 100 == 0)
			must_be_served();
	}
	MUST(in_use() <= before + 4096);
	MUST(count_open() == open_before && !closed_twice && !not_open);
	end();
}

/* A client that asks and does not read is ended, or waits; what waits for it is bounded. */
static void never_reads(void)
{
	uint32_t id = REGISTRY;
	begin();
	open_peer(&other);
	size_t before = in_use();
	bool is_taken = true;
	for (int turn = 0; turn < 100000 && is_taken; turn++) {
		for (int at = 0; at < 100; at++)
			put_message(&wire, 1, SYNC, 1, id++);
		is_taken = send(other.socket, wire.bytes, wire.length, MSG_NOSIGNAL | MSG_DONTWAIT) == (ssize_t)wire.length;
		clear_wire(&wire);
		wl_event_loop_dispatch(loop_of_display(), 0);
		wl_display_flush_clients(display);
		MUST(in_use() < before + MOST_WAITING);
		if (turn % 50 == 0)
			must_be_served();
	}
	MUST(!is_taken);
	must_be_served();
	close(other.socket);
	serve(&served);
	MUST(wl_list_length(wl_display_get_client_list(display)) == 1);
	end();
}

/* A compositor goes on sending events to a client that does not read. */
static void is_flooded(void)
{
	begin();
	open_peer(&other);
	size_t before = in_use();
	put_message(&wire, 1, GET_REGISTRY, 1, REGISTRY);
	put_bind(&wire, 1, "thing", 1, REGISTRY + 1);
	send_wire(&wire, other.socket);
	wl_event_loop_dispatch(loop_of_display(), 0);
	for (int count = 0; count < 500000; count++) {
		struct wl_resource *thing = wl_client_get_object(other.client, REGISTRY + 1);
		MUST(thing);
		wl_resource_post_event(thing, 0, count);
		if (count % 1000 == 0)
			MUST(in_use() < before + MOST_WAITING);
	}
	must_be_served();
	close(other.socket);
	serve(&served);
	MUST(wl_list_length(wl_display_get_client_list(display)) == 1);
	end();
}

/* A client dies while events and errors for it wait. */
static void dies(void)
{
	for (int way = 0; way < 3; way++) {
		begin();
		open_peer(&other);
		put_message(&wire, 1, GET_REGISTRY, 1, REGISTRY);
		put_bind(&wire, 1, "thing", 1, REGISTRY + 1);
		asks(&other, &wire);
		struct wl_resource *thing = wl_client_get_object(other.client, REGISTRY + 1);
		close(other.socket);
		for (int count = 0; count < 1000; count++)
			wl_resource_post_event(thing, 0, count);
		if (way == 1)
			wl_resource_post_error(thing, 1, "too late");
		if (way == 2)
			wl_client_destroy(other.client);
		serve(&served);
		MUST(wl_list_length(wl_display_get_client_list(display)) == 1);
		end();
	}
}

int main(int argc, char **argv)
{
	MUST(argc == 2);
	signal(SIGPIPE, SIG_DFL);
	wl_log_set_handler_server(quiet);
	int before = count_open();
	never_reads();
	is_flooded();
	dies();
	MUST(count_open() == before && !closed_twice);
	come_and_go(atoi(argv[1]));
	MUST(count_open() == before && !closed_twice);
	return 0;
}
