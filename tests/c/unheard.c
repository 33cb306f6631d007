/* A connection destroys what the server makes by an event that the client does not listen to,
 * and by one for an object that the client has destroyed. It keeps what a listener hears of, by the event or by its
 * own interface, and what no request only destroys. It destroys the data of an object that another replaces. */
#define _GNU_SOURCE
#include "connected.h"

#include <poll.h>

/* Of the requests of a thing only the last destroys it and has no argument, in the version that is bound. */
static const char text[] = "interface maker 1\nrequest release D\nrequest ask\n"
	"event made N(thing)\nevent lent N(loan) h\nevent plugged N(head)\ninterface head 1\n"
	"interface thing 2\nrequest rename s\nrequest end s D\nrequest leave D @2\nrequest destroy D\nevent gone\n"
	"interface loan 1\nrequest end s D\n";

/* Opcodes of the tables. */
enum { RELEASE = 0, ASK = 1, MADE = 0, LENT = 1, PLUGGED = 2, GONE = 0, DESTROY = 3 };

static waywire_object maker, heard, gone;

static void on_global(void *data, waywire_wl_registry registry, uint32_t name, const char *interface,
	uint32_t version)
{
	(void)data;
	MUST(!waywire_client_bind(requests, registry.object, name, interface, version, &maker));
}

static const struct waywire_wl_registry_events registry_events = { .global = on_global };

static bool on_made(const void *calls, void *data, const waywire_report *report)
{
	(void)calls, (void)data;
	if (report->kind == WAYWIRE_MESSAGE)
		heard = report->args[0].object;
	return report->kind == WAYWIRE_MESSAGE;
}

static bool on_gone(const void *calls, void *data, const waywire_report *report)
{
	(void)calls, (void)data;
	gone = report->target;
	return true;
}

/* Both ends, with a maker that the client has bound. */
static void begin(void)
{
	begin_both(NULL, NULL);
	MUST(!waywire_connection_add_global(server, "maker", 1, NULL));
	waywire_wl_registry registry = get_registry();
	MUST(!waywire_connection_listen(client, registry.object, waywire_wl_registry_event_dispatcher,
		&registry_events, NULL));
	MUST(!waywire_connection_flush(client) && waywire_connection_dispatch(server, WAIT) == 1);
	MUST(!waywire_connection_flush(server) && waywire_connection_dispatch(client, WAIT) == 1 && maker.id);
	MUST(!waywire_connection_flush(client) && waywire_connection_dispatch(server, WAIT) == 1);
	MUST(!waywire_end_live(events.end, maker, NULL, NULL));
}

/* What the server wrote goes to the client, which may answer. */
static void goes(bool answered)
{
	MUST(!waywire_connection_flush(server) && waywire_connection_dispatch(client, WAIT) == 1);
	MUST(!waywire_connection_flush(client));
	MUST((waywire_connection_dispatch(server, answered ? WAIT : 0) > 0) == answered);
}

/* The server makes a thing. */
static waywire_object makes(bool answered)
{
	waywire_object made;
	waywire_arg new = waywire_new();
	MUST(!waywire_end_send(events.end, maker, MADE, &new, 1, &made, NULL));
	goes(answered);
	return made;
}

/* The server makes a loan, with the end of a pipe, which the client closes. */
static waywire_object lends(void)
{
	int ends[2];
	char byte;
	waywire_object made;
	MUST(!pipe(ends));
	waywire_arg args[] = { waywire_new(), waywire_fd((uint32_t)ends[1]) };
	MUST(!waywire_end_send(events.end, maker, LENT, args, 2, &made, NULL));
	goes(false);
	struct pollfd ended = { .fd = ends[0], .events = POLLIN };
	MUST(poll(&ended, 1, WAIT) == 1 && read(ends[0], &byte, 1) == 0);
	close(ends[0]);
	return made;
}

static void on_destroy(void *data)
{
	++*(int *)data;
}

/* The server makes a head, and another with its id. Our end never does that, so the second event is written by
 * hand. */
static void replaces(void)
{
	int destroyed = 0;
	waywire_object made, other;
	waywire_arg new = waywire_new();
	MUST(!waywire_end_send(events.end, maker, PLUGGED, &new, 1, &made, NULL));
	goes(false);
	MUST(!waywire_connection_set_data(client, made, &destroyed, on_destroy));
	uint32_t again[] = { maker.id, 12 << 16 | PLUGGED, made.id };
	MUST(write(waywire_connection_fd(server), again, sizeof again) == sizeof again);
	MUST(waywire_connection_dispatch(client, WAIT) == 1 && destroyed == 1);
	MUST(!waywire_connection_data(client, made));
	MUST(!waywire_client_made(requests, &other) && other.id == made.id);
	MUST(!waywire_end_live(requests.end, other, NULL, NULL));
}

/* The client destroys what the server makes, whose data go later. */
static void data_go(void)
{
	int destroyed = 0;
	for (int i = 0; i < 200; i++) {
		waywire_object made;
		waywire_arg new = waywire_new();
		MUST(!waywire_end_send(events.end, maker, MADE, &new, 1, &made, NULL));
		goes(false);
		MUST(!waywire_connection_set_data(client, made, &destroyed, on_destroy));
		MUST(!waywire_end_send(requests.end, made, DESTROY, NULL, 0, NULL, NULL));
		MUST(!waywire_connection_flush(client));
		MUST(waywire_connection_dispatch(server, WAIT) == 1 && i - destroyed < 50);
	}
	waywire_connection_close(client);
	MUST(destroyed == 200);
	client = NULL;
}

/* A thing stays if there is no room for the request that would destroy it. */
static void no_room(void)
{
	int smallest = 1;
	waywire_object made;
	waywire_arg new = waywire_new();
	MUST(!setsockopt(waywire_connection_fd(client), SOL_SOCKET, SO_SNDBUF, &smallest, sizeof smallest));
	do
		while (!waywire_end_send(requests.end, maker, ASK, NULL, 0, NULL, NULL))
			;
	while (!waywire_connection_flush(client)
		|| waywire_end_send(requests.end, maker, ASK, NULL, 0, NULL, NULL) != WAYWIRE_FULL);
	MUST(!waywire_end_send(events.end, maker, MADE, &new, 1, &made, NULL));
	MUST(!waywire_connection_flush(server) && waywire_connection_fill(client) == 1);
	MUST(waywire_connection_dispatch_pending(client) == 1);
	MUST(!waywire_end_live(requests.end, made, NULL, NULL));
}

static bool lives(waywire_object object)
{
	return !waywire_end_live(requests.end, object, NULL, NULL)
		&& !waywire_end_live(events.end, object, NULL, NULL);
}

static bool is_gone(waywire_object object)
{
	return waywire_end_live(requests.end, object, NULL, NULL) == WAYWIRE_NOT_FOUND
		&& waywire_end_live(events.end, object, NULL, NULL) == WAYWIRE_NOT_FOUND;
}

/* Calls `dispatch` for each thing. */
static void implement(waywire_dispatcher *dispatch)
{
	waywire_listener listener = { "thing", dispatch, NULL };
	MUST(!waywire_connection_implement(client, &listener, 1, NULL));
}

int main(void)
{
	waywire_object made;
	tables = core_and(text);
	begin();
	/* The client does not listen to the maker. */
	MUST(is_gone(makes(true)) && lives(lends()));
	implement(on_gone);
	made = makes(false);
	MUST(lives(made) && !waywire_end_send(events.end, made, GONE, NULL, 0, NULL, NULL));
	goes(false);
	MUST(waywire_object_equal(made, gone));
	implement(NULL);
	MUST(is_gone(makes(true)));
	/* It does. */
	MUST(!waywire_connection_listen(client, maker, on_made, NULL, NULL));
	made = makes(false);
	MUST(lives(made) && waywire_object_equal(made, heard));
	/* It has destroyed the maker, and the server sends the event before it reads that. No callback gets the thing,
	 * though one would hear of its messages. */
	implement(on_gone);
	MUST(!waywire_end_send(requests.end, maker, RELEASE, NULL, 0, NULL, NULL));
	MUST(is_gone(makes(true)) && is_gone(maker) && lives(made));
	end_both();
	/* A connection that has implemented no interface. */
	begin();
	replaces();
	end_both();
	begin();
	no_room();
	end_both();
	begin();
	implement(on_gone);
	data_go();
	end_both();
	waywire_tables_free(tables);
	return 0;
}
