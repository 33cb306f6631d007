/* A session of a hand-written client with a private protocol, `thing`, at a compositor that takes all it is given:
 * objects are made and ended, and texts, arrays, objects and descriptors pass. */
#ifndef SERVER_SESSION_H
#define SERVER_SESSION_H

#include "served.h"
#include <sys/stat.h>

/* What the handlers were given: how many calls, the sum of what they said, and descriptors that were not open. */
static unsigned calls, sum, not_open;

static const struct wl_interface thing_interface;
static const struct wl_interface *thing_types[] = { NULL, NULL, NULL, NULL, NULL, &thing_interface, &thing_interface };
static const struct wl_message thing_requests[] = {
	{ "make", "n", thing_types + 5 },
	{ "share", "?shu", thing_types },
	{ "say", "saif", thing_types },
	{ "points", "?oo", thing_types + 5 },
	{ "destroy", "", thing_types },
};
static const struct wl_message thing_events[] = { { "heard", "u", thing_types } };
static const struct wl_interface thing_interface = { "thing", 1, 5, thing_requests, 1, thing_events };
enum { MAKE, SHARE, SAY, POINTS, DESTROY };

static int on_request(const void *implementation, void *target, uint32_t opcode, const struct wl_message *message,
	union wl_argument *arguments);

static void make_thing(struct wl_client *client, uint32_t id)
{
	struct wl_resource *made = wl_resource_create(client, &thing_interface, 1, id);
	if (made)
		wl_resource_set_dispatcher(made, on_request, NULL, NULL, NULL);
	else
		wl_client_post_no_memory(client);
}

/* The length of a file tells which descriptor came. */
static void take_descriptor(int descriptor)
{
	struct stat file;
	if (fstat(descriptor, &file))
		not_open++;
	else
		sum += (unsigned)file.st_size;
	close(descriptor);
}

static void add_words(const union wl_argument *arguments)
{
	sum += (unsigned)strlen(arguments[0].s) + (unsigned)arguments[2].i + (unsigned)arguments[3].f;
	for (size_t at = 0; at < arguments[1].a->size; at++)
		sum += ((const unsigned char *)arguments[1].a->data)[at];
}

static int on_request(const void *implementation, void *target, uint32_t opcode, const struct wl_message *message,
	union wl_argument *arguments)
{
	(void)implementation, (void)message;
	calls++;
	if (opcode == MAKE) {
		make_thing(wl_resource_get_client(target), arguments[0].n);
	} else if (opcode == SHARE) {
		sum += (unsigned)(arguments[0].s ? strlen(arguments[0].s) : 100) + arguments[2].u;
		take_descriptor(arguments[1].h);
	} else if (opcode == SAY) {
		add_words(arguments);
		wl_resource_post_event(target, 0, sum);
	} else if (opcode == POINTS) {
		for (int at = 0; at < 2; at++)
			sum += arguments[at].o ? wl_resource_get_id((struct wl_resource *)arguments[at].o) : 50;
	} else {
		wl_resource_destroy(target);
	}
	return 0;
}

static void binds_thing(struct wl_client *client, void *data, uint32_t version, uint32_t id)
{
	(void)data, (void)version;
	calls++;
	make_thing(client, id);
}

/* ---- the client */

enum { CALLBACK = 3, THING, CHILD, OTHER, LAST };

static void put_share(struct wire *wire, uint32_t object, const char *text, uint32_t number)
{
	int descriptor = new_descriptor();
	MUST(!ftruncate(descriptor, number));
	begin_message(wire, object, SHARE);
	put_text(wire, text);
	put_word(wire, number);
	end_message(wire);
	put_descriptor(wire, descriptor);
}

static void write_session(struct wire *wire)
{
	put_message(wire, 1, GET_REGISTRY, 1, REGISTRY);
	put_message(wire, 1, SYNC, 1, CALLBACK);
	put_bind(wire, 1, "thing", 1, THING);
	put_message(wire, THING, MAKE, 1, CHILD);
	put_share(wire, CHILD, "six is", 13);
	begin_message(wire, THING, SAY);
	put_text(wire, "a text");
	put_array(wire, "abc", 3);
	put_word(wire, 77);
	put_word(wire, 256);
	end_message(wire);
	put_message(wire, THING, MAKE, 1, OTHER);
	put_message(wire, THING, POINTS, 2, 0, OTHER);
	put_message(wire, OTHER, POINTS, 2, CHILD, THING);
	put_message(wire, OTHER, DESTROY, 0);
	put_share(wire, THING, NULL, 7);
	put_message(wire, 1, SYNC, 1, LAST);
}

#endif
