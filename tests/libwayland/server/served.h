/* What the tests of a libwayland-server share: a display, and clients in the same process whose requests are written
 * by hand. What a client reads is printed. */
#ifndef SERVED_H
#define SERVED_H

#include "../wire.h"
#include <poll.h>
#include <stdbool.h>
#include <sys/ioctl.h>
#include <wayland-server.h>

/* The opcodes of requests that are written by hand, and the first ids of a client. */
enum { SYNC, GET_REGISTRY };
enum { SURFACE_DESTROY, SURFACE_ATTACH, SURFACE_DAMAGE, SURFACE_FRAME, SURFACE_COMMIT = 6, SURFACE_SCALE = 8 };
enum { REGISTRY = 2, COMPOSITOR, FIRST_FREE };

/* A client: its socket and what it has not parsed yet. */
struct peer {
	int socket, at_server;
	struct wl_client *client;
	unsigned char bytes[1 << 17];
	size_t length;
	bool has_ended;
};

/* What a client was told, in numbers. */
struct heard {
	unsigned globals, removals, deletes, errors, others;
	uint32_t first_name, last_name;
};

static struct wl_display *display;
/* What the compositor below has made last. */
static struct wl_resource *compositor_resource, *last_surface, *last_frame;

/* ---- a compositor that does nothing, and answers what a test tells it to */

static void destroys(struct wl_client *client, struct wl_resource *resource)
{
	(void)client;
	wl_resource_destroy(resource);
}

static void ignores(struct wl_client *client, struct wl_resource *resource)
{
	(void)client, (void)resource;
}

static void attaches(struct wl_client *client, struct wl_resource *resource, struct wl_resource *buffer,
	int32_t x, int32_t y)
{
	(void)client, (void)x, (void)y;
	wl_resource_set_user_data(resource, buffer);
}

static void ignores_box(struct wl_client *client, struct wl_resource *resource, int32_t x, int32_t y,
	int32_t width, int32_t height)
{
	(void)client, (void)resource, (void)x, (void)y, (void)width, (void)height;
}

static void makes_frame(struct wl_client *client, struct wl_resource *resource, uint32_t id)
{
	(void)resource;
	last_frame = wl_resource_create(client, &wl_callback_interface, 1, id);
}

static void ignores_region(struct wl_client *client, struct wl_resource *resource, struct wl_resource *region)
{
	(void)client, (void)resource, (void)region;
}

static void ignores_number(struct wl_client *client, struct wl_resource *resource, int32_t number)
{
	(void)client, (void)resource, (void)number;
}

static struct wl_surface_interface of_surface = {
	.destroy = destroys,
	.attach = attaches,
	.damage = ignores_box,
	.frame = makes_frame,
	.set_opaque_region = ignores_region,
	.set_input_region = ignores_region,
	.commit = ignores,
	.set_buffer_transform = ignores_number,
	.set_buffer_scale = ignores_number,
	.damage_buffer = ignores_box,
};

static const struct wl_region_interface of_region = { destroys, ignores_box, ignores_box };

static void makes_surface(struct wl_client *client, struct wl_resource *resource, uint32_t id)
{
	last_surface = wl_resource_create(client, &wl_surface_interface, wl_resource_get_version(resource), id);
	wl_resource_set_implementation(last_surface, &of_surface, NULL, NULL);
}

static void makes_region(struct wl_client *client, struct wl_resource *resource, uint32_t id)
{
	int version = wl_resource_get_version(resource);
	struct wl_resource *made = wl_resource_create(client, &wl_region_interface, version, id);
	wl_resource_set_implementation(made, &of_region, NULL, NULL);
}

static const struct wl_compositor_interface of_compositor = { makes_surface, makes_region };

static void binds_compositor(struct wl_client *client, void *data, uint32_t version, uint32_t id)
{
	(void)data;
	compositor_resource = wl_resource_create(client, &wl_compositor_interface, (int)version, id);
	wl_resource_set_implementation(compositor_resource, &of_compositor, NULL, NULL);
}

static inline struct wl_global *add_compositor(void)
{
	struct wl_global *made = wl_global_create(display, &wl_compositor_interface, 4, NULL, binds_compositor);
	MUST(made);
	return made;
}

static inline struct wl_event_loop *loop_of_display(void)
{
	return wl_display_get_event_loop(display);
}

/* ---- clients */

static inline void open_peer(struct peer *peer)
{
	int sockets[2];
	make_pair(sockets);
	memset(peer, 0, sizeof *peer);
	peer->socket = sockets[1];
	peer->at_server = sockets[0];
	peer->client = wl_client_create(display, sockets[0]);
	MUST(peer->client);
}

/* Reads what has come for a client, without waiting. */
static inline void receive(struct peer *peer)
{
	ssize_t more = 1;
	while (peer->length < sizeof peer->bytes && (more = recv(peer->socket, peer->bytes + peer->length,
		sizeof peer->bytes - peer->length, MSG_DONTWAIT)) > 0)
		peer->length += (size_t)more;
	if (more == 0)
		peer->has_ended = true;
}

/* Serves until nothing is left to do: the requests of one dispatch may end in idle calls of the next. */
static inline void serve(struct peer *peer)
{
	for (int turn = 0; turn < 4; turn++) {
		MUST(!wl_event_loop_dispatch(loop_of_display(), 0));
		wl_display_flush_clients(display);
		receive(peer);
	}
}

/* Sends requests, unless the connection has ended, and serves. */
static inline void asks(struct peer *peer, struct wire *wire)
{
	if (peer->has_ended)
		clear_wire(wire);
	send_wire(wire, peer->socket);
	serve(peer);
}

static inline void put_bind(struct wire *wire, uint32_t name, const char *interface, uint32_t version, uint32_t id)
{
	begin_message(wire, REGISTRY, 0);
	put_word(wire, name);
	put_text(wire, interface);
	put_word(wire, version);
	put_word(wire, id);
	end_message(wire);
}

/* Prints a message, if a name is given for its client, and counts it. */
static inline void note(const char *who, const uint32_t *words, struct heard *heard)
{
	uint32_t object = words[0], opcode = words[1] & 0xffff, count = (words[1] >> 16) / 4;
	if (object == 1 && opcode == 0) {
		heard->errors++;
		if (who)
			printf("%s: error %u about %u: %s\n", who, words[3], words[2], (const char *)(words + 5));
	} else if (object == 1) {
		heard->deletes++;
		if (who)
			printf("%s: delete_id %u\n", who, words[2]);
	} else if (object == REGISTRY && opcode == 0) {
		heard->last_name = words[2];
		if (!heard->globals++)
			heard->first_name = words[2];
		if (who)
			printf("%s: global %s %u\n", who, (const char *)(words + 4), words[count - 1]);
	} else if (object == REGISTRY && opcode == 1) {
		heard->removals++;
		if (who)
			printf("%s: global_remove\n", who);
	} else {
		heard->others++;
		if (who) {
			printf("%s: %u.%u(", who, object, opcode);
			for (uint32_t at = 2; at < count; at++)
				printf(at == 2 ? "%x" : " %x", words[at]);
			printf(")\n");
		}
	}
}

/* Notes all messages that a client has read and not parsed. */
static inline struct heard parse(const char *who, struct peer *peer)
{
	struct heard heard = { 0 };
	size_t at = 0;
	static uint32_t words[1 << 14];
	while (peer->length - at >= 8) {
		memcpy(words, peer->bytes + at, 8);
		size_t length = words[1] >> 16;
		MUST(length >= 8 && length % 4 == 0);
		if (peer->length - at < length)
			break;
		memcpy(words, peer->bytes + at, length);
		note(who, words, &heard);
		at += length;
	}
	memmove(peer->bytes, peer->bytes + at, peer->length - at);
	peer->length -= at;
	if (who && peer->has_ended)
		printf("%s: the connection has ended\n", who);
	return heard;
}

/* Sends requests, serves, and prints what the client reads then. */
static inline struct heard hears(const char *who, struct peer *peer, struct wire *wire)
{
	asks(peer, wire);
	return parse(who, peer);
}

/* A client with a registry and a wl_compositor of this version, the first global. */
static inline void open_with_compositor(struct peer *peer, uint32_t version)
{
	struct wire wire = { 0 };
	open_peer(peer);
	put_message(&wire, 1, GET_REGISTRY, 1, REGISTRY);
	asks(peer, &wire);
	put_bind(&wire, parse(NULL, peer).first_name, "wl_compositor", version, COMPOSITOR);
	asks(peer, &wire);
	parse(NULL, peer);
}

static inline void close_display(void)
{
	wl_display_destroy_clients(display);
	wl_display_destroy(display);
}

#endif
