/* A compositor for one client, in a process of its own, and how the client connects to it: it has wl_compositor,
 * whose objects do nothing, and it answers round trips. The process is the client's program again, so that valgrind,
 * which does not follow it, counts and checks the client alone. */
#ifndef COMPOSITOR_H
#define COMPOSITOR_H

#include "wire.h"
#include <wayland-client.h>

#define MOST_OBJECTS 4096

enum kind { NOTHING, DISPLAY, REGISTRY, COMPOSITOR, CHILD_OF_COMPOSITOR };

static enum kind kinds[MOST_OBJECTS];

static void opens(uint32_t id, enum kind kind)
{
	MUST(id < MOST_OBJECTS);
	kinds[id] = kind;
}

/* Answers a request. Opcode 0 of a surface and of a region destroys it. */
static void answer(struct wire *wire, const uint32_t *words)
{
	uint32_t object = words[0], opcode = words[1] & 0xffff, length = words[1] >> 16;
	MUST(object < MOST_OBJECTS);
	if (kinds[object] == DISPLAY && opcode == 0) {
		put_message(wire, words[2], 0, 1, 1);
		put_message(wire, 1, 1, 1, words[2]);
	} else if (kinds[object] == DISPLAY) {
		opens(words[2], REGISTRY);
		put_global(wire, words[2], 1, "wl_compositor", 4);
	} else if (kinds[object] == REGISTRY) {
		opens(words[length / 4 - 1], COMPOSITOR);
	} else if (kinds[object] == COMPOSITOR) {
		opens(words[2], CHILD_OF_COMPOSITOR);
	} else if (kinds[object] == CHILD_OF_COMPOSITOR && opcode == 0) {
		opens(object, NOTHING);
		put_message(wire, 1, 1, 1, object);
	}
}

/* Reads requests until the client goes or, if the number is not 0, this many have come. All requests that
 * were read at once are answered at once. */
static int serve(int socket, long most)
{
	long count = 0;
	static struct wire wire;
	static unsigned char bytes[8192];
	size_t have = 0;
	ssize_t more;
	opens(1, DISPLAY);
	while ((more = recv(socket, bytes + have, sizeof bytes - have, 0)) > 0) {
		size_t at = 0;
		uint32_t words[64];
		have += (size_t)more;
		while (have - at >= 8) {
			memcpy(words, bytes + at, 8);
			size_t length = words[1] >> 16;
			MUST(length >= 8 && length <= sizeof words);
			if (have - at < length)
				break;
			memcpy(words, bytes + at, length);
			if (++count == most)
				return 0;
			answer(&wire, words);
			at += length;
			if (wire.length > sizeof wire.bytes / 2)
				send_wire(&wire, socket);
		}
		memmove(bytes, bytes + at, have - at);
		have -= at;
		send_wire(&wire, socket);
	}
	return 0;
}

/* Whether this process is the compositor: its words are --serve, the number of its socket, and how
 * many requests it reads. If it is, it serves. */
static int is_compositor(int argc, char **argv)
{
	return argc == 4 && !strcmp(argv[1], "--serve") && !serve(atoi(argv[2]), atol(argv[3]));
}

/* Starts the compositor, which is this program again. If the number is not 0, it ends after this many
 * requests. Returns the client's socket. */
static int start_compositor(const char *program, long most)
{
	int sockets[2];
	make_pair(sockets);
	pid_t child = fork();
	MUST(child >= 0);
	if (!child) {
		char number[16], requests[24];
		close(sockets[0]);
		snprintf(number, sizeof number, "%d", dup(sockets[1]));
		snprintf(requests, sizeof requests, "%ld", most);
		execl(program, program, "--serve", number, requests, NULL);
		_exit(127);
	}
	close(sockets[1]);
	return sockets[0];
}

/* ---- the client */

static struct wl_display *display;
static struct wl_registry *registry;
static struct wl_compositor *compositor;

static void on_global(void *data, struct wl_registry *registry, uint32_t name,
	const char *interface, uint32_t version)
{
	(void)data, (void)version;
	if (!strcmp(interface, "wl_compositor"))
		compositor = wl_registry_bind(registry, name, &wl_compositor_interface, 4);
}

static void on_global_remove(void *data, struct wl_registry *registry, uint32_t name)
{
	(void)data, (void)registry, (void)name;
}

static const struct wl_registry_listener of_registry = { on_global, on_global_remove };

/* Starts the compositor, connects to it, and binds its global. */
static void connect_to_compositor(const char *program, long most)
{
	display = wl_display_connect_to_fd(start_compositor(program, most));
	MUST(display);
	registry = wl_display_get_registry(display);
	wl_registry_add_listener(registry, &of_registry, NULL);
	MUST(wl_display_roundtrip(display) >= 0 && compositor);
}

static void disconnect(void)
{
	wl_compositor_destroy(compositor);
	wl_registry_destroy(registry);
	wl_display_disconnect(display);
}

#endif
