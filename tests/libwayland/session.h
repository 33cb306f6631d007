/* A short session with a private protocol: a client of libwayland-client, and what its compositor
 * says, written by hand. Objects are made by both sides, descriptors pass, and one goes to an
 * object that the client has destroyed. */
#ifndef SESSION_H
#define SESSION_H

#include "thing.h"
#include "wire.h"
#include <sys/stat.h>

/* The client's ids. */
enum { REGISTRY = 2, CALLBACK, THING, CHILD, DESTROYED };

struct session {
	struct wl_display *display;
	struct wl_registry *registry;
	struct wl_callback *callback;
	struct wl_proxy *thing, *child, *made;
	/* How many events came, the sum of what they said, and how many had the descriptor of another
	 * event, or one that was not open. */
	unsigned events, sum, another, not_open;
};

static void on_global(void *data, struct wl_registry *registry, uint32_t name,
	const char *interface, uint32_t version)
{
	struct session *session = data;
	(void)registry;
	session->events++;
	session->sum += name + (unsigned)strlen(interface) + version;
}

static void on_global_remove(void *data, struct wl_registry *registry, uint32_t name)
{
	struct session *session = data;
	(void)registry;
	session->events++;
	session->sum += name;
}

static const struct wl_registry_listener of_registry = { on_global, on_global_remove };

static void on_done(void *data, struct wl_callback *callback, uint32_t number)
{
	struct session *session = data;
	(void)callback;
	session->events++;
	session->sum += number;
}

static const struct wl_callback_listener of_callback = { on_done };

static void on_text(void *data, struct wl_proxy *thing, const char *text, struct wl_array *array,
	int32_t number, wl_fixed_t fixed)
{
	struct session *session = data;
	(void)thing;
	session->events++;
	session->sum += (unsigned)(text ? strlen(text) : 100) + (unsigned)(number + fixed);
	for (size_t at = 0; at < array->size; at++)
		session->sum += ((unsigned char *)array->data)[at];
}

static void on_made(void *data, struct wl_proxy *thing, struct wl_proxy *made);

static void on_shared(void *data, struct wl_proxy *thing, uint32_t number, int32_t descriptor)
{
	struct session *session = data;
	(void)thing;
	struct stat file;
	session->events++;
	session->sum += number;
	if (fstat(descriptor, &file))
		session->not_open++;
	else if (file.st_size != (off_t)number)
		session->another++;
	close(descriptor);
}

static void on_points(void *data, struct wl_proxy *thing, struct wl_proxy *one,
	struct wl_proxy *other)
{
	struct session *session = data;
	session->events++;
	session->sum += (one == session->made) + 2 * (other == thing) + 4 * !one;
}

static const struct {
	void (*text)(void *, struct wl_proxy *, const char *, struct wl_array *, int32_t, wl_fixed_t);
	void (*made)(void *, struct wl_proxy *, struct wl_proxy *);
	void (*shared)(void *, struct wl_proxy *, uint32_t, int32_t);
	void (*points)(void *, struct wl_proxy *, struct wl_proxy *, struct wl_proxy *);
} of_thing = { on_text, on_made, on_shared, on_points };

static void listen_to_thing(struct session *session, struct wl_proxy *thing)
{
	if (thing)
		wl_proxy_add_listener(thing, (void (**)(void))(uintptr_t)&of_thing, session);
}

static void on_made(void *data, struct wl_proxy *thing, struct wl_proxy *made)
{
	struct session *session = data;
	(void)thing;
	session->events++;
	session->sum += made ? 1000 : 0;
	/* A compositor that breaks the protocol may say it again. */
	if (session->made)
		wl_proxy_destroy(session->made);
	session->made = made;
	listen_to_thing(session, made);
}

/* Connects, and sends all requests. What cannot be had is left out. */
static void open_session(struct session *session, int socket)
{
	memset(session, 0, sizeof *session);
	session->display = wl_display_connect_to_fd(socket);
	if (!session->display)
		return;
	session->registry = wl_display_get_registry(session->display);
	if (session->registry)
		wl_registry_add_listener(session->registry, &of_registry, session);
	session->callback = wl_display_sync(session->display);
	if (session->callback)
		wl_callback_add_listener(session->callback, &of_callback, session);
	session->thing = session->registry ? bind_thing(session->registry, 2) : NULL;
	listen_to_thing(session, session->thing);
	if (session->thing) {
		int descriptor = new_descriptor();
		session->child = make_thing(session->thing);
		listen_to_thing(session, session->child);
		struct wl_proxy *destroyed = make_thing(session->thing);
		if (destroyed)
			destroy_thing(destroyed);
		share_thing(session->thing, "a text", descriptor);
		share_thing(session->thing, NULL, descriptor);
		close(descriptor);
	}
	wl_display_flush(session->display);
}

static void close_session(struct session *session)
{
	if (session->made)
		destroy_thing(session->made);
	if (session->child)
		destroy_thing(session->child);
	if (session->thing)
		destroy_thing(session->thing);
	if (session->callback)
		wl_callback_destroy(session->callback);
	if (session->registry)
		wl_registry_destroy(session->registry);
	if (session->display)
		wl_display_disconnect(session->display);
}

static inline void put_text_event(struct wire *wire, const char *text, const char *array,
	size_t length)
{
	begin_message(wire, THING, THING_TEXT);
	put_text(wire, text);
	put_array(wire, array, length);
	put_word(wire, (uint32_t)-5);
	put_word(wire, 256);
	end_message(wire);
}

/* The descriptor is known by the length of its file. */
static inline void put_shared(struct wire *wire, uint32_t object, uint32_t number)
{
	int descriptor = new_descriptor();
	MUST(!ftruncate(descriptor, number));
	put_message(wire, object, THING_SHARED, 1, number);
	put_descriptor(wire, descriptor);
}

/* The error that ends a session. What came before it and waits is lost. */
static inline void put_error(struct wire *wire)
{
	begin_message(wire, 1, 0);
	put_word(wire, THING);
	put_word(wire, 9);
	put_text(wire, "something is wrong");
	end_message(wire);
}

/* What the compositor says, but for the error. */
static void write_session(struct wire *wire)
{
	put_global(wire, REGISTRY, 1, "wl_compositor", 5);
	put_global(wire, REGISTRY, 2, "thing", 1);
	put_message(wire, REGISTRY, 1, 1, 1);
	put_message(wire, CALLBACK, 0, 1, 77);
	put_message(wire, 1, 1, 1, CALLBACK);
	put_text_event(wire, "six is", "abc", 3);
	put_text_event(wire, NULL, NULL, 0);
	put_message(wire, THING, THING_MADE, 1, FIRST_SERVER_ID);
	put_shared(wire, DESTROYED, 13);
	put_shared(wire, FIRST_SERVER_ID, 11);
	put_shared(wire, CHILD, 12);
	put_message(wire, CHILD, THING_POINTS, 2, FIRST_SERVER_ID, CHILD);
	put_message(wire, CHILD, THING_POINTS, 2, 0, CHILD);
	put_message(wire, 1, 1, 1, DESTROYED);
}

#endif
