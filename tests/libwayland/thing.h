/* A private protocol, as wayland-scanner would write it: `thing`, with requests and events of
 * each kind of argument. */
#ifndef THING_H
#define THING_H

#include <wayland-client.h>

enum { THING_MAKE, THING_SHARE, THING_DESTROY };
enum { THING_TEXT, THING_MADE, THING_SHARED, THING_POINTS };

extern const struct wl_interface thing_interface;
static const struct wl_interface *thing_types[] = {
	NULL, NULL, NULL, NULL, &thing_interface, &thing_interface,
};
static const struct wl_message thing_requests[] = {
	{ "make", "n", thing_types + 4 },
	{ "share", "?sh", thing_types },
	{ "destroy", "", thing_types },
};
static const struct wl_message thing_events[] = {
	{ "text", "?saif", thing_types },
	{ "made", "n", thing_types + 4 },
	{ "shared", "uh", thing_types },
	{ "points", "?oo", thing_types + 4 },
};
const struct wl_interface thing_interface = { "thing", 1, 3, thing_requests, 4, thing_events };

static inline struct wl_proxy *bind_thing(struct wl_registry *registry, uint32_t name)
{
	return wl_proxy_marshal_flags((struct wl_proxy *)registry, WL_REGISTRY_BIND, &thing_interface,
		1, 0, name, thing_interface.name, 1, NULL);
}

static inline struct wl_proxy *make_thing(struct wl_proxy *thing)
{
	return wl_proxy_marshal_flags(thing, THING_MAKE, &thing_interface, 1, 0, NULL);
}

static inline void share_thing(struct wl_proxy *thing, const char *text, int descriptor)
{
	wl_proxy_marshal_flags(thing, THING_SHARE, NULL, 1, 0, text, descriptor);
}

static inline void destroy_thing(struct wl_proxy *thing)
{
	wl_proxy_marshal_flags(thing, THING_DESTROY, NULL, 1, WL_MARSHAL_FLAG_DESTROY);
}

#endif
