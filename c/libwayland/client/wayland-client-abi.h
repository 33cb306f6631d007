/* The functions of libwayland-client that programs are compiled against, as <wayland-client-core.h> has them. */
#ifndef WAYWIRE_WAYLAND_CLIENT_ABI_H
#define WAYWIRE_WAYLAND_CLIENT_ABI_H

#include "wayland-abi.h"

struct timespec;

/* Types that programs have pointers to, and nothing else. */
struct wl_event_queue;
struct wl_proxy;

/* ---- proxies: "wl_proxy" */

/* The request ends its proxy. It is a flag of wl_proxy_marshal_flags. */
#define WL_MARSHAL_FLAG_DESTROY (1 << 0)

struct wl_proxy *wl_proxy_create(struct wl_proxy *factory, const struct wl_interface *interface);
void *wl_proxy_create_wrapper(void *proxy);
void wl_proxy_wrapper_destroy(void *wrapper);
void wl_proxy_destroy(struct wl_proxy *proxy);

int wl_proxy_add_listener(struct wl_proxy *proxy, void (**implementation)(void), void *data);
const void *wl_proxy_get_listener(struct wl_proxy *proxy);
int wl_proxy_add_dispatcher(struct wl_proxy *proxy, wl_dispatcher_func_t dispatcher,
	const void *implementation, void *data);
void wl_proxy_set_user_data(struct wl_proxy *proxy, void *data);
void *wl_proxy_get_user_data(struct wl_proxy *proxy);
uint32_t wl_proxy_get_version(struct wl_proxy *proxy);
uint32_t wl_proxy_get_id(struct wl_proxy *proxy);
void wl_proxy_set_tag(struct wl_proxy *proxy, const char *const *tag);
const char *const *wl_proxy_get_tag(struct wl_proxy *proxy);
const char *wl_proxy_get_class(struct wl_proxy *proxy);
void wl_proxy_set_queue(struct wl_proxy *proxy, struct wl_event_queue *queue);

void wl_proxy_marshal(struct wl_proxy *proxy, uint32_t opcode, ...);
void wl_proxy_marshal_array(struct wl_proxy *proxy, uint32_t opcode, union wl_argument *args);
struct wl_proxy *wl_proxy_marshal_constructor(struct wl_proxy *proxy, uint32_t opcode,
	const struct wl_interface *interface, ...);
struct wl_proxy *wl_proxy_marshal_constructor_versioned(struct wl_proxy *proxy, uint32_t opcode,
	const struct wl_interface *interface, uint32_t version, ...);
struct wl_proxy *wl_proxy_marshal_array_constructor(struct wl_proxy *proxy, uint32_t opcode,
	union wl_argument *args, const struct wl_interface *interface);
struct wl_proxy *wl_proxy_marshal_array_constructor_versioned(struct wl_proxy *proxy,
	uint32_t opcode, union wl_argument *args, const struct wl_interface *interface,
	uint32_t version);
struct wl_proxy *wl_proxy_marshal_flags(struct wl_proxy *proxy, uint32_t opcode,
	const struct wl_interface *interface, uint32_t version, uint32_t flags, ...);
struct wl_proxy *wl_proxy_marshal_array_flags(struct wl_proxy *proxy, uint32_t opcode,
	const struct wl_interface *interface, uint32_t version, uint32_t flags,
	union wl_argument *args);

/* ---- displays and queues: "wl_display", "wl_event_queue" */

struct wl_display *wl_display_connect(const char *name);
struct wl_display *wl_display_connect_to_fd(int fd);
void wl_display_disconnect(struct wl_display *display);
int wl_display_get_fd(struct wl_display *display);
int wl_display_get_error(struct wl_display *display);
uint32_t wl_display_get_protocol_error(struct wl_display *display,
	const struct wl_interface **interface, uint32_t *id);

struct wl_event_queue *wl_display_create_queue(struct wl_display *display);
void wl_event_queue_destroy(struct wl_event_queue *queue);

int wl_display_dispatch(struct wl_display *display);
int wl_display_dispatch_queue(struct wl_display *display, struct wl_event_queue *queue);
int wl_display_dispatch_pending(struct wl_display *display);
int wl_display_dispatch_queue_pending(struct wl_display *display, struct wl_event_queue *queue);
int wl_display_roundtrip(struct wl_display *display);
int wl_display_roundtrip_queue(struct wl_display *display, struct wl_event_queue *queue);
int wl_display_flush(struct wl_display *display);

int wl_display_prepare_read(struct wl_display *display);
int wl_display_prepare_read_queue(struct wl_display *display, struct wl_event_queue *queue);
void wl_display_cancel_read(struct wl_display *display);
int wl_display_read_events(struct wl_display *display);

void wl_log_set_handler_client(wl_log_func_t handler);

/* ---- functions that libwayland got after 1.21 */

/* 1.22.90 */
struct wl_event_queue *wl_display_create_queue_with_name(struct wl_display *display,
	const char *name);
const char *wl_event_queue_get_name(const struct wl_event_queue *queue);
struct wl_display *wl_proxy_get_display(struct wl_proxy *proxy);
struct wl_event_queue *wl_proxy_get_queue(const struct wl_proxy *proxy);
void wl_display_set_max_buffer_size(struct wl_display *display, size_t most);

/* 1.23.90 and 1.24 */
const struct wl_interface *wl_proxy_get_interface(struct wl_proxy *proxy);
int wl_display_dispatch_timeout(struct wl_display *display, const struct timespec *timeout);
int wl_display_dispatch_queue_timeout(struct wl_display *display, struct wl_event_queue *queue,
	const struct timespec *timeout);
int wl_display_dispatch_pending_single(struct wl_display *display);
int wl_display_dispatch_queue_pending_single(struct wl_display *display,
	struct wl_event_queue *queue);

#endif
