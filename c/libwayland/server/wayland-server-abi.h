/* The types and functions of libwayland-server that compositors are compiled against.
 *
 * A compositor has listeners and signals of its own, and looks at the front of a wl_resource, so each struct has the
 * size, the order and the types of the one of that name in <wayland-server-core.h>. What they mean is in the Wayland
 * documentation, "Appendix C. Server API". */
#ifndef WAYWIRE_WAYLAND_SERVER_ABI_H
#define WAYWIRE_WAYLAND_SERVER_ABI_H

#include "wayland-abi.h"

#include <sys/types.h>

/* Types that compositors have pointers to, and nothing else. */
struct wl_client;
struct wl_event_loop;
struct wl_event_source;
struct wl_global;
struct wl_protocol_logger;
struct wl_resource;
struct wl_shm_buffer;
struct wl_shm_pool;

/* ---- signals: "wl_listener", "wl_signal" */

struct wl_listener;
typedef void (*wl_notify_func_t)(struct wl_listener *listener, void *data);

struct wl_listener {
	struct wl_list link;
	wl_notify_func_t notify;
};

struct wl_signal {
	struct wl_list listener_list;
};

void wl_signal_emit_mutable(struct wl_signal *signal, void *data);

/* ---- the loop: "wl_event_loop" */

enum {
	WL_EVENT_READABLE = 1,
	WL_EVENT_WRITABLE = 2,
	WL_EVENT_HANGUP = 4,
	WL_EVENT_ERROR = 8
};

typedef int (*wl_event_loop_fd_func_t)(int fd, uint32_t mask, void *data);
typedef int (*wl_event_loop_timer_func_t)(void *data);
typedef int (*wl_event_loop_signal_func_t)(int signal_number, void *data);
typedef void (*wl_event_loop_idle_func_t)(void *data);

struct wl_event_loop *wl_event_loop_create(void);
void wl_event_loop_destroy(struct wl_event_loop *loop);
struct wl_event_source *wl_event_loop_add_fd(struct wl_event_loop *loop, int fd, uint32_t mask,
	wl_event_loop_fd_func_t func, void *data);
int wl_event_source_fd_update(struct wl_event_source *source, uint32_t mask);
struct wl_event_source *wl_event_loop_add_timer(struct wl_event_loop *loop,
	wl_event_loop_timer_func_t func, void *data);
int wl_event_source_timer_update(struct wl_event_source *source, int milliseconds);
struct wl_event_source *wl_event_loop_add_signal(struct wl_event_loop *loop, int signal_number,
	wl_event_loop_signal_func_t func, void *data);
struct wl_event_source *wl_event_loop_add_idle(struct wl_event_loop *loop,
	wl_event_loop_idle_func_t func, void *data);
int wl_event_source_remove(struct wl_event_source *source);
void wl_event_source_check(struct wl_event_source *source);
int wl_event_loop_dispatch(struct wl_event_loop *loop, int milliseconds);
void wl_event_loop_dispatch_idle(struct wl_event_loop *loop);
int wl_event_loop_get_fd(struct wl_event_loop *loop);
void wl_event_loop_add_destroy_listener(struct wl_event_loop *loop, struct wl_listener *listener);
struct wl_listener *wl_event_loop_get_destroy_listener(struct wl_event_loop *loop,
	wl_notify_func_t notify);

/* ---- displays: "wl_display" */

struct wl_display *wl_display_create(void);
void wl_display_destroy(struct wl_display *display);
struct wl_event_loop *wl_display_get_event_loop(struct wl_display *display);
int wl_display_add_socket(struct wl_display *display, const char *name);
const char *wl_display_add_socket_auto(struct wl_display *display);
int wl_display_add_socket_fd(struct wl_display *display, int fd);
void wl_display_terminate(struct wl_display *display);
void wl_display_run(struct wl_display *display);
void wl_display_flush_clients(struct wl_display *display);
void wl_display_destroy_clients(struct wl_display *display);
uint32_t wl_display_get_serial(struct wl_display *display);
uint32_t wl_display_next_serial(struct wl_display *display);
void wl_display_add_destroy_listener(struct wl_display *display, struct wl_listener *listener);
struct wl_listener *wl_display_get_destroy_listener(struct wl_display *display,
	wl_notify_func_t notify);
void wl_display_add_client_created_listener(struct wl_display *display,
	struct wl_listener *listener);
struct wl_list *wl_display_get_client_list(struct wl_display *display);

/* ---- globals: "wl_global" */

typedef void (*wl_global_bind_func_t)(struct wl_client *client, void *data, uint32_t version,
	uint32_t id);
typedef bool (*wl_display_global_filter_func_t)(const struct wl_client *client,
	const struct wl_global *global, void *data);

struct wl_global *wl_global_create(struct wl_display *display,
	const struct wl_interface *interface, int version, void *data, wl_global_bind_func_t bind);
void wl_global_remove(struct wl_global *global);
void wl_global_destroy(struct wl_global *global);
void wl_display_set_global_filter(struct wl_display *display,
	wl_display_global_filter_func_t filter, void *data);
const struct wl_interface *wl_global_get_interface(const struct wl_global *global);
uint32_t wl_global_get_version(const struct wl_global *global);
struct wl_display *wl_global_get_display(const struct wl_global *global);
void *wl_global_get_user_data(const struct wl_global *global);
void wl_global_set_user_data(struct wl_global *global, void *data);

/* ---- clients: "wl_client" */

typedef enum wl_iterator_result (*wl_client_for_each_resource_iterator_func_t)(
	struct wl_resource *resource, void *data);

struct wl_client *wl_client_create(struct wl_display *display, int fd);
void wl_client_destroy(struct wl_client *client);
void wl_client_flush(struct wl_client *client);
struct wl_list *wl_client_get_link(struct wl_client *client);
struct wl_client *wl_client_from_link(struct wl_list *link);
void wl_client_get_credentials(struct wl_client *client, pid_t *pid, uid_t *uid, gid_t *gid);
int wl_client_get_fd(struct wl_client *client);
struct wl_display *wl_client_get_display(struct wl_client *client);
struct wl_resource *wl_client_get_object(struct wl_client *client, uint32_t id);
void wl_client_add_destroy_listener(struct wl_client *client, struct wl_listener *listener);
struct wl_listener *wl_client_get_destroy_listener(struct wl_client *client,
	wl_notify_func_t notify);
void wl_client_add_resource_created_listener(struct wl_client *client,
	struct wl_listener *listener);
void wl_client_for_each_resource(struct wl_client *client,
	wl_client_for_each_resource_iterator_func_t iterator, void *data);
void wl_client_post_no_memory(struct wl_client *client);
void wl_client_post_implementation_error(struct wl_client *client, const char *format, ...)
	__attribute__((format(printf, 2, 3)));

/* ---- resources: "wl_resource" */

typedef void (*wl_resource_destroy_func_t)(struct wl_resource *resource);

struct wl_resource *wl_resource_create(struct wl_client *client,
	const struct wl_interface *interface, int version, uint32_t id);
void wl_resource_destroy(struct wl_resource *resource);
void wl_resource_set_implementation(struct wl_resource *resource, const void *implementation,
	void *data, wl_resource_destroy_func_t destroy);
void wl_resource_set_dispatcher(struct wl_resource *resource, wl_dispatcher_func_t dispatcher,
	const void *implementation, void *data, wl_resource_destroy_func_t destroy);
void wl_resource_set_destructor(struct wl_resource *resource, wl_resource_destroy_func_t destroy);
void wl_resource_set_user_data(struct wl_resource *resource, void *data);
void *wl_resource_get_user_data(struct wl_resource *resource);
uint32_t wl_resource_get_id(struct wl_resource *resource);
struct wl_list *wl_resource_get_link(struct wl_resource *resource);
struct wl_resource *wl_resource_from_link(struct wl_list *link);
struct wl_resource *wl_resource_find_for_client(struct wl_list *list, struct wl_client *client);
struct wl_client *wl_resource_get_client(struct wl_resource *resource);
int wl_resource_get_version(struct wl_resource *resource);
int wl_resource_instance_of(struct wl_resource *resource, const struct wl_interface *interface,
	const void *implementation);
const char *wl_resource_get_class(struct wl_resource *resource);
void wl_resource_add_destroy_listener(struct wl_resource *resource, struct wl_listener *listener);
struct wl_listener *wl_resource_get_destroy_listener(struct wl_resource *resource,
	wl_notify_func_t notify);
void wl_resource_post_event(struct wl_resource *resource, uint32_t opcode, ...);
void wl_resource_post_event_array(struct wl_resource *resource, uint32_t opcode,
	union wl_argument *args);
void wl_resource_queue_event(struct wl_resource *resource, uint32_t opcode, ...);
void wl_resource_queue_event_array(struct wl_resource *resource, uint32_t opcode,
	union wl_argument *args);
void wl_resource_post_error(struct wl_resource *resource, uint32_t code, const char *format, ...)
	__attribute__((format(printf, 3, 4)));
void wl_resource_post_no_memory(struct wl_resource *resource);

/* ---- shared memory: "wl_shm_buffer", "wl_shm_pool" */

int wl_display_init_shm(struct wl_display *display);
uint32_t *wl_display_add_shm_format(struct wl_display *display, uint32_t format);
struct wl_shm_buffer *wl_shm_buffer_get(struct wl_resource *resource);
void wl_shm_buffer_begin_access(struct wl_shm_buffer *buffer);
void wl_shm_buffer_end_access(struct wl_shm_buffer *buffer);
void *wl_shm_buffer_get_data(struct wl_shm_buffer *buffer);
int32_t wl_shm_buffer_get_stride(struct wl_shm_buffer *buffer);
uint32_t wl_shm_buffer_get_format(struct wl_shm_buffer *buffer);
int32_t wl_shm_buffer_get_width(struct wl_shm_buffer *buffer);
int32_t wl_shm_buffer_get_height(struct wl_shm_buffer *buffer);
struct wl_shm_pool *wl_shm_buffer_ref_pool(struct wl_shm_buffer *buffer);
void wl_shm_pool_unref(struct wl_shm_pool *pool);

/* ---- what is printed: "wl_protocol_logger" */

enum wl_protocol_logger_type {
	WL_PROTOCOL_LOGGER_REQUEST,
	WL_PROTOCOL_LOGGER_EVENT
};

struct wl_protocol_logger_message {
	struct wl_resource *resource;
	int message_opcode;
	const struct wl_message *message;
	int arguments_count;
	const union wl_argument *arguments;
};

typedef void (*wl_protocol_logger_func_t)(void *data, enum wl_protocol_logger_type direction,
	const struct wl_protocol_logger_message *message);

struct wl_protocol_logger *wl_display_add_protocol_logger(struct wl_display *display,
	wl_protocol_logger_func_t func, void *data);
void wl_protocol_logger_destroy(struct wl_protocol_logger *logger);
void wl_log_set_handler_server(wl_log_func_t handler);

/* ---- deprecated */

uint32_t wl_client_add_resource(struct wl_client *client, struct wl_resource *resource);
struct wl_resource *wl_client_add_object(struct wl_client *client,
	const struct wl_interface *interface, const void *implementation, uint32_t id, void *data);
struct wl_resource *wl_client_new_object(struct wl_client *client,
	const struct wl_interface *interface, const void *implementation, void *data);
struct wl_global *wl_display_add_global(struct wl_display *display,
	const struct wl_interface *interface, void *data, wl_global_bind_func_t bind);
void wl_display_remove_global(struct wl_display *display, struct wl_global *global);
struct wl_shm_buffer *wl_shm_buffer_create(struct wl_client *client, uint32_t id, int32_t width,
	int32_t height, int32_t stride, uint32_t format);

/* ---- functions that libwayland got after 1.21 */

/* 1.22 */
uint32_t wl_global_get_name(const struct wl_global *global, const struct wl_client *client);
void wl_client_add_destroy_late_listener(struct wl_client *client, struct wl_listener *listener);
struct wl_listener *wl_client_get_destroy_late_listener(struct wl_client *client,
	wl_notify_func_t notify);
void wl_resource_post_error_vargs(struct wl_resource *resource, uint32_t code, const char *format,
	va_list args);

/* 1.22.90 */
typedef void (*wl_user_data_destroy_func_t)(void *data);
void wl_client_set_user_data(struct wl_client *client, void *data,
	wl_user_data_destroy_func_t destroy);
void *wl_client_get_user_data(struct wl_client *client);
void wl_client_set_max_buffer_size(struct wl_client *client, size_t most);
void wl_display_set_default_max_buffer_size(struct wl_display *display, size_t most);

/* 1.23.90 and 1.24 */
const struct wl_interface *wl_resource_get_interface(struct wl_resource *resource);
struct wl_shm_buffer *wl_shm_buffer_ref(struct wl_shm_buffer *buffer);
void wl_shm_buffer_unref(struct wl_shm_buffer *buffer);
struct wl_global *wl_fixes_create(struct wl_display *display, int version);

#endif
