/* The types and functions of <wayland-util.h> that programs and compositors are compiled against.
 *
 * A program that was built with the headers of libwayland hands these structs in and gets them
 * back, so each has the size, the order and the types of the one of that name there. What they mean is in the Wayland
 * documentation, "Appendix B. Client API"; the comments here say only what the files of c/libwayland need. The test
 * layout.c of tests/libwayland compares the two. */
#ifndef WAYWIRE_WAYLAND_ABI_H
#define WAYWIRE_WAYLAND_ABI_H

#include <stdarg.h>
#include <stdbool.h>
#include <stddef.h>
#include <stdint.h>

/* A symbol that the library exports. It is compiled with -fvisibility=hidden: all others are its
 * own. */
#define EXPORT __attribute__((visibility("default")))

/* ---- interfaces: "Appendix B. Client API, wl_interface, wl_message" */

/* A request or an event. The signature has an optional number in front, the version since which the
 * message is there, and then a letter for each argument:
 *
 *     i  int        u  uint      f  fixed    s  string    o  object
 *     n  new id     a  array     h  file descriptor
 *
 * A `?` before an `s` or an `o` allows null. `types` has an entry for each argument: the interface
 * of an `o` or `n`, and null for an argument of another kind, or of any interface. */
struct wl_message {
	const char *name;
	const char *signature;
	const struct wl_interface **types;
};

/* An interface. Requests are the methods; an opcode is an index in one of the two arrays. */
struct wl_interface {
	const char *name;
	int version;
	int method_count;
	const struct wl_message *methods;
	int event_count;
	const struct wl_message *events;
};

/* How a wl_proxy and a wl_resource begin. The struct is private in libwayland, but Mesa and others read its first
 * field, to distinguish a wl_display from other pointers. */
struct wl_object {
	const struct wl_interface *interface;
	const void *implementation;
	uint32_t id;
};

struct wl_display;

/* ---- lists: "wl_list" */

/* A link of a ring. The head of a list is a link that belongs to no element. */
struct wl_list {
	struct wl_list *prev;
	struct wl_list *next;
};

/* The element of the type of `sample` whose field `member` is `link`. */
#define wl_container_of(link, sample, member) \
	((__typeof__(sample))(void *)((char *)(link) - offsetof(__typeof__(*(sample)), member)))

/* Goes through a list. Within `_safe` the element `position` may be removed. */
#define wl_list_for_each(position, head, member) \
	for ((position) = wl_container_of((head)->next, position, member); \
		&(position)->member != (head); \
		(position) = wl_container_of((position)->member.next, position, member))

#define wl_list_for_each_safe(position, following, head, member) \
	for ((position) = wl_container_of((head)->next, position, member), \
		(following) = wl_container_of((position)->member.next, following, member); \
		&(position)->member != (head); \
		(position) = (following), \
		(following) = wl_container_of((position)->member.next, following, member))

void wl_list_init(struct wl_list *list);
void wl_list_insert(struct wl_list *list, struct wl_list *element);
void wl_list_remove(struct wl_list *element);
int wl_list_length(const struct wl_list *list);
int wl_list_empty(const struct wl_list *list);
void wl_list_insert_list(struct wl_list *list, struct wl_list *other);

/* ---- arrays: "wl_array" */

/* `size` bytes at `data`, where `alloc` have room. */
struct wl_array {
	size_t size;
	size_t alloc;
	void *data;
};

void wl_array_init(struct wl_array *array);
void wl_array_release(struct wl_array *array);
void *wl_array_add(struct wl_array *array, size_t size);
int wl_array_copy(struct wl_array *array, struct wl_array *source);

/* ---- arguments: "wl_argument", "wl_fixed_t" */

/* A number in 256ths. */
typedef int32_t wl_fixed_t;

/* An argument of a message, by the letter of its signature. The `n` of an event that is dispatched
 * is the new proxy, in `o`. */
union wl_argument {
	int32_t i;
	uint32_t u;
	wl_fixed_t f;
	const char *s;
	struct wl_object *o;
	uint32_t n;
	struct wl_array *a;
	int32_t h;
};

/* What a dispatcher is called with: the implementation that was set with it, the proxy or resource, the
 * opcode, the message and its arguments. */
typedef int (*wl_dispatcher_func_t)(const void *implementation, void *target, uint32_t opcode,
	const struct wl_message *message, union wl_argument *args);

/* What is called with the library's messages to the programmer. */
typedef void (*wl_log_func_t)(const char *format, va_list args);

/* What an iterator's callback returns. Only calls of a server use it. */
enum wl_iterator_result {
	WL_ITERATOR_STOP,
	WL_ITERATOR_CONTINUE
};

/* The most arguments that a message has in libwayland. */
#define WL_CLOSURE_MAX_ARGS 20

/* ---- the interfaces of the core that libwayland exports: out/c/wayland/interfaces.c */

extern const struct wl_interface wl_fixes_interface; /* since 1.24 */
extern const struct wl_interface wl_display_interface;
extern const struct wl_interface wl_registry_interface;
extern const struct wl_interface wl_callback_interface;
extern const struct wl_interface wl_compositor_interface;
extern const struct wl_interface wl_shm_pool_interface;
extern const struct wl_interface wl_shm_interface;
extern const struct wl_interface wl_buffer_interface;
extern const struct wl_interface wl_data_offer_interface;
extern const struct wl_interface wl_data_source_interface;
extern const struct wl_interface wl_data_device_interface;
extern const struct wl_interface wl_data_device_manager_interface;
extern const struct wl_interface wl_shell_interface;
extern const struct wl_interface wl_shell_surface_interface;
extern const struct wl_interface wl_surface_interface;
extern const struct wl_interface wl_seat_interface;
extern const struct wl_interface wl_pointer_interface;
extern const struct wl_interface wl_keyboard_interface;
extern const struct wl_interface wl_touch_interface;
extern const struct wl_interface wl_output_interface;
extern const struct wl_interface wl_region_interface;
extern const struct wl_interface wl_subcompositor_interface;
extern const struct wl_interface wl_subsurface_interface;

#endif
