/* Prints the size of each type that libwayland's programs are compiled against, the offset and the size of each
 * field, and the value of each constant. HEADER is the header that has them: c/libwayland/common/wayland-abi.h and that of
 * libwayland give the same lines. */
#include <stdio.h>

#include HEADER

#define TYPE(type) printf("%s: %zu\n", #type, sizeof(type))
#define FIELD(type, field) \
	printf("%s.%s: %zu, %zu\n", #type, #field, offsetof(type, field), sizeof ((type *)0)->field)

static void print_fields(void)
{
	FIELD(struct wl_message, name);
	FIELD(struct wl_message, signature);
	FIELD(struct wl_message, types);
	FIELD(struct wl_interface, name);
	FIELD(struct wl_interface, version);
	FIELD(struct wl_interface, method_count);
	FIELD(struct wl_interface, methods);
	FIELD(struct wl_interface, event_count);
	FIELD(struct wl_interface, events);
	FIELD(struct wl_list, prev);
	FIELD(struct wl_list, next);
	FIELD(struct wl_array, size);
	FIELD(struct wl_array, alloc);
	FIELD(struct wl_array, data);
	FIELD(union wl_argument, i);
	FIELD(union wl_argument, u);
	FIELD(union wl_argument, f);
	FIELD(union wl_argument, s);
	FIELD(union wl_argument, o);
	FIELD(union wl_argument, n);
	FIELD(union wl_argument, a);
	FIELD(union wl_argument, h);
}

int main(void)
{
	TYPE(struct wl_message);
	TYPE(struct wl_interface);
	TYPE(struct wl_list);
	TYPE(struct wl_array);
	TYPE(union wl_argument);
	TYPE(wl_fixed_t);
	TYPE(wl_dispatcher_func_t);
	TYPE(wl_log_func_t);
	TYPE(enum wl_iterator_result);
	print_fields();
	printf("WL_MARSHAL_FLAG_DESTROY: %d\n", WL_MARSHAL_FLAG_DESTROY);
	printf("WL_ITERATOR_STOP, _CONTINUE: %d, %d\n", WL_ITERATOR_STOP, WL_ITERATOR_CONTINUE);
	return 0;
}
