/* Prints the layout of each struct that compositors keep themselves, and the values of constants. SERVER_HEADER is the
 * header that has them: c/libwayland/server/wayland-server-abi.h and that of libwayland give the same lines. */
#include <stdio.h>
#include <stddef.h>

#include SERVER_HEADER

#define FIELD(type, field) \
	printf("%s.%s: %zu, %zu of %zu\n", #type, #field, offsetof(type, field), sizeof ((type *)0)->field, sizeof(type))

int main(void)
{
	FIELD(struct wl_listener, link);
	FIELD(struct wl_listener, notify);
	FIELD(struct wl_signal, listener_list);
	FIELD(struct wl_protocol_logger_message, resource);
	FIELD(struct wl_protocol_logger_message, message_opcode);
	FIELD(struct wl_protocol_logger_message, message);
	FIELD(struct wl_protocol_logger_message, arguments_count);
	FIELD(struct wl_protocol_logger_message, arguments);
	printf("WL_EVENT: %d %d %d %d\n", WL_EVENT_READABLE, WL_EVENT_WRITABLE, WL_EVENT_HANGUP, WL_EVENT_ERROR);
	printf("WL_PROTOCOL_LOGGER: %d %d\n", WL_PROTOCOL_LOGGER_REQUEST, WL_PROTOCOL_LOGGER_EVENT);
	printf("WL_ITERATOR: %d %d\n", WL_ITERATOR_STOP, WL_ITERATOR_CONTINUE);
	printf("functions: %zu\n", sizeof(wl_event_loop_fd_func_t) + sizeof(wl_resource_destroy_func_t));
	return 0;
}
