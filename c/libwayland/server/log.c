/* What a server prints, and protocol loggers: see server.h. */
#include "server.h"

#include <stdlib.h>
#include <string.h>

struct wl_protocol_logger {
	struct wl_list link;
	wl_protocol_logger_func_t func;
	void *data;
};

EXPORT void wl_log_set_handler_server(wl_log_func_t handler)
{
	log_set_handler(handler);
}

EXPORT struct wl_protocol_logger *wl_display_add_protocol_logger(struct wl_display *display,
	wl_protocol_logger_func_t func, void *data)
{
	struct wl_protocol_logger *logger = malloc(sizeof *logger);
	if (!logger)
		return NULL;
	logger->func = func;
	logger->data = data;
	wl_list_insert(&display->loggers, &logger->link);
	return logger;
}

EXPORT void wl_protocol_logger_destroy(struct wl_protocol_logger *logger)
{
	wl_list_remove(&logger->link);
	free(logger);
}

static int count_arguments(const char *signature)
{
	int count = 0;
	for (; *signature; signature++)
		count += strchr("iufsonah", *signature) != NULL;
	return count;
}

void log_tell(struct wl_resource *resource, const struct wl_message *message, uint32_t opcode,
	const union wl_argument *args, bool is_event)
{
	struct wl_protocol_logger *logger, *next;
	struct printed_message printed = { &resource->object, message, args, false, is_event, false };
	struct wl_protocol_logger_message told = { resource, (int)opcode, message,
		count_arguments(message->signature), args };
	if (is_debugging())
		log_message(&printed);
	wl_list_for_each_safe(logger, next, &resource->client->display->loggers, link)
		logger->func(logger->data,
			is_event ? WL_PROTOCOL_LOGGER_EVENT : WL_PROTOCOL_LOGGER_REQUEST, &told);
}
