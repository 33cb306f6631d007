/* What the library prints: its messages to the programmer, and the lines of WAYLAND_DEBUG. */
#ifndef WAYWIRE_WAYLAND_LOG_H
#define WAYWIRE_WAYLAND_LOG_H

#include "wayland-abi.h"

/* A message to the programmer, in printf's form. It goes to the handler that was set, or to
 * stderr. The handler gets the text as it is: end it with a
 * line feed. errno is kept. */
void log_line(const char *format, ...) __attribute__((format(printf, 1, 2)));

/* Sets the handler; null is that which prints to stderr. */
void log_set_handler(wl_log_func_t handler);

/* Reads WAYLAND_DEBUG for a side, `client` or `server`: call it when a display is made. */
void log_read_debug(const char *side);

/* Whether messages are printed: once a display was made while WAYLAND_DEBUG had `1` or the side in it. Each request
 * and each event asks, so it is no call. */
extern bool log_is_debugging;
static inline bool is_debugging(void)
{
	return log_is_debugging;
}

/* The time in microseconds, of which libwayland prints 32 bits. */
uint32_t log_time(void);

/* Prints the line of a message to stderr, word for word as libwayland 1.21 does.
 *
 * `args` has an argument for each letter of the signature. The `n` of a request is an id; that of an event is the new
 * object in `o`, or null. Id 0 and null are printed as nil. errno is kept. */
struct printed_message {
	const struct wl_object *target;
	const struct wl_message *message;
	const union wl_argument *args;
	bool is_event;
	bool is_sent;
	bool is_discarded; /* an event whose proxy the program has destroyed */
};
void log_message(const struct printed_message *printed);

#endif
