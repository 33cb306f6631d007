/* Arguments of messages as libwayland has them: read from a variable list, turned into those of waywire.h, and
 * passed to a handler. */
#ifndef WAYWIRE_WAYLAND_ARGUMENTS_H
#define WAYWIRE_WAYLAND_ARGUMENTS_H

#include "structs.h"

/* Reads the arguments that follow a call's last one. */
void arguments_read(const struct signature *signature, union wl_argument *args, va_list given);

/* The object at the end of what a program passes as an object. */
typedef waywire_object arguments_handle(const struct wl_object *object);

/* Converts arguments to the form of waywire.h. Descriptors are duplicated: the duplicates belong to the outbox. Returns
 * 0, or an errno: EINVAL for null if that is not allowed, else why a descriptor cannot be duplicated. Then none is left
 * open, and `index` is that of the argument. */
int arguments_convert(const struct signature *signature, const union wl_argument *args,
	arguments_handle *handle_of, waywire_arg out[WAYWIRE_MAX_ARGS], size_t *index);

/* Closes the duplicates. */
void arguments_close(const waywire_arg *args, size_t count);

/* Calls a handler: a function whose parameters are `first`, `second` and the arguments. The `n` of an event is an
 * object, and that of a request an id. */
void arguments_call(void (*function)(void), void *first, void *second,
	const struct signature *signature, const union wl_argument *args, bool is_event);

#endif
