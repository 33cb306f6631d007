/* Arguments of messages: see arguments.h. */
#define _GNU_SOURCE
#include "arguments.h"

#include <errno.h>
#include <fcntl.h>
#include <unistd.h>

void arguments_read(const struct signature *signature, union wl_argument *args, va_list given)
{
	for (size_t i = 0; i < signature->count; i++) {
		union wl_argument *arg = &args[i];
		switch (signature->letters[i]) {
		case 'i':
		case 'f':
		case 'h':
			arg->i = va_arg(given, int32_t);
			break;
		case 'u':
			arg->u = va_arg(given, uint32_t);
			break;
		case 's':
			arg->s = va_arg(given, const char *);
			break;
		case 'o':
		case 'n':
			arg->o = va_arg(given, struct wl_object *);
			break;
		case 'a':
			arg->a = va_arg(given, struct wl_array *);
			break;
		}
	}
}

/* ---- converting */

/* Duplicates a descriptor: the duplicate belongs to the outbox. -1 with errno. */
static int duplicate(int descriptor)
{
	return fcntl(descriptor, F_DUPFD_CLOEXEC, 0);
}

void arguments_close(const waywire_arg *args, size_t count)
{
	for (size_t i = 0; i < count; i++)
		if (args[i].kind == WAYWIRE_FD)
			close((int)args[i].u);
}

static waywire_arg array_argument(const struct wl_array *array)
{
	return array ? waywire_array(array->data, array->size) : waywire_array(NULL, 0);
}

/* Converts one argument. Returns 0, or an errno. */
static int convert(char letter, bool nullable, const union wl_argument *arg,
	arguments_handle *handle_of, waywire_arg *out)
{
	switch (letter) {
	case 'i':
		*out = waywire_int(arg->i);
		return 0;
	case 'u':
		*out = waywire_uint(arg->u);
		return 0;
	case 'f':
		*out = waywire_fixed(arg->f);
		return 0;
	case 'n':
		*out = waywire_new();
		return 0;
	case 'h':
		*out = waywire_fd((uint32_t)duplicate(arg->h));
		return (int)out->u < 0 ? errno : 0;
	case 's':
		*out = waywire_string(arg->s);
		break;
	case 'o': /* one that was never made has id 0, and is refused as one that is gone */
		*out = arg->o ? waywire_of(handle_of(arg->o)) : waywire_no_object();
		break;
	case 'a':
		*out = array_argument(arg->a);
		break;
	}
	return arg->s || nullable ? 0 : EINVAL; /* each of these three is a pointer */
}

int arguments_convert(const struct signature *signature, const union wl_argument *args,
	arguments_handle *handle_of, waywire_arg out[WAYWIRE_MAX_ARGS], size_t *index)
{
	for (size_t i = 0; i < signature->count; i++) {
		int error = convert(signature->letters[i], signature->nullable[i], &args[i], handle_of,
			&out[i]);
		if (error) {
			arguments_close(out, i);
			*index = i;
			return error;
		}
	}
	return 0;
}

/* ---- calling */

typedef uintptr_t word;

/* The type of a handler. On x86-64 each argument is in a register, or in 8 bytes of the stack, and a function that
 * takes fewer does not see the others. */
typedef void call_4(void *first, void *second, word, word, word, word);
typedef void call_8(void *first, void *second, word, word, word, word, word, word, word, word);
typedef void call_20(void *first, void *second, word, word, word, word, word, word, word, word,
	word, word, word, word, word, word, word, word, word, word, word, word);

void arguments_call(void (*function)(void), void *first, void *second,
	const struct signature *signature, const union wl_argument *args, bool is_event)
{
	word v[WAYWIRE_MAX_ARGS];
	size_t count = signature->count;
	for (size_t i = 0; i < count; i++) {
		char letter = signature->letters[i];
		bool is_pointer = letter == 's' || letter == 'a' || letter == 'o'
			|| (letter == 'n' && is_event);
		v[i] = is_pointer ? (word)args[i].s : args[i].u;
	}
	for (size_t i = count; i < (count <= 4 ? 4 : WAYWIRE_MAX_ARGS); i++)
		v[i] = 0;
	if (count <= 4)
		((call_4 *)function)(first, second, v[0], v[1], v[2], v[3]);
	else if (count <= 8)
		((call_8 *)function)(first, second, v[0], v[1], v[2], v[3], v[4], v[5], v[6], v[7]);
	else
		((call_20 *)function)(first, second, v[0], v[1], v[2], v[3], v[4], v[5], v[6], v[7],
			v[8], v[9], v[10], v[11], v[12], v[13], v[14], v[15], v[16], v[17], v[18],
			v[19]);
}
