/* What the library prints: see log.h. */
#define _GNU_SOURCE
#include "log.h"

#include <errno.h>
#include <stdio.h>
#include <stdlib.h>
#include <string.h>
#include <time.h>

static void print_to_stderr(const char *format, va_list args)
{
	vfprintf(stderr, format, args);
}

static wl_log_func_t handler = print_to_stderr;
bool log_is_debugging;

void log_set_handler(wl_log_func_t new_handler)
{
	handler = new_handler ? new_handler : print_to_stderr;
}

void log_line(const char *format, ...)
{
	int error = errno;
	va_list args;
	va_start(args, format);
	handler(format, args);
	va_end(args);
	errno = error;
}

void log_read_debug(const char *side)
{
	const char *wanted = getenv("WAYLAND_DEBUG");
	/* It is written once, so threads that connect later do not disturb those that read it. */
	if (wanted && !log_is_debugging && (strstr(wanted, side) || strstr(wanted, "1")))
		log_is_debugging = true;
}

uint32_t log_time(void)
{
	struct timespec now;
	clock_gettime(CLOCK_REALTIME, &now);
	return (uint32_t)(now.tv_sec * 1000000L + now.tv_nsec / 1000);
}

/* A number in 256ths, of which each is 0.00390625. */
static void print_fixed(FILE *line, wl_fixed_t number)
{
	int32_t whole = number / 256, parts = number % 256;
	if (number < 0)
		fprintf(line, "-%d.%08d", -whole, -parts * 390625);
	else
		fprintf(line, "%d.%08d", whole, parts * 390625);
}

static void print_new(FILE *line, const struct printed_message *printed, size_t index)
{
	const struct wl_interface **types = printed->message->types;
	const union wl_argument *arg = &printed->args[index];
	uint32_t id = !printed->is_event ? arg->n : arg->o ? arg->o->id : 0;
	fprintf(line, "new id %s@", types && types[index] ? types[index]->name : "[unknown]");
	if (id)
		fprintf(line, "%u", id);
	else
		fputs("nil", line);
}

static void print_string(FILE *line, const char *text)
{
	if (text)
		fprintf(line, "\"%s\"", text);
	else
		fputs("nil", line);
}

static void print_object(FILE *line, const struct wl_object *object)
{
	if (object)
		fprintf(line, "%s@%u", object->interface->name, object->id);
	else
		fputs("nil", line);
}

static void print_array(FILE *line, const struct wl_array *array)
{
	if (array)
		fprintf(line, "array[%zu]", array->size);
	else
		fputs("nil", line);
}

static void print_argument(FILE *line, const struct printed_message *printed, char letter,
	size_t index)
{
	const union wl_argument *arg = &printed->args[index];
	switch (letter) {
	case 'i':
		fprintf(line, "%d", arg->i);
		break;
	case 'u':
		fprintf(line, "%u", arg->u);
		break;
	case 'f':
		print_fixed(line, arg->f);
		break;
	case 's':
		print_string(line, arg->s);
		break;
	case 'o':
		print_object(line, arg->o);
		break;
	case 'n':
		print_new(line, printed, index);
		break;
	case 'a':
		print_array(line, arg->a);
		break;
	case 'h':
		fprintf(line, "fd %d", arg->h);
		break;
	}
}

static void print_arguments(FILE *line, const struct printed_message *printed)
{
	size_t index = 0;
	for (const char *letter = printed->message->signature; *letter; letter++) {
		if (!strchr("iufsonah", *letter))
			continue;
		if (index)
			fputs(", ", line);
		print_argument(line, printed, *letter, index);
		index++;
	}
}

/* A line is put together in memory and printed at once, so lines of several threads do not mix.
 * Without memory it is not printed. */
void log_message(const struct printed_message *printed)
{
	int error = errno;
	char *text = NULL;
	size_t length;
	FILE *line = open_memstream(&text, &length);
	if (line) {
		const struct wl_object *target = printed->target;
		uint32_t time = log_time();
		fprintf(line, "[%7u.%03u] %s%s%s@%u.%s(", time / 1000, time % 1000,
			printed->is_discarded ? "discarded " : "", printed->is_sent ? " -> " : "",
			target->interface->name, target->id, printed->message->name);
		print_arguments(line, printed);
		fputs(")\n", line);
		if (!fclose(line))
			fputs(text, stderr);
		free(text);
	}
	errno = error;
}
