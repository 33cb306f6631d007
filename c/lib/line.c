/* The line of a report, as in a trace. It uses only the calls of waywire.h. */

#include "waywire.h"

#include <inttypes.h>
#include <stdarg.h>
#include <stdio.h>
#include <string.h>

/* A text that is written as far as there is room, and whose whole length is counted. */
struct text {
	char *at;
	size_t room;
	size_t length;
};

static void put(struct text *text, const char *bytes, size_t length)
{
	if (text->length < text->room) {
		size_t left = text->room - text->length;
		memcpy(text->at + text->length, bytes, length < left ? length : left);
	}
	text->length += length;
}

static void put_words(struct text *text, const char *words)
{
	put(text, words, strlen(words));
}

static void put_number(struct text *text, const char *format, ...)
{
	char digits[64];
	va_list numbers;
	va_start(numbers, format);
	int length = vsnprintf(digits, sizeof digits, format, numbers);
	va_end(numbers);
	put(text, digits, length > 0 ? (size_t)length : 0);
}

static void put_string(struct text *text, const char *bytes, size_t length)
{
	put_words(text, "\"");
	for (size_t i = 0; i < length; i++) {
		unsigned char byte = (unsigned char)bytes[i];
		if (byte >= ' ' && byte <= '~' && byte != '"' && byte != '\\')
			put(text, &bytes[i], 1);
		else
			put_number(text, "\\x%02x", byte);
	}
	put_words(text, "\"");
}

static void put_fixed(struct text *text, int32_t parts)
{
	uint32_t size = parts < 0 ? 0 - (uint32_t)parts : (uint32_t)parts;
	put_number(text, "%s%" PRIu32 ".%08" PRIu32, parts < 0 ? "-" : "", size / 256,
		size % 256 * 390625);
}

/* An object by the name of its interface, if the tables have it, and its id. */
static void put_object(struct text *text, const waywire_tables *tables, uint16_t interface, uint32_t id)
{
	const char *name;
	size_t length;
	if (waywire_tables_name(tables, interface, &name, &length))
		put_words(text, "unknown");
	else
		put(text, name, length);
	put_number(text, "@%" PRIu32, id);
}

static void put_arg(struct text *text, const waywire_tables *tables, uint16_t interface,
	const waywire_arg *arg)
{
	switch (arg->kind) {
	case WAYWIRE_INT:
		put_number(text, "%" PRId32, arg->i);
		break;
	case WAYWIRE_UINT:
		put_number(text, "%" PRIu32, arg->u);
		break;
	case WAYWIRE_FIXED:
		put_fixed(text, arg->i);
		break;
	case WAYWIRE_STRING:
		put_string(text, arg->bytes, arg->length);
		break;
	case WAYWIRE_OBJECT:
	case WAYWIRE_DEAD_OBJECT:
		put_object(text, tables, interface, arg->object.id);
		break;
	case WAYWIRE_NEW:
		put_words(text, "new id ");
		put_object(text, tables, interface, arg->object.id);
		break;
	case WAYWIRE_BOUND:
		put_string(text, arg->bytes, arg->length);
		put_number(text, ", %" PRIu32 ", new id ", arg->u);
		put(text, arg->bytes, arg->length);
		put_number(text, "@%" PRIu32, arg->object.id);
		break;
	case WAYWIRE_ARRAY:
		put_number(text, "array[%zu]", arg->length);
		break;
	case WAYWIRE_FD:
		put_number(text, "fd %" PRIu32, arg->u);
		break;
	default:
		put_words(text, "nil");
	}
}

/* The target and the name of a message. */
static void put_head(struct text *text, const waywire_tables *tables, waywire_sender sender,
	const waywire_report *report)
{
	waywire_message message;
	const char *name;
	size_t length;
	put_object(text, tables, report->interface, report->target.id);
	put_words(text, ".");
	if (waywire_tables_message(tables, report->interface, sender, (uint16_t)report->opcode, &message,
			&name, &length))
		put_words(text, "unknown");
	else
		put(text, name, length);
}

static void put_args(struct text *text, const waywire_tables *tables, waywire_sender sender,
	const waywire_report *report)
{
	for (size_t i = 0; i < report->arg_count; i++) {
		waywire_kind kind;
		if (waywire_tables_kind(tables, report->interface, sender, (uint16_t)report->opcode, i, &kind))
			kind.interface = WAYWIRE_ANY_INTERFACE;
		put_words(text, i ? ", " : "");
		put_arg(text, tables, kind.interface, &report->args[i]);
	}
}

static void put_error(struct text *text, const waywire_tables *tables, const waywire_report *report)
{
	put_words(text, "wl_display@1.error(");
	if (report->id)
		put_object(text, tables, report->version ? report->interface : WAYWIRE_ANY_INTERFACE, report->id);
	else
		put_words(text, "nil");
	put_number(text, ", %" PRIu32 ", ", report->code);
	put_string(text, report->text, report->text_length);
	put_words(text, ")");
}

static void put_report(struct text *text, const waywire_tables *tables, waywire_sender sender,
	const waywire_report *report)
{
	put_words(text, sender == WAYWIRE_FROM_CLIENT ? "-> " : "<- ");
	switch (report->kind) {
	case WAYWIRE_MESSAGE:
		put_head(text, tables, sender, report);
		put_words(text, "(");
		put_args(text, tables, sender, report);
		put_words(text, ")");
		break;
	case WAYWIRE_DISCARDED:
		put_head(text, tables, sender, report);
		put_words(text, "(..)");
		break;
	case WAYWIRE_DELETED:
		put_number(text, "wl_display@1.delete_id(%" PRIu32 ")", report->target.id);
		break;
	case WAYWIRE_STRAY:
		put_number(text, "wl_display@1.delete_id(%" PRIu32 ")", report->id);
		break;
	default:
		put_error(text, tables, report);
	}
}

size_t waywire_report_line(const waywire_tables *tables, waywire_sender sender,
	const waywire_report *report, char *line, size_t room)
{
	struct text text = { line, line && room ? room - 1 : 0, 0 };
	bool is_message = tables && report && report->kind >= WAYWIRE_MESSAGE && report->kind <= WAYWIRE_ERROR;
	if (is_message)
		put_report(&text, tables, sender, report);
	if (line && room)
		line[text.length < text.room ? text.length : text.room] = '\0';
	return text.length;
}
