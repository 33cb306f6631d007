/* The line of a message, from what the tool knows of its objects. */
#define _GNU_SOURCE
#include "printed.h"

#include <inttypes.h>

void put_object(struct text *text, const struct object *object)
{
	text_put_name(text, object->name);
	text_add(text, "@");
	text_number(text, object->id);
}

static void put_fixed(struct text *text, int32_t parts)
{
	uint32_t size = parts < 0 ? 0 - (uint32_t)parts : (uint32_t)parts;
	text_format(text, "%s%" PRIu32 ".%08" PRIu32, parts < 0 ? "-" : "", size / 256, size % 256 * 390625);
}

static void put_bound(struct text *text, const struct argument *argument)
{
	text_put_quoted(text, argument->value.bytes, argument->value.length);
	text_format(text, ", %" PRIu32 ", new id ", argument->value.u);
	put_object(text, &argument->object);
}

void put_printed_argument(struct text *text, const struct argument *argument)
{
	const waywire_arg *value = &argument->value;
	switch (value->kind) {
	case WAYWIRE_INT: text_signed(text, value->i); break;
	case WAYWIRE_UINT: text_number(text, value->u); break;
	case WAYWIRE_FIXED: put_fixed(text, value->i); break;
	case WAYWIRE_STRING: text_put_quoted(text, value->bytes, value->length); break;
	case WAYWIRE_OBJECT: put_object(text, &argument->object); break;
	case WAYWIRE_NEW:
		text_add(text, "new id ");
		put_object(text, &argument->object);
		break;
	case WAYWIRE_BOUND: put_bound(text, argument); break;
	case WAYWIRE_ARRAY: text_format(text, "array[%zu]", value->length); break;
	case WAYWIRE_FD:
		text_add(text, "fd");
		if (argument->descriptor)
			text_format(text, " %" PRIu64, argument->descriptor);
		break;
	default: text_add(text, "nil");
	}
}

/* Whether a message could be decoded, at least in part. */
static bool has_arguments(const struct message *message)
{
	return message->name.bytes && message->shown != WAYWIRE_FAULT_UNKNOWN_MESSAGE
		&& message->shown != WAYWIRE_FAULT_BAD_SIZE;
}

void put_front_of_message(struct text *text, const struct message *message)
{
	text_add(text, message->from == CLIENT ? "-> " : "<- ");
	put_object(text, &message->target);
	if (!has_arguments(message))
		return;
	text_add(text, ".");
	text_put_name(text, message->name);
	text_add(text, "(");
}

void put_message(struct text *text, const struct message *message)
{
	put_front_of_message(text, message);
	if (!has_arguments(message)) {
		text_format(text, ": opcode %u, %zu bytes", message->opcode, message->size);
		return;
	}
	for (size_t i = 0; i < message->arg_count; i++) {
		text_add(text, i ? ", " : "");
		put_printed_argument(text, &message->args[i]);
	}
	if (message->shown)
		text_add(text, message->arg_count ? ", .." : "..");
	text_add(text, ")");
}
