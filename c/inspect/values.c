/* The names of an argument's values beside its numbers. */
#define _GNU_SOURCE
#include "printed.h"

#include <inttypes.h>

/* At most this many numbers of an array are printed. Of any other array all bytes are printed, if there are no more. */
#define MOST_NUMBERS 8
#define MOST_BYTES 16

/* Goes to the next entry of an enum: its value and its name. False after the last. */
static bool next_entry(const char **entries, uint32_t *value, const char **name, size_t *length)
{
	char *end;
	if (!*entries || !**entries)
		return false;
	*value = (uint32_t)strtoul(*entries, &end, 10);
	if (*end != ' ')
		return false;
	*name = end + 1;
	*length = strcspn(*name, " ");
	*entries = *name + *length;
	*entries += **entries == ' ';
	return *length;
}

/* The name of exactly this value; false if it has none. */
static bool find_entry(const struct meaning *meaning, uint32_t wanted, struct name *name)
{
	const char *entries = meaning->entries;
	for (uint32_t value; next_entry(&entries, &value, &name->bytes, &name->length);)
		if (value == wanted)
			return true;
	return false;
}

size_t names_of_value(const struct meaning *meaning, uint32_t value, struct name *names, uint32_t *rest)
{
	size_t count = 0;
	*rest = 0;
	if (find_entry(meaning, value, &names[0]))
		return 1;
	*rest = value;
	for (uint32_t bit = 1; meaning->is_bitfield && bit; bit <<= 1)
		if (value & bit && find_entry(meaning, bit, &names[count])) {
			count++;
			*rest &= ~bit;
		}
	return count;
}

/* Appends a space and the names of a value, with bars between. */
static void put_names(struct text *text, const struct meaning *meaning, uint32_t value)
{
	struct name names[MOST_NAMES];
	uint32_t rest;
	size_t count = names_of_value(meaning, value, names, &rest);
	for (size_t i = 0; i < count; i++) {
		text_add(text, i ? "|" : " ");
		text_put(text, names[i].bytes, names[i].length);
	}
	if (count && rest)
		text_format(text, "|0x%" PRIx32, rest);
}

uint32_t number_at(const waywire_arg *array, size_t index)
{
	const unsigned char *bytes = (const unsigned char *)array->bytes + 4 * index;
	return bytes[0] | (uint32_t)bytes[1] << 8 | (uint32_t)bytes[2] << 16 | (uint32_t)bytes[3] << 24;
}

bool has_numbers(const struct argument *argument)
{
	return argument->value.kind == WAYWIRE_ARRAY && argument->meaning.is_numbers && !argument->meaning.is_unknown
		&& argument->value.length % 4 == 0;
}

static void put_contents(struct text *text, const struct argument *argument)
{
	size_t length = argument->value.length, count = length / 4;
	if (!length || argument->meaning.is_unknown || (!has_numbers(argument) && length > MOST_BYTES))
		return;
	text_add(text, " {");
	if (!has_numbers(argument))
		text_hex(text, (const unsigned char *)argument->value.bytes, length);
	for (size_t i = 0; has_numbers(argument) && i < count && i < MOST_NUMBERS; i++) {
		uint32_t number = number_at(&argument->value, i);
		text_format(text, i ? ", %" PRIu32 : "%" PRIu32, number);
		put_names(text, &argument->meaning, number);
	}
	text_add(text, has_numbers(argument) && count > MOST_NUMBERS ? ", ..}" : "}");
}

void put_meaning(struct text *text, const struct argument *argument)
{
	switch (argument->value.kind) {
	case WAYWIRE_INT: put_names(text, &argument->meaning, (uint32_t)argument->value.i); break;
	case WAYWIRE_UINT: put_names(text, &argument->meaning, argument->value.u); break;
	case WAYWIRE_ARRAY: put_contents(text, argument); break;
	default: break;
	}
}

/* Whether there is anything to put after an argument of a message. */
static bool has_meaning(const struct message *message)
{
	for (size_t i = 0; i < message->arg_count; i++) {
		const struct argument *argument = &message->args[i];
		if (argument->value.kind == WAYWIRE_ARRAY ? argument->value.length > 0 : argument->meaning.entries != NULL)
			return true;
	}
	return false;
}

/* Puts this part of a line, if the line has it at `at`. Returns its end; 0 if the line has something else there. */
static size_t put_part(struct text *text, const struct text *line, size_t at, const struct text *part)
{
	if (!part->length || part->length > line->length - at || memcmp(line->bytes + at, part->bytes, part->length))
		return 0;
	text_put(text, part->bytes, part->length);
	return at + part->length;
}

void put_line_with_names(struct text *text, const struct message *message, const struct text *line, struct text *part)
{
	size_t at = 0, begin = text->length;
	if (has_meaning(message)) {
		part->length = 0;
		put_front_of_message(part, message);
		at = put_part(text, line, 0, part);
	}
	for (size_t i = 0; at && i < message->arg_count; i++) {
		const struct argument *argument = &message->args[i];
		part->length = 0;
		text_add(part, i ? ", " : "");
		put_printed_argument(part, argument);
		at = put_part(text, line, at, part);
		if (at)
			put_meaning(text, argument);
	}
	if (!at)
		text->length = begin;
	text_put(text, line->bytes + at, line->length - at);
}
