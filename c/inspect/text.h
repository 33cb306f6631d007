/* A text that grows, and what is written into it. */
#ifndef INSPECT_TEXT_H
#define INSPECT_TEXT_H

#include <stdbool.h>
#include <stddef.h>
#include <stdint.h>
#include <string.h>

/* Once something was put, a NUL follows the text, which the length does not count. If memory runs out, what is put
 * is left out. */
struct text {
	char *bytes;
	size_t length, room;
};

/* Makes room for this many more bytes and a NUL; false if memory runs out. */
bool text_make_room(struct text *text, size_t length);

static inline void text_put(struct text *text, const void *bytes, size_t length)
{
	if (!length || (text->room - text->length <= length && !text_make_room(text, length)))
		return;
	memcpy(text->bytes + text->length, bytes, length);
	text->length += length;
	text->bytes[text->length] = 0;
}

/* Puts a string that ends with a NUL. */
static inline void text_add(struct text *text, const char *words)
{
	text_put(text, words, strlen(words));
}

/* Puts a number in decimal digits. */
void text_number(struct text *text, uint64_t number);

void text_signed(struct text *text, int32_t number);

/* Puts a time with six decimals, as it is rounded. */
void text_seconds(struct text *text, double seconds);

/* The microseconds of a time that is printed, to the nearest. */
uint64_t microseconds_of(double seconds);

void text_format(struct text *text, const char *format, ...) __attribute__((format(printf, 2, 3)));

/* Puts bytes as hexadecimal digits. */
void text_hex(struct text *text, const unsigned char *bytes, size_t length);

void text_free(struct text *text);

/* A name in some text; `bytes` is null if none is known. */
struct name {
	const char *bytes;
	size_t length;
};

/* Puts a name, or `unknown`. */
void text_put_name(struct text *text, struct name name);

static inline bool is_same_name(struct name one, struct name other)
{
	return one.length == other.length && !memcmp(one.bytes, other.bytes, one.length);
}

/* Whether a name is this one. */
static inline bool is_name(struct name name, const char *wanted)
{
	size_t length = strlen(wanted);
	return name.bytes && name.length == length && !memcmp(name.bytes, wanted, length);
}

/* Whether a byte is a character of ASCII that stands as it is between double quotes. */
static inline bool is_plain(unsigned char byte)
{
	return byte >= ' ' && byte <= '~' && byte != '"' && byte != '\\';
}

/* How many bytes at the front are such characters. Eight at a time: the highest bit of a byte is clear in all of these
 * differences and sums if the eight are such characters, and set in one of them for the lowest byte that is not. */
static inline size_t plain_length(const unsigned char *bytes, size_t length)
{
	const uint64_t each = 0x0101010101010101u;
	size_t plain = 0;
	for (; length - plain >= sizeof each; plain += sizeof each) {
		uint64_t eight;
		memcpy(&eight, bytes + plain, sizeof eight);
		uint64_t quotes = eight ^ each * '"', slashes = eight ^ each * '\\';
		if (((eight - each * ' ') | (eight + each) | (quotes - each) | (slashes - each)) & each * 0x80)
			break;
	}
	while (plain < length && is_plain(bytes[plain]))
		plain++;
	return plain;
}

/* The value of a hexadecimal digit, with letters in lower case; -1 for any other character. */
int digit_value(char digit);

/* Makes room in an array of so many elements for one more: the room doubles if it is full. Null if memory runs
 * out: then the array is as before. */
void *room_for_one(void *array, size_t count, size_t size);

/* The length of the character of UTF-8 at the front of some bytes that may be shown as it is: no control
 * character, and none that turns the direction of writing. 0 if there is none. */
size_t printable_character(const unsigned char *bytes, size_t length);

/* The length of the character of UTF-8 at the front of some bytes; 0 if there is none. */
size_t character_length(const unsigned char *bytes, size_t length, uint32_t *character);

/* Puts a line of a trace, in which all but ASCII stands as `\xNN`: characters of UTF-8 stand as they are. */
void text_put_line(struct text *text, const char *line, size_t length);

/* Puts a string in double quotes, as in a line. */
void text_put_quoted(struct text *text, const char *bytes, size_t length);

#endif
