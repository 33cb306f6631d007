/* A text that grows, and strings in it. */
#define _GNU_SOURCE
#include "text.h"

#include <stdarg.h>
#include <stdio.h>
#include <stdlib.h>
#include <string.h>

/* The length of `\xNN`. */
#define ESCAPE 4
#define LONGEST_CHARACTER 4

bool text_make_room(struct text *text, size_t length)
{
	size_t room = 2 * (text->length + length) + 64;
	char *bytes = realloc(text->bytes, room);
	if (!bytes)
		return false;
	text->bytes = bytes;
	text->room = room;
	return true;
}

void text_format(struct text *text, const char *format, ...)
{
	va_list words;
	va_start(words, format);
	int length = vsnprintf(NULL, 0, format, words);
	va_end(words);
	if (length <= 0 || (text->room - text->length <= (size_t)length && !text_make_room(text, (size_t)length)))
		return;
	va_start(words, format);
	vsnprintf(text->bytes + text->length, (size_t)length + 1, format, words);
	va_end(words);
	text->length += (size_t)length;
}

/* The most digits of a number. */
#define MOST_DIGITS 20

static const char pairs[] = "0001020304050607080910111213141516171819202122232425262728293031323334353637383940"
	"4142434445464748495051525354555657585960616263646566676869707172737475767778798081828384858687888990"
	"919293949596979899";

/* Writes a number in front of `behind`, with as many digits as there is room for from `at` on. */
static inline void write_digits(char *at, char *behind, uint64_t number)
{
	for (; number > UINT32_MAX; number /= 100)
		memcpy(behind -= 2, pairs + 2 * (number % 100), 2);
	uint32_t rest = (uint32_t)number;
	for (; behind > at + 1; rest /= 100)
		memcpy(behind -= 2, pairs + 2 * (rest % 100), 2);
	if (behind > at)
		*at = (char)('0' + rest);
}

static size_t digit_count(uint64_t number)
{
	if (number < 100)
		return number < 10 ? 1 : 2;
	size_t count = 3;
	for (uint64_t power = 1000; number >= power && count < MOST_DIGITS; power *= 10)
		count++;
	return count;
}

void text_number(struct text *text, uint64_t number)
{
	if (text->room - text->length <= MOST_DIGITS && !text_make_room(text, MOST_DIGITS))
		return;
	char *at = text->bytes + text->length, *behind = at + digit_count(number);
	if (number < 10)
		*at = (char)('0' + number);
	else
		write_digits(at, behind, number);
	*behind = 0;
	text->length = (size_t)(behind - text->bytes);
}

void text_signed(struct text *text, int32_t number)
{
	if (number < 0)
		text_add(text, "-");
	text_number(text, number < 0 ? 0 - (uint32_t)number : (uint32_t)number);
}

uint64_t microseconds_of(double seconds)
{
	return (uint64_t)(seconds * 1e6 + 0.5);
}

void text_seconds(struct text *text, double seconds)
{
	uint64_t parts = microseconds_of(seconds);
	char decimals[] = ".000000";
	text_number(text, parts / 1000000);
	write_digits(decimals + 1, decimals + sizeof decimals - 1, parts % 1000000);
	text_put(text, decimals, sizeof decimals - 1);
}

void text_hex(struct text *text, const unsigned char *bytes, size_t length)
{
	static char digits[256][2]; /* of each byte */
	if (!length || (text->room - text->length <= 2 * length && !text_make_room(text, 2 * length)))
		return;
	for (size_t i = 0; !digits[255][1] && i < 256; i++) {
		digits[i][0] = "0123456789abcdef"[i >> 4];
		digits[i][1] = "0123456789abcdef"[i & 15];
	}
	char *at = text->bytes + text->length;
	for (size_t i = 0; i < length; i++, at += 2)
		memcpy(at, digits[bytes[i]], 2);
	*at = 0;
	text->length += 2 * length;
}

void text_free(struct text *text)
{
	free(text->bytes);
	*text = (struct text){ NULL, 0, 0 };
}

void text_put_name(struct text *text, struct name name)
{
	if (name.bytes)
		text_put(text, name.bytes, name.length);
	else
		text_add(text, "unknown");
}

int digit_value(char digit)
{
	return digit >= '0' && digit <= '9' ? digit - '0' : digit >= 'a' && digit <= 'f' ? digit - 'a' + 10 : -1;
}

void *room_for_one(void *array, size_t count, size_t size)
{
	/* It is full if the count is a power of two, or 0. */
	return count & (count - 1) ? array : realloc(array, (count ? 2 * count : 1) * size);
}

/* ---- UTF-8 */

size_t character_length(const unsigned char *bytes, size_t length, uint32_t *character)
{
	static const uint32_t least[] = { 0, 0, 0x80, 0x800, 0x10000 };
	if (!length)
		return 0;
	unsigned char first = *bytes;
	size_t size = first < 0x80 ? 1 : first >> 5 == 6 ? 2 : first >> 4 == 14 ? 3 : first >> 3 == 30 ? 4 : 0;
	if (!size || size > length)
		return 0;
	uint32_t read = size == 1 ? first : first & (0x7fu >> size);
	for (size_t i = 1; i < size; i++) {
		if (bytes[i] >> 6 != 2)
			return 0;
		read = read << 6 | (bytes[i] & 0x3f);
	}
	if (read < least[size] || read > 0x10ffff || (read >= 0xd800 && read < 0xe000))
		return 0;
	*character = read;
	return size;
}

size_t printable_character(const unsigned char *bytes, size_t length)
{
	uint32_t character;
	size_t size = character_length(bytes, length, &character);
	bool is_control = size && (character < ' ' || (character > '~' && character < 0xa0));
	bool is_turning = size && ((character >= 0x2028 && character <= 0x202e)
		|| (character >= 0x2066 && character <= 0x2069)
		|| character == 0x200e || character == 0x200f || character == 0xfeff);
	return is_control || is_turning ? 0 : size;
}

/* The escaped bytes at the front of a line, as many as one character has. */
static size_t escaped(const char *line, size_t length, unsigned char *bytes)
{
	size_t count = 0;
	for (; count < LONGEST_CHARACTER && length >= ESCAPE; line += ESCAPE, length -= ESCAPE) {
		if (line[0] != '\\' || line[1] != 'x' || digit_value(line[2]) < 0 || digit_value(line[3]) < 0)
			break;
		bytes[count++] = (unsigned char)(digit_value(line[2]) * 16 + digit_value(line[3]));
	}
	return count;
}

void text_put_line(struct text *text, const char *line, size_t length)
{
	unsigned char bytes[LONGEST_CHARACTER];
	while (length) {
		const char *next = memchr(line, '\\', length);
		size_t plain = next ? (size_t)(next - line) : length;
		text_put(text, line, plain);
		line += plain;
		length -= plain;
		size_t size = printable_character(bytes, escaped(line, length, bytes));
		if (size > 1)
			text_put(text, bytes, size);
		else if (length)
			text_put(text, line, 1);
		size_t over = size > 1 ? ESCAPE * size : length ? 1 : 0;
		line += over;
		length -= over;
	}
}

void text_put_quoted(struct text *text, const char *bytes, size_t length)
{
	const unsigned char *at = (const unsigned char *)bytes;
	text_add(text, "\"");
	while (length) {
		size_t plain = plain_length(at, length);
		text_put(text, at, plain);
		at += plain;
		length -= plain;
		if (!length)
			break;
		size_t size = *at == '"' || *at == '\\' ? 0 : printable_character(at, length);
		if (size)
			text_put(text, at, size);
		else
			text_format(text, "\\x%02x", *at);
		at += size ? size : 1;
		length -= size ? size : 1;
	}
	text_add(text, "\"");
}
