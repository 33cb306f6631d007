/* The signatures of messages, which programs pass in as text: see structs.h. */
#include "structs.h"

#include <limits.h>

/* A number at the front of a signature has at most this many digits. */
#define MOST_DIGITS 10

/* The kind of a character: no part of a signature, if it is not in the table below. */
enum letter_class {
	PLAIN = 1,
	WITH_NULL = 2, /* a `?` may precede it */
	NEW = 4,
	OBJECT = 8,
	QUESTION = 16, /* the `?` */
	NUMBER = 32
};

/* Each request and each event asks, so it is a table. */
static const uint8_t classes[UCHAR_MAX + 1] = {
	['i'] = NUMBER, ['u'] = NUMBER, ['f'] = NUMBER, ['h'] = PLAIN,
	['s'] = WITH_NULL, ['o'] = WITH_NULL | OBJECT, ['n'] = WITH_NULL | OBJECT | NEW,
	['a'] = WITH_NULL,
	['?'] = QUESTION,
};

static bool is_digit(char letter)
{
	return letter >= '0' && letter <= '9';
}

/* Reads the number at the front of a signature. Returns the text after it; null if the number is above UINT32_MAX. */
static const char *read_number(const char *text, uint32_t *since)
{
	uint64_t number = 0;
	for (int digits = 0; is_digit(*text); text++) {
		number = number * 10 + (uint64_t)(*text - '0');
		if (++digits > MOST_DIGITS || number > UINT32_MAX)
			return NULL;
	}
	*since = (uint32_t)number;
	return text;
}

bool signature_read(struct signature *signature, const char *text)
{
	size_t count = 0;
	unsigned found = 0;
	text = read_number(text, &signature->since);
	if (!text)
		return false;
	for (; *text; text++) {
		uint8_t class = classes[(unsigned char)*text];
		bool nullable = class == QUESTION;
		if (nullable)
			class = classes[(unsigned char)*++text] & (WITH_NULL | OBJECT | NEW);
		if (!class || count == WAYWIRE_MAX_ARGS)
			return false;
		found |= class;
		signature->letters[count] = *text;
		signature->nullable[count] = nullable;
		count++;
	}
	signature->count = count;
	signature->has_new = found & NEW;
	signature->has_object = found & OBJECT;
	signature->is_of_numbers = !(found & ~(unsigned)NUMBER);
	return true;
}
