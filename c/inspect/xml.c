/* Reads the tags of an XML text, without checking it: the tool for XML does that, for a text that is converted. */
#define _GNU_SOURCE
#include "xml.h"

#include <stdlib.h>

static bool is_space(char byte)
{
	return byte == ' ' || byte == '\t' || byte == '\r' || byte == '\n';
}

static char *without_spaces(char *at, const char *end)
{
	while (at < end && is_space(*at))
		at++;
	return at;
}

static bool begins(const char *at, const char *end, const char *word)
{
	size_t length = strlen(word);
	return (size_t)(end - at) >= length && !memcmp(at, word, length);
}

/* What follows the next of these words; the end if there is none. */
static char *behind(char *at, char *end, const char *word)
{
	char *found = memmem(at, (size_t)(end - at), word, strlen(word));
	return found ? found + strlen(word) : end;
}

/* The quote that closes the one at this place; the end if none does. */
static char *closing(char *at, char *end)
{
	char *found = memchr(at + 1, *at, (size_t)(end - at) - 1);
	return found ? found : end;
}

/* The `>` of a tag; the end if it has none. */
static char *tag_end(char *at, char *end)
{
	while (at < end && *at != '>') {
		if (*at == '"' || *at == '\'')
			at = closing(at, end);
		at += at < end;
	}
	return at;
}

/* Behind a comment, a CDATA section or a processing instruction; null if none begins here. */
static char *behind_section(char *at, char *end)
{
	static const char *const sections[][2] = { { "<!--", "-->" }, { "<![CDATA[", "]]>" }, { "<?", "?>" } };
	bool may_begin = end - at > 1 && (at[1] == '!' || at[1] == '?');
	for (size_t i = 0; may_begin && i < sizeof sections / sizeof *sections; i++)
		if (begins(at, end, sections[i][0]))
			return behind(at + strlen(sections[i][0]), end, sections[i][1]);
	return NULL;
}

/* Behind a document type, which may declare things in tags of its own. */
static char *behind_type(char *at, char *end)
{
	size_t depth = 0;
	while (at < end) {
		char *section = behind_section(at, end);
		if (section) {
			at = section;
			continue;
		}
		if (*at == '"' || *at == '\'')
			at = closing(at, end);
		else if (*at == '<')
			depth++;
		else if (*at == '>' && !--depth)
			return at + 1;
		at += at < end;
	}
	return end;
}

bool xml_next(char **from, char *end, struct tag *tag)
{
	char *at = *from;
	while ((at = memchr(at, '<', (size_t)(end - at)))) {
		char *section = behind_section(at, end);
		if (section)
			at = section;
		else if (begins(at, end, "<!"))
			at = behind_type(at, end);
		else if (begins(at, end, "</"))
			at = behind(at, end, ">");
		else
			break;
	}
	if (!at)
		return false;
	char *name = at + 1;
	tag->end = tag_end(name, end);
	for (at = name; at < tag->end && !is_space(*at) && *at != '/';)
		at++;
	tag->name = (struct name){ name, (size_t)(at - name) };
	tag->attributes = at;
	*from = tag->end;
	return tag->end < end;
}

/* ---- attributes */

/* The character of a reference such as `&#95;` or `&#x5f;`, if a name may have it; otherwise 0. Moves behind it. */
static char referred(char **at, const char *end)
{
	bool is_hexadecimal = begins(*at, end, "&#x");
	if (!is_hexadecimal && !begins(*at, end, "&#"))
		return 0;
	unsigned long base = is_hexadecimal ? 16 : 10, character = 0;
	char *digit = *at + (is_hexadecimal ? 3 : 2);
	for (; digit < end && character < 128; digit++) {
		int value = digit_value(*digit >= 'A' && *digit <= 'F' ? (char)(*digit - 'A' + 'a') : *digit);
		if (value < 0 || (unsigned long)value >= base)
			break;
		character = character * base + (unsigned long)value;
	}
	bool is_in_names = character && character < 128
		&& strchr("abcdefghijklmnopqrstuvwxyzABCDEFGHIJKLMNOPQRSTUVWXYZ0123456789_", (int)character);
	if (digit >= end || *digit != ';' || !is_in_names)
		return 0;
	*at = digit + 1;
	return (char)character;
}

/* A value, between its quotes. Spaces follow the quote where it has become shorter. */
static struct name unreferred(char *value, char *close)
{
	char quote = *close, *to = value;
	for (char *at = value; at < close;) {
		char character = *at == '&' ? referred(&at, close) : 0;
		*to++ = character ? character : *at++;
	}
	if (to < close) {
		memset(to, ' ', (size_t)(close - to) + 1);
		*to = quote;
	}
	return (struct name){ value, (size_t)(to - value) };
}

struct name xml_attribute(const struct tag *tag, const char *name)
{
	static const struct name none;
	for (char *at = without_spaces(tag->attributes, tag->end); at < tag->end; at = without_spaces(at, tag->end)) {
		struct name its = { at, 0 };
		while (at < tag->end && !is_space(*at) && *at != '=')
			at++;
		its.length = (size_t)(at - its.bytes);
		at = without_spaces(at, tag->end);
		at = without_spaces(at < tag->end && *at == '=' ? at + 1 : tag->end, tag->end);
		if (at == tag->end || (*at != '"' && *at != '\''))
			return none;
		char *close = closing(at, tag->end);
		if (close == tag->end)
			return none;
		if (is_name(its, name))
			return unreferred(at + 1, close);
		at = close + 1;
	}
	return none;
}
