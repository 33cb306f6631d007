/* The lines of --fault and --faults: docs/FORMATS.md, Faults on purpose. */
#define _GNU_SOURCE
#include "inspect.h"

#include <stdio.h>

/* A longer time is an error: a session ends before. */
#define LONGEST_TIME 1e6

/* The words of a line, one after the other. */
struct words {
	const char *all;   /* the line, for what is said of it */
	struct name word;  /* of length 0 at the end */
};

static void next_word(struct words *words)
{
	const char *from = words->word.bytes + words->word.length;
	from += strspn(from, " \t\r");
	words->word = (struct name){ from, strcspn(from, " \t\r") };
}

static enum fault_verb verb_of(const struct words *words)
{
	static const char *const verbs[] = { "drop", "duplicate", "delay", "hold", "kill" };
	for (size_t i = 0; i < sizeof verbs / sizeof *verbs; i++)
		if (is_name(words->word, verbs[i]))
			return (enum fault_verb)i;
	fail("--fault '%s': does not begin with drop, duplicate, delay, hold or kill", words->all);
}

/* The seconds in a word such as 200ms or 1.5s. */
static double time_of(const struct words *words)
{
	const char *from = words->word.bytes;
	size_t whole = strspn(from, "0123456789"), length = whole;
	if (whole && from[length] == '.')
		length += 1 + strspn(from + length + 1, "0123456789");
	struct name unit = { from + length, words->word.length - length };
	double seconds = whole ? strtod(from, NULL) * (is_name(unit, "ms") ? 1e-3 : 1) : -1;
	if (seconds < 0 || seconds > LONGEST_TIME || !(is_name(unit, "ms") || is_name(unit, "s")))
		fail("--fault '%s': no time such as 200ms or 1.5s", words->all);
	return seconds;
}

/* A number at the front of a text, and what is behind it; 0 if there is none. */
static uint64_t number_at_front(const char **at)
{
	size_t length = strspn(*at, "0123456789");
	uint64_t number = length && length < 19 ? strtoull(*at, NULL, 10) : 0;
	*at += length;
	return number;
}

/* Reads N, N- or N-M into the numbers of a line; false if a word is none of these. */
static bool read_numbers(struct fault_line *line, struct name word)
{
	const char *at = word.bytes, *end = word.bytes + word.length;
	line->first = line->last = number_at_front(&at);
	if (line->first && at < end && *at == '-') {
		at++;
		line->last = at == end ? UINT64_MAX : number_at_front(&at);
	}
	return line->first && at == end && line->first <= line->last;
}

/* Reads which messages a line is about: names, numbers, or both. */
static void read_which(struct fault_line *line, const waywire_tables *tables, struct words *words)
{
	bool has_names = memchr(words->word.bytes, '.', words->word.length);
	if (has_names) {
		char *names = strndup(words->word.bytes, words->word.length);
		if (!names)
			fail("out of memory");
		filter_read(&line->which, tables, "fault", names);
		free(names);
		next_word(words);
	}
	line->first = 1;
	line->last = UINT64_MAX;
	bool has_numbers = words->word.length;
	if (!has_names && !has_numbers)
		fail("--fault '%s': names no message", words->all);
	if (has_numbers && !read_numbers(line, words->word))
		fail("--fault '%s': %.*s is neither INTERFACE.MESSAGE nor a number such as 3, 3- or 3-5", words->all,
			(int)words->word.length, words->word.bytes);
	next_word(words);
	if (words->word.length)
		fail("--fault '%s': %s is too much", words->all, words->word.bytes);
}

void fault_lines_add(struct fault_lines *lines, const waywire_tables *tables, const char *given)
{
	struct fault_line line = { .from = COMPOSITOR + 1, .words = strdup(given) };
	struct words words = { given, { given, 0 } };
	struct fault_line *more = room_for_one(lines->lines, lines->count, sizeof *more);
	if (!more || !line.words)
		fail("out of memory");
	lines->lines = more;
	next_word(&words);
	line.verb = verb_of(&words);
	next_word(&words);
	if (line.verb == FAULT_DELAY || line.verb == FAULT_HOLD) {
		line.seconds = time_of(&words);
		next_word(&words);
	}
	if (is_name(words.word, "request") || is_name(words.word, "event")) {
		line.from = *words.word.bytes == 'r' ? CLIENT : COMPOSITOR;
		next_word(&words);
	}
	read_which(&line, tables, &words);
	more[lines->count++] = line;
}

void fault_lines_read(struct fault_lines *lines, const waywire_tables *tables, const char *path)
{
	struct text text = { NULL, 0, 0 };
	char *rest;
	read_file(path, &text);
	if (text.length && memchr(text.bytes, 0, text.length))
		fail("%s: is no text", path);
	for (char *line = text.length ? strtok_r(text.bytes, "\n", &rest) : NULL; line; line = strtok_r(NULL, "\n", &rest)) {
		line += strspn(line, " \t\r");
		line[strcspn(line, "\r")] = 0;
		if (*line && *line != '#')
			fault_lines_add(lines, tables, line);
	}
	text_free(&text);
}

void fault_lines_free(struct fault_lines *lines)
{
	for (size_t i = 0; i < lines->count; i++) {
		free(lines->lines[i].which.asked);
		free(lines->lines[i].words);
	}
	free(lines->lines);
}
