/* How a replay ends: where the sessions part, and which other events came. */
#define _GNU_SOURCE
#include "replay.h"

#include <stdarg.h>
#include <stdio.h>

/* So many kinds of events are listed. */
#define MOST_KINDS 20
/* With --go-on, so many partings are printed. */
#define MOST_PARTINGS 20

void put_recorded(struct text *text, const struct message *message)
{
	struct text line = { NULL, 0, 0 }, named = { NULL, 0, 0 }, room = { NULL, 0, 0 };
	put_message(&line, message);
	put_line_with_names(&named, message, &line, &room);
	text_put(text, named.bytes, named.length);
	text_free(&line);
	text_free(&named);
	text_free(&room);
}

void part(struct replay *replay, const struct message *message, const char *format, ...)
{
	char why[512];
	va_list words;
	bool is_at_error = replay->ends_in_error && replay->live.has_error && !is_error(message);
	if (is_at_error || (replay->partings && !replay->wishes.go_on))
		return;
	if (replay->partings++ >= MOST_PARTINGS && !replay->live.is_over)
		return;
	va_start(words, format);
	vsnprintf(why, sizeof why, format, words);
	va_end(words);
	text_format(&replay->outcome, "parted at %s %ju (message %ju): ", message->from == CLIENT ? "request" : "event",
		(uintmax_t)message->index, (uintmax_t)message->number);
	put_recorded(&replay->outcome, message);
	text_add(&replay->outcome, "\n");
	if (replay->live.is_over)
		text_put(&replay->outcome, replay->live.why.bytes, replay->live.why.length);
	else
		text_add(&replay->outcome, why);
	text_add(&replay->outcome, "\n");
	if (replay->live.has_error && !replay->wishes.step)
		text_add(&replay->outcome, "an earlier request may be at fault: --step says which\n");
}

/* ---- other events */

static void put_kind(struct text *text, const waywire_tables *tables, uint16_t interface, uint16_t opcode,
	const uint64_t counts[2])
{
	struct name its = { NULL, 0 }, name = { NULL, 0 };
	waywire_message message;
	if (waywire_tables_name(tables, interface, &its.bytes, &its.length)
		|| waywire_tables_message(tables, interface, WAYWIRE_FROM_SERVER, opcode, &message, &name.bytes, &name.length))
		return;
	text_format(text, "%.*s.%.*s: %ju here, %ju in the recording\n", (int)its.length, its.bytes, (int)name.length,
		name.bytes, (uintmax_t)counts[HERE], (uintmax_t)counts[RECORDED]);
}

/* Puts the kinds of events that came more or less often than in the recording. Returns whether one came less often. */
static bool put_kinds(struct text *text, const struct twins *twins)
{
	size_t count = 0;
	bool is_missing = false;
	for (size_t i = 0; i < MOST_INTERFACES; i++)
		for (size_t opcode = 0; twins->sums[i] && opcode < MOST_EVENTS; opcode++) {
			const uint64_t *counts = twins->sums[i][opcode];
			if (counts[RECORDED] == counts[HERE])
				continue;
			is_missing |= counts[HERE] < counts[RECORDED];
			if (!count)
				text_add(text, "other events:\n");
			if (count++ < MOST_KINDS)
				put_kind(text, twins->tables, (uint16_t)i, (uint16_t)opcode, counts);
		}
	if (count > MOST_KINDS)
		text_format(text, "and %zu kinds more\n", count - MOST_KINDS);
	return is_missing;
}

/* ---- the outcome */

static void put_counts(struct replay *replay)
{
	struct text *text = &replay->outcome;
	text_format(text, "%ju of %ju requests sent, %ju events came, %ju in the recording%s\n",
		(uintmax_t)replay->live.sent, (uintmax_t)replay->recorded_requests, (uintmax_t)replay->live.came,
		(uintmax_t)replay->recorded_events, replay->partings && !replay->wishes.go_on ? " until there" : "");
	if (replay->partings > MOST_PARTINGS)
		text_format(text, "partings that are not printed: %u\n", replay->partings - MOST_PARTINGS);
	if (replay->left_out)
		text_format(text, "requests left out, because they need what was not made: %ju\n", (uintmax_t)replay->left_out);
	if (replay->pongs)
		text_format(text, "recorded pongs that were not sent: %ju\n", (uintmax_t)replay->pongs);
	if (replay->files)
		text_format(text, "files with a pattern, of the recorded size: %ju\n", (uintmax_t)replay->files);
	if (replay->empty_files)
		text_format(text, "empty files: %ju\n", (uintmax_t)replay->empty_files);
}

int print_outcome(struct replay *replay)
{
	struct text *text = &replay->outcome;
	if (!replay->partings)
		text_add(text, "played to the end\n");
	if (replay->has_same_error)
		text_add(text, "the same error came\n");
	put_counts(replay);
	twins_sum(&replay->twins);
	bool is_missing = put_kinds(text, &replay->twins);
	if (replay->wishes.strict && is_missing && !replay->partings)
		text_add(text, "refused by --strict: some events of the recording did not come\n");
	print(text->bytes, text->length);
	print_now();
	return replay->partings || (replay->wishes.strict && is_missing) ? PARTED : 0;
}
