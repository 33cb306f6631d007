/* The longest times in which nothing passed, and how long pastes took.
 *
 * The content of a paste goes through a pipe, which no recording has. What a session shows of it is how long the client
 * sent nothing after its `receive`. */
#define _GNU_SOURCE
#include "silences.h"

#include <inttypes.h>
#include <string.h>

/* A shorter time without a message is no silence. */
#define LEAST 0.1
/* With more room for open questions than this, the newest is not looked for: each silence would take as long. */
#define MOST_ROOM 8192

/* ---- messages */

static struct brief brief_of(const struct message *message)
{
	return (struct brief){ message->number, message->piece, message->seconds, message->from, message->target.id,
		message->target.name, message->name };
}

/* Whether a request asks for the content of a selection or a drag. */
static bool is_paste(const struct message *message)
{
	return message->from == CLIENT && !message->status && is_name(message->name, "receive")
		&& message->descriptor_count == 1;
}

/* The newest question without an answer. */
static struct brief newest_question(const struct questions *questions)
{
	size_t count;
	struct brief found = { .number = 0 };
	if (questions->open.room > MOST_ROOM)
		return found;
	const struct question **open = questions_due(questions, &count);
	if (count) {
		const struct question *newest = open[count - 1];
		found = (struct brief){ .number = newest->number, .seconds = newest->seconds, .from = newest->kind->from,
			.id = newest->id, .interface = newest->kind->interface, .message = newest->kind->message };
	}
	free(open);
	return found;
}

/* What was asked last and may still be waited for. */
static struct brief asked_before(const struct silences *silences, const struct questions *questions)
{
	if (silences->paste.number)
		return silences->paste;
	struct brief found = newest_question(questions);
	return found.number ? found : silences->last_request;
}

/* ---- silences */

/* Adds the silence between the last message and a time, if it is one of the longest. */
static void add_silence(struct silences *silences, const struct questions *questions, double until)
{
	double seconds = until - silences->last.seconds;
	size_t at = silences->count;
	if (!silences->last.number || silences->last.seconds < 0 || until < 0 || seconds < LEAST)
		return;
	while (at && silences->longest[at - 1].seconds < seconds)
		at--;
	if (at == MOST_SILENCES)
		return;
	silences->count += silences->count < MOST_SILENCES;
	memmove(&silences->longest[at + 1], &silences->longest[at],
		(silences->count - at - 1) * sizeof *silences->longest);
	silences->longest[at] = (struct silence){ seconds, silences->last, asked_before(silences, questions) };
}

/* A request shows that the client goes on after its paste, unless it was sent together with it. */
static void end_paste(struct silences *silences, const struct message *message)
{
	struct brief *paste = &silences->paste;
	if (!paste->number || message->from != CLIENT || message->piece == paste->piece)
		return;
	double seconds = paste->seconds < 0 ? 0 : message->seconds - paste->seconds;
	silences->paste_count += silences->receive_count;
	silences->all_pastes += seconds * (double)silences->receive_count;
	if (seconds > silences->longest_paste)
		silences->longest_paste = seconds;
	paste->number = silences->receive_count = 0;
}

void silences_note(struct silences *silences, const struct questions *questions, const struct message *message)
{
	add_silence(silences, questions, message->seconds);
	end_paste(silences, message);
	silences->last = brief_of(message);
	if (message->from == CLIENT)
		silences->last_request = silences->last;
	if (!is_paste(message))
		return;
	if (!silences->receive_count++)
		silences->paste = silences->last;
}

/* ---- in words */

static void put_brief(struct text *text, const struct brief *brief)
{
	text_format(text, "message %" PRIu64 ", %s ", brief->number, brief->from == CLIENT ? "->" : "<-");
	text_put_name(text, brief->interface);
	text_format(text, "@%" PRIu32 ".", brief->id);
	text_put_name(text, brief->message);
}

static void put_pastes(struct text *text, const struct silences *silences, double until)
{
	uint64_t count = silences->paste_count;
	if (count)
		text_format(text, "%" PRIu64 " pastes", count);
	if (count && silences->last.seconds >= 0)
		text_format(text, ", %.3f ms on average, %.3f ms at most, from receive to the client's next request",
			1e3 * silences->all_pastes / (double)count, 1e3 * silences->longest_paste);
	text_add(text, count ? "\n" : "");
	if (!silences->receive_count)
		return;
	text_format(text, "%" PRIu64 " pastes without a request after them", silences->receive_count);
	if (until >= 0 && silences->paste.seconds >= 0 && until >= silences->paste.seconds)
		text_format(text, ", %.3f ms to the end", 1e3 * (until - silences->paste.seconds));
	text_add(text, "\n");
}

void silences_put(struct text *text, const struct silences *silences, const struct questions *questions, double until)
{
	struct silences all = *silences;
	add_silence(&all, questions, until);
	put_pastes(text, silences, until);
	if (all.count)
		text_add(text, "longest silences\n");
	for (size_t i = 0; i < all.count; i++) {
		const struct silence *silence = &all.longest[i];
		text_format(text, "%10.3f s from %.6f on, after ", silence->seconds, silence->before.seconds);
		put_brief(text, &silence->before);
		if (silence->asked.number && silence->asked.number != silence->before.number) {
			text_add(text, "; asked before: ");
			put_brief(text, &silence->asked);
		}
		text_add(text, "\n");
	}
}
