/* What is said of faults on purpose: each one when it is done, and all of them with the verdict. */
#define _GNU_SOURCE
#include "inspect.h"

#include <inttypes.h>

void fault_counts_add(struct fault_counts *counts, const char *words)
{
	struct fault_count *more = room_for_one(counts->counts, counts->count, sizeof *more);
	char *copy = strdup(words);
	if (more)
		counts->counts = more;
	if (more && copy)
		more[counts->count++] = (struct fault_count){ copy, 0 };
	else
		free(copy);
}

void fault_counts_free(struct fault_counts *counts)
{
	for (size_t i = 0; i < counts->count; i++)
		free(counts->counts[i].words);
	free(counts->counts);
}

void fault_counts_put(struct text *text, const struct fault_counts *counts, const char *before)
{
	uint64_t sum = 0;
	for (size_t i = 0; i < counts->count; i++)
		sum += counts->counts[i].count;
	if (sum)
		text_format(text, "%s%" PRIu64 " fault%s on purpose", before, sum, sum == 1 ? "" : "s");
}

/* The length of what a line does, without the messages to which it is done: `drop`, `delay 200ms`. */
static size_t deed_length(const char *words)
{
	size_t from = strspn(words, " \t"), verb = from + strcspn(words + from, " \t");
	bool has_time = !strncmp(words + from, "delay", 5) || !strncmp(words + from, "hold", 4);
	size_t time = verb + strspn(words + verb, " \t");
	return has_time ? time + strcspn(words + time, " \t") : verb;
}

void print_fault(const struct printer *printer, struct fault_counts *counts, const struct fault_done *done)
{
	struct text words = { NULL, 0, 0 };
	if (done->line >= counts->count)
		return;
	struct fault_count *count = &counts->counts[done->line];
	count->count++;
	if (printer->options->json) {
		json_fault(printer, count, done);
		return;
	}
	text_format(&words, "fault %zu, ", done->line + 1);
	text_put(&words, count->words, deed_length(count->words));
	text_add(&words, ": ");
	text_add(&words, done->words);
	print_words(printer, done->seconds, &words, true);
	text_free(&words);
}

void print_fault_counts(const struct printer *printer, const struct fault_counts *counts, double seconds)
{
	struct text words = { NULL, 0, 0 };
	for (size_t i = 0; i < counts->count; i++) {
		words.length = 0;
		text_format(&words, "fault %zu, %s: done %" PRIu64 " time%s", i + 1, counts->counts[i].words,
			counts->counts[i].count, counts->counts[i].count == 1 ? "" : "s");
		print_words(printer, seconds, &words, false);
	}
	text_free(&words);
}

/* ---- what follows from a fault */

static void put_object_words(struct text *text, const struct object *object, const char *before, const char *after)
{
	text_add(text, before);
	put_object(text, object);
	text_add(text, after);
}

void put_consequence(struct text *text, enum fault_verb verb, const struct message *message)
{
	const char *reader = message->from == CLIENT ? "; the compositor" : "; the client";
	bool is_late = verb == FAULT_DELAY || verb == FAULT_HOLD;
	if (is_late || verb == FAULT_KILL || !(message->made.id || message->destroyed.id || message->freed.id))
		return;
	text_add(text, reader);
	if (message->made.id && verb == FAULT_DROP)
		put_object_words(text, &message->made, " does not know ", "");
	else if (message->made.id)
		put_object_words(text, &message->made, " has ", " already");
	else if (message->freed.id && verb == FAULT_DROP)
		text_format(text, " does not use the id %" PRIu32 " again", message->freed.id);
	else if (message->freed.id)
		text_format(text, " has the id %" PRIu32 " back already", message->freed.id);
	else if (verb == FAULT_DROP)
		put_object_words(text, &message->destroyed, " keeps ", "");
	else
		put_object_words(text, &message->destroyed, " has ended ", " already");
}
