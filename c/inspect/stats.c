/* What --stats counts. */
#define _GNU_SOURCE
#include "printed.h"

#include <inttypes.h>

/* How many lines list what was not answered. */
#define MOST_UNANSWERED 32

static bool is_of(const struct counted *counted, const struct message *message)
{
	return counted->from == message->from && counted->interface.bytes == message->target.name.bytes
		&& counted->message.bytes == message->name.bytes;
}

/* A key for the names of a message; each name has one address. */
static uint64_t key_of(const struct message *message)
{
	return (uint64_t)(uintptr_t)message->target.name.bytes * 31 + (uint64_t)(uintptr_t)message->name.bytes * 2
		+ (uint64_t)message->from;
}

/* The counts of a message; null if memory runs out. Other names of the same key have the next one. */
static struct counted *counted_at(struct stats *stats, const struct message *message)
{
	uint64_t key = key_of(message);
	for (uintptr_t number; (number = (uintptr_t)keyed_find(&stats->numbers, key)); key++)
		if (is_of(&stats->counted[number - 1], message))
			return &stats->counted[number - 1];
	struct counted *counted = room_for_one(stats->counted, stats->count, sizeof *counted);
	if (!counted)
		return NULL;
	stats->counted = counted;
	if (!keyed_put(&stats->numbers, key, (void *)(uintptr_t)(stats->count + 1)))
		return NULL;
	counted += stats->count++;
	*counted = (struct counted){ message->target.name, message->name, message->from, 0, 0, 0 };
	return counted;
}

void stats_note(struct stats *stats, const struct message *message)
{
	struct counted *counted = counted_at(stats, message);
	if (!counted)
		return;
	counted->count++;
	counted->bytes += message->size;
	counted->descriptors += message->descriptor_count;
}

static int most_first(const void *one, const void *other)
{
	const struct counted *first = one, *second = other;
	if (first->count != second->count)
		return first->count < second->count ? 1 : -1;
	return first->from - second->from;
}

static void put_counted(struct text *text, const struct counted *counted)
{
	text_format(text, "%10" PRIu64 " %10" PRIu64 " %11" PRIu64 "  %s ", counted->count, counted->bytes,
		counted->descriptors, counted->from == CLIENT ? "->" : "<-");
	text_put_name(text, counted->interface);
	text_add(text, ".");
	text_put_name(text, counted->message);
	text_add(text, "\n");
}

/* Counts the live objects that one side made by their interfaces. */
static void count_open(struct stats *open, const struct follower *follower, waywire_sender maker)
{
	uint32_t first = maker == WAYWIRE_FROM_SERVER ? WAYWIRE_FIRST_SERVER_ID : 0;
	size_t count = waywire_inspector_id_count(follower->inspector, maker);
	for (size_t i = 0; i < count; i++) {
		struct message as_if = { .target = object_of(follower, first + (uint32_t)i) };
		struct counted *counted = as_if.target.state == LIVE ? counted_at(open, &as_if) : NULL;
		if (counted)
			counted->count++;
	}
}

static void put_open(struct text *text, const struct follower *follower)
{
	struct stats open = { 0 };
	count_open(&open, follower, WAYWIRE_FROM_CLIENT);
	count_open(&open, follower, WAYWIRE_FROM_SERVER);
	if (open.count)
		qsort(open.counted, open.count, sizeof *open.counted, most_first);
	text_add(text, "objects left open\n");
	for (size_t i = 0; i < open.count; i++) {
		const struct counted *counted = &open.counted[i];
		text_format(text, "%10" PRIu64 "  ", counted->count);
		text_put_name(text, counted->interface);
		text_add(text, "\n");
	}
	stats_free(&open);
}

static void put_trips(struct text *text, const struct question_kind *syncs)
{
	uint64_t count = syncs ? syncs->answered : 0;
	text_format(text, "%" PRIu64 " round trips", count);
	if (count && syncs->first >= 0)
		text_format(text, ", %.3f ms on average, %.3f ms at most", 1e3 * syncs->all_waits / (double)count,
			1e3 * syncs->longest);
	text_add(text, "\n");
}

static void put_unanswered(struct text *text, const struct questions *questions, double until)
{
	struct text lines = { NULL, 0, 0 };
	unanswered_put(&lines, questions, until, 0, MOST_UNANSWERED);
	if (lines.length)
		text_add(text, "asked and not answered\n");
	text_put(text, lines.bytes, lines.length);
	text_free(&lines);
}

void stats_put(struct text *text, const struct told *told, double until, double end)
{
	const struct stats *stats = told->stats;
	if (stats->count)
		qsort(stats->counted, stats->count, sizeof *stats->counted, most_first);
	text_add(text, "  messages      bytes descriptors\n");
	for (size_t i = 0; i < stats->count; i++)
		put_counted(text, &stats->counted[i]);
	put_trips(text, questions_syncs(told->questions));
	put_unanswered(text, told->questions, until);
	silences_put(text, told->silences, told->questions, end);
	put_open(text, told->follower);
}

void stats_free(struct stats *stats)
{
	free(stats->counted);
	keyed_free(&stats->numbers);
	*stats = (struct stats){ 0 };
}
