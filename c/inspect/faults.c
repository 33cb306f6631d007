/* Does faults on purpose to whole messages on their way. Messages are read from what the sides write, and pass with
 * their own descriptors. */
#define _GNU_SOURCE
#include "inspect.h"

#include <fcntl.h>
#include <unistd.h>

/* libwayland reads no more descriptors at once. */
#define MOST_AT_ONCE 28
/* No more is read from a side of which so much waits. */
#define MOST_WAITING 1048576
#define MOST_DESCRIPTORS_WAITING 100
/* So many descriptors that belong to no message end the session. */
#define MOST_LOOSE 1024

/* What waits: a message, other bytes, or what is to be printed or done in its turn. */
struct item {
	struct item *next;
	double due;
	enum due_kind kind;
	size_t line;             /* of DUE_WORDS and DUE_KILL */
	char *bytes;             /* words that are to be freed, or bytes of the item's own memory */
	size_t length;
	size_t descriptor_count;
	int descriptors[];       /* the bytes are behind them */
};

/* What waits on its way to one side. */
struct lane {
	struct item *first, *last; /* in the order in which it came */
	struct item *held;         /* what others overtake, the soonest first */
	size_t length, descriptor_count; /* of all these items */
	struct text pending;       /* what came and is not among the items yet */
	size_t taken;              /* how much at its front is among them */
	int *loose;                /* descriptors that no message has taken */
	size_t loose_count;
	bool has_ended;
};

struct faults {
	const struct fault_lines *lines;
	const struct filter *stop; /* the messages at which both sides stop */
	uint64_t *matched; /* how many messages have matched each line */
	struct follower follower;
	bool is_stopped;
	bool is_raw;       /* what comes is not cut into messages any more */
	struct lane lanes[2];
};

struct faults *faults_new(const struct options *options, const struct known *known, unsigned client)
{
	const struct fault_lines *lines = &options->faults;
	if (!lines->count && !options->stop.count)
		return NULL;
	struct faults *made = calloc(1, sizeof *made);
	if (made) {
		made->lines = lines;
		made->stop = &options->stop;
		made->matched = calloc(lines->count + 1, sizeof *made->matched);
		made->follower.tables = known->tables;
		made->follower.limit = options->limit;
	}
	if (made && made->matched && !waywire_inspector_new(known->tables, options->limit, &made->follower.inspector))
		return made;
	notice("client %u has no faults: out of memory", client);
	if (made)
		faults_free(made);
	return NULL;
}

/* ---- items */

static void close_all(int *descriptors, size_t *count)
{
	while (*count)
		close(descriptors[--*count]);
}

static void free_item(struct item *item)
{
	close_all(item->descriptors, &item->descriptor_count);
	if (item->kind == DUE_WORDS || item->kind == DUE_STOP)
		free(item->bytes);
	free(item);
}

static void free_items(struct item **first)
{
	while (*first) {
		struct item *next = (*first)->next;
		free_item(*first);
		*first = next;
	}
}

void faults_drop(struct faults *faults, int from)
{
	struct lane *lane = &faults->lanes[from];
	free_items(&lane->first);
	free_items(&lane->held);
	lane->last = NULL;
	lane->length = lane->descriptor_count = 0;
	close_all(lane->loose, &lane->loose_count);
}

void faults_free(struct faults *faults)
{
	for (int from = CLIENT; from <= COMPOSITOR; from++) {
		faults_drop(faults, from);
		text_free(&faults->lanes[from].pending);
		free(faults->lanes[from].loose);
	}
	waywire_inspector_free(faults->follower.inspector);
	free(faults->matched);
	free(faults);
}

/* Puts an item behind all that waits; it is due no sooner. */
static void put_last(struct lane *lane, struct item *item)
{
	if (lane->last && lane->last->due > item->due)
		item->due = lane->last->due;
	*(lane->last ? &lane->last->next : &lane->first) = item;
	lane->last = item;
}

static void put_held(struct lane *lane, struct item *item)
{
	struct item **at = &lane->held;
	while (*at && (*at)->due <= item->due)
		at = &(*at)->next;
	item->next = *at;
	*at = item;
}

/* An item with room for this many bytes and descriptors; null if memory runs out. */
static struct item *new_item(enum due_kind kind, double due, size_t length, size_t descriptor_count)
{
	struct item *made = malloc(sizeof *made + descriptor_count * sizeof *made->descriptors + length);
	if (!made)
		return NULL;
	*made = (struct item){ .kind = kind, .due = due, .length = length, .descriptor_count = descriptor_count };
	made->bytes = (char *)(made->descriptors + descriptor_count);
	return made;
}

/* Takes bytes and descriptors from the front of what came. Null if memory runs out. */
static struct item *take_item(struct lane *lane, double due, size_t length, size_t descriptor_count)
{
	struct item *made = new_item(DUE_PIECE, due, length, descriptor_count);
	if (!made)
		return NULL;
	memcpy(made->bytes, lane->pending.bytes + lane->taken, length);
	lane->taken += length;
	if (descriptor_count)
		memcpy(made->descriptors, lane->loose, descriptor_count * sizeof *lane->loose);
	lane->loose_count -= descriptor_count;
	if (lane->loose_count)
		memmove(lane->loose, lane->loose + descriptor_count, lane->loose_count * sizeof *lane->loose);
	lane->length += length;
	lane->descriptor_count += descriptor_count;
	return made;
}

/* A copy of an item with copies of its descriptors; null if there is no room for one. */
static struct item *copy_item(struct lane *lane, const struct item *item)
{
	struct item *made = new_item(item->kind, item->due, item->length, item->descriptor_count);
	if (!made)
		return NULL;
	memcpy(made->bytes, item->bytes, item->length);
	for (made->descriptor_count = 0; made->descriptor_count < item->descriptor_count; made->descriptor_count++) {
		int copy = fcntl(item->descriptors[made->descriptor_count], F_DUPFD_CLOEXEC, 0);
		if (copy < 0) {
			free_item(made);
			return NULL;
		}
		made->descriptors[made->descriptor_count] = copy;
	}
	lane->length += made->length;
	lane->descriptor_count += made->descriptor_count;
	return made;
}

/* ---- what is done to a message */

/* The line that counts for a message: the first that is about it. Each line counts the messages that match it. */
static const struct fault_line *line_for(struct faults *faults, const struct message *message)
{
	const struct fault_line *found = NULL;
	for (size_t i = 0; i < faults->lines->count; i++) {
		const struct fault_line *line = &faults->lines->lines[i];
		bool is_any_side = line->from > COMPOSITOR;
		if (!is_any_side && line->from != message->from)
			continue;
		if (line->which.count && !filter_is_for(&line->which, message))
			continue;
		uint64_t number = ++faults->matched[i];
		if (!found && number >= line->first && number <= line->last)
			found = line;
	}
	return found;
}

/* Puts what is to be said of a fault, or of a stop without a line, when its turn comes. */
static bool say(struct faults *faults, struct lane *lane, const struct fault_line *line, const struct message *message,
	const char *why_not)
{
	struct text words = { NULL, 0, 0 };
	struct item *item = new_item(line ? DUE_WORDS : DUE_STOP, 0, 0, 0);
	if (!item)
		return false;
	put_message(&words, message);
	if (why_not)
		text_add(&words, why_not);
	else if (line)
		put_consequence(&words, line->verb, message);
	item->line = line ? (size_t)(line - faults->lines->lines) : 0;
	item->bytes = words.bytes;
	item->length = words.length;
	lane->length += words.length;
	put_last(lane, item);
	return true;
}

/* Puts a message on its way, as a line says. */
static bool do_fault(struct lane *lane, const struct fault_line *line, struct item *item, double now)
{
	struct item *copy;
	switch (line->verb) {
	case FAULT_DROP:
		lane->length -= item->length;
		lane->descriptor_count -= item->descriptor_count;
		free_item(item);
		return true;
	case FAULT_DUPLICATE:
		copy = copy_item(lane, item);
		put_last(lane, item);
		if (copy)
			put_last(lane, copy);
		return copy;
	case FAULT_DELAY:
		item->due = now + line->seconds;
		put_last(lane, item);
		return true;
	case FAULT_HOLD:
		item->due = now + line->seconds;
		put_held(lane, item);
		return true;
	default:
		item->kind = DUE_KILL;
		put_last(lane, item);
		return true;
	}
}

/* Takes a message that is whole. False if memory runs out. */
static bool take_message(struct faults *faults, const struct message *message, double now)
{
	static const char unsure[] = ": is not done, since it is not known which descriptors are the message's";
	struct lane *lane = &faults->lanes[message->from];
	const struct fault_line *line = line_for(faults, message);
	bool is_sure = !message->status && !faults->follower.is_unnumbered[message->from];
	size_t its = is_sure ? message->descriptor_count : PIECE_DESCRIPTORS;
	its = its < lane->loose_count ? its : lane->loose_count;
	bool can = is_sure || !(its || message->descriptor_count)
		|| (line && (line->verb == FAULT_DELAY || line->verb == FAULT_KILL));
	if (filter_is_for(faults->stop, message) && !say(faults, lane, NULL, message, NULL))
		return false;
	if (line && !say(faults, lane, line, message, can ? NULL : unsure))
		return false;
	struct item *item = take_item(lane, 0, message->length, its);
	if (!item)
		return false;
	if (line && can)
		return do_fault(lane, line, item, now);
	put_last(lane, item);
	return true;
}

/* ---- what comes */

/* Puts all bytes that came on their way. */
static bool take_rest(struct lane *lane)
{
	while (lane->taken < lane->pending.length) {
		size_t left = lane->pending.length - lane->taken, length = left < PIECE_BYTES ? left : PIECE_BYTES;
		size_t its = lane->loose_count < PIECE_DESCRIPTORS ? lane->loose_count : PIECE_DESCRIPTORS;
		struct item *item = take_item(lane, 0, length, its);
		if (!item)
			return false;
		put_last(lane, item);
	}
	return true;
}

/* From now on all passes as it comes: after wl_display.error, or what cannot be cut into messages. */
static bool pass_all(struct faults *faults)
{
	faults->is_raw = true;
	return take_rest(&faults->lanes[CLIENT]) && take_rest(&faults->lanes[COMPOSITOR]);
}

/* Adds a piece to what came. False if memory runs out. */
static bool add_piece(struct lane *lane, struct way *way)
{
	if (way->descriptor_count) {
		int *more = realloc(lane->loose, (lane->loose_count + way->descriptor_count) * sizeof *more);
		if (!more)
			return false;
		lane->loose = more;
		memcpy(more + lane->loose_count, way->descriptors, way->descriptor_count * sizeof *more);
		lane->loose_count += way->descriptor_count;
		way->descriptor_count = 0;
	}
	lane->pending.length -= lane->taken;
	if (lane->taken && lane->pending.length)
		memmove(lane->pending.bytes, lane->pending.bytes + lane->taken, lane->pending.length);
	lane->taken = 0;
	if (!text_make_room(&lane->pending, way->to))
		return false;
	text_put(&lane->pending, way->bytes, way->to);
	return true;
}

bool faults_take(struct faults *faults, int from, struct way *way, double now)
{
	struct follower *follower = &faults->follower;
	struct lane *lane = &faults->lanes[from];
	struct message message;
	if (!add_piece(lane, way))
		return false;
	size_t length = way->to;
	way->from = way->to = 0;
	if (faults->is_raw)
		return take_rest(lane);
	if (waywire_inspector_follow(follower->inspector, (waywire_sender)from, way->bytes, length))
		return false;
	while (read_message(follower, from, &message)) {
		if (message.is_bad_size)
			return pass_all(faults);
		if (!take_message(faults, &message, now) || !follow_message(follower, &message))
			return false;
		if (is_error(&message))
			return pass_all(faults);
	}
	return lane->loose_count <= MOST_LOOSE;
}

bool faults_are_stopped(const struct faults *faults)
{
	return faults->is_stopped;
}

void faults_go_on(struct faults *faults)
{
	faults->is_stopped = false;
}

void faults_release(struct faults *faults, int from)
{
	struct lane *lane = &faults->lanes[from];
	faults->is_stopped = false;
	for (struct item *item = lane->first; item; item = item->next)
		item->due = 0;
	while (lane->held) {
		struct item *item = lane->held;
		lane->held = item->next;
		item->next = NULL;
		item->due = 0;
		put_last(lane, item);
	}
}

void faults_end(struct faults *faults, int from)
{
	struct lane *lane = &faults->lanes[from];
	faults_release(faults, from);
	lane->has_ended = true;
	take_rest(lane); /* of a message that is not whole */
}

/* ---- what is given */

/* Where the item is that is due next; null if none is. */
static struct item **next_due(struct lane *lane, double now)
{
	if (lane->held && lane->held->due <= now)
		return &lane->held;
	return lane->first && lane->first->due <= now ? &lane->first : NULL;
}

static struct item *take_out(struct lane *lane, struct item **at)
{
	struct item *item = *at;
	*at = item->next;
	if (item == lane->last)
		lane->last = NULL;
	lane->length -= item->length;
	lane->descriptor_count -= item->descriptor_count;
	return item;
}

/* Whether an item fits behind what a way has. */
static bool fits(const struct way *way, const struct item *item)
{
	return !way->to || (way->to + item->length <= PIECE_BYTES
		&& way->descriptor_count + item->descriptor_count <= MOST_AT_ONCE);
}

static void add_to_way(struct way *way, struct item *item)
{
	memcpy(way->bytes + way->to, item->bytes, item->length);
	way->to += item->length;
	memcpy(way->descriptors + way->descriptor_count, item->descriptors,
		item->descriptor_count * sizeof *item->descriptors);
	way->descriptor_count += item->descriptor_count;
	item->descriptor_count = 0;
	free_item(item);
}

bool faults_give(struct faults *faults, int from, struct way *way, double now, struct due *due)
{
	struct lane *lane = &faults->lanes[from];
	struct item **at;
	*due = (struct due){ .kind = DUE_PIECE };
	way->from = way->to = 0;
	if (faults->is_stopped)
		return false;
	while ((at = next_due(lane, now)) && (*at)->kind == DUE_PIECE && fits(way, *at))
		add_to_way(way, take_out(lane, at));
	if (way->to || !at)
		return way->to;
	struct item *item = take_out(lane, at);
	due->kind = item->kind;
	faults->is_stopped = item->kind == DUE_STOP;
	if (item->kind == DUE_WORDS || item->kind == DUE_STOP) {
		due->done = (struct fault_done){ item->line, now, item->bytes ? item->bytes : "" };
		due->words = (struct text){ item->bytes, item->length, item->length };
		item->bytes = NULL;
	}
	free_item(item);
	return true;
}

double faults_due(const struct faults *faults, int from)
{
	const struct lane *lane = &faults->lanes[from];
	double due = lane->first ? lane->first->due : -1;
	if (faults->is_stopped)
		return -1;
	return lane->held && (due < 0 || lane->held->due < due) ? lane->held->due : due;
}

bool faults_have_room(const struct faults *faults, int from)
{
	const struct lane *lane = &faults->lanes[from];
	return !faults->is_stopped && lane->length < MOST_WAITING && lane->descriptor_count < MOST_DESCRIPTORS_WAITING;
}

bool faults_are_over(const struct faults *faults, int from)
{
	const struct lane *lane = &faults->lanes[from];
	return lane->has_ended && !lane->first && !lane->held;
}
