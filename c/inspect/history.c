/* The last messages of a client: what led to a wl_display.error, or to a message about an object that is gone. */
#define _GNU_SOURCE
#include "printed.h"

#include <inttypes.h>

/* How many messages are kept. */
#define KEPT 64

/* An object that a message is for, makes or names, or whose id it makes free. */
struct concerned {
	uint32_t id;
	uint64_t birth;
};

struct past {
	uint64_t number, index;
	int from;
	struct text line;
	struct concerned objects[2 + WAYWIRE_MAX_ARGS];
	size_t object_count;
};

struct history {
	struct past kept[KEPT]; /* a ring */
	uint64_t count;         /* how many were noted in all */
};

struct history *history_new(void)
{
	return calloc(1, sizeof(struct history));
}

void history_free(struct history *history)
{
	for (size_t i = 0; history && i < KEPT; i++)
		text_free(&history->kept[i].line);
	free(history);
}

void history_note(struct history *history, const struct message *message, const struct text *line)
{
	if (!history)
		return;
	struct past *past = &history->kept[history->count++ % KEPT];
	past->number = message->number;
	past->index = message->index;
	past->from = message->from;
	past->line.length = 0;
	text_put(&past->line, line->bytes, line->length);
	past->objects[0] = (struct concerned){ message->target.id, message->target.birth };
	past->object_count = 1;
	if (message->freed.id)
		past->objects[past->object_count++] = (struct concerned){ message->freed.id, message->freed.birth };
	for (size_t i = 0; i < message->arg_count; i++) {
		const struct object *object = &message->args[i].object;
		if (object->id)
			past->objects[past->object_count++] = (struct concerned){ object->id, object->birth };
	}
}

static bool concerns(const struct past *past, const struct object *object)
{
	/* An error for wl_display is about any request. */
	if (object->id == DISPLAY_ID)
		return past->from == CLIENT;
	for (size_t i = 0; i < past->object_count; i++) {
		const struct concerned *its = &past->objects[i];
		if (its->id == object->id && (object->state == UNKNOWN || its->birth == object->birth))
			return true;
	}
	return false;
}

size_t history_before(const struct history *history, const struct object *object, struct before *before)
{
	size_t count = 0;
	uint64_t kept = history && history->count < KEPT ? history->count : KEPT;
	for (uint64_t back = 1; history && back <= kept && count < MOST_BEFORE; back++) {
		const struct past *past = &history->kept[(history->count - back) % KEPT];
		if (concerns(past, object))
			before[MOST_BEFORE - ++count] = (struct before){ past->number, past->index, past->from, &past->line };
	}
	memmove(before, before + MOST_BEFORE - count, count * sizeof *before);
	return count;
}
