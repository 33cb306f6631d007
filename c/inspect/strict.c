/* --strict: whether a build may rely on a session. It may not if something is not judged, has waited too long for an
 * answer, or is missing. */
#define _GNU_SOURCE
#include "inspect.h"

#include <inttypes.h>

static void refuse(struct judging *judging, const char *reason, double seconds, struct text *words)
{
	struct text line = { NULL, 0, 0 };
	judging->is_refused = true;
	if (judging->printer.options->json)
		json_strict(&judging->printer, reason, words);
	text_add(&line, "not strict: ");
	text_put(&line, words->bytes, words->length);
	print_words(&judging->printer, seconds, &line, true);
	text_free(&line);
	text_free(words);
}

/* The question that waited longest, with or without an answer. */
static struct closed longest_wait(const struct questions *questions, double until)
{
	struct closed longest = questions->longest;
	size_t count;
	const struct question **open = questions_due(questions, &count);
	for (size_t i = 0; i < count; i++) {
		const struct question *it = open[i];
		double waited = it->seconds < 0 || until < 0 ? 0 : until - it->seconds;
		if (waited > longest.waited)
			longest = (struct closed){ .kind = it->kind, .number = it->number, .id = it->id, .waited = waited };
	}
	free(open);
	return longest;
}

static void check_waits(struct judging *judging, double until, double end)
{
	double late = judging->printer.options->late;
	struct closed longest = longest_wait(&judging->questions, until);
	struct text words = { NULL, 0, 0 };
	if (late <= 0 || !longest.kind || longest.waited < late)
		return;
	put_question(&words, longest.kind, longest.id, longest.number);
	text_format(&words, " had no %s for %.1f s", longest.kind->awaited ? longest.kind->awaited : "answer",
		longest.waited);
	refuse(judging, "late", end, &words);
}

static void check_readers(struct judging *judging, double end)
{
	double late = judging->printer.options->late;
	for (int side = CLIENT; side <= COMPOSITOR; side++) {
		struct text words = { NULL, 0, 0 };
		if (late <= 0 || judging->unread[side] < late)
			continue;
		text_format(&words, "the %s read nothing for %.1f s", side == CLIENT ? "client" : "compositor",
			judging->unread[side]);
		refuse(judging, "unread", end, &words);
	}
}

static void refuse_by(struct judging *judging, const char *reason, double end, const char *why)
{
	struct text words = { NULL, 0, 0 };
	text_add(&words, why);
	refuse(judging, reason, end, &words);
}

void strict_end(struct judging *judging, double until, double end)
{
	const struct options *options = judging->printer.options;
	if (!options->strict || has_failed(judging))
		return;
	if (judging->standing != JUDGED || judging->is_lost[CLIENT] || judging->is_lost[COMPOSITOR])
		refuse_by(judging, "unjudged", end, "not all was judged");
	if (judging->was_cut)
		refuse_by(judging, "cut", end, "the recording ends before its session");
	if (options->read && !judging->counts[CLIENT] && !judging->counts[COMPOSITOR])
		refuse_by(judging, "empty", end, "the recording has no message");
	check_waits(judging, until, end);
	check_readers(judging, end);
}
