/* What was asked and not answered, in words. */
#define _GNU_SOURCE
#include "inspect.h"

#include <inttypes.h>
#include <unistd.h>

/* What has waited for this many seconds is reported at the end of a session, in at most this many lines. */
#define LONG_WAIT 1.0
#define MOST_LINES 8

/* The open questions of one kind that were put to one object; or a whole kind that was never answered. */
struct group {
	const struct question_kind *kind;
	uint32_t id;     /* 0 for a whole kind */
	uint64_t count;  /* of open questions */
	uint64_t number; /* of the first question */
	double seconds;  /* when that was asked; -1 if that is not known */
};

struct groups {
	struct group *groups;
	size_t count;
};

/* Whether several were asked, and none was answered. */
static bool is_mute(const struct question_kind *kind)
{
	return kind->open > 1 && !kind->answered;
}

static void add_group(struct groups *groups, const struct group *group)
{
	struct group *more = room_for_one(groups->groups, groups->count, sizeof *more);
	if (!more)
		return;
	groups->groups = more;
	more[groups->count++] = *group;
}

/* Questions of one group side by side, the first question first. */
static int by_group(const void *one, const void *other)
{
	const struct question *first = *(const struct question *const *)one;
	const struct question *second = *(const struct question *const *)other;
	if (first->kind != second->kind)
		return first->kind < second->kind ? -1 : 1;
	if (first->id != second->id && !is_mute(first->kind))
		return first->id < second->id ? -1 : 1;
	return first->number < second->number ? -1 : first->number > second->number;
}

static void add_open(struct groups *groups, const struct questions *questions)
{
	size_t count;
	const struct question **open = questions_due(questions, &count);
	if (open)
		qsort(open, count, sizeof *open, by_group);
	for (size_t i = 0; i < count; i++) {
		const struct question *question = open[i];
		struct group *last = groups->count ? &groups->groups[groups->count - 1] : NULL;
		bool is_whole = is_mute(question->kind);
		if (last && last->kind == question->kind && (is_whole || last->id == question->id))
			last->count++;
		else
			add_group(groups, &(struct group){ question->kind, is_whole ? 0 : question->id, 1,
				question->number, question->seconds });
	}
	free(open);
}

/* The order of groups: those that have waited longest come first. */
static int by_wait(const void *one, const void *other)
{
	const struct group *first = one, *second = other;
	if (first->seconds < second->seconds || first->seconds > second->seconds)
		return first->seconds < second->seconds ? -1 : 1;
	return first->number < second->number ? -1 : first->number > second->number;
}

static void put_wait(struct text *text, const struct group *group, double until)
{
	double waits = until - group->seconds;
	if (!group->count || group->seconds < 0 || until < 0)
		return;
	text_format(text, waits < 1 ? ", waiting %.3f s%s" : ", waiting %.1f s%s", waits < 0 ? 0 : waits,
		group->count > 1 ? " at most" : "");
}

static void put_group(struct text *text, const struct group *group, double until)
{
	const struct question_kind *kind = group->kind;
	text_put_name(text, kind->interface);
	if (group->id)
		text_format(text, "@%" PRIu32, group->id);
	text_add(text, ".");
	text_put_name(text, kind->message);
	if (group->id)
		text_format(text, ": %" PRIu64 " not answered", group->count);
	else
		text_format(text, ": none of %" PRIu64 " answered", group->count);
	if (kind->awaited)
		text_format(text, " (no %s)", kind->awaited);
	put_wait(text, group, until);
	text_add(text, "\n");
}

void unanswered_put(struct text *text, const struct questions *questions, double until, double least, size_t most)
{
	struct groups groups = { NULL, 0 };
	size_t count = 0;
	add_open(&groups, questions);
	if (groups.count)
		qsort(groups.groups, groups.count, sizeof *groups.groups, by_wait);
	for (size_t i = 0; i < groups.count; i++) {
		const struct group *group = &groups.groups[i];
		bool is_long = least <= 0 || (group->seconds >= 0 && until - group->seconds >= least);
		count += is_long;
		if (is_long && count <= most)
			put_group(text, group, until);
	}
	if (count > most)
		text_format(text, "and %zu more that were not answered\n", count - most);
	free(groups.groups);
}

/* Prints questions, and frees their array. */
static void print_json(const struct printer *printer, const char *type, const struct question **questions,
	size_t count, double until)
{
	for (size_t i = 0; i < count; i++)
		json_question(printer, type, questions[i], until);
	free(questions);
}

/* Prints each line of a text. */
static void print_lines(const struct printer *printer, double seconds, const struct text *lines)
{
	for (const char *line = lines->bytes; line && *line;) {
		size_t length = strcspn(line, "\n");
		struct text words = { NULL, 0, 0 };
		text_put(&words, line, length);
		print_words(printer, seconds, &words, false);
		text_free(&words);
		line += length + 1;
	}
}

void print_unanswered(const struct printer *printer, const struct questions *questions, double until)
{
	struct text lines = { NULL, 0, 0 };
	if (printer->options->json) {
		size_t due_count, resting_count;
		const struct question **due = questions_due(questions, &due_count);
		const struct question **resting = questions_at_rest(questions, &resting_count);
		print_json(printer, "open", resting, resting_count, until);
		print_json(printer, "unanswered", due, due_count, until);
		return;
	}
	if (printer->options->stats)
		return; /* it lists all */
	unanswered_put(&lines, questions, until, LONG_WAIT, MOST_LINES);
	print_lines(printer, until, &lines);
	text_free(&lines);
}

void print_stop(const struct printer *printer, const struct questions *questions, const struct fault_done *stop)
{
	struct text lines = { NULL, 0, 0 };
	if (printer->options->json) {
		json_stopped(printer, stop);
		return;
	}
	text_format(&lines, "stopped before %s; %skill -USR1 %ld goes on\n", stop->words,
		terminal_polled() < 0 ? "" : "Enter or ", (long)getpid());
	unanswered_put(&lines, questions, stop->seconds, 0, SIZE_MAX);
	print_lines(printer, stop->seconds, &lines);
	text_free(&lines);
}

/* ---- while the session goes on */

void put_question(struct text *text, const struct question_kind *kind, uint32_t id, uint64_t number)
{
	text_add(text, kind->from == CLIENT ? "the client's " : "the compositor's ");
	text_put_name(text, kind->interface);
	text_format(text, "@%" PRIu32 ".", id);
	text_put_name(text, kind->message);
	text_format(text, " (message %" PRIu64 ")", number);
}

void print_waiting(const struct printer *printer, const struct question *question, double now)
{
	const struct question_kind *kind = question->kind;
	struct text words = { NULL, 0, 0 };
	if (printer->options->json)
		json_question(printer, "waiting", question, now);
	text_format(&words, "waiting since %.3f s: for %.1f s, ", question->seconds, now - question->seconds);
	put_question(&words, kind, question->id, question->number);
	text_format(&words, " has had no %s", kind->awaited ? kind->awaited : "answer");
	print_words(printer, now, &words, true);
	text_free(&words);
}

void print_waited(const struct printer *printer, const struct closed *closed, size_t count, double now)
{
	for (size_t i = 0; i < count; i++) {
		struct text words = { NULL, 0, 0 };
		if (!closed[i].was_said)
			continue;
		if (printer->options->json)
			json_waited(printer, &closed[i], now);
		text_format(&words, "%s after %.1f s: ", closed[i].is_answered ? "answered" : "no answer is needed any more",
			closed[i].waited);
		put_question(&words, closed[i].kind, closed[i].id, closed[i].number);
		print_words(printer, now, &words, false);
		text_free(&words);
	}
}

void print_unread(const struct printer *printer, int side, double since, double now, bool is_read_again)
{
	const char *name = side == CLIENT ? "the client" : "the compositor";
	struct text words = { NULL, 0, 0 };
	if (printer->options->json)
		json_unread(printer, side, since, now, is_read_again);
	if (is_read_again)
		text_format(&words, "%s reads again after %.1f s", name, now - since);
	else
		text_format(&words, "waiting since %.3f s: for %.1f s, %s has read nothing", since, now - since, name);
	print_words(printer, now, &words, !is_read_again);
	text_free(&words);
}
