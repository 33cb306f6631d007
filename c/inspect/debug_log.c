/* Reads a log of WAYLAND_DEBUG. recordings-from-debug makes recordings of it, one of each connection, which are read as
 * those of --read. Comments in them say what the log lacks; nothing is claimed that the log does not show. */
#define _GNU_SOURCE
#include "inspect.h"

#include <errno.h>
#include <inttypes.h>
#include <limits.h>
#include <stdio.h>
#include <stdlib.h>

/* The longest message. A log does not show how long a message may be. */
#define MOST_BYTES 65532

/* ---- the comments of such a recording */

/* If a comment begins with this word, what follows it; otherwise null. */
static const char *after(const char *comment, const char *word)
{
	size_t length = strlen(word);
	return strncmp(comment, word, length) ? NULL : comment + length;
}

/* A client acts on each delete_id before it acts on earlier events, and prints no event that nobody listens to. So
 * its log does not show what the compositor took back first. */
static void begin_log(struct judging *judging, const char *side)
{
	judging->is_log = true;
	judging->is_excused = !strcmp(side, "client");
}

/* The log does not have something: nothing is judged from the next message on. */
static void leave(struct judging *judging, const char *why)
{
	judging->is_left = true;
	judging->follower.is_unnumbered[CLIENT] = judging->follower.is_unnumbered[COMPOSITOR] = true;
	if (judging->standing == JUDGED && !judging->reason.length)
		text_add(&judging->reason, why);
}

/* Prints a line of the log whose message is not known, as it stands. */
static void print_line(const struct judging *judging, const char *line)
{
	const struct shown *shown = judging->printer.options->shown;
	const struct window *window = &shown->window;
	struct text words = { NULL, 0, 0 };
	char *text;
	double seconds = strtod(line, &text);
	bool is_asked = !shown->only.count && !window->from && !window->to && !window->last && window->since < 0
		&& window->until < 0;
	if (judging->is_counting || !is_asked || judging->has_error)
		return;
	text_format(&words, "?%s", text);
	print_words(&judging->printer, seconds, &words, false);
	text_free(&words);
}

void log_comment(struct judging *judging, const char *comment)
{
	const char *words;
	if ((words = after(comment, " log ")))
		begin_log(judging, words);
	else if (judging->is_log && (words = after(comment, " lacks ")))
		leave(judging, words);
	else if (judging->is_log && (words = after(comment, " line ")))
		print_line(judging, words);
}

static void note_comment(void *to, const char *comment)
{
	log_comment(to, comment);
}

void log_begin(struct judging *judging, char *text, size_t length)
{
	if (judging->standing == LOST)
		return;
	each_comment(text, length, note_comment, judging);
	if (judging->is_log)
		part_reopen(judging, text, length);
}

/* ---- what is said */

void log_hide_arrays(struct message *message)
{
	for (size_t i = 0; i < message->arg_count; i++)
		message->args[i].meaning.is_unknown = message->args[i].value.kind == WAYWIRE_ARRAY;
}

void log_put_lawful(const struct judging *judging, struct text *words)
{
	text_format(words, "lawful%s as far as the log shows: %" PRIu64 " requests, %" PRIu64 " events",
		judging->has_error ? " up to wl_display.error," : "", judging->counts[CLIENT], judging->counts[COMPOSITOR]);
}

/* The verdict is `broken: > message 6 at byte 136: F9 bad bind`. A log does not show bytes. */
void log_put_broken(struct text *words, const char *verdict, size_t length)
{
	static const char broken[] = "broken: ", at_byte[] = " at byte ";
	const char *end = verdict + length;
	const char *at = memmem(verdict, length, at_byte, sizeof at_byte - 1);
	const char *behind = at ? memchr(at, ':', (size_t)(end - at)) : NULL;
	if (!behind || (size_t)(at - verdict) < sizeof broken - 1) {
		text_put(words, verdict, length);
		return;
	}
	text_add(words, "broken as far as the log shows: ");
	text_put(words, verdict + sizeof broken - 1, (size_t)(at - verdict) - (sizeof broken - 1));
	text_put(words, behind, (size_t)(end - behind));
}

/* ---- the log */

/* Writes the tables beside the recordings. */
static char *write_tables(const struct options *options, const struct known *known)
{
	struct replacement made;
	char *path;
	if (asprintf(&path, "%s.tables", options->record) < 0)
		fail("out of memory");
	if (!replacement_open(&made, path) || !write_whole(made.file, known->joined.bytes, known->joined.length)
		|| !replacement_end(&made))
		fail("cannot write %s: %s", path, strerror(errno));
	replacement_drop(&made);
	return path;
}

/* Makes the recordings, and returns how many; 0 if that failed, which is reported. */
static unsigned make_recordings(const struct options *options, const struct known *known)
{
	char tool[PATH_MAX];
	struct text said = { NULL, 0, 0 };
	char *tables = write_tables(options, known);
	find_tool(tool, sizeof tool, "recordings-from-debug");
	char *words[] = { tool, "--", (char *)options->debug_log, tables, (char *)options->record, NULL };
	int status = run_to_end(words, &said, false);
	unsigned count = !status && said.length ? (unsigned)strtoul(said.bytes, NULL, 10) : 0;
	if (status == 127)
		notice("%s cannot be run", tool);
	free(tables);
	text_free(&said);
	return count;
}

/* The status of all recordings together. That of one that is broken, which is 1, comes before any other. */
static int joined_status(int one, int other)
{
	return one == 1 || other == 1 ? 1 : one > other ? one : other;
}

int read_debug_log(const struct options *options, const struct known *known)
{
	unsigned count = make_recordings(options, known);
	int status = count ? 0 : NOTHING_INSPECTED;
	struct options its = *options;
	its.limit = MOST_BYTES;
	for (unsigned number = 1; number <= count; number++) {
		char *path = numbered(options->record, number);
		its.read = path;
		if (!path)
			fail("out of memory");
		status = joined_status(status, read_recording(&its, known, &(struct numbered){ number, count > 1 }));
		free(path);
	}
	picture_end(&its, count);
	return status;
}
