/* Reads a recording piece by piece. Of the file no more is in memory than a few lines. */
#define _GNU_SOURCE
#include "inspect.h"

#include <errno.h>
#include <fcntl.h>
#include <signal.h>
#include <stdio.h>
#include <sys/stat.h>
#include <unistd.h>

#define BLOCK 262144
/* A file that grows is looked at so often, in milliseconds. */
#define LOOK 100

/* ---- a file that grows */

static volatile sig_atomic_t is_stopped;

static void on_stop(int number)
{
	(void)number;
	is_stopped = 1;
}

static void take_signals_of_following(void)
{
	static const int stopping[] = { SIGINT, SIGTERM, SIGHUP };
	struct sigaction action = { .sa_handler = on_stop, .sa_flags = (int)SA_RESETHAND };
	for (size_t i = 0; i < sizeof stopping / sizeof *stopping; i++)
		sigaction(stopping[i], &action, NULL);
}

/* Waits until the file may have more. False if nothing more is waited for. */
static bool wait_for_more(struct pieces *pieces)
{
	struct timespec look = { 0, LOOK * 1000000L };
	struct stat of;
	progress_end(&pieces->progress);
	print_now();
	if (is_stopped || fstat(pieces->file, &of))
		return false;
	if (S_ISREG(of.st_mode) && (uint64_t)of.st_size < pieces->length) {
		notice("%s has become shorter, and is not read further", pieces->path);
		return false;
	}
	nanosleep(&look, NULL);
	return true;
}

/* ---- the file */

/* Puts what a pipe has into a file that can be read twice. */
static int kept(int pipe, const char *path)
{
	char bytes[65536];
	FILE *made = tmpfile();
	int file = made ? fcntl(fileno(made), F_DUPFD_CLOEXEC, 0) : -1;
	ssize_t came = file < 0 ? -1 : 1;
	if (made)
		fclose(made);
	while (came > 0 && (came = read(pipe, bytes, sizeof bytes)) > 0)
		for (ssize_t at = 0, written; came > 0 && at < came; at += written) {
			written = write(file, bytes + at, (size_t)(came - at));
			came = written < 0 ? -1 : came;
		}
	if (came < 0 || lseek(file, 0, SEEK_SET) < 0)
		fail("cannot keep what comes from %s: %s", path, strerror(errno));
	close(pipe);
	return file;
}

void pieces_open(struct pieces *pieces, const char *path, bool is_followed, bool is_read_twice)
{
	struct stat of = { 0 };
	bool is_input = !strcmp(path, "-");
	int file = is_input ? fcntl(STDIN_FILENO, F_DUPFD_CLOEXEC, 0) : open(path, O_RDONLY | O_CLOEXEC);
	if (file < 0)
		fail("cannot read %s: %s", path, strerror(errno));
	if (is_read_twice && lseek(file, 0, SEEK_CUR) < 0)
		file = kept(file, path);
	if (is_followed)
		take_signals_of_following();
	*pieces = (struct pieces){ .path = path, .file = file, .is_followed = is_followed };
	off_t size = !fstat(file, &of) && S_ISREG(of.st_mode) ? of.st_size : 0;
	progress_begin(&pieces->progress, path, size);
}

void pieces_again(struct pieces *pieces)
{
	if (lseek(pieces->file, 0, SEEK_SET) < 0)
		fail("cannot read %s twice: %s", pieces->path, strerror(errno));
	pieces->is_over = false;
	pieces->text.length = pieces->from = pieces->whole = pieces->line = 0;
	pieces->length = pieces->front_length = 0;
}

void pieces_close(struct pieces *pieces)
{
	progress_end(&pieces->progress);
	close(pieces->file);
	text_free(&pieces->text);
	free(pieces->bytes);
}

void pieces_stop(struct pieces *pieces)
{
	pieces->is_over |= pieces->is_followed;
}

/* ---- what was read */

/* Removes what was gone past, and makes room for a block, and for the piece of all that is there then. */
static void make_room(struct pieces *pieces)
{
	struct text *text = &pieces->text;
	size_t left = text->length - pieces->from;
	if (pieces->from && left)
		memmove(text->bytes, text->bytes + pieces->from, left);
	text->length = left;
	pieces->whole -= pieces->from;
	pieces->from = 0;
	if (left > LONGEST_FILE)
		fail("%s: line %zu is too long", pieces->path, pieces->line + 1);
	if (!text_make_room(text, BLOCK))
		fail("out of memory");
	if (pieces->room >= text->room)
		return;
	free(pieces->bytes);
	pieces->room = text->room;
	pieces->bytes = malloc(pieces->room);
	if (!pieces->bytes)
		fail("out of memory");
}

/* Reads a block; false at the end of the file. */
static bool read_block(struct pieces *pieces)
{
	struct text *text = &pieces->text;
	ssize_t came;
	if (is_stopped)
		return false;
	if (!pieces->progress.size)
		print_now(); /* what comes through a pipe may be waited for */
	do
		came = read(pieces->file, text->bytes + text->length, BLOCK);
	while (came < 0 && errno == EINTR && !is_stopped);
	if (came < 0 && errno != EINTR)
		fail("cannot read %s: %s", pieces->path, strerror(errno));
	if (came <= 0)
		return false;
	for (ssize_t i = 0; i < came && pieces->front_length < sizeof pieces->front; i++)
		pieces->front[pieces->front_length++] = text->bytes[text->length + (size_t)i];
	text->length += (size_t)came;
	text->bytes[text->length] = 0;
	pieces->last = text->bytes[text->length - 1];
	pieces->length += (uint64_t)came;
	progress_show(&pieces->progress, pieces->length);
	return true;
}

/* Reads until there are further whole lines; at the end the last one may lack its line feed. False if there are
 * none. */
static bool read_more(struct pieces *pieces)
{
	struct text *text = &pieces->text;
	size_t before = text->length;
	while (!pieces->is_over) {
		make_room(pieces);
		before = text->length;
		if (read_block(pieces)) {
			const char *end = memrchr(text->bytes + before, '\n', text->length - before);
			if (!end)
				continue;
			pieces->whole = (size_t)(end - text->bytes) + 1;
			return true;
		}
		if (!pieces->is_followed || !wait_for_more(pieces))
			pieces->is_over = true;
	}
	/* Whoever writes a file that is followed was in the middle of its last line. */
	bool has_more = !pieces->is_followed && pieces->whole < text->length;
	if (has_more)
		pieces->whole = text->length;
	return has_more;
}

/* Goes past the lines up to a place, with their comments. */
static void pass_comments(struct pieces *pieces, size_t to, void (*note)(void *to, const char *comment), void *noting,
	struct text *head)
{
	char *from = pieces->text.bytes + pieces->from;
	size_t length = to - pieces->from;
	if (!length)
		return;
	each_comment(from, length, note, noting);
	if (head && head->length < LONGEST_FILE)
		text_put(head, from, length);
}

static size_t count_lines(const char *from, const char *behind)
{
	size_t count = 0;
	while (from < behind && (from = memchr(from, '\n', (size_t)(behind - from)))) {
		count++;
		from++;
	}
	return count;
}

waywire_status pieces_next(struct pieces *pieces, void (*note)(void *to, const char *comment), void *to,
	struct text *head)
{
	struct text *text = &pieces->text;
	do {
		waywire_status status = pieces->from == pieces->whole ? WAYWIRE_NOT_FOUND
			: waywire_recording_next(text->bytes, pieces->whole, pieces->from, pieces->line, pieces->bytes,
				pieces->room, &pieces->piece);
		if (status && status != WAYWIRE_NOT_FOUND)
			return status;
		size_t end = status ? pieces->whole : pieces->piece.begin;
		pass_comments(pieces, end, note, to, head);
		if (!status) {
			pieces->from = pieces->piece.behind;
			pieces->line = pieces->piece.line;
			return status;
		}
		if (end > pieces->from)
			pieces->line += count_lines(text->bytes + pieces->from, text->bytes + end);
		pieces->from = end;
	} while (read_more(pieces));
	return WAYWIRE_NOT_FOUND;
}
