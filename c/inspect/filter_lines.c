/* The lines of --filters, which are read again when their file has changed: docs/FORMATS.md, Filters. */
#define _GNU_SOURCE
#include "inspect.h"

#include <errno.h>
#include <sys/stat.h>

/* The file is looked at so often, in milliseconds. */
#define LOOK 100

static struct {
	struct shown given;      /* by options */
	struct timespec looked;
	struct stat of;          /* of what was read last; all zero if there was no file */
} file;

/* ---- a line */

/* Adds a line. False if it is none; then `why` says so. */
static bool add_line(struct shown *shown, const waywire_tables *tables, char *line, struct text *why)
{
	struct window *window = &shown->window;
	char *word = line + strcspn(line, " \t");
	const struct name verb = { line, (size_t)(word - line) };
	word += strspn(word, " \t");
	for (size_t length = strlen(word); length && strchr(" \t\r", word[length - 1]); length--)
		word[length - 1] = 0;
	if (is_name(verb, "only"))
		return filter_add(&shown->only, tables, word, why);
	if (is_name(verb, "except"))
		return filter_add(&shown->except, tables, word, why);
	bool is_from = is_name(verb, "from");
	if (!is_from && !is_name(verb, "to"))
		text_add(why, "does not begin with only, except, from or to");
	else if (!(is_from ? window_take(word, &window->from, &window->since)
			: window_take(word, &window->to, &window->until)))
		text_format(why, "%s: neither the number of a message nor a time in seconds, such as 2.5s", word);
	return !why->length;
}

/* Adds the lines of a text. False if there is a bad one; then `why` says which. */
static bool add_lines(struct shown *shown, const waywire_tables *tables, char *text, struct text *why)
{
	struct text words = { NULL, 0, 0 };
	bool is_good = true;
	size_t number = 0;
	for (char *line; is_good && (line = strsep(&text, "\n"));) {
		number++;
		line += strspn(line, " \t\r");
		is_good = !*line || *line == '#' || add_line(shown, tables, line, &words);
	}
	if (!is_good)
		text_format(why, " line %zu: %s", number, words.bytes ? words.bytes : "out of memory");
	text_free(&words);
	return is_good;
}

/* ---- the file */

static void free_shown(struct shown *shown)
{
	free(shown->only.asked);
	free(shown->except.asked);
}

/* Makes a copy of a filter to which can be added. */
static bool copy_filter(struct filter *made, const struct filter *filter)
{
	for (*made = (struct filter){ NULL, 0 }; made->count < filter->count; made->count++) {
		struct asked *more = room_for_one(made->asked, made->count, sizeof *more);
		if (!more)
			return false;
		made->asked = more;
		more[made->count] = filter->asked[made->count];
	}
	return true;
}

/* Makes what is shown by the options and the lines of the file. False with `why` if that fails. */
static bool read_lines(struct shown *made, const struct options *options, const waywire_tables *tables,
	struct text *why)
{
	struct text text = { NULL, 0, 0 };
	bool is_whole = read_bytes(options->filters_file, &text);
	*made = (struct shown){ .window = file.given.window };
	if (!is_whole)
		text_format(why, ": %s", strerror(errno));
	else if (text.length > LONGEST_FILE || (text.length && memchr(text.bytes, 0, text.length)))
		text_add(why, ": is no text, or too long");
	else if (!copy_filter(&made->only, &file.given.only) || !copy_filter(&made->except, &file.given.except))
		text_add(why, ": out of memory");
	else if (text.length)
		add_lines(made, tables, text.bytes, why);
	text_free(&text);
	return !why->length;
}

void filters_begin(const struct options *options, const waywire_tables *tables)
{
	struct text why = { NULL, 0, 0 };
	if (!options->filters_file)
		return;
	file.given = *options->shown;
	if (stat(options->filters_file, &file.of) || !read_lines(options->shown, options, tables, &why))
		fail("%s%s%s", options->filters_file, why.length ? "" : ": ", why.length ? why.bytes : strerror(errno));
}

/* Whether it is another file than the one that was read last. */
static bool has_changed(const struct stat *of)
{
	const struct stat *before = &file.of;
	return of->st_ino != before->st_ino || of->st_dev != before->st_dev || of->st_size != before->st_size
		|| of->st_mtim.tv_sec != before->st_mtim.tv_sec || of->st_mtim.tv_nsec != before->st_mtim.tv_nsec;
}

/* Whether the file was not looked at for a while. */
static bool is_due(void)
{
	struct timespec now;
	clock_gettime(CLOCK_MONOTONIC, &now);
	long since = (now.tv_sec - file.looked.tv_sec) * 1000 + (now.tv_nsec - file.looked.tv_nsec) / 1000000;
	if (since < LOOK)
		return false;
	file.looked = now;
	return true;
}

void filters_look(const struct options *options, const waywire_tables *tables)
{
	struct text why = { NULL, 0, 0 };
	struct shown made;
	struct stat of = { 0 };
	if (!options->filters_file || !is_due())
		return;
	if (stat(options->filters_file, &of))
		of = (struct stat){ 0 };
	/* A pipe is read once: a session would wait for whoever writes it. */
	if ((of.st_mode && !S_ISREG(of.st_mode)) || !has_changed(&of))
		return;
	file.of = of;
	if (read_lines(&made, options, tables, &why)) {
		free_shown(options->shown);
		*options->shown = made;
		notice("the filters of %s have changed", options->filters_file);
	} else {
		free_shown(&made);
		notice("%s%s; the filters stay as they were", options->filters_file, why.bytes);
	}
	text_free(&why);
}

int filters_due(const struct options *options)
{
	return options->filters_file ? LOOK : -1;
}

void filters_free(const struct options *options)
{
	free_shown(options->shown);
	free_shown(&file.given);
}
