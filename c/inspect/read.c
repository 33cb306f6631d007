/* Reads a recording. Its pieces are judged like those of a live session. */
#define _GNU_SOURCE
#include "inspect.h"

#include <stdio.h>
#include <unistd.h>

/* The length of a path without `.last`, and without `.2` or another number, which the paths of later clients have. */
static size_t without_number(const char *path)
{
	static const char last[] = ".last";
	size_t length = strlen(path), digits = 0;
	if (length >= sizeof last && !strcmp(path + length - (sizeof last - 1), last))
		length -= sizeof last - 1;
	while (digits < length && path[length - digits - 1] >= '0' && path[length - digits - 1] <= '9')
		digits++;
	return digits && digits < length && path[length - digits - 1] == '.' ? length - digits - 1 : length;
}

char *tables_beside(struct options *options)
{
	size_t lengths[] = { strlen(options->read), without_number(options->read) };
	if (options->table_count || options->no_tables || !strcmp(options->read, "-"))
		return NULL;
	for (size_t i = 0; i < 2; i++) {
		char *path;
		if (asprintf(&path, "%.*s.tables", (int)lengths[i], options->read) < 0)
			fail("out of memory");
		if (!access(path, R_OK)) {
			options->tables[options->table_count++] = path;
			options->no_tables = true;
			return path;
		}
		free(path);
	}
	return NULL;
}

/* What the comments of a recording say. */
struct comments {
	struct client client;
	char started[32]; /* empty if the comments do not say it */
	double seconds;   /* of the next piece; -1 if it is not known */
	double latest;    /* the latest time in a comment; -1 if there is none */
	double from;      /* when it begins, if it begins in the middle of its session; otherwise -1 */
	bool is_timed, has_end, was_cut, has_tables, has_from;
	struct pieces *pieces;
	struct judging *judging; /* what later comments are for; null before it has begun */
};

/* The value of a number with a point, of so many digits, that fits a double as a whole number does. */
static double short_number(const char *digits, size_t length, size_t whole)
{
	static const double powers[] = { 1, 1e1, 1e2, 1e3, 1e4, 1e5, 1e6, 1e7, 1e8, 1e9, 1e10, 1e11, 1e12, 1e13, 1e14 };
	uint64_t parts = 0;
	for (size_t i = 0; i < length; i++)
		if (digits[i] != '.')
			parts = parts * 10 + (uint64_t)(digits[i] - '0');
	return (double)parts / powers[length > whole ? length - whole - 1 : 0];
}

/* The seconds in some words: a decimal number without a sign or an exponent, below 10^9. -1 if there are none. */
static double seconds_of(const char *words)
{
	const char *from = words + strspn(words, " \t");
	size_t whole = strspn(from, "0123456789"), length = whole;
	if (from[length] == '.')
		length += 1 + strspn(from + length + 1, "0123456789");
	bool is_number = whole && whole <= 9 && length < 40 && from[length - 1] != '.';
	if (!is_number || from[length + strspn(from + length, " \t")])
		return -1;
	return length <= 15 ? short_number(from, length, whole) : strtod(from, NULL);
}

/* Whether a comment is this word and a time. */
static bool has_time(const char *comment, const char *word, double *seconds)
{
	size_t length = strlen(word);
	*seconds = strncmp(comment, word, length) ? -1 : seconds_of(comment + length);
	return *seconds >= 0;
}

static void note_time(struct comments *comments, double seconds)
{
	if (seconds > comments->latest)
		comments->latest = seconds;
}

/* Notes a line of the faults on purpose, or that one was done. */
static void note_fault(void *to, const char *comment)
{
	const struct comments *comments = to;
	struct judging *judging = comments->judging;
	char seconds[40];
	size_t number;
	int words = 0;
	if (!judging || judging->is_counting)
		return;
	if (sscanf(comment, " fault %zu %n", &number, &words) == 1 && words && number == judging->faults.count + 1)
		fault_counts_add(&judging->faults, comment + words);
	else if (sscanf(comment, " did %zu %39[0-9.] %n", &number, seconds, &words) == 2 && words && number)
		print_fault(&judging->printer, &judging->faults,
			&(struct fault_done){ number - 1, seconds_of(seconds), comment + words });
}

static void note_comment(void *to, const char *comment)
{
	struct comments *comments = to;
	double seconds;
	comments->has_tables |= !strncmp(comment, " tables ", 8);
	comments->has_from |= !strncmp(comment, " from ", 6);
	if (has_time(comment, "", &seconds)) {
		comments->seconds = seconds;
		comments->is_timed = true;
		note_time(comments, seconds);
	} else if (has_time(comment, " ended ", &seconds)) {
		note_time(comments, seconds);
		comments->has_end = true;
		pieces_stop(comments->pieces);
	} else if (has_time(comment, " from ", &seconds)) {
		comments->from = seconds;
	} else if (has_time(comment, " cut ", &seconds)) {
		note_time(comments, seconds);
		comments->was_cut = true;
		pieces_stop(comments->pieces);
	} else if (!strncmp(comment, " started ", 9))
		snprintf(comments->started, sizeof comments->started, "%s", comment + 9);
	else if (!strncmp(comment, " fault ", 7) || !strncmp(comment, " did ", 5))
		note_fault(comments, comment);
	else if (!strncmp(comment, " client ", 8)) {
		const char *process = strrchr(comment, ' ');
		comments->client.process = (pid_t)strtol(process, NULL, 10);
		if (process > comment + 8)
			snprintf(comments->client.name, sizeof comments->client.name, "%.*s", (int)(process - comment - 8),
				comment + 8);
	} else if (comments->judging)
		log_comment(comments->judging, comment);
}

void each_comment(char *text, size_t length, void (*note)(void *to, const char *comment), void *to)
{
	char *behind = text + length;
	for (char *line = text, *next; line < behind; line = next + 1) {
		next = memchr(line, '\n', (size_t)(behind - line));
		next = next ? next : behind;
		char *end = next > line && next[-1] == '\r' ? next - 1 : next, its = *end;
		*end = 0;
		if (*line == '#')
			note(to, line + 1);
		*end = its;
	}
}

/* Prints what precedes the first message. */
static void print_head(const struct options *options, const struct known *known, const struct comments *comments,
	unsigned number)
{
	struct head head = { options->debug_log ? options->debug_log : options->read,
		*comments->started ? comments->started : NULL, NULL, known->names.bytes, comments->is_timed, comments->from };
	if (!options->json)
		return;
	if (number == 1)
		json_head(&head);
	json_client(number, *comments->client.name ? comments->client.name : NULL, (long)comments->client.process);
}

/* Whether a recording without a piece ends within the comments with which the tool begins it: a part has more of them,
 * and always a piece. */
static bool is_cut_in_head(const struct comments *comments, const struct pieces *pieces)
{
	static const char first[] = "# client ";
	if (!pieces->front_length || memcmp(pieces->front, first, pieces->front_length))
		return false;
	return pieces->last != '\n' || !comments->has_tables || comments->has_from;
}

/* Reports why reading stopped before the end. */
static void notice_end(const struct options *options, const struct pieces *pieces, waywire_status status)
{
	char words[64];
	snprintf(words, sizeof words, "line %zu: bad line", pieces->piece.line);
	if (status == WAYWIRE_BAD_LINE && options->json)
		json_bad_line(pieces->piece.line, words);
	print_now();
	notice("%s", status == WAYWIRE_BAD_LINE ? words : waywire_strerror(status));
}

/* A recording that is read, and its judging. */
struct reading {
	const struct options *options;
	const struct known *known;
	const struct numbered *which;
	struct pieces pieces;
	struct comments comments;
	struct text head; /* the lines before the first piece */
	struct judging judging;
};

static waywire_status next_piece(struct reading *reading, struct text *head)
{
	reading->comments.seconds = -1;
	return pieces_next(&reading->pieces, note_comment, &reading->comments, head);
}

/* Reads the first piece. */
static waywire_status first_piece(struct reading *reading)
{
	reading->comments = (struct comments){ .seconds = -1, .latest = -1, .from = -1, .pieces = &reading->pieces };
	return next_piece(reading, &reading->head);
}

/* Begins to judge, with what the comments before the first piece say. */
static void begin(struct reading *reading, waywire_status status, bool is_counting)
{
	struct judging *judging = &reading->judging;
	const struct comments *comments = &reading->comments;
	judge_begin(judging, reading->options, reading->known, reading->which->number);
	judging->printer.is_numbered = reading->which->has_others;
	judging->printer.moment = read_moment(comments->started);
	judging->is_counting = is_counting;
	if (comments->from >= 0 && !status)
		part_read(judging, reading->head.bytes, reading->head.length, comments->from);
	reading->comments.judging = judging;
	log_begin(judging, reading->head.bytes, reading->head.length);
	each_comment(reading->head.bytes, reading->head.length, note_fault, &reading->comments);
	text_free(&reading->head);
}

/* Passes all pieces; the first one was already read. Returns why that ended. */
static waywire_status pass_pieces(struct reading *reading, waywire_status status)
{
	const struct pieces *pieces = &reading->pieces;
	for (; !status; status = next_piece(reading, NULL)) {
		if (reading->options->follow)
			filters_look(reading->options, reading->known->tables);
		judge_piece(&reading->judging, (int)pieces->piece.sender, pieces->bytes, pieces->piece.length,
			pieces->piece.token_count, reading->comments.seconds);
	}
	return status;
}

/* The fewest digits of a message. */
#define LEAST_DIGITS 16

/* How many messages of the window come before the last ones that are asked for. */
static uint64_t count_left_out(struct reading *reading)
{
	uint64_t last = reading->options->shown->window.last, size = (uint64_t)reading->pieces.progress.size;
	bool is_followed = reading->pieces.is_followed;
	if (!last || (size && size / LEAST_DIGITS <= last))
		return 0;
	reading->pieces.is_followed = false;
	waywire_status status = first_piece(reading);
	begin(reading, status, true);
	pass_pieces(reading, status);
	uint64_t within = reading->judging.within;
	judge_free(&reading->judging);
	pieces_again(&reading->pieces);
	reading->pieces.is_followed = is_followed;
	return within > last ? within - last : 0;
}

/* Ends the judging. Returns the exit status. */
static int end(struct reading *reading, bool is_whole)
{
	struct judging *judging = &reading->judging;
	judging->is_cut = !is_whole;
	judging->was_cut = reading->comments.was_cut;
	judging->has_no_end = !reading->comments.has_end;
	judge_end(judging, reading->comments.latest);
	print_now();
	if (judging->was_cut)
		notice("the recording was cut there: with the next piece it would have been too long");
	return !is_whole ? NOTHING_INSPECTED : judging->is_refused ? NOT_STRICT : has_failed(judging);
}

int read_recording(const struct options *options, const struct known *known, const struct numbered *which)
{
	static struct reading reading;
	reading = (struct reading){ .options = options, .known = known, .which = which };
	pieces_open(&reading.pieces, options->read, options->follow, options->shown->window.last);
	uint64_t left_out = count_left_out(&reading);
	waywire_status status = first_piece(&reading);
	if (status == WAYWIRE_NOT_FOUND && is_cut_in_head(&reading.comments, &reading.pieces))
		fail("%s is cut off in its head", options->read);
	print_head(options, known, &reading.comments, which->number);
	begin(&reading, status, false);
	reading.judging.left_out = left_out;
	status = pass_pieces(&reading, status);
	progress_end(&reading.pieces.progress);
	bool is_whole = status == WAYWIRE_NOT_FOUND;
	if (!is_whole)
		notice_end(options, &reading.pieces, status);
	int result = end(&reading, is_whole);
	judge_free(&reading.judging);
	pieces_close(&reading.pieces);
	return result;
}
