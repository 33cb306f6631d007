/* The file of --record. */
#define _GNU_SOURCE
#include "inspect.h"

#include <errno.h>
#include <fcntl.h>
#include <inttypes.h>
#include <stdio.h>
#include <sys/socket.h>
#include <sys/stat.h>
#include <unistd.h>

/* The most bytes of a piece beside its digits: a line with its time; an arrow, two spaces, `+`, 3 digits, a line
 * feed. */
#define BESIDE_DIGITS 64
/* The room for the last line, which says when the session ended, or that the recording was cut. */
#define LAST_LINE 64

/* The most bytes of a file; -1 if there is no limit. At the end two parts of --record-last are joined to one
 * recording. */
static off_t most_bytes(const struct recording *recording)
{
	const struct options *options = recording->options;
	off_t most = options->record_limit ? options->record_limit : options->record_last ? LONGEST_FILE : -1;
	return recording->parts ? most / 2 : most;
}

/* Whether so much more fits into a recording, and its last line behind it. */
static bool has_room(const struct recording *recording, size_t length)
{
	off_t most = most_bytes(recording);
	return most < 0 || recording->length + (off_t)length <= most - LAST_LINE;
}

/* ---- the client */

/* Finds the name of the client's process. Characters that a line cannot have become `?`. */
static void find_name(struct client *client)
{
	char path[64];
	snprintf(path, sizeof path, "/proc/%ld/comm", (long)client->process);
	FILE *file = fopen(path, "re");
	if (!file)
		return;
	if (!fgets(client->name, sizeof client->name, file))
		client->name[0] = 0;
	fclose(file);
	client->name[strcspn(client->name, "\n")] = 0;
	for (char *character = client->name; *character;) {
		size_t size = printable_character((unsigned char *)character, strlen(character));
		if (!size)
			*character = '?';
		character += size ? size : 1;
	}
}

struct client client_at(int socket, unsigned number)
{
	struct client client = { number, 0, "" };
	struct ucred of;
	socklen_t size = sizeof of;
	if (getsockopt(socket, SOL_SOCKET, SO_PEERCRED, &of, &size))
		return client;
	client.process = of.pid;
	find_name(&client);
	return client;
}

/* ---- moments */

double moment_now(void)
{
	struct timespec now;
	clock_gettime(CLOCK_REALTIME, &now);
	return (double)now.tv_sec + (double)now.tv_nsec / 1e9;
}

void write_moment(char *text, size_t size)
{
	struct timespec now;
	struct tm parts;
	size_t length = 0;
	clock_gettime(CLOCK_REALTIME, &now);
	if (gmtime_r(&now.tv_sec, &parts))
		length = strftime(text, size, "%Y-%m-%dT%H:%M:%S", &parts);
	snprintf(text + length, size - length, length ? ".%03ldZ" : "", now.tv_nsec / 1000000);
}

double read_moment(const char *text)
{
	struct tm parts = { 0 };
	const char *end = strptime(text, "%Y-%m-%dT%H:%M:%S", &parts);
	double part = 0, unit = 0.1;
	time_t whole = end ? timegm(&parts) : -1;
	if (whole < 0)
		return -1;
	for (end += *end == '.'; *end >= '0' && *end <= '9'; end++, unit /= 10)
		part += unit * (*end - '0');
	return strcmp(end, "Z") ? -1 : (double)whole + part;
}

/* ---- files */

bool write_whole(int file, const char *text, size_t length)
{
	while (length) {
		ssize_t written = write(file, text, length);
		if (written < 0 && errno != EINTR)
			return false;
		if (written > 0) {
			text += written;
			length -= (size_t)written;
		}
	}
	return true;
}

/* Whether a path leads to a folder; then errno says so. */
static bool is_folder(const char *path)
{
	struct stat of;
	if (stat(path, &of) || !S_ISDIR(of.st_mode))
		return false;
	errno = EISDIR;
	return true;
}

bool can_write(const char *path)
{
	int made = open(path, O_WRONLY | O_CREAT | O_EXCL | O_CLOEXEC, 0666);
	if (made >= 0) {
		close(made);
		unlink(path);
		return true;
	}
	if (errno == EEXIST && !access(path, W_OK) && !is_folder(path))
		return true;
	notice("cannot write %s: %s", path, strerror(errno));
	return false;
}

bool can_record(const char *path)
{
	struct stat of;
	char *tables;
	if (!can_write(path))
		return false;
	if (!stat(path, &of) && !S_ISREG(of.st_mode))
		return true;
	if (asprintf(&tables, "%s.tables", path) < 0)
		return false;
	bool can = can_write(tables);
	free(tables);
	return can;
}

char *numbered(const char *path, unsigned number)
{
	char *made;
	int length = number > 1 ? asprintf(&made, "%s.%u", path, number) : asprintf(&made, "%s", path);
	return length < 0 ? NULL : made;
}

/* Writes the tables beside a recording. */
static void write_tables(const struct options *options, const struct known *known)
{
	struct replacement made;
	char *path;
	if (asprintf(&path, "%s.tables", options->record) < 0) {
		notice("the tables are not recorded: out of memory");
		return;
	}
	if (!replacement_open(&made, path))
		notice("cannot write %s: %s", path, strerror(errno));
	else if (!write_whole(made.file, known->joined.bytes, known->joined.length) || !replacement_end(&made))
		notice("cannot write %s: %s", path, strerror(errno));
	replacement_drop(&made);
	free(path);
}

static bool is_regular(int file)
{
	struct stat of;
	return !fstat(file, &of) && S_ISREG(of.st_mode);
}

/* ---- the recording */

static void close_file(struct recording *recording)
{
	if (recording->file >= 0)
		close(recording->file);
	free(recording->path);
	recording->file = -1;
	recording->path = NULL;
}

/* Stops recording, since the file accepts nothing more. */
static void give_up(struct recording *recording)
{
	notice("cannot write %s: %s; the recording ends there", recording->path, strerror(errno));
	if (ftruncate(recording->file, recording->length))
		errno = 0; /* a device has no length */
	close_file(recording);
}

/* Writes comments: whose session it is, when it began, and which tables were used. In a later part, also what came
 * before. */
static void write_head(struct recording *recording, const struct follower *follower, double seconds)
{
	const struct client *client = &recording->client;
	const struct text *names = &recording->known->names;
	struct text head = { NULL, 0, 0 };
	char moment[32];
	write_moment(moment, sizeof moment);
	text_format(&head, "# client %s %ld\n# started %s\n# tables ", *client->name ? client->name : "unknown",
		(long)client->process, moment);
	text_put(&head, names->bytes, names->length);
	text_add(&head, "\n");
	for (size_t i = 0; i < recording->options->faults.count; i++)
		text_format(&head, "# fault %zu %s\n", i + 1, recording->options->faults.lines[i].words);
	if (follower)
		part_put(&head, follower, recording->fronts, seconds);
	if (write_whole(recording->file, head.bytes, head.length))
		recording->length = (off_t)head.length;
	else
		give_up(recording);
	text_free(&head);
}

/* Opens a file that replaces the one before. False if that fails, which is reported. */
static bool open_file(struct recording *recording, char *path)
{
	close_file(recording);
	recording->path = path;
	if (path && is_input(recording->options, path)) {
		notice("%s is read too, and is not written over", path);
		close_file(recording);
		return false;
	}
	recording->file = path ? open(path, O_WRONLY | O_CREAT | O_TRUNC | O_CLOEXEC, 0666) : -1;
	if (recording->file < 0) {
		notice("cannot write %s: %s", path ? path : "a recording", strerror(errno));
		close_file(recording);
	}
	return recording->file >= 0;
}

/* The name of a client's recording with a word appended; null if memory runs out. */
static char *with_word(const struct recording *recording, const char *word)
{
	char *path = numbered(recording->options->record, recording->client.number), *made = NULL;
	if (path && asprintf(&made, "%s.%s", path, word) < 0)
		made = NULL;
	free(path);
	return made;
}

/* Removes a file that an earlier session has left. */
static void remove_old(const struct recording *recording, const char *word)
{
	char *path = with_word(recording, word);
	if (path)
		unlink(path);
	free(path);
}

void recording_begin(struct recording *recording, const struct options *options, const struct known *known,
	const struct client *client)
{
	*recording = (struct recording){ .file = -1, .options = options, .known = known, .client = *client };
	if (!options->record || !open_file(recording, numbered(options->record, client->number)))
		return;
	if (client->number == 1 && is_regular(recording->file))
		write_tables(options, known);
	if (options->record_last) {
		remove_old(recording, "last");
		remove_old(recording, "before");
	}
	write_head(recording, NULL, 0);
}

/* Writes the lines of a piece, and returns their length. */
static size_t lines_of(char *text, const struct recorded *piece)
{
	static const char digits[] = "0123456789abcdef";
	uint64_t time = microseconds_of(piece->seconds);
	char *at = text + sprintf(text, "# %" PRIu64 ".%06" PRIu64 "\n", time / 1000000, time % 1000000);
	*at++ = piece->from == CLIENT ? '>' : '<';
	*at++ = ' ';
	for (size_t i = 0; i < piece->length; i++) {
		*at++ = digits[piece->bytes[i] >> 4];
		*at++ = digits[piece->bytes[i] & 15];
	}
	if (piece->descriptor_count)
		at += sprintf(at, " +%zu", piece->descriptor_count);
	*at++ = '\n';
	return (size_t)(at - text);
}

/* Writes the last line: what happened, and when. If that fails, closes the file and returns false. */
static bool write_last(struct recording *recording, const char *what, double seconds)
{
	char line[LAST_LINE];
	uint64_t time = microseconds_of(seconds);
	int length = snprintf(line, sizeof line, "# %s %" PRIu64 ".%06" PRIu64 "\n", what, time / 1000000, time % 1000000);
	bool is_written = write_whole(recording->file, line, (size_t)length);
	if (is_written)
		recording->length += length;
	else
		give_up(recording);
	return is_written;
}

/* ---- when it is full */

/* Ends the recording before the piece that does not fit. */
static void cut(struct recording *recording, double seconds)
{
	if (!write_last(recording, "cut", seconds))
		return;
	notice("%s has %jd bytes, and %jd is the limit; the recording ends there", recording->path,
		(intmax_t)recording->length, (intmax_t)most_bytes(recording));
	close_file(recording);
}

/* Renames the full part, which replaces the part before it. */
static void put_aside(const struct recording *recording)
{
	char *part = with_word(recording, "last"), *before = with_word(recording, "before");
	if (!part || !before || rename(part, before))
		notice("cannot keep the part before the last: %s", strerror(errno));
	free(part);
	free(before);
}

/* Continues in the file of the last part. */
static void begin_part(struct recording *recording, const struct follower *follower, double seconds)
{
	if (recording->parts++)
		put_aside(recording);
	else
		cut(recording, seconds);
	if (!open_file(recording, with_word(recording, "last")))
		return;
	if (recording->parts == 1)
		notice("the last part of client %u goes to %s", recording->client.number, recording->path);
	write_head(recording, follower, seconds);
}

/* Adds a file to the end of another. False with errno set. */
static bool append_file(const char *path, const char *added)
{
	static char bytes[PIECE_BYTES];
	int to = open(path, O_WRONLY | O_APPEND | O_CLOEXEC), from = open(added, O_RDONLY | O_CLOEXEC);
	ssize_t came = to < 0 || from < 0 ? -1 : 1;
	while (came > 0 && (came = read(from, bytes, sizeof bytes)) > 0)
		if (!write_whole(to, bytes, (size_t)came))
			came = -1;
	int error = errno;
	if (to >= 0)
		close(to);
	if (from >= 0)
		close(from);
	errno = error;
	return !came;
}

/* Puts the part before the last in front of the last. */
static void join_parts(const struct recording *recording)
{
	char *part = with_word(recording, "last"), *before = with_word(recording, "before");
	if (!part || !before || !append_file(before, part) || rename(before, part))
		notice("the part before the last is kept by itself: %s", strerror(errno));
	free(part);
	free(before);
}

/* Removes from the fronts the bytes of messages that are whole now. False if the fronts have fewer bytes than that. */
static bool trim_fronts(struct recording *recording, const struct follower *follower)
{
	for (int from = CLIENT; from <= COMPOSITOR; from++) {
		struct text *front = &recording->fronts[from];
		uint64_t left = recording->passed[from] - follower->behind[from];
		if (left > front->length)
			return false;
		if (left < front->length)
			memmove(front->bytes, front->bytes + (front->length - left), left);
		front->length = left;
	}
	return true;
}

void recording_add(struct recording *recording, const struct follower *follower, const struct recorded *piece)
{
	static char text[2 * PIECE_BYTES + BESIDE_DIGITS];
	if (recording->file < 0)
		return;
	size_t written = lines_of(text, piece);
	bool is_full = !has_room(recording, written);
	bool can_go_on = recording->options->record_last && follower && trim_fronts(recording, follower);
	if (is_full && can_go_on)
		begin_part(recording, follower, piece->seconds);
	else if (is_full)
		cut(recording, piece->seconds);
	if (can_go_on) {
		text_put(&recording->fronts[piece->from], piece->bytes, piece->length);
		recording->passed[piece->from] += piece->length;
	}
	if (recording->file < 0)
		return;
	if (write_whole(recording->file, text, written))
		recording->length += (off_t)written;
	else
		give_up(recording);
}

void recording_add_fault(struct recording *recording, const struct fault_done *done)
{
	struct text line = { NULL, 0, 0 };
	if (recording->file < 0)
		return;
	text_format(&line, "# did %zu ", done->line + 1);
	text_seconds(&line, done->seconds);
	text_format(&line, " %s\n", done->words);
	bool fits = has_room(recording, line.length); /* if not, the next piece does not fit either */
	if (fits && write_whole(recording->file, line.bytes, line.length))
		recording->length += (off_t)line.length;
	else if (fits)
		give_up(recording);
	text_free(&line);
}

void recording_end(struct recording *recording, double seconds)
{
	bool is_whole = recording->file >= 0 && write_last(recording, "ended", seconds);
	close_file(recording);
	text_free(&recording->fronts[CLIENT]);
	text_free(&recording->fronts[COMPOSITOR]);
	if (is_whole && recording->parts > 1)
		join_parts(recording);
}
