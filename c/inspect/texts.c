/* Table texts: where they are, and what is in them. */
#define _GNU_SOURCE
#include "inspect.h"

#include <dirent.h>
#include <errno.h>
#include <fcntl.h>
#include <limits.h>
#include <spawn.h>
#include <stdio.h>
#include <sys/stat.h>
#include <sys/wait.h>
#include <unistd.h>

/* ---- other programs */

static void read_all(int from, struct text *output)
{
	char bytes[4096];
	ssize_t came;
	while ((came = read(from, bytes, sizeof bytes)) > 0 || (came < 0 && errno == EINTR))
		if (came > 0)
			text_put(output, bytes, (size_t)came);
	close(from);
}

/* A program is started with the usual signals, whatever the tool does with its own. */
static void take_no_signals(posix_spawnattr_t *attributes)
{
	sigset_t none, usual;
	sigemptyset(&none);
	sigemptyset(&usual);
	sigaddset(&usual, SIGPIPE);
	posix_spawnattr_setflags(attributes, POSIX_SPAWN_SETSIGDEF | POSIX_SPAWN_SETSIGMASK);
	posix_spawnattr_setsigdefault(attributes, &usual);
	posix_spawnattr_setsigmask(attributes, &none);
}

int run_to_end(char *const *words, struct text *output, bool is_quiet)
{
	int ends[2], status = 0;
	pid_t process;
	posix_spawn_file_actions_t actions;
	posix_spawnattr_t attributes;
	if (pipe(ends))
		return 127;
	posix_spawnattr_init(&attributes);
	take_no_signals(&attributes);
	posix_spawn_file_actions_init(&actions);
	if (output)
		posix_spawn_file_actions_adddup2(&actions, ends[1], STDOUT_FILENO);
	if (is_quiet)
		posix_spawn_file_actions_addopen(&actions, STDERR_FILENO, "/dev/null", O_WRONLY, 0);
	posix_spawn_file_actions_addclose(&actions, ends[0]);
	posix_spawn_file_actions_addclose(&actions, ends[1]);
	int error = posix_spawnp(&process, words[0], &actions, &attributes, words, environ);
	posix_spawn_file_actions_destroy(&actions);
	posix_spawnattr_destroy(&attributes);
	close(ends[1]);
	if (output)
		read_all(ends[0], output);
	else
		close(ends[0]);
	if (error)
		return 127;
	while (waitpid(process, &status, 0) < 0 && errno == EINTR)
		;
	return WIFEXITED(status) ? WEXITSTATUS(status) : 128 + WTERMSIG(status);
}

/* ---- a text */

static bool ends_with(const char *path, const char *end)
{
	size_t length = strlen(path), its = strlen(end);
	return length > its && !strcmp(path + length - its, end);
}

bool is_xml(const char *path)
{
	return ends_with(path, ".xml");
}

bool read_bytes(const char *path, struct text *text)
{
	char bytes[65536];
	ssize_t came = 1;
	int file = open(path, O_RDONLY | O_CLOEXEC);
	if (file < 0)
		return false;
	while (text->length <= LONGEST_FILE && (came = read(file, bytes, sizeof bytes)) > 0)
		text_put(text, bytes, (size_t)came);
	int error = errno;
	close(file);
	errno = error;
	return came >= 0;
}

void read_file(const char *path, struct text *text)
{
	if (!read_bytes(path, text))
		fail("cannot read %s: %s", path, strerror(errno));
	if (text->length > LONGEST_FILE)
		fail("%s: file too long", path);
}

/* Makes a text of a protocol's XML. */
static void convert(const char *path, struct text *text)
{
	char tool[PATH_MAX];
	char *words[] = { tool, (char *)path, NULL };
	find_tool(tool, sizeof tool, "tables-from-xml");
	int status = run_to_end(words, text, false);
	if (status == 127)
		fail("%s cannot be read: %s cannot be run", path, tool);
	if (status)
		fail("%s cannot be read", path);
}

/* Whether a text is XML, by its first character. */
static bool has_tags(const struct text *text)
{
	size_t at = text->length >= 3 && !memcmp(text->bytes, "\xef\xbb\xbf", 3) ? 3 : 0;
	return text->length && text->bytes[at + strspn(text->bytes + at, " \t\r\n")] == '<';
}

void source_read(struct source *source)
{
	struct text text = { NULL, 0, 0 };
	if (is_xml(source->path))
		convert(source->path, &text);
	else
		read_file(source->path, &text);
	if (has_tags(&text))
		fail("%s is XML, not a table text; the name of a protocol's XML ends with .xml", source->path);
	source_take(source, &text);
}

void source_take(struct source *source, struct text *taken)
{
	struct text text = *taken;
	if (text.length && text.bytes[text.length - 1] != '\n')
		text_add(&text, "\n");
	source->bytes = text.bytes ? text.bytes : calloc(1, 1);
	source->length = text.length;
	if (!source->bytes)
		fail("out of memory");
	source->lines = 0;
	for (size_t i = 0; i < text.length; i++)
		source->lines += text.bytes[i] == '\n';
}

/* ---- what a text declares */

size_t source_next_line(const struct source *source, size_t at)
{
	const char *end = memchr(source->bytes + at, '\n', source->length - at);
	return end ? (size_t)(end - source->bytes) + 1 : source->length;
}

/* The name in a line, after its first word. */
static struct name named_by(const struct source *source, size_t at, const char *word)
{
	size_t length = source->length - at, begin = strlen(word);
	if (length <= begin || memcmp(source->bytes + at, word, begin))
		return (struct name){ NULL, 0 };
	const char *name = source->bytes + at + begin, *end = memchr(name, ' ', length - begin);
	return (struct name){ name, end ? (size_t)(end - name) : 0 };
}

struct name source_names(const struct source *source, size_t at)
{
	struct name name = named_by(source, at, "interface ");
	return name.length ? name : named_by(source, at, "extend ");
}

bool source_declares(const struct source *source, struct name name)
{
	for (size_t at = 0; source->bytes && at < source->length; at = source_next_line(source, at)) {
		struct name its = named_by(source, at, "interface ");
		if (its.length == name.length && !memcmp(its.bytes, name.bytes, name.length))
			return true;
	}
	return false;
}

void source_without(struct source *source, const struct source *other)
{
	size_t kept = 0, lines = 0;
	bool is_out = false;
	for (size_t at = 0, next; at < source->length; at = next) {
		next = source_next_line(source, at);
		struct name name = source_names(source, at);
		if (name.length)
			is_out = source_declares(other, name);
		if (is_out)
			continue;
		memmove(source->bytes + kept, source->bytes + at, next - at);
		kept += next - at;
		lines++;
	}
	source->length = kept;
	source->lines = lines;
}

/* ---- the installed texts */

/* The paths of the files with this end in a folder, in the order of their names; null with errno set where it cannot be
 * read. */
static char **files_in(const char *folder, const char *end, size_t *count)
{
	struct dirent **found = NULL;
	int entries = scandir(folder, &found, NULL, alphasort);
	*count = 0;
	if (entries < 0)
		return NULL;
	char **paths = calloc((size_t)entries + 1, sizeof *paths);
	for (int i = 0; i < entries; i++) {
		const char *name = found[i]->d_name;
		if (!paths || (ends_with(name, end) && asprintf(&paths[(*count)++], "%s/%s", folder, name) < 0))
			fail("out of memory");
		free(found[i]);
	}
	free(found);
	return paths;
}

char **installed_files(const char *end, size_t *count)
{
	char folder[PATH_MAX];
	find_tables(folder, sizeof folder);
	return files_in(folder, end, count);
}

/* ---- the folders of --tables */

/* A growing array of paths, which ends with a null. */
struct paths {
	char **of;
	size_t count;
};

static void add_path(struct paths *paths, char *path)
{
	char **more = realloc(paths->of, (paths->count + 2) * sizeof *more);
	if (!more)
		fail("out of memory");
	paths->of = more;
	more[paths->count++] = path;
	more[paths->count] = NULL;
}

static bool is_folder(const char *path)
{
	struct stat of;
	return !stat(path, &of) && S_ISDIR(of.st_mode);
}

/* Adds the texts of a folder to those that are read, and to those that are freed. */
static void add_folder(struct paths *texts, struct paths *made, const char *folder)
{
	size_t count;
	char **found = files_in(folder, ".tables", &count);
	if (!found)
		fail("cannot read %s: %s", folder, strerror(errno));
	if (!count)
		fail("--tables %s: the folder has no table text NAME.tables", folder);
	for (size_t i = 0; i < count; i++) {
		add_path(texts, found[i]);
		add_path(made, found[i]);
	}
	free(found);
}

char **tables_of_folders(struct options *options)
{
	struct paths texts = { calloc(2, sizeof *texts.of), 0 }, made = { calloc(1, sizeof *made.of), 0 };
	if (!texts.of || !made.of)
		fail("out of memory");
	for (size_t i = 0; i < options->table_count; i++) {
		if (is_folder(options->tables[i]))
			add_folder(&texts, &made, options->tables[i]);
		else
			add_path(&texts, options->tables[i]);
	}
	free(options->tables);
	options->tables = texts.of;
	options->table_count = texts.count;
	return made.of;
}
