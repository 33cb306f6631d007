/* The files that the tool reads and those that it writes: no file is both, and one that is written at once replaces
 * the old one only when it is whole. */
#define _GNU_SOURCE
#include "inspect.h"

#include <errno.h>
#include <fcntl.h>
#include <limits.h>
#include <stdio.h>
#include <sys/stat.h>
#include <unistd.h>

/* ---- which file it is */

/* The status of a regular file; false if it is not there, or is something else. */
static bool find_regular(const char *path, struct stat *of)
{
	return path && !stat(path, of) && S_ISREG(of->st_mode);
}

static bool is_file(const char *path, const struct stat *wanted)
{
	struct stat of;
	return find_regular(path, &of) && of.st_dev == wanted->st_dev && of.st_ino == wanted->st_ino;
}

static bool is_installed(const char *end, const struct stat *wanted)
{
	size_t count;
	bool found = false;
	char **paths = installed_files(end, &count);
	for (size_t i = 0; paths && i < count; i++) {
		found |= is_file(paths[i], wanted);
		free(paths[i]);
	}
	free(paths);
	return found;
}

static bool is_read(const struct options *options, const struct stat *wanted)
{
	char path[PATH_MAX];
	/* Standard input may be a file too. */
	const char *recording = options->read && !strcmp(options->read, "-") ? "/dev/stdin" : options->read;
	bool found = is_file(recording, wanted) || is_file(options->debug_log, wanted)
		|| is_file(options->faults_file, wanted) || is_file(options->filters_file, wanted);
	for (size_t i = 0; i < options->table_count; i++) {
		found |= is_file(options->tables[i], wanted);
		found |= find_names_beside(path, sizeof path, options->tables[i]) && is_file(path, wanted);
	}
	find_core_names(path, sizeof path);
	return found || is_file(path, wanted) || is_installed(".names", wanted)
		|| (!options->no_tables && is_installed(".tables", wanted));
}

bool is_input(const struct options *options, const char *path)
{
	struct stat of;
	return find_regular(path, &of) && is_read(options, &of);
}

/* ---- what the options name */

/* A file that is written, and the option that names it. */
struct output {
	const char *option;
	char *path; /* null if there is none */
};

/* The length of a path up to its last part. */
static size_t folder_length(const char *path)
{
	const char *slash = strrchr(path, '/');
	return slash ? (size_t)(slash - path) + 1 : 0;
}

/* Whether two paths that lead to no file yet lead to the same. */
static bool is_same_place(const char *one, const char *other)
{
	size_t first = folder_length(one), second = folder_length(other);
	char folder[PATH_MAX];
	struct stat of[2];
	if (strcmp(one + first, other + second))
		return false;
	snprintf(folder, sizeof folder, "%.*s.", (int)first, one);
	if (stat(folder, &of[0]))
		return false;
	snprintf(folder, sizeof folder, "%.*s.", (int)second, other);
	return !stat(folder, &of[1]) && of[0].st_dev == of[1].st_dev && of[0].st_ino == of[1].st_ino;
}

static bool is_same(const char *one, const char *other)
{
	struct stat of;
	if (!strcmp(one, other))
		return true;
	return find_regular(one, &of) ? is_file(other, &of) : is_same_place(one, other) && access(other, F_OK);
}

static void check_output(const struct options *options, const struct output *outputs, size_t index)
{
	const struct output *output = &outputs[index];
	if (!output->path)
		return;
	/* The name was forgotten, so the next option was taken for it. */
	if (!strncmp(output->path, "--", 2))
		fail("%s wants a file, and %s is an option (./%s is a file)", output->option, output->path, output->path);
	if (is_input(options, output->path))
		fail("%s: %s is read too, and is not written over", output->option, output->path);
	for (size_t i = 0; i < index; i++)
		if (outputs[i].path && is_same(outputs[i].path, output->path))
			fail("%s and %s name the same file", outputs[i].option, output->option);
}

void check_files(const struct options *options)
{
	struct output outputs[] = { { "--output", (char *)options->output }, { "--record", (char *)options->record },
		{ "the tables of --record", NULL }, { "--picture", (char *)options->picture } };
	struct stat of;
	if (options->record && asprintf(&outputs[2].path, "%s.tables", options->record) < 0)
		fail("out of memory");
	for (size_t i = 0; i < sizeof outputs / sizeof *outputs; i++)
		check_output(options, outputs, i);
	free(outputs[2].path);
	if (!options->output && !fstat(STDOUT_FILENO, &of) && S_ISREG(of.st_mode) && is_read(options, &of))
		fail("standard output is a file that is read too, and is not written over");
}

/* ---- a file that is whole or as it was */

/* The file that a path leads to, also if that is not there yet; to be freed. Null with errno set if that fails. */
static char *real_path(const char *path)
{
	char *made = realpath(path, NULL);
	return made || errno != ENOENT ? made : strdup(path);
}

/* Makes a file beside the target, with the target's permissions. */
static int open_beside(struct replacement *made)
{
	struct stat of;
	mode_t mask = umask(0);
	umask(mask);
	mode_t mode = find_regular(made->target, &of) ? of.st_mode & 07777 : 0666 & ~mask;
	if (asprintf(&made->path, "%s.XXXXXX", made->target) < 0)
		made->path = NULL;
	int file = made->path ? mkostemp(made->path, O_CLOEXEC) : -1;
	if (file < 0) {
		free(made->path);
		made->path = NULL;
	} else if (fchmod(file, mode))
		errno = 0; /* it keeps those of a new file */
	return file;
}

bool replacement_open(struct replacement *made, const char *path)
{
	struct stat of;
	bool is_special = !stat(path, &of) && !S_ISREG(of.st_mode);
	*made = (struct replacement){ .file = -1, .target = real_path(path) };
	if (is_special)
		made->file = open(path, O_WRONLY | O_CLOEXEC);
	else if (made->target)
		made->file = open_beside(made);
	int error = errno;
	if (made->file < 0)
		replacement_drop(made);
	errno = error;
	return made->file >= 0;
}

bool replacement_end(struct replacement *made)
{
	bool is_whole = !close(made->file);
	made->file = -1;
	is_whole = is_whole && (!made->path || !rename(made->path, made->target));
	int error = errno;
	if (is_whole) {
		free(made->path);
		made->path = NULL;
	}
	replacement_drop(made);
	errno = error;
	return is_whole;
}

void replacement_drop(struct replacement *made)
{
	if (made->file >= 0)
		close(made->file);
	if (made->path)
		unlink(made->path);
	free(made->path);
	free(made->target);
	*made = (struct replacement){ .file = -1 };
}
