/* The page of --picture, which waywire-picture makes from the recording. */
#define _GNU_SOURCE
#include "inspect.h"

#include <errno.h>
#include <limits.h>
#include <stdio.h>
#include <unistd.h>

static char folder[PATH_MAX];
static char *recorded; /* in that folder; null if --record names a file */

void picture_begin(struct options *options)
{
	const char *temporary = getenv("TMPDIR");
	if (!options->picture && !options->debug_log)
		return;
	if (options->picture && !can_write(options->picture))
		exit(NOTHING_INSPECTED);
	if (options->record)
		return;
	snprintf(folder, sizeof folder, "%s/waywire-inspect-XXXXXX", temporary && *temporary ? temporary : "/tmp");
	if (!mkdtemp(folder) || asprintf(&recorded, "%s/session", folder) < 0)
		fail("cannot make %s: %s", folder, strerror(errno));
	options->record = recorded;
}

/* The page of a client: the file of --picture, with `.2` before its end for the second, and so on. */
static char *page_of(const char *path, unsigned number)
{
	const char *end = strrchr(path, '.');
	char *made;
	size_t length = end && !strchr(end, '/') ? (size_t)(end - path) : strlen(path);
	if (number == 1)
		return strdup(path);
	return asprintf(&made, "%.*s.%u%s", (int)length, path, number, path + length) < 0 ? NULL : made;
}

static void make_page(const struct options *options, const char *tool, unsigned number)
{
	char limit[16], own[PATH_MAX];
	char *recording = numbered(options->record, number), *page = page_of(options->picture, number);
	snprintf(limit, sizeof limit, "%u", (unsigned)options->limit);
	find_own(own, sizeof own);
	char *words[] = { (char *)tool, recording, "-o", page, "--limit", limit, "--inspector", own, NULL };
	int status = recording && page ? run_to_end(words, NULL, false) : 127;
	if (status)
		notice("no page of client %u is made: %s %s", number, tool, status == 127 ? "cannot be run" : "has failed");
	free(recording);
	free(page);
}

/* Removes the recordings that nobody asked for. */
static void remove_recorded(unsigned client_count)
{
	char *tables;
	for (unsigned number = 1; recorded && number <= client_count; number++) {
		char *path = numbered(recorded, number);
		if (path)
			unlink(path);
		free(path);
	}
	if (recorded && asprintf(&tables, "%s.tables", recorded) >= 0) {
		unlink(tables);
		free(tables);
	}
	if (recorded)
		rmdir(folder);
	free(recorded);
	recorded = NULL;
}

void picture_end(const struct options *options, unsigned client_count)
{
	char tool[PATH_MAX];
	if (options->picture)
		find_tool(tool, sizeof tool, "waywire-picture");
	for (unsigned number = 1; options->picture && number <= client_count; number++)
		make_page(options, tool, number);
	remove_recorded(client_count);
}
