/* The tables of the interfaces: the core's, those of the files of --tables, and the installed ones. */
#define _GNU_SOURCE
#include "inspect.h"

#include <errno.h>
#include <inttypes.h>
#include <limits.h>
#include <stdio.h>

/* The texts that are joined: the installed ones, followed by those of --tables. */
struct sources {
	struct source *of;
	size_t count;
};

/* Joins the texts, and adds them to the core's tables. At a fault `line` is the line of the joined text, and `rule` may
 * be its rule. */
static waywire_status read_joined(const waywire_tables *core, const struct sources *sources,
	waywire_tables **tables, size_t *line, uint32_t *rule)
{
	struct text joined = { NULL, 0, 0 };
	for (size_t i = 0; i < sources->count; i++)
		if (sources->of[i].bytes)
			text_put(&joined, sources->of[i].bytes, sources->of[i].length);
	waywire_status status = waywire_tables_read(core, joined.bytes ? joined.bytes : "", joined.length, tables,
		line, rule);
	text_free(&joined);
	return status;
}

/* The text that has this line of the joined text; `line` becomes the line within that text. */
static struct source *source_at(struct sources *sources, size_t *line)
{
	for (struct source *source = sources->of;; source++) {
		if (source->bytes && *line <= source->lines)
			return source;
		*line -= source->bytes ? source->lines : 0;
	}
}

static void leave_out(struct source *source, const char *why)
{
	notice("left out: %s", why);
	free(source->bytes);
	source->bytes = NULL;
}

/* Leaves out the first installed text without which the tables are valid. False if there is none. */
static bool leave_out_another(const waywire_tables *core, struct sources *sources, const char *why)
{
	for (size_t i = 0; i < sources->count; i++) {
		struct source *source = &sources->of[i];
		char *bytes = source->bytes;
		waywire_tables *tables;
		if (source->is_given || !bytes)
			continue;
		source->bytes = NULL;
		waywire_status status = read_joined(core, sources, &tables, NULL, NULL);
		source->bytes = bytes;
		if (status)
			continue;
		waywire_tables_free(tables);
		char said[2 * PATH_MAX];
		snprintf(said, sizeof said, "%s: beside it %s", source->path, why);
		leave_out(source, said);
		return true;
	}
	return false;
}

/* What is wrong with a line, in words. */
static void describe(char *said, size_t size, waywire_status status, const struct source *source, size_t line,
	uint32_t rule)
{
	if (status == WAYWIRE_BAD_TABLE)
		snprintf(said, size, "%s line %zu: breaks V%u", source->path, line, rule);
	else
		snprintf(said, size, "%s line %zu: bad line", source->path, line);
}

/* Reads the texts, joined. An installed text with a fault is left out. */
static waywire_tables *read_sources(const waywire_tables *core, struct sources *sources)
{
	waywire_tables *tables;
	for (;;) {
		char said[PATH_MAX + 64];
		size_t line = 0;
		uint32_t rule = 0;
		waywire_status status = read_joined(core, sources, &tables, &line, &rule);
		if (!status)
			break;
		if (status != WAYWIRE_BAD_LINE && status != WAYWIRE_BAD_TABLE)
			fail("the tables are not read: %s", waywire_strerror(status));
		struct source *source = source_at(sources, &line);
		describe(said, sizeof said, status, source, line, rule);
		if (!source->is_given)
			leave_out(source, said);
		else if (!leave_out_another(core, sources, said))
			fail("%s", said);
	}
	return tables;
}

/* Notes a text that was read: its name, and its bytes after a comment. */
static void note(struct known *known, const struct source *source)
{
	if (!source->bytes || !source->length)
		return;
	const char *name = strrchr(source->path, '/') ? strrchr(source->path, '/') + 1 : source->path;
	const char *end = strrchr(name, '.');
	size_t length = end && end > name ? (size_t)(end - name) : strlen(name);
	text_add(&known->names, " ");
	for (size_t i = 0; i < length; i++)
		text_add(&known->names, (unsigned char)name[i] <= ' ' ? "_" : (char[]){ name[i], 0 });
	text_format(&known->joined, "# From ");
	text_put_quoted(&known->joined, source->path, strlen(source->path));
	text_add(&known->joined, ".\n");
	text_put(&known->joined, source->bytes, source->length);
}

/* The paths of the installed texts. */
static char **installed_texts(size_t *count)
{
	char folder[PATH_MAX];
	char **paths = installed_files(".tables", count);
	int error = errno;
	find_tables(folder, sizeof folder);
	if (!paths)
		notice("cannot read %s: %s; the core's interfaces alone are known", folder, strerror(error));
	return paths;
}

/* Reads the installed texts. */
static void add_installed(struct sources *sources, char **paths, size_t count)
{
	for (size_t i = 0; i < count; i++) {
		struct source *source = &sources->of[i];
		source->path = paths[i];
		source_read(source);
	}
}

/* Reads what the system's XML has and no text has. It is put after the installed texts. */
static void add_protocols(struct sources *sources, size_t index, const waywire_tables *core, bool is_verbose)
{
	static char name[] = "installed-xml";
	struct text made = { NULL, 0, 0 };
	if (installed_protocols(&made, sources->of, sources->count, core, is_verbose))
		source_take(&sources->of[index], &made);
	else
		text_free(&made);
	sources->of[index].path = name;
}

/* Removes from each text the interfaces that a later text declares, unless the later one is installed. */
static void take_out_what_is_replaced(struct sources *sources, size_t first)
{
	for (size_t other = first; other < sources->count; other++)
		for (size_t i = 0; i < other && sources->of[other].bytes; i++)
			if (sources->of[i].bytes && !sources->of[i].is_given)
				source_without(&sources->of[i], &sources->of[other]);
}

/* Whether it is one of the four interfaces that are the same in all tables. */
static bool is_fixed(struct name name)
{
	return is_name(name, "wl_display") || is_name(name, "wl_registry") || is_name(name, "wl_callback")
		|| is_name(name, "wl_fixes");
}

/* The same tables, with the newest version that a number can have for each interface that may have a newer one. */
static waywire_tables *raise_versions(const waywire_tables *tables)
{
	struct text raising = { NULL, 0, 0 };
	waywire_tables *raised;
	struct name name;
	for (uint16_t index = 0; !waywire_tables_name(tables, index, &name.bytes, &name.length); index++) {
		if (is_fixed(name))
			continue;
		text_add(&raising, "extend ");
		text_put(&raising, name.bytes, name.length);
		text_format(&raising, " %" PRIu32 "\n", UINT32_MAX);
	}
	waywire_status status = waywire_tables_read(tables, raising.bytes, raising.length, &raised, NULL, NULL);
	text_free(&raising);
	if (status)
		fail("the tables are not read: %s", waywire_strerror(status));
	return raised;
}

static void free_sources(struct sources *sources, char **paths, size_t count)
{
	for (size_t i = 0; i < sources->count; i++)
		free(sources->of[i].bytes);
	for (size_t i = 0; i < count; i++)
		free(paths[i]);
	free(paths);
	free(sources->of);
}

void known_read(struct known *known, const struct options *options)
{
	size_t count = 0, given = options->table_count;
	char **paths = options->no_tables ? NULL : installed_texts(&count);
	struct sources sources = { calloc(count + 1 + given, sizeof *sources.of), count + 1 + given };
	waywire_tables *core;
	if (!sources.of || waywire_tables_core(&core))
		fail("out of memory");
	add_installed(&sources, paths, count);
	for (size_t i = 0; i < given; i++) {
		struct source *source = &sources.of[count + 1 + i];
		*source = (struct source){ .path = options->tables[i], .is_given = true };
		source_read(source);
	}
	if (!options->no_tables)
		add_protocols(&sources, count, core, options->verbose);
	take_out_what_is_replaced(&sources, count);
	*known = (struct known){ .tables = read_sources(core, &sources) };
	known->raised = raise_versions(known->tables);
	waywire_tables_free(core);
	text_add(&known->names, "core");
	text_add(&known->joined, "# The table texts that waywire-inspect read, joined.\n");
	for (size_t i = 0; i < sources.count; i++)
		note(known, &sources.of[i]);
	free_sources(&sources, paths, count);
}

void known_free(struct known *known)
{
	waywire_tables_free(known->tables);
	waywire_tables_free(known->raised);
	text_free(&known->joined);
	text_free(&known->names);
}
