/* The names that tables do not have: of arguments, and of the values of enums. They come from the XML of --tables,
 * from the file NAME.names beside a text NAME.tables of --tables, and from those that are installed. */
#define _GNU_SOURCE
#include "inspect.h"

#include <limits.h>
#include <stdio.h>

/* For so many messages the names are kept: a power of two. */
#define KEPT_BITS 10
#define KEPT (1 << KEPT_BITS)

/* Lines as tools/waywire/protocol_names.py makes them, each ended by a NUL, and where each begins, in order. */
struct lines {
	struct text bytes;
	char **sorted;
	size_t count;
};

static struct lines given, installed;
static bool is_wanted, is_installed_read;

/* What an argument is called, and what its values mean. */
struct called {
	struct name name;
	bool is_plain;
	struct meaning meaning;
};

/* The arguments of a message, by its interface's index, its sender and its opcode. */
static struct kept {
	uint64_t key;          /* 0 if nothing is kept */
	struct called *called; /* null if their names are not known */
	size_t count;
} kept[KEPT];

/* ---- files */

static int by_bytes(const void *one, const void *other)
{
	return strcmp(*(char *const *)one, *(char *const *)other);
}

static void sort_lines(struct lines *lines)
{
	for (size_t i = 0; i < lines->bytes.length; i++)
		lines->count += lines->bytes.bytes[i] == '\n';
	lines->sorted = calloc(lines->count + 1, sizeof *lines->sorted);
	if (!lines->sorted)
		lines->count = 0;
	char *at = lines->bytes.bytes, *end = at + lines->bytes.length;
	for (size_t i = 0; i < lines->count; i++) {
		lines->sorted[i] = at;
		at = memchr(at, '\n', (size_t)(end - at));
		*at++ = 0;
	}
	if (lines->count)
		qsort(lines->sorted, lines->count, sizeof *lines->sorted, by_bytes);
}

/* Adds the lines of a file, if it is there. */
static void add_file(struct lines *lines, const char *path)
{
	if (read_bytes(path, &lines->bytes) && lines->bytes.length && lines->bytes.bytes[lines->bytes.length - 1] != '\n')
		text_add(&lines->bytes, "\n");
}

/* Adds the names from those files of --tables that the tool for XML can read. */
static void add_xml(struct lines *lines, const struct options *options)
{
	char tool[PATH_MAX];
	char **words = calloc(options->table_count + 3, sizeof *words);
	size_t count = 0;
	if (!words)
		fail("out of memory");
	find_tool(tool, sizeof tool, "tables-from-xml");
	words[count++] = tool;
	words[count++] = "--names";
	for (size_t i = 0; i < options->table_count; i++)
		if (is_xml(options->tables[i]))
			words[count++] = options->tables[i];
	if (count > 2 && run_to_end(words, &lines->bytes, false))
		notice("%s has failed: arguments have no names", tool);
	free(words);
}

bool find_names_beside(char *path, size_t size, const char *tables)
{
	const char *end = strrchr(tables, '.');
	return end && !strcmp(end, ".tables")
		&& snprintf(path, size, "%.*s.names", (int)(end - tables), tables) < (int)size;
}

void names_read(const struct options *options)
{
	char path[PATH_MAX];
	is_wanted = true;
	add_xml(&given, options);
	for (size_t i = 0; i < options->table_count; i++)
		if (find_names_beside(path, sizeof path, options->tables[i]))
			add_file(&given, path);
	sort_lines(&given);
}

/* Reads the installed names, the first time that a name is asked for. */
static void read_installed(void)
{
	char path[PATH_MAX];
	size_t count;
	is_installed_read = true;
	find_core_names(path, sizeof path);
	add_file(&installed, path);
	char **paths = installed_files(".names", &count);
	for (size_t i = 0; i < count; i++) {
		add_file(&installed, paths[i]);
		free(paths[i]);
	}
	free(paths);
	sort_lines(&installed);
}

static void free_lines(struct lines *lines)
{
	text_free(&lines->bytes);
	free(lines->sorted);
	*lines = (struct lines){ { NULL, 0, 0 }, NULL, 0 };
}

void names_free(void)
{
	free_lines(&given);
	free_lines(&installed);
	for (size_t i = 0; i < KEPT; i++)
		free(kept[i].called);
	memset(kept, 0, sizeof kept);
	is_wanted = is_installed_read = false;
}

/* ---- lines */

/* The rest of the line with this beginning; null if there is none. */
static const char *line_in(const struct lines *lines, const struct text *begin)
{
	size_t from = 0, to = lines->count;
	while (from < to) {
		size_t middle = from + (to - from) / 2;
		int order = strncmp(lines->sorted[middle], begin->bytes, begin->length);
		if (!order)
			return lines->sorted[middle] + begin->length;
		if (order < 0)
			from = middle + 1;
		else
			to = middle;
	}
	return NULL;
}

static const char *line_of(const struct text *begin)
{
	if (!is_installed_read)
		read_installed();
	const char *line = begin->bytes ? line_in(&given, begin) : NULL;
	return line || !begin->bytes ? line : line_in(&installed, begin);
}

/* The names of a message's arguments; null if they are not known. */
static const char *find_names(const struct message *message)
{
	struct text begin = { NULL, 0, 0 };
	size_t count = 1;
	text_put_name(&begin, message->target.name);
	text_add(&begin, message->from == CLIENT ? ".request." : ".event.");
	text_put_name(&begin, message->name);
	text_add(&begin, " ");
	const char *names = line_of(&begin);
	text_free(&begin);
	for (const char *at = names; at && *at; at++)
		count += *at == ' ';
	return count == message->signature.arg_count ? names : NULL;
}

/* What the values of an enum mean, which is named `interface.enum`. */
static struct meaning meaning_of(struct name name)
{
	static const char bitfield[] = "bitfield ";
	struct meaning meaning = { .enumeration = name, .is_numbers = true };
	const char *point = memchr(name.bytes, '.', name.length);
	struct text begin = { NULL, 0, 0 };
	if (!point)
		return (struct meaning){ .is_numbers = is_name(name, "uint") };
	text_put(&begin, name.bytes, (size_t)(point - name.bytes));
	text_add(&begin, ".enum");
	text_put(&begin, point, name.length - (size_t)(point - name.bytes));
	text_add(&begin, " ");
	meaning.entries = line_of(&begin);
	text_free(&begin);
	meaning.is_bitfield = meaning.entries && !strncmp(meaning.entries, bitfield, sizeof bitfield - 1);
	if (meaning.is_bitfield)
		meaning.entries += sizeof bitfield - 1;
	return meaning;
}

/* Takes the line of a message apart. */
static void take_names(struct kept *its, const struct message *message, const char *names)
{
	size_t count = message->signature.arg_count;
	struct called *called = names && count ? calloc(count, sizeof *called) : NULL;
	for (size_t i = 0; called && i < count; i++) {
		size_t length = strcspn(names, " ");
		const char *colon = memchr(names, ':', length);
		called[i].name = (struct name){ names, colon ? (size_t)(colon - names) : length };
		called[i].is_plain = plain_length((const unsigned char *)names, called[i].name.length) == called[i].name.length;
		if (colon)
			called[i].meaning = meaning_of((struct name){ colon + 1, length - called[i].name.length - 1 });
		names += length + (names[length] == ' ');
	}
	its->called = called;
	its->count = called ? count : 0;
}

static const struct kept *names_of(const struct message *message)
{
	uint64_t key = ((uint64_t)message->target.interface << 17 | (uint64_t)message->from << 16 | message->opcode) + 1;
	struct kept *its = &kept[key * 0x9e3779b97f4a7c15u >> (64 - KEPT_BITS)];
	if (its->key == key)
		return its;
	free(its->called);
	its->key = key;
	take_names(its, message, find_names(message));
	return its;
}

/* The code of a wl_display.error is of the enum `error` of the object's interface. */
static void name_code(struct message *message)
{
	static const char error[] = ".error";
	static char name[260 + sizeof error];
	const struct name its = message->args[0].object.name;
	if (!its.bytes || its.length > 260)
		return;
	memcpy(name, its.bytes, its.length);
	memcpy(name + its.length, error, sizeof error - 1);
	message->args[1].meaning = meaning_of((struct name){ name, its.length + sizeof error - 1 });
}

void name_arguments(struct message *message)
{
	if (!is_wanted || !message->name.bytes || !message->target.name.bytes)
		return;
	const struct kept *its = names_of(message);
	for (size_t i = 0; i < its->count && i < message->arg_count; i++) {
		message->args[i].name = its->called[i].name;
		message->args[i].is_plain = its->called[i].is_plain;
		message->args[i].meaning = its->called[i].meaning;
	}
	if (is_error(message) && message->arg_count == 3)
		name_code(message);
}
