/* The XML of protocols that is installed on the system. What no table text has is converted to a text. */
#define _GNU_SOURCE
#include "inspect.h"
#include "xml.h"

#include <dirent.h>
#include <errno.h>
#include <limits.h>
#include <stdio.h>

/* Where protocols are installed, below the folders of XDG_DATA_DIRS. */
static const char *const folders[] = {
	"wayland", "wayland-protocols", "wlr-protocols", "plasma-wayland-protocols", "hyprland-protocols",
};
#define USUAL_DATA "/usr/local/share:/usr/share"
/* The most folders within each other. */
#define MOST_DEPTH 4
/* What may precede a number. */
#define SPACES " \t\n\v\f\r"

/* An installed XML. */
struct protocol {
	char *path;
	struct text text;
	bool is_older;  /* another XML or a text has a newer version of one of its interfaces */
	bool is_new;    /* it has an interface or a version that no text has */
	bool is_wanted; /* it was chosen to be converted */
};

/* What a text or an XML declares. */
struct declared {
	struct name name;
	uint32_t version;
	size_t protocol; /* its index, or IN_TABLES */
};
#define IN_TABLES SIZE_MAX

struct search {
	struct protocol *protocols;
	size_t protocol_count, wanted_count;
	struct declared *declared;
	size_t declared_count;
	bool is_verbose;
};

/* An array with room for one more element. */
static void *enlarged(void *array, size_t count, size_t size)
{
	void *more = room_for_one(array, count, size);
	if (!more)
		fail("out of memory");
	return more;
}

/* ---- the files */

static void add_protocol(struct search *search, const char *path)
{
	struct protocol made = { .path = strdup(path) };
	if (!made.path)
		fail("out of memory");
	if (!read_bytes(path, &made.text) || !made.text.length || made.text.length > LONGEST_FILE) {
		text_free(&made.text);
		free(made.path);
		return;
	}
	search->protocols = enlarged(search->protocols, search->protocol_count, sizeof made);
	search->protocols[search->protocol_count++] = made;
}

/* Adds the XML in a folder and below it, in the order of names. */
static void add_folder(struct search *search, const char *folder, unsigned depth)
{
	struct dirent **found = NULL;
	int count = scandir(folder, &found, NULL, alphasort);
	for (int i = 0; i < count; i++) {
		char path[PATH_MAX];
		const char *name = found[i]->d_name;
		int length = snprintf(path, sizeof path, "%s/%s", folder, name);
		if (*name != '.' && length < (int)sizeof path) {
			if (is_xml(path))
				add_protocol(search, path);
			else if (depth < MOST_DEPTH && found[i]->d_type != DT_REG)
				add_folder(search, path, depth + 1);
		}
		free(found[i]);
	}
	free(found);
}

static void add_installed(struct search *search)
{
	const char *given = getenv("XDG_DATA_DIRS");
	char *data = strdup(given && *given ? given : USUAL_DATA), *left = data, *at;
	if (!data)
		fail("out of memory");
	while ((at = strsep(&left, ":")))
		for (size_t i = 0; *at == '/' && i < sizeof folders / sizeof *folders; i++) {
			char path[PATH_MAX];
			if (snprintf(path, sizeof path, "%s/%s", at, folders[i]) < (int)sizeof path)
				add_folder(search, path, 1);
		}
	free(data);
}

/* ---- what is declared */

static void declare(struct search *search, struct name name, uint32_t version, size_t protocol)
{
	search->declared = enlarged(search->declared, search->declared_count, sizeof *search->declared);
	search->declared[search->declared_count++] = (struct declared){ name, version, protocol };
}

static bool can_be_in_tables(struct name name)
{
	return name.length && strspn(name.bytes, "abcdefghijklmnopqrstuvwxyz0123456789_") >= name.length;
}

/* Where the text of an XML ends. */
static char *end_of(const struct protocol *protocol)
{
	return protocol->text.bytes + protocol->text.length;
}

/* Whether an XML has a name that tables cannot have. */
static bool is_malformed(const struct protocol *protocol)
{
	struct tag tag;
	for (char *at = protocol->text.bytes; xml_next(&at, end_of(protocol), &tag);) {
		bool is_named = is_name(tag.name, "interface") || is_name(tag.name, "request") || is_name(tag.name, "event");
		if (is_named && !can_be_in_tables(xml_attribute(&tag, "name")))
			return true;
	}
	return false;
}

/* A version, as the tool for XML reads it; 0 if it is none. */
static uint32_t version_in(struct name value)
{
	const char *at = value.bytes ? value.bytes + strspn(value.bytes, SPACES) : "";
	at += *at == '+';
	size_t digits = strspn(at, "0123456789");
	unsigned long version = strtoul(at, NULL, 10);
	return digits && at + digits == value.bytes + value.length && version <= INT32_MAX ? (uint32_t)version : 0;
}

static void declare_protocol(struct search *search, size_t index)
{
	const struct protocol *protocol = &search->protocols[index];
	struct tag tag;
	for (char *at = protocol->text.bytes; xml_next(&at, end_of(protocol), &tag);) {
		if (!is_name(tag.name, "interface"))
			continue;
		struct name name = xml_attribute(&tag, "name");
		uint32_t version = version_in(xml_attribute(&tag, "version"));
		if (name.bytes && version)
			declare(search, name, version, index);
	}
}

/* Notes what a text declares. An interface of --tables counts as the newest, so that no other replaces it. */
static void declare_source(struct search *search, const struct source *source)
{
	for (size_t at = 0; source->bytes && at < source->length; at = source_next_line(source, at)) {
		struct name name = source_names(source, at);
		if (name.length) {
			unsigned long version = strtoul(name.bytes + name.length, NULL, 10);
			declare(search, name, source->is_given ? UINT32_MAX : (uint32_t)version, IN_TABLES);
		}
	}
}

static void declare_core(struct search *search, const waywire_tables *core)
{
	struct name name;
	uint32_t version;
	for (uint16_t i = 0; !waywire_tables_name(core, i, &name.bytes, &name.length); i++)
		if (!waywire_tables_version(core, i, &version))
			declare(search, name, version, IN_TABLES);
}

/* ---- which are converted */

/* Notes for each XML whether it has what the tables lack, and whether it has an older version of an interface. */
static void compare_versions(struct search *search)
{
	const struct declared *end = search->declared + search->declared_count;
	for (const struct declared *declared = search->declared; declared < end; declared++) {
		bool is_in_tables = declared->protocol == IN_TABLES;
		struct protocol *protocol = is_in_tables ? NULL : &search->protocols[declared->protocol];
		bool is_known = false;
		for (const struct declared *other = search->declared; protocol && other < end; other++) {
			if (!is_same_name(declared->name, other->name))
				continue;
			is_known |= other->protocol == IN_TABLES && other->version >= declared->version;
			protocol->is_older |= other->version > declared->version;
		}
		if (protocol)
			protocol->is_new |= !is_known;
	}
}

/* Chooses the XML to convert, and reports it. */
static void choose(struct search *search)
{
	for (size_t i = 0; i < search->protocol_count; i++) {
		struct protocol *protocol = &search->protocols[i];
		if (!protocol->is_new || protocol->is_older)
			continue;
		protocol->is_wanted = !is_malformed(protocol);
		search->wanted_count += protocol->is_wanted;
		if (search->is_verbose)
			notice(protocol->is_wanted ? "%s is read: it has what no table has"
				: "%s is passed over: it has a name that no table can have", protocol->path);
	}
}

/* Whether no interface of a text is converted. */
static bool stands_beside(const struct search *search, const struct source *source)
{
	for (size_t i = 0; i < search->declared_count; i++) {
		const struct declared *declared = &search->declared[i];
		if (declared->protocol != IN_TABLES && search->protocols[declared->protocol].is_wanted
			&& source_declares(source, declared->name))
			return false;
	}
	return true;
}

/* Whether an XML has an argument of an interface that a text declares. */
static bool names_one_of(const struct protocol *protocol, const struct source *source)
{
	struct tag tag;
	for (char *at = protocol->text.bytes; xml_next(&at, end_of(protocol), &tag);) {
		struct name name = is_name(tag.name, "arg") ? xml_attribute(&tag, "interface") : (struct name){ NULL, 0 };
		if (name.bytes && source_declares(source, name))
			return true;
	}
	return false;
}

/* Whether the converted XML names interfaces of a text. */
static bool is_named(const struct search *search, const struct source *source)
{
	for (size_t i = 0; i < search->protocol_count; i++)
		if (search->protocols[i].is_wanted && names_one_of(&search->protocols[i], source))
			return stands_beside(search, source);
	return false;
}

/* The words of a command, which are freed with it. */
struct words {
	char **of;
	size_t count;
};

static void add_word(struct words *words, const char *word)
{
	char *own = word ? strdup(word) : NULL;
	if (word && !own)
		fail("out of memory");
	words->of = enlarged(words->of, words->count, sizeof *words->of);
	words->of[words->count++] = own;
}

/* Adds the comment that names a file. */
static void add_origin(struct words *words, const char *path)
{
	struct text comment = { NULL, 0, 0 };
	text_add(&comment, "From ");
	text_put_quoted(&comment, path, strlen(path));
	text_add(&comment, ".");
	add_word(words, "--comment");
	add_word(words, comment.bytes ? comment.bytes : "");
	text_free(&comment);
}

/* Converts the chosen XML. */
static bool convert_wanted(const struct search *search, const struct source *sources, size_t source_count,
	struct text *made)
{
	char tool[PATH_MAX];
	struct words words = { NULL, 0 };
	find_tool(tool, sizeof tool, "tables-from-xml");
	add_word(&words, tool);
	add_word(&words, "--whole");
	add_word(&words, "--pass-over");
	for (size_t i = 0; i < search->protocol_count; i++)
		if (search->protocols[i].is_wanted)
			add_origin(&words, search->protocols[i].path);
	for (size_t i = 0; i < source_count; i++)
		if (is_named(search, &sources[i])) {
			add_word(&words, "--with");
			add_word(&words, sources[i].path);
		}
	add_word(&words, "--");
	for (size_t i = 0; i < search->protocol_count; i++)
		if (search->protocols[i].is_wanted)
			add_word(&words, search->protocols[i].path);
	add_word(&words, NULL);
	bool is_made = !run_to_end(words.of, made, !search->is_verbose);
	if (!is_made && search->is_verbose)
		notice("%s has failed: no installed XML is known", tool);
	for (size_t i = 0; i < words.count; i++)
		free(words.of[i]);
	free(words.of);
	return is_made;
}

bool installed_protocols(struct text *made, const struct source *sources, size_t source_count,
	const waywire_tables *core, bool is_verbose)
{
	struct search search = { .is_verbose = is_verbose };
	add_installed(&search);
	declare_core(&search, core);
	for (size_t i = 0; i < source_count; i++)
		declare_source(&search, &sources[i]);
	for (size_t i = 0; i < search.protocol_count; i++)
		declare_protocol(&search, i);
	compare_versions(&search);
	choose(&search);
	bool is_made = search.wanted_count && convert_wanted(&search, sources, source_count, made);
	for (size_t i = 0; i < search.protocol_count; i++) {
		free(search.protocols[i].path);
		text_free(&search.protocols[i].text);
	}
	free(search.protocols);
	free(search.declared);
	return is_made;
}
