/* Table texts from wl_interface structs: see structs.h.
 *
 * A struct does not say which messages destroy an object, so nothing is marked `D` here. No message has a since
 * number: libwayland passes on an event that is newer than its object, and its server tests requests itself. */
#include "structs.h"

#include "log.h"

#include <errno.h>
#include <stdio.h>
#include <stdlib.h>
#include <string.h>

/* The version of every interface. That of a struct is no limit, because programs bind above it. */
#define ANY_VERSION "4294967295"

/* What tables can have: the rules V1 and V3 of docs/FORMATS.md. */
#define MOST_NAME 256
#define MOST_MESSAGES 256

/* The indices of interfaces in all tables. */
#define REGISTRY 1
#define CALLBACK 2
#define FIXES 18

/* ---- what a message has, whether a struct or the tables say it */

/* An argument: its letter in a table text. The letter is `N` if an event makes an object. */
struct described_argument {
	char letter;
	const char *interface; /* null for any */
	size_t length;
};

struct described_message {
	size_t count;
	struct described_argument args[WAYWIRE_MAX_ARGS];
};

/* Whether a table text can have this name for an interface. */
static bool is_name(const char *name)
{
	size_t length = name ? strspn(name, "abcdefghijklmnopqrstuvwxyz0123456789_") : 0;
	return length && length <= MOST_NAME && !name[length];
}

/* Describes a message of a struct. False if it is malformed. An event without an interface for a new
 * object has its id as a number. */
static bool describe_struct(struct described_message *described, const struct wl_message *message,
	waywire_sender sender)
{
	struct signature signature;
	if (!message->name || !message->signature
		|| !signature_read(&signature, message->signature))
		return false;
	described->count = signature.count;
	for (size_t i = 0; i < signature.count; i++) {
		struct described_argument *arg = &described->args[i];
		char letter = signature.letters[i];
		bool is_object = letter == 'o' || letter == 'n';
		const struct wl_interface *type = NULL;
		if (is_object && !message->types)
			return false;
		if (is_object)
			type = message->types[i];
		if (type && !is_name(type->name))
			return false;
		if (letter == 'n' && sender == WAYWIRE_FROM_SERVER)
			letter = type ? 'N' : 'u';
		arg->letter = letter;
		arg->interface = type ? type->name : NULL;
		arg->length = type ? strlen(type->name) : 0;
	}
	return true;
}

static char letter_of(uint32_t kind)
{
	switch (kind) {
	case WAYWIRE_INT: return 'i';
	case WAYWIRE_UINT: return 'u';
	case WAYWIRE_FIXED: return 'f';
	case WAYWIRE_STRING: return 's';
	case WAYWIRE_OBJECT: return 'o';
	case WAYWIRE_NEW: return 'n';
	case WAYWIRE_NEW_BY_SERVER: return 'N';
	case WAYWIRE_ARRAY: return 'a';
	}
	return 'h';
}

/* Describes a message of the tables. False if they have none of this opcode. */
static bool describe_tables(struct described_message *described, const waywire_tables *tables,
	uint16_t interface, waywire_sender sender, size_t opcode)
{
	waywire_message message;
	if (waywire_tables_message(tables, interface, sender, (uint16_t)opcode, &message, NULL,
			NULL))
		return false;
	described->count = message.arg_count;
	for (size_t i = 0; i < message.arg_count; i++) {
		struct described_argument *arg = &described->args[i];
		waywire_kind kind;
		waywire_tables_kind(tables, interface, sender, (uint16_t)opcode, i, &kind);
		arg->letter = letter_of(kind.kind);
		arg->interface = NULL;
		arg->length = 0;
		if (arg->letter == 'o' || arg->letter == 'n' || arg->letter == 'N')
			waywire_tables_name(tables, kind.interface, &arg->interface, &arg->length);
	}
	return true;
}

/* Whether two messages have the same arguments. */
static bool are_same(const struct described_message *one, const struct described_message *other)
{
	if (one->count != other->count)
		return false;
	for (size_t i = 0; i < one->count; i++) {
		const struct described_argument *a = &one->args[i], *b = &other->args[i];
		if (a->letter != b->letter || a->length != b->length
			|| (a->length && memcmp(a->interface, b->interface, a->length)))
			return false;
	}
	return true;
}

/* ---- structs */

static const struct wl_message *messages_of(const struct wl_interface *interface,
	waywire_sender sender, size_t *count)
{
	bool is_client = sender == WAYWIRE_FROM_CLIENT;
	*count = (size_t)(is_client ? interface->method_count : interface->event_count);
	return is_client ? interface->methods : interface->events;
}

/* Whether a struct is one that tables can have. If not, it says so on stderr. */
static bool is_well_formed(const struct wl_interface *interface)
{
	struct described_message described;
	if (!is_name(interface->name)) {
		log_line("an interface has a name that is not of a to z, 0 to 9 and _\n");
		return false;
	}
	for (int sender = 0; sender < 2; sender++) {
		size_t count;
		const struct wl_message *messages = messages_of(interface, sender, &count);
		if (count > MOST_MESSAGES || (count && !messages)) {
			log_line("%s: it cannot have so many messages\n", interface->name);
			return false;
		}
		for (size_t opcode = 0; opcode < count; opcode++)
			if (!describe_struct(&described, &messages[opcode], sender)) {
				log_line("%s: its %s %zu is malformed\n", interface->name,
					sender ? "event" : "request", opcode);
				return false;
			}
	}
	return true;
}

/* wl_display, wl_registry, wl_callback and wl_fixes stay as they are in all tables. */
static bool is_fixed(uint16_t index)
{
	return index <= CALLBACK || index == FIXES;
}

/* Whether a message of a struct is that of the tables. The interface and version of a bind are
 * arguments in a struct, and belong to the new object in the tables. */
static bool is_in_tables(const waywire_tables *tables, uint16_t interface, waywire_sender sender,
	size_t opcode, const struct wl_message *message)
{
	struct described_message described, wanted;
	struct signature signature;
	if (interface == REGISTRY && sender == WAYWIRE_FROM_CLIENT && !opcode)
		return signature_read(&signature, message->signature) && signature.count == 4
			&& !memcmp(signature.letters, "usun", 4);
	return describe_struct(&described, message, sender)
		&& describe_tables(&wanted, tables, interface, sender, opcode)
		&& are_same(&described, &wanted);
}

static size_t count_in_tables(const waywire_tables *tables, uint16_t interface,
	waywire_sender sender)
{
	waywire_message message;
	size_t count = 0;
	while (!waywire_tables_message(tables, interface, sender, (uint16_t)count, &message, NULL,
			NULL))
		count++;
	return count;
}

/* The first message of a struct that differs from the tables; its count if there is none. Messages
 * that the tables do not have differ too, unless the interface is fixed. */
static size_t first_that_differs(const waywire_tables *tables, uint16_t index,
	waywire_sender sender, const struct wl_interface *interface)
{
	size_t count, opcode = 0, known = count_in_tables(tables, index, sender);
	const struct wl_message *messages = messages_of(interface, sender, &count);
	while (opcode < count) {
		if (opcode == known && is_fixed(index))
			return count;
		if (!is_in_tables(tables, index, sender, opcode, &messages[opcode]))
			break;
		opcode++;
	}
	return opcode;
}

static bool agrees(const waywire_tables *tables, const struct wl_interface *interface)
{
	uint16_t index;
	if (!is_well_formed(interface))
		return false;
	if (waywire_tables_interface(tables, interface->name, &index)) {
		log_line("%s: the interface is not known\n", interface->name);
		return false;
	}
	for (int sender = 0; sender < 2; sender++) {
		size_t count, differs = first_that_differs(tables, index, sender, interface);
		const struct wl_message *messages = messages_of(interface, sender, &count);
		if (differs == count)
			continue;
		log_line("%s: its %s %s (%s) contradicts another interface of this name\n",
			interface->name, sender ? "event" : "request", messages[differs].name,
			messages[differs].signature);
		return false;
	}
	return true;
}

bool structs_agree(const waywire_tables *tables, struct known_interfaces *known,
	const struct wl_interface *interface)
{
	if (known_find(known, interface))
		return true;
	errno = EINVAL;
	return agrees(tables, interface) && known_add(known, interface);
}

/* ---- a table text */

static void add_bytes(struct growth *growth, const char *bytes, size_t length)
{
	if (growth->has_failed)
		return;
	if (length > growth->text_room - growth->length) {
		size_t room = 2 * (growth->length + length) + 1024;
		char *more = realloc(growth->text, room);
		if (!more) {
			growth->has_failed = true;
			return;
		}
		growth->text = more;
		growth->text_room = room;
	}
	memcpy(growth->text + growth->length, bytes, length);
	growth->length += length;
}

static void add(struct growth *growth, const char *words)
{
	add_bytes(growth, words, strlen(words));
}

/* Null is allowed wherever it can be: copies of an interface may differ in that, and the struct of
 * each proxy decides for its own messages. */
static void add_argument(struct growth *growth, const struct described_argument *arg)
{
	add(growth, arg->letter == 's' || arg->letter == 'o' ? " ?" : " ");
	add_bytes(growth, &arg->letter, 1);
	if (arg->interface) {
		add(growth, "(");
		add_bytes(growth, arg->interface, arg->length);
		add(growth, ")");
	}
}

/* Messages are named by their opcodes, because some names have capitals, which tables do not accept. */
static void add_message(struct growth *growth, waywire_sender sender, size_t opcode,
	const struct wl_message *message)
{
	struct described_message described;
	char name[32];
	describe_struct(&described, message, sender);
	snprintf(name, sizeof name, "%s m%zu", sender ? "event" : "request", opcode);
	add(growth, name);
	for (size_t i = 0; i < described.count; i++)
		add_argument(growth, &described.args[i]);
	add(growth, "\n");
}

static void add_head(struct growth *growth, const char *kind, const char *name, size_t length)
{
	add(growth, kind);
	add_bytes(growth, name, length);
	add(growth, " " ANY_VERSION "\n");
}

/* ---- what is to be added */

/* Lists an interface, unless it is listed or known. False with errno. */
static bool reach(struct growth *growth, const struct wl_interface *interface)
{
	for (size_t i = 0; i < growth->count; i++)
		if (growth->reached[i].interface == interface)
			return true;
	if (known_find(growth->known, interface))
		return true;
	if (growth->count == growth->room) {
		size_t room = 2 * growth->room + 16;
		struct reached *more = realloc(growth->reached, room * sizeof *more);
		if (!more)
			return false;
		growth->reached = more;
		growth->room = room;
	}
	growth->reached[growth->count++] = (struct reached){ interface, false };
	return true;
}

/* Lists the interfaces that the messages of one name. False with errno. */
static bool reach_named(struct growth *growth, const struct wl_interface *interface)
{
	for (int sender = 0; sender < 2; sender++) {
		size_t count;
		const struct wl_message *messages = messages_of(interface, sender, &count);
		for (const struct wl_message *message = messages; message < messages + count; message++) {
			struct signature signature;
			signature_read(&signature, message->signature);
			for (size_t i = 0; message->types && i < signature.count; i++) {
				char letter = signature.letters[i];
				bool is_object = letter == 'o' || letter == 'n';
				if (is_object && message->types[i] && !reach(growth, message->types[i]))
					return false;
			}
		}
	}
	return true;
}

bool growth_reach(struct growth *growth, const struct wl_interface *interface)
{
	if (!reach(growth, interface))
		return false;
	for (; growth->looked_through < growth->count; growth->looked_through++) {
		const struct wl_interface *reached = growth->reached[growth->looked_through].interface;
		if (!is_well_formed(reached)) {
			errno = EINVAL;
			return false;
		}
		if (!reach_named(growth, reached))
			return false;
	}
	return true;
}

/* Whether two structs have the same messages, as far as both have them. */
static bool have_same(const struct wl_interface *one, const struct wl_interface *other)
{
	for (int sender = 0; sender < 2; sender++) {
		size_t count, other_count;
		const struct wl_message *messages = messages_of(one, sender, &count);
		const struct wl_message *others = messages_of(other, sender, &other_count);
		for (size_t opcode = 0; opcode < count && opcode < other_count; opcode++) {
			struct described_message described, other_described;
			describe_struct(&described, &messages[opcode], sender);
			describe_struct(&other_described, &others[opcode], sender);
			if (!are_same(&described, &other_described))
				return false;
		}
	}
	return true;
}

/* How many messages of an interface the tables and the text have, by their senders. */
struct known_messages {
	bool is_new; /* they have no interface of this name */
	size_t counts[2];
};

/* Counts the messages that the tables have of a struct. False if they differ. */
static bool count_known(const struct growth *growth, const struct wl_interface *interface,
	struct known_messages *known)
{
	uint16_t index;
	if (waywire_tables_interface(growth->tables, interface->name, &index))
		return true;
	known->is_new = false;
	if (is_fixed(index))
		return false;
	for (int sender = 0; sender < 2; sender++) {
		size_t count;
		messages_of(interface, sender, &count);
		known->counts[sender] = count_in_tables(growth->tables, index, sender);
		size_t differs = first_that_differs(growth->tables, index, sender, interface);
		if (differs < count && differs < known->counts[sender])
			return false;
	}
	return true;
}

/* Counts also those of the structs of this name that were written before. False if they differ. */
static bool count_written(const struct growth *growth, size_t index, struct known_messages *known)
{
	const struct wl_interface *interface = growth->reached[index].interface;
	for (size_t i = 0; i < index; i++) {
		const struct wl_interface *other = growth->reached[i].interface;
		if (!growth->reached[i].is_written || strcmp(other->name, interface->name))
			continue;
		if (!have_same(interface, other))
			return false;
		known->is_new = false;
		for (int sender = 0; sender < 2; sender++) {
			size_t count;
			messages_of(other, sender, &count);
			if (count > known->counts[sender])
				known->counts[sender] = count;
		}
	}
	return true;
}

/* Writes what the tables and the text lack of a struct. One that contradicts them is left out: it
 * is refused once the program makes an object of it. */
static void write_interface(struct growth *growth, size_t index)
{
	const struct wl_interface *interface = growth->reached[index].interface;
	struct known_messages known = { true, { 0, 0 } };
	if (!count_known(growth, interface, &known) || !count_written(growth, index, &known))
		return;
	growth->reached[index].is_written = true;
	bool is_longer = (size_t)interface->method_count > known.counts[WAYWIRE_FROM_CLIENT]
		|| (size_t)interface->event_count > known.counts[WAYWIRE_FROM_SERVER];
	if (!known.is_new && !is_longer)
		return;
	add_head(growth, known.is_new ? "interface " : "extend ", interface->name,
		strlen(interface->name));
	for (int sender = 0; sender < 2; sender++) {
		size_t count;
		const struct wl_message *messages = messages_of(interface, sender, &count);
		for (size_t opcode = known.counts[sender]; opcode < count; opcode++)
			add_message(growth, sender, opcode, &messages[opcode]);
	}
}

bool growth_write(struct growth *growth)
{
	for (size_t i = 0; i < growth->count; i++)
		write_interface(growth, i);
	if (growth->has_failed)
		errno = ENOMEM;
	return !growth->has_failed;
}

void growth_end(struct growth *growth)
{
	free(growth->reached);
	free(growth->text);
}

bool growth_know(const struct growth *growth)
{
	for (size_t i = 0; i < growth->count; i++)
		if (growth->reached[i].is_written
			&& !known_add(growth->known, growth->reached[i].interface))
			return false;
	return true;
}

bool growth_was_read(const struct growth *growth, waywire_status status, size_t line, uint32_t rule)
{
	if (!status)
		return true;
	errno = status == WAYWIRE_NO_MEMORY ? ENOMEM : EINVAL;
	if (status == WAYWIRE_NO_MEMORY)
		return false;
	const char *at = growth->text, *end = growth->text + growth->length;
	for (size_t before = 1; before < line && at < end; at++)
		before += *at == '\n';
	const char *behind = at < end ? memchr(at, '\n', (size_t)(end - at)) : NULL;
	log_line("%s cannot be known: %s V%u: %.*s\n", growth->reached[0].interface->name,
		waywire_strerror(status), rule, behind ? (int)(behind - at) : 0, behind ? at : "");
	return false;
}

/* ---- the tables that a display begins with */

/* Gives the interfaces of the core versions without an end. */
static void write_versions(struct growth *growth)
{
	const char *name;
	size_t length;
	uint16_t index = 0;
	for (; !waywire_tables_name(growth->tables, index, &name, &length); index++)
		if (!is_fixed(index))
			add_head(growth, "extend ", name, length);
}

waywire_tables *structs_first_tables(const waywire_tables *core, struct known_interfaces *known)
{
	waywire_tables *more = NULL;
	size_t line = 0;
	uint32_t rule = 0;
	struct growth growth = { .tables = core, .known = known };
	write_versions(&growth);
	if (growth_reach(&growth, &wl_data_device_manager_interface) && growth_write(&growth)) {
		waywire_status status = waywire_tables_read(core, growth.text, growth.length, &more,
			&line, &rule);
		if (growth_was_read(&growth, status, line, rule) && !growth_know(&growth)) {
			waywire_tables_free(more);
			more = NULL;
		}
	}
	growth_end(&growth);
	return more;
}
