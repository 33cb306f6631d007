/* The messages that names such as those of --only mean, and those of a window. */
#define _GNU_SOURCE
#include "inspect.h"

#include <errno.h>

/* Instead of a sender: messages of both senders, and also messages that make or name such an object. */
enum { ANY_SENDER = COMPOSITOR + 1, ANY_PART };

/* A filter to which names are added, and what is wrong with one of them. */
struct adding {
	struct filter *filter;
	const waywire_tables *tables;
	int side; /* of the name: ANY_SENDER for both */
	struct text *why;
};

static bool is_pattern(struct name name)
{
	return memchr(name.bytes, '*', name.length) || memchr(name.bytes, '?', name.length);
}

/* Whether a name matches a pattern, in which `*` stands for any characters and `?` for one. */
static bool matches(struct name pattern, struct name name)
{
	size_t at = 0, star = pattern.length, again = 0;
	for (size_t i = 0; i < name.length;) {
		if (at < pattern.length && pattern.bytes[at] == '*') {
			star = at++;
			again = i;
		} else if (at < pattern.length && (pattern.bytes[at] == '?' || pattern.bytes[at] == name.bytes[i])) {
			at++;
			i++;
		} else if (star < pattern.length) {
			at = star + 1; /* the star stands for one character more */
			i = ++again;
		} else
			return false;
	}
	while (at < pattern.length && pattern.bytes[at] == '*')
		at++;
	return at == pattern.length;
}

static bool add(struct adding *adding, const struct asked *asked)
{
	struct filter *filter = adding->filter;
	struct asked *more = room_for_one(filter->asked, filter->count, sizeof *more);
	if (!more) {
		text_add(adding->why, "out of memory");
		return false;
	}
	filter->asked = more;
	more[filter->count++] = *asked;
	return true;
}

/* Adds the messages of an interface whose names match. */
static bool add_messages(struct adding *adding, const struct asked *all, struct name wanted)
{
	waywire_message message;
	struct name name;
	for (int from = CLIENT; from <= COMPOSITOR; from++)
		for (int opcode = 0; opcode <= UINT16_MAX; opcode++) {
			if (waywire_tables_message(adding->tables, all->interface, (waywire_sender)from, (uint16_t)opcode,
					&message, &name.bytes, &name.length))
				break;
			struct asked asked = { all->interface, from, opcode, all->side, all->id };
			bool is_meant = (all->side == ANY_SENDER || all->side == from) && matches(wanted, name);
			if (is_meant && !add(adding, &asked))
				return false;
		}
	return true;
}

/* Adds what a name means, and counts the interfaces that have it; those that have a message of it are added. */
static bool add_named(struct adding *adding, struct name interface, const struct name *message, uint32_t id,
	size_t *count)
{
	struct name name;
	for (uint16_t index = 0; !waywire_tables_name(adding->tables, index, &name.bytes, &name.length); index++) {
		struct asked all = { index, message ? ANY_SENDER : ANY_PART, 0, adding->side, id };
		if (!matches(interface, name))
			continue;
		++*count;
		bool is_whole = !message || (message->length == 1 && *message->bytes == '*');
		if (is_whole ? !add(adding, &all) : !add_messages(adding, &all, *message))
			return false;
		if (!is_pattern(interface))
			break; /* of equal names the first counts */
	}
	return true;
}

/* Takes `@ID` from the end of a name of objects; the id is 0 if there is none. False if it is no id. */
static bool take_id(struct name *interface, uint32_t *id)
{
	const char *sign = memchr(interface->bytes, '@', interface->length);
	*id = 0;
	if (!sign)
		return true;
	size_t length = strspn(sign + 1, "0123456789");
	uint64_t number = length && length <= 10 ? strtoull(sign + 1, NULL, 10) : 0;
	if (!number || number > UINT32_MAX || sign + 1 + length != interface->bytes + interface->length)
		return false;
	interface->length = (size_t)(sign - interface->bytes);
	*id = (uint32_t)number;
	return true;
}

/* Takes the arrow with which lines begin from the front of a name. Returns whose messages it means. */
static int take_side(struct name *name)
{
	int side = name->length < 2 ? ANY_SENDER : !memcmp(name->bytes, "->", 2) ? CLIENT
		: !memcmp(name->bytes, "<-", 2) ? COMPOSITOR : ANY_SENDER;
	size_t length = side == ANY_SENDER ? 0 : 2;
	while (length && length < name->length && name->bytes[length] == ' ')
		length++;
	name->bytes += length;
	name->length -= length;
	return side;
}

/* Says what is wrong with a name. */
static bool refuse(struct adding *adding, struct name name, const char *words)
{
	text_put(adding->why, name.bytes, name.length);
	text_format(adding->why, ": %s", words);
	return false;
}

/* Says that an interface, or those of a pattern, have no message that is meant. */
static bool refuse_message(struct adding *adding, struct name name, struct name interface)
{
	static const char *const kinds[] = { "request", "event", "message" };
	const char *kind = kinds[adding->side];
	refuse(adding, name, is_pattern(interface) ? "no such interface" : "");
	if (!is_pattern(interface))
		text_put(adding->why, interface.bytes, interface.length);
	text_format(adding->why, " has %s %s", is_pattern(interface) ? "such a" : "no such", kind);
	return false;
}

/* Adds a name. False if it matches nothing in the tables. */
static bool add_name(struct adding *adding, struct name name)
{
	struct name whole = name;
	adding->side = take_side(&name);
	if (!name.length && whole.length)
		return add(adding, &(struct asked){ WAYWIRE_ANY_INTERFACE, ANY_SENDER, 0, adding->side, 0 });
	const char *point = memchr(name.bytes, '.', name.length);
	size_t before = adding->filter->count, found = 0, length = point ? (size_t)(point - name.bytes) : name.length;
	struct name interface = { name.bytes, length };
	struct name message = { point ? point + 1 : NULL, point ? name.length - length - 1 : 0 };
	uint32_t id;
	if (!take_id(&interface, &id))
		return refuse(adding, interface, "there is no id behind @");
	if (!add_named(adding, interface, point ? &message : NULL, id, &found))
		return false;
	if (!found)
		return refuse(adding, interface, is_pattern(interface) ? "no tables have such an interface"
			: "no tables have that interface");
	return adding->filter->count > before || refuse_message(adding, name, interface);
}

bool filter_add(struct filter *filter, const waywire_tables *tables, const char *names, struct text *why)
{
	struct adding adding = { filter, tables, ANY_SENDER, why };
	for (;;) {
		const char *from = names + strspn(names, " ");
		struct name name = { from, strcspn(from, ",") };
		names = from + name.length;
		while (name.length && name.bytes[name.length - 1] == ' ')
			name.length--;
		if (!add_name(&adding, name))
			return false;
		if (!*names++)
			return true;
	}
}

void filter_read(struct filter *filter, const waywire_tables *tables, const char *option, const char *names)
{
	struct text why = { NULL, 0, 0 };
	if (!filter_add(filter, tables, names, &why))
		fail("--%s %s", option, why.bytes ? why.bytes : "out of memory");
	text_free(&why);
}

/* Whether a message is for an object that is asked for, by its interface or by the message's name. */
static bool is_for(const struct asked *asked, const struct message *message)
{
	bool is_its = asked->interface == WAYWIRE_ANY_INTERFACE || message->target.interface == asked->interface;
	return is_its && (asked->side == ANY_SENDER || asked->side == message->from)
		&& (!asked->id || message->target.id == asked->id)
		&& (asked->from >= ANY_SENDER || (asked->from == message->from && asked->opcode == message->opcode));
}

/* Whether a message makes or names an object of an interface that is asked for without a message. */
static bool names(const struct asked *asked, const struct message *message)
{
	if (asked->from != ANY_PART || (asked->side != ANY_SENDER && asked->side != message->from))
		return false;
	for (size_t i = 0; i < message->arg_count; i++)
		if (message->args[i].object.name.bytes && message->args[i].object.interface == asked->interface
			&& (!asked->id || message->args[i].object.id == asked->id))
			return true;
	return false;
}

bool filter_is_for(const struct filter *filter, const struct message *message)
{
	bool is_asked = false;
	for (size_t i = 0; i < filter->count && !is_asked; i++)
		is_asked = is_for(&filter->asked[i], message);
	return is_asked;
}

bool is_printed(const struct shown *shown, const struct message *message)
{
	bool is_wanted = !shown->only.count;
	for (size_t i = 0; i < shown->only.count; i++)
		is_wanted |= is_for(&shown->only.asked[i], message) || names(&shown->only.asked[i], message);
	return is_wanted && !filter_is_for(&shown->except, message);
}

bool window_take(const char *word, uint64_t *number, double *seconds)
{
	size_t whole = strspn(word, "0123456789"), length = whole;
	if (word[length] == '.')
		length += 1 + strspn(word + length + 1, "0123456789");
	bool is_time = whole && whole <= 9 && word[length - 1] != '.' && !strcmp(word + length, "s");
	errno = 0;
	uint64_t given = !is_time && whole && !word[whole] ? strtoull(word, NULL, 10) : 0;
	if (is_time)
		*seconds = strtod(word, NULL);
	else if (given && !errno)
		*number = given;
	return !errno && (is_time || given);
}

bool is_within(const struct window *window, const struct message *message, double seconds)
{
	bool is_known = message->seconds >= 0;
	return message->number >= window->from && (!window->to || message->number <= window->to)
		&& (window->since < 0 || (is_known && seconds >= window->since))
		&& (window->until < 0 || (is_known && seconds <= window->until));
}
