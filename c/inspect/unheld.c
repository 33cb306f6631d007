/* What a table text cannot hold: messages such as those whose names have capitals, and that an event destroys its target
 * if there are requests, too. waywire-tables-from-xml leaves that out, and marks it by comments after the interface:
 *
 *     interface org_kde_kwin_keystate 4
 *     # request fetchStates: left out, it breaks V1
 *     # request destroy D @4: left out, it comes after fetchStates
 *
 *     interface wp_drm_lease_device_v1 1
 *     # event released D: kept without D, which breaks V7 */
#define _GNU_SOURCE
#include "inspect.h"

#include <ctype.h>

static const char mark[] = ": left out, ";
static const char kept[] = ": kept without D, ";

/* Reads a mark about a message of this side: its name, and the version from which it is there. */
static bool read_mark(struct name line, int from, struct name *name, uint32_t *since)
{
	const char *side = from == CLIENT ? "# request " : "# event ";
	size_t front = strlen(side);
	const char *end = memmem(line.bytes, line.length, mark, sizeof mark - 1);
	if (!end || line.length <= front || memcmp(line.bytes, side, front))
		return false;
	name->bytes = line.bytes + front;
	name->length = 0;
	while (isalnum((unsigned char)name->bytes[name->length]) || name->bytes[name->length] == '_')
		name->length++;
	const char *at = memmem(name->bytes, (size_t)(end - name->bytes), " @", 2);
	*since = at ? (uint32_t)strtoul(at + 2, NULL, 10) : 1;
	return name->length > 0;
}

/* How many messages of a side the tables have of an interface. */
static size_t held(const waywire_tables *tables, const struct message *message)
{
	waywire_message found;
	size_t count = 0;
	while (!waywire_tables_message(tables, message->target.interface, (waywire_sender)message->from, (uint16_t)count,
			&found, NULL, NULL))
		count++;
	return count;
}

bool is_unheld(const struct known *known, const struct message *message, struct name *name)
{
	const struct source joined = { .bytes = known->joined.bytes, .length = known->joined.length };
	size_t left = message->opcode - held(known->tables, message);
	bool is_its = false;
	for (size_t at = 0, next; at < joined.length; at = next) {
		next = source_next_line(&joined, at);
		struct name line = { joined.bytes + at, next - at }, declared = source_names(&joined, at);
		uint32_t since;
		if (declared.length)
			is_its = is_same_name(declared, message->target.name);
		else if (is_its && read_mark(line, message->from, name, &since) && !left--)
			return message->target.version >= since;
	}
	return false;
}

bool is_ended_unmarked(const struct known *known, struct name interface)
{
	const struct source joined = { .bytes = known->joined.bytes, .length = known->joined.length };
	bool is_its = false;
	for (size_t at = 0, next; at < joined.length; at = next) {
		next = source_next_line(&joined, at);
		struct name declared = source_names(&joined, at);
		if (declared.length)
			is_its = is_same_name(declared, interface);
		else if (is_its && joined.bytes[at] == '#'
				&& memmem(joined.bytes + at, next - at, kept, sizeof kept - 1))
			return true;
	}
	return false;
}
