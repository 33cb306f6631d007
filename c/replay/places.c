/* Which arguments of events bring what later requests use. The tables do not name arguments: the files of names do. */
#define _GNU_SOURCE
#include "replay.h"

/* Events with a string that requests repeat. */
static const struct {
	const char *interface, *event;
} handles[] = {
	{ "xdg_activation_token_v1", "done" },
	{ "zxdg_exported_v1", "handle" },
	{ "zxdg_exported_v2", "handle" },
	{ "ext_foreign_toplevel_handle_v1", "identifier" },
};

/* What the tables and the names say of a message: its name, the kinds of its arguments and their names. */
static struct message *described(const waywire_tables *tables, uint16_t interface, int from, uint16_t opcode)
{
	static struct message message;
	message.from = from;
	message.opcode = opcode;
	message.arg_count = 0;
	message.name = message.target.name = (struct name){ NULL, 0 };
	message.target.interface = interface;
	if (waywire_tables_name(tables, interface, &message.target.name.bytes, &message.target.name.length)
		|| waywire_tables_message(tables, interface, (waywire_sender)from, opcode, &message.signature,
			&message.name.bytes, &message.name.length))
		return NULL;
	for (; message.arg_count < message.signature.arg_count; message.arg_count++) {
		waywire_kind kind;
		struct argument *argument = &message.args[message.arg_count];
		*argument = (struct argument){ .name = { NULL, 0 } };
		if (!waywire_tables_kind(tables, interface, (waywire_sender)from, opcode, message.arg_count, &kind))
			argument->value.kind = kind.kind;
	}
	name_arguments(&message);
	return &message;
}

static bool brings_handle(const struct message *message)
{
	for (size_t i = 0; i < sizeof handles / sizeof *handles; i++)
		if (is_name(message->target.name, handles[i].interface) && is_name(message->name, handles[i].event))
			return true;
	return false;
}

struct places places_of(const waywire_tables *tables, uint16_t interface, uint16_t opcode)
{
	struct places places = { -1, -1, false, false };
	const struct message *message = described(tables, interface, COMPOSITOR, opcode);
	if (!message)
		return places;
	for (size_t i = 0; i < message->arg_count; i++) {
		uint32_t kind = message->args[i].value.kind;
		if (kind == WAYWIRE_UINT && is_name(message->args[i].name, "serial"))
			places.serial = (int)i;
		if (kind == WAYWIRE_STRING && brings_handle(message))
			places.handle = (int)i;
		places.makes |= kind == WAYWIRE_NEW_BY_SERVER;
	}
	places.ends = message->signature.destroys == WAYWIRE_DESTROYS_TARGET;
	return places;
}

int opcode_called(const waywire_tables *tables, uint16_t interface, int from, const char *name)
{
	waywire_message message;
	struct name its;
	for (int opcode = 0; opcode <= UINT16_MAX; opcode++) {
		if (waywire_tables_message(tables, interface, (waywire_sender)from, (uint16_t)opcode, &message, &its.bytes,
				&its.length))
			return -1;
		if (is_name(its, name))
			return opcode;
	}
	return -1;
}
