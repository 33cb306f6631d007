/* Makes objects known to the library's inspector whose beginning is not in a recording. It knows an object by the
 * message that made it, so it is given such messages: binds for the objects of the client, events for those of the
 * compositor. They are none of the session's, and are not counted among them (struct given). */
#define _GNU_SOURCE
#include "inspect.h"

/* The longest message given here is a bind of an interface with the longest name. */
#define LONGEST_NAME 256
#define LONGEST_GIVEN 512

static const uint16_t get_registry_opcode = 1, bind_opcode = 0, delete_id_opcode = 1;

/* ---- a message is put together */

struct building {
	unsigned char bytes[LONGEST_GIVEN];
	size_t length;
};

static void put_word(struct building *message, uint32_t word)
{
	for (int i = 0; i < 4; i++)
		message->bytes[message->length++] = (unsigned char)(word >> 8 * i);
}

static void put_string(struct building *message, const char *string, size_t length)
{
	put_word(message, (uint32_t)length + 1);
	memcpy(message->bytes + message->length, string, length);
	message->length += length;
	do
		message->bytes[message->length++] = 0;
	while (message->length % 4);
}

/* Begins a message for an object; its size and opcode are put where it is given. */
static struct building begun(uint32_t target)
{
	struct building message = { .length = 0 };
	put_word(&message, target);
	put_word(&message, 0);
	return message;
}

static void give(struct reopening *reopening, int from, uint16_t opcode, struct building *message)
{
	waywire_inspector *inspector = reopening->follower->inspector;
	struct given *before = &reopening->follower->before;
	waywire_sender sender = (waywire_sender)from;
	waywire_followed followed;
	size_t length = message->length;
	message->length = 4;
	put_word(message, (uint32_t)length << 16 | opcode);
	if (waywire_inspector_follow(inspector, sender, message->bytes, length)
		|| waywire_inspector_ahead(inspector, sender, &followed))
		return;
	before->count = followed.number;
	before->counts[from] = followed.index;
	before->bytes[from] = followed.offset + followed.length;
	waywire_inspector_go_past(inspector, sender);
}

/* ---- messages of wl_display and wl_registry */

static void give_delete_id(struct reopening *reopening, uint32_t id)
{
	struct building message = begun(DISPLAY_ID);
	put_word(&message, id);
	give(reopening, COMPOSITOR, delete_id_opcode, &message);
}

static void give_bind(struct reopening *reopening, uint32_t id, uint16_t interface, uint32_t version)
{
	struct building message = begun(reopening->registry);
	const char *name;
	size_t length;
	if (waywire_tables_name(reopening->follower->tables, interface, &name, &length) || length > LONGEST_NAME)
		return;
	put_word(&message, 0);
	put_string(&message, name, length);
	put_word(&message, version);
	put_word(&message, id);
	give(reopening, CLIENT, bind_opcode, &message);
}

void reopen_begin(struct reopening *reopening, struct follower *follower, size_t client_ids, size_t server_ids)
{
	uint32_t next = client_ids < 2 ? 2 : client_ids < MOST_IDS ? (uint32_t)client_ids : MOST_IDS;
	size_t most = server_ids < MOST_IDS ? server_ids : MOST_IDS;
	*reopening = (struct reopening){ follower, next, next + 1 };
	/* The library accepts an id only after as many messages as there are ids before it. Messages without an
	 * id change nothing. */
	for (size_t i = 0; i < (most > next ? most : next) + 2; i++)
		give_delete_id(reopening, 0);
	struct building message = begun(DISPLAY_ID);
	put_word(&message, reopening->registry);
	give(reopening, CLIENT, get_registry_opcode, &message);
}

void reopen_end(struct reopening *reopening)
{
	give_delete_id(reopening, reopening->maker);
	give_delete_id(reopening, reopening->registry);
}

/* ---- messages of the tables */

struct found {
	uint16_t interface, opcode;
	int from;
	size_t arg_count;
};

/* Puts an empty argument, or the new id. False if an argument of its kind cannot be empty. */
static bool put_argument(struct building *message, const waywire_kind *kind, uint32_t new_id)
{
	switch (kind->kind) {
	case WAYWIRE_INT:
	case WAYWIRE_UINT:
	case WAYWIRE_FIXED:
	case WAYWIRE_ARRAY:
		put_word(message, 0);
		return true;
	case WAYWIRE_STRING:
		if (kind->nullable)
			put_word(message, 0);
		else
			put_string(message, "", 0);
		return true;
	case WAYWIRE_OBJECT:
		put_word(message, 0);
		return kind->nullable;
	case WAYWIRE_NEW_BY_SERVER:
		put_word(message, new_id);
		return new_id;
	default:
		return kind->kind == WAYWIRE_FD;
	}
}

static bool put_arguments(struct building *message, const waywire_tables *tables, const struct found *found,
	uint32_t new_id)
{
	waywire_kind kind;
	for (size_t i = 0; i < found->arg_count; i++)
		if (waywire_tables_kind(tables, found->interface, (waywire_sender)found->from, found->opcode, i,
				&kind)
			|| !put_argument(message, &kind, new_id))
			return false;
	return true;
}

/* Finds a message that ends an object of this interface and version. */
static bool find_ending(const waywire_tables *tables, uint16_t interface, uint32_t version, struct found *found)
{
	waywire_message message;
	for (int from = CLIENT; from <= COMPOSITOR; from++)
		for (uint16_t opcode = 0; !waywire_tables_message(tables, interface, (waywire_sender)from, opcode, &message,
				NULL, NULL); opcode++) {
			struct building tried = { .length = 0 };
			*found = (struct found){ interface, opcode, from, message.arg_count };
			if (message.destroys == WAYWIRE_DESTROYS_TARGET && message.since <= version
				&& put_arguments(&tried, tables, found, 0))
				return true;
		}
	return false;
}

/* Whether an event makes an object of this interface. */
static bool makes(const waywire_tables *tables, const struct found *found, uint16_t interface)
{
	waywire_kind kind;
	for (size_t i = 0; i < found->arg_count; i++)
		if (!waywire_tables_kind(tables, found->interface, WAYWIRE_FROM_SERVER, found->opcode, i, &kind)
			&& kind.kind == WAYWIRE_NEW_BY_SERVER && kind.interface == interface)
			return true;
	return false;
}

/* Finds an event that makes an object of this interface, for an object of this version. */
static bool find_making(const waywire_tables *tables, uint16_t interface, uint32_t version, struct found *found)
{
	waywire_message message;
	const char *name;
	size_t length;
	for (uint16_t other = 0; !waywire_tables_name(tables, other, &name, &length); other++)
		for (uint16_t opcode = 0; !waywire_tables_message(tables, other, WAYWIRE_FROM_SERVER, opcode, &message,
				NULL, NULL); opcode++) {
			struct building tried = { .length = 0 };
			*found = (struct found){ other, opcode, COMPOSITOR, message.arg_count };
			if (message.since <= version && makes(tables, found, interface)
				&& put_arguments(&tried, tables, found, 1))
				return true;
		}
	return false;
}

static void give_found(struct reopening *reopening, uint32_t target, const struct found *found, uint32_t new_id)
{
	struct building message = begun(target);
	put_arguments(&message, reopening->follower->tables, found, new_id);
	give(reopening, found->from, found->opcode, &message);
}

/* ---- an object */

void reopen_object(struct reopening *reopening, const struct reopened *object)
{
	const waywire_tables *tables = reopening->follower->tables;
	bool is_servers = object->id >= WAYWIRE_FIRST_SERVER_ID;
	struct found making, ending;
	uint16_t interface;
	if (waywire_tables_interface(tables, object->name, &interface))
		return;
	if (object->is_ending && !find_ending(tables, interface, object->version, &ending))
		return;
	if (is_servers && !find_making(tables, interface, object->version, &making))
		return;
	if (is_servers) {
		give_bind(reopening, reopening->maker, making.interface, object->version);
		give_found(reopening, reopening->maker, &making, object->id);
	} else if (object->id > DISPLAY_ID && object->id < reopening->registry) {
		give_bind(reopening, object->id, interface, object->version);
	} else
		return;
	if (object->is_ending)
		give_found(reopening, object->id, &ending, 0);
}
