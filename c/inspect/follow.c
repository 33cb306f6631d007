/* Reads the messages that the library's inspector follows. waywire_inspector_decode takes them apart: no code here
 * reads the wire, and none keeps what a message has changed. */
#define _GNU_SOURCE
#include "follow.h"

static const uint16_t error_opcode = 0, delete_id_opcode = 1, bind_opcode = 0;

/* ---- objects */

/* Sets the name of an object's interface; null if the tables do not have it. */
static void name_interface(const struct follower *follower, struct object *object)
{
	if (waywire_tables_name(follower->tables, object->interface, &object->name.bytes, &object->name.length))
		object->name.bytes = NULL;
}

static struct object object_as(const struct follower *follower, uint32_t id, const waywire_known *known)
{
	uint64_t before = follower->before.count;
	struct object object = { .id = id, .version = known->version, .interface = known->interface,
		.birth = known->birth > before ? known->birth - before : 0 };
	object.state = !known->is_known ? UNKNOWN : known->is_ending ? ENDING : LIVE;
	name_interface(follower, &object);
	return object;
}

struct object object_of(const struct follower *follower, uint32_t id)
{
	waywire_known known;
	waywire_inspector_object(follower->inspector, id, &known);
	return object_as(follower, id, &known);
}

/* The object with a new id. */
static struct object new_object(const struct follower *follower, const struct message *message,
	const waywire_arg *value, uint16_t interface)
{
	struct object object = { .id = value->object.id, .version = message->target.version,
		.birth = message->number, .interface = interface, .state = LIVE };
	name_interface(follower, &object);
	if (value->kind == WAYWIRE_BOUND) {
		object.version = value->u;
		object.name = (struct name){ value->bytes, value->length };
	}
	return object;
}

/* ---- a message, decoded */

bool is_message(const struct message *message, const char *interface, int from, uint16_t opcode)
{
	return message->from == from && message->opcode == opcode && is_name(message->target.name, interface);
}

bool is_error(const struct message *message)
{
	return is_message(message, "wl_display", COMPOSITOR, error_opcode);
}

bool is_bind(const struct message *message)
{
	return is_message(message, "wl_registry", CLIENT, bind_opcode) && !message->status
		&& message->arg_count == 2;
}

uint32_t announced_version(const struct follower *follower, const struct message *bind)
{
	return waywire_inspector_announced(follower->inspector, bind->args[0].value.u, bind->bound);
}

static void read_argument(const struct follower *follower, struct message *message, size_t index,
	const waywire_decoded *decoded)
{
	struct argument *argument = &message->args[index];
	*argument = (struct argument){ .value = decoded->args[index] };
	if (argument->value.kind == WAYWIRE_NEW_BY_SERVER)
		argument->value.kind = WAYWIRE_NEW;
	switch (argument->value.kind) {
	case WAYWIRE_OBJECT:
		argument->object = object_of(follower, argument->value.object.id);
		break;
	case WAYWIRE_BOUND:
		message->bound = decoded->interfaces[index];
		/* fall through */
	case WAYWIRE_NEW:
		argument->object = new_object(follower, message, &argument->value, decoded->interfaces[index]);
		break;
	case WAYWIRE_FD:
		message->descriptor_count++;
		if (!follower->is_unnumbered[message->from])
			argument->descriptor = follower->descriptors[message->from] + message->descriptor_count;
		break;
	default:
		break;
	}
}

static void take_apart(const struct follower *follower, struct message *message, const waywire_followed *followed)
{
	waywire_decoded decoded;
	waywire_sender sender = (waywire_sender)message->from;
	message->status = message->shown = waywire_inspector_decode(follower->inspector, sender, followed, &decoded);
	if (message->status == WAYWIRE_NOT_FOUND)
		return;
	bool has_name = !waywire_tables_message(follower->tables, message->target.interface, sender, message->opcode,
		&message->signature, &message->name.bytes, &message->name.length);
	if (has_name && message->status == WAYWIRE_FAULT_UNKNOWN_MESSAGE)
		message->shown = waywire_tables_decode(follower->tables, message->target.interface, UINT32_MAX, sender,
			message->bytes, message->length, &decoded);
	if (has_name && message->status != WAYWIRE_FAULT_BAD_SIZE)
		message->arg_count = decoded.arg_count;
	for (size_t i = 0; i < message->arg_count; i++)
		read_argument(follower, message, i, &decoded);
}

/* What the message makes, destroys and frees. */
static void read_changes(const struct follower *follower, struct message *message, const waywire_followed *followed)
{
	if (!followed->is_read)
		return;
	for (size_t i = 0; followed->made && i < message->arg_count; i++)
		if (message->args[i].value.kind == WAYWIRE_NEW || message->args[i].value.kind == WAYWIRE_BOUND)
			message->made = message->args[i].object;
	if (followed->destroyed)
		message->destroyed = object_of(follower, followed->destroyed);
	if (followed->deleted > DISPLAY_ID && followed->deleted < WAYWIRE_FIRST_SERVER_ID
		&& is_message(message, "wl_display", COMPOSITOR, delete_id_opcode))
		message->freed = object_of(follower, followed->deleted);
	if (message->freed.state == UNKNOWN)
		message->freed.id = 0;
}

bool read_message(const struct follower *follower, int from, struct message *message)
{
	waywire_followed followed;
	if (waywire_inspector_ahead(follower->inspector, (waywire_sender)from, &followed))
		return false;
	const struct given *before = &follower->before;
	memset(message, 0, offsetof(struct message, args));
	message->from = from;
	message->number = followed.number - before->count;
	message->index = followed.index - before->counts[from];
	message->offset = followed.offset - before->bytes[from];
	message->piece = follower->piece_count;
	message->seconds = follower->seconds;
	message->size = followed.size;
	message->bytes = followed.bytes;
	message->length = followed.length;
	message->opcode = followed.opcode;
	message->bound = WAYWIRE_ANY_INTERFACE;
	message->is_bad_size = message->size < 8 || message->size % 4 || message->size > follower->limit;
	message->target = object_as(follower, followed.target, &followed.object);
	take_apart(follower, message, &followed);
	read_changes(follower, message, &followed);
	return true;
}

bool follow_message(struct follower *follower, const struct message *message)
{
	follower->descriptors[message->from] += message->descriptor_count;
	follower->behind[message->from] = message->offset + message->length;
	if (message->status)
		follower->is_unnumbered[message->from] = true;
	return !waywire_inspector_go_past(follower->inspector, (waywire_sender)message->from);
}
