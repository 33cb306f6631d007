/* Says in words what is wrong with a message. The library has said which rule it breaks. */
#define _GNU_SOURCE
#include "printed.h"

#include <inttypes.h>

#define MOST_IDS 1048576

static const char *kind_of(const struct message *message)
{
	return message->from == CLIENT ? "request" : "event";
}

/* Puts that an object is gone, or never was there. */
static void put_gone(struct text *text, const struct object *object)
{
	if (object->state == UNKNOWN) {
		text_format(text, "no object has the id %" PRIu32, object->id);
		return;
	}
	put_object(text, object);
	text_add(text, " was destroyed");
}

static void put_size(struct text *text, const struct follower *follower, const struct message *message)
{
	text_format(text, "its header says a size of %zu bytes, which must be at least 8", message->size);
	text_format(text, ", a multiple of 4, and at most %" PRIu32, follower->limit);
}

static void put_unknown_message(struct text *text, const struct message *message)
{
	if (!message->name.bytes) {
		put_object(text, &message->target);
		text_format(text, " has no %s with the opcode %u", kind_of(message), message->opcode);
		return;
	}
	put_object(text, &message->target);
	text_format(text, " has version %" PRIu32 ", and this %s is there from version %" PRIu32 " on",
		message->target.version, kind_of(message), message->signature.since);
}

/* Puts an argument's index, from 0 as in a verdict. */
static void put_index(struct text *text, size_t index)
{
	text_format(text, "argument %zu: ", index);
}

/* The argument at an index; one of no object if it was not read. */
static struct object object_at(const struct message *message, size_t index)
{
	return index < message->arg_count ? message->args[index].object : (struct object){ 0 };
}

static void put_bad_object(struct text *text, const struct follower *follower, const struct message *message,
	size_t index)
{
	struct object object = object_at(message, index);
	waywire_kind kind;
	const char *name;
	size_t length;
	put_index(text, index);
	if (object.state != LIVE) {
		put_gone(text, &object);
		return;
	}
	put_object(text, &object);
	text_add(text, " is given");
	if (!waywire_tables_kind(follower->tables, message->target.interface, (waywire_sender)message->from,
			message->opcode, index, &kind)
		&& !waywire_tables_name(follower->tables, kind.interface, &name, &length))
		text_format(text, ", and a %.*s is wanted", (int)length, name);
}

static void put_bad_new_id(struct text *text, const struct follower *follower, const struct message *message,
	size_t index)
{
	uint32_t id = object_at(message, index).id;
	struct object old = object_of(follower, id);
	put_index(text, index);
	if (!id)
		text_add(text, "a new id is not 0");
	else if (old.state == LIVE) {
		put_object(text, &old);
		text_add(text, " still has this id");
	} else if (old.state == ENDING) {
		put_gone(text, &old);
		text_add(text, ", and no delete_id has made its id free");
	} else if (message->from == COMPOSITOR)
		text_format(text, "%" PRIu32 " is neither a free id nor the next one of the compositor's", id);
	else
		text_format(text, "%" PRIu32 " is neither a free id nor the next one, %zu", id,
			waywire_inspector_id_count(follower->inspector, WAYWIRE_FROM_CLIENT));
}

static void put_bad_bind(struct text *text, const struct follower *follower, const struct message *message)
{
	if (!is_bind(message))
		return;
	uint32_t name = message->args[0].value.u;
	const waywire_arg *bound = &message->args[1].value;
	uint32_t version = announced_version(follower, message);
	if (!version) {
		text_format(text, "no global %" PRIu32 " was announced that is a ", name);
		text_put_quoted(text, bound->bytes, bound->length);
	} else if (!bound->u)
		text_add(text, "a version is not 0");
	else if (bound->u > version)
		text_format(text, "the global was announced with version %" PRIu32, version);
	else
		text_add(text, "no client may bind this interface");
}

void put_fault(struct text *text, const struct follower *follower, const struct message *message,
	const struct fault *fault)
{
	switch (fault->number) {
	case 1: put_size(text, follower, message); break;
	case 2: put_gone(text, &message->target); break;
	case 3: put_unknown_message(text, message); break;
	case 4:
		put_index(text, fault->index);
		text_add(text, waywire_strspelling(fault->spelling));
		break;
	case 5: put_bad_object(text, follower, message, fault->index); break;
	case 6: put_bad_new_id(text, follower, message, fault->index); break;
	case 7: text_add(text, "bytes stand behind its last argument"); break;
	case 8:
		text_format(text, "it needs %zu file descriptors, and fewer came", message->descriptor_count);
		break;
	case 9: put_bad_bind(text, follower, message); break;
	default:
		text_format(text, "an id is at most %d", MOST_IDS);
	}
}

struct object object_at_fault(const struct follower *follower, const struct message *message,
	const struct fault *fault)
{
	struct object object = { 0 };
	switch (fault->number) {
	case 2: object = message->target; break;
	case 5: object = object_at(message, fault->index); break;
	case 6: object = object_of(follower, object_at(message, fault->index).id); break;
	default: break;
	}
	return object.id == DISPLAY_ID ? (struct object){ 0 } : object;
}
