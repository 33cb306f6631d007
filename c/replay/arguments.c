/* The arguments of this session in place of those of a recorded request. */
#define _GNU_SOURCE
#include "replay.h"

#include <unistd.h>

/* Puts the words for an event that has not come: which one, and how many of them have. */
static void part_without(struct replay *replay, const struct message *request, const struct origin *origin)
{
	struct text event = { NULL, 0, 0 };
	struct name name;
	waywire_message signature;
	put_object(&event, &origin->twin->recorded);
	if (!waywire_tables_message(replay->known->tables, origin->twin->interface, WAYWIRE_FROM_SERVER, origin->opcode,
			&signature, &name.bytes, &name.length))
		text_format(&event, ".%.*s", (int)name.length, name.bytes);
	part(replay, request, "%s did not come within %g s: event %ju of its kind at that object, and %ju came",
		event.bytes ? event.bytes : "", replay->wishes.wait, (uintmax_t)origin->index + 1,
		(uintmax_t)twin_count(origin->twin, HERE, origin->opcode));
	text_free(&event);
}

/* Waits for the event that has the place of a recorded one. False if the sessions part there. */
static bool await_origin(struct replay *replay, const struct message *request,
	const struct origin *origin)
{
	const struct await await = { .twin = origin->twin, .opcode = origin->opcode, .count = origin->index + 1 };
	if (live_wait(replay, has_come_so_often, &await))
		return true;
	part_without(replay, request, origin);
	return false;
}

static bool make_serial(struct replay *replay, const struct twin *target, const struct message *request,
	waywire_arg *made)
{
	struct origin origin;
	if (!twins_origin(&replay->twins, target, made->u, NULL, &origin))
		return true; /* no event had it, such as 0: it is sent as it is */
	if (!await_origin(replay, request, &origin))
		return false;
	const struct carried *carried = twin_carried(&origin);
	if (carried->has_serial)
		made->u = carried->serial;
	return true;
}

static bool make_string(struct replay *replay, const struct twin *target, const struct message *request,
	waywire_arg *made)
{
	const struct name string = { made->bytes, made->length };
	struct origin origin;
	if (!twins_origin(&replay->twins, target, 0, &string, &origin))
		return true;
	if (!await_origin(replay, request, &origin))
		return false;
	const struct carried *carried = twin_carried(&origin);
	if (carried->handle)
		*made = waywire_string(carried->handle);
	return true;
}

/* Waits until a buffer was released as often as in the recording: the client shows it again because of that. */
static bool await_release(struct replay *replay, const struct message *request, const struct twin *buffer)
{
	const struct origin last = { buffer, 0, twin_count(buffer, RECORDED, 0) - 1 };
	return !is_name(buffer->recorded.name, "wl_buffer") || !twin_count(buffer, RECORDED, 0)
		|| await_origin(replay, request, &last);
}

static bool make_object(struct replay *replay, const struct message *request, const struct object *named,
	waywire_arg *made)
{
	struct twin *twin = twins_find(&replay->twins, named);
	if (!twin || !live_wait(replay, is_here, &(struct await){ .twin = twin })) {
		struct text object = { NULL, 0, 0 };
		put_object(&object, named);
		part(replay, request, "%s was not made within %g s", object.bytes ? object.bytes : "", replay->wishes.wait);
		text_free(&object);
		if (twin)
			twin->is_left_out = true;
		return false;
	}
	*made = waywire_of(twin->here);
	return await_release(replay, request, twin);
}

bool make_arguments(struct replay *replay, const struct twin *target, const struct message *request, waywire_arg *args)
{
	bool is_made = true;
	size_t count = 0;
	for (; is_made && count < request->arg_count; count++) {
		const struct argument *argument = &request->args[count];
		waywire_arg *made = &args[count];
		*made = argument->value;
		if (made->kind == WAYWIRE_OBJECT)
			is_made = make_object(replay, request, &argument->object, made);
		else if (made->kind == WAYWIRE_UINT && is_name(argument->name, "serial"))
			is_made = make_serial(replay, target, request, made);
		else if (made->kind == WAYWIRE_STRING)
			is_made = make_string(replay, target, request, made);
		else if (made->kind == WAYWIRE_FD)
			*made = waywire_fd((uint32_t)descriptor_for(replay, request));
	}
	if (!is_made)
		drop_arguments(args, count);
	return is_made;
}

void drop_arguments(const waywire_arg *args, size_t count)
{
	for (size_t i = 0; i < count; i++)
		if (args[i].kind == WAYWIRE_FD)
			close((int)args[i].u);
}
