/* Finds out which messages ask, and which answer.
 *
 * An object that an event ends is a question, such as a wl_callback or a wp_presentation_feedback: the message that
 * makes it asks, and that event answers. The tables say which interfaces have such an event. Messages that are
 * answered in another way are known by name: those with a serial, which the answer repeats, pairs (roles.c), surfaces
 * (surfaces.c) and pipes (pipes.c). */
#define _GNU_SOURCE
#include "asking.h"

static bool is_called(const struct message *message, const char *name)
{
	return is_name(message->name, name);
}

/* ---- answers */

/* Whether a message is one of the answers that a question awaits. */
static bool is_answer(const struct question *question, const struct message *message)
{
	if (!question->pair)
		return true;
	for (size_t i = 0; i < MOST_ANSWERS && question->pair->answers[i]; i++)
		if (is_called(message, question->pair->answers[i]))
			return true;
	return false;
}

/* A message answers the questions with this key that await it; all of them, or the newest one. */
static void answer(struct questions *questions, struct message *message, uint64_t key, bool is_for_all)
{
	struct question *next;
	for (struct question *it = keyed_find(&questions->open, key); it; it = next) {
		next = it->again;
		if (!is_answer(it, message))
			continue;
		message->answers = message->answers ? message->answers : it->number;
		close_question(questions, it, message->seconds, true);
		if (!is_for_all)
			return;
	}
}

/* As `answer`. Earlier questions of this kind about the object need no answer any more. */
static void answer_last(struct questions *questions, struct message *message, uint64_t key)
{
	struct question *question = keyed_find(&questions->open, key);
	for (struct question *earlier = question ? question->before : NULL; earlier;) {
		struct question *before = earlier->before;
		if (earlier->kind == question->kind)
			close_question(questions, earlier, message->seconds, false);
		earlier = before;
	}
	answer(questions, message, key, false);
}

/* ---- messages */

/* The key of an object and of the serial that is the first argument of a message; 0 if it has none. */
static uint64_t serial_key(const struct message *message)
{
	return message->arg_count && message->args[0].value.kind == WAYWIRE_UINT
		? (uint64_t)message->target.id << 32 | message->args[0].value.u : 0;
}

/* Asks for an answer to a message. It is about the object that the message makes for the answer, or its target. */
static void ask_about_target(struct questions *questions, const struct message *message, uint64_t key,
	const struct pair *pair)
{
	if (keyed_find(&questions->icons, message->target.id))
		return;
	uint32_t about = pair && !pair->request ? message->made.id : message->target.id;
	ask(questions, message, &(struct asking){ kind_of(questions, message, pair ? pair->awaited : NULL), key,
		message->number, message->target, about, pair, WAITS, true, false });
}

/* A surface becomes the surface of a cursor or a drag. */
static void note_icon(struct questions *questions, const struct message *message)
{
	static char is_icon;
	size_t index = is_called(message, "set_cursor") ? 1 : is_called(message, "start_drag") ? 2 : 0;
	const struct object *icon = index && index < message->arg_count ? &message->args[index].object : NULL;
	struct question *question;
	if (!icon || !icon->id || icon->state != LIVE || !is_name(icon->name, "wl_surface"))
		return;
	if (keyed_put(&questions->icons, icon->id, &is_icon))
		while ((question = newest_about(questions, icon->id)))
			close_question(questions, question, message->seconds, false);
}

/* The surface that a request is for, or names; null if there is none. */
static const struct object *surface_of(const struct message *message)
{
	if (is_name(message->target.name, "wl_surface"))
		return &message->target;
	for (size_t i = 0; i < message->arg_count; i++)
		if (is_name(message->args[i].object.name, "wl_surface"))
			return &message->args[i].object;
	return NULL;
}

/* Asks for the event that ends an object. That of a frame or of a feedback waits for the commit of its surface. */
static void ask_for_end(struct questions *questions, const struct message *message)
{
	bool is_committed = is_called(message, "frame") || is_called(message, "feedback");
	const struct object *surface = is_committed ? surface_of(message) : NULL;
	uint32_t about = surface ? surface->id : message->target.id;
	if (keyed_find(&questions->icons, about))
		return;
	ask(questions, message, &(struct asking){ kind_of(questions, message, NULL), message->made.id, message->number,
		message->target, about, NULL, surface ? ASKED : WAITS, true, false });
}

static void ask_by_pairs(struct questions *questions, const struct message *message, const struct role *role)
{
	for (size_t i = 0; i < role->pair_count; i++)
		if (role->pairs[i].request && is_called(message, role->pairs[i].request))
			ask_about_target(questions, message, message->target.id, &role->pairs[i]);
}

static void ask_by_made(struct questions *questions, const waywire_tables *tables, const struct message *message)
{
	const struct role *role = role_of(questions, tables, message->made.interface);
	if (role && role->pairs && !role->pairs->request)
		ask_about_target(questions, message, message->made.id, role->pairs);
	else if (role && role->ends_by_event)
		ask_for_end(questions, message);
}

static void note_request(struct questions *questions, const waywire_tables *tables, struct message *message)
{
	const struct role *role = role_of(questions, tables, message->target.interface);
	if (!role)
		return;
	if (role->sets_icon)
		note_icon(questions, message);
	if (role->has_pong && is_called(message, "pong"))
		answer(questions, message, serial_key(message), false);
	if (role->has_ack && is_called(message, "ack_configure"))
		answer_last(questions, message, serial_key(message));
	if (role->moves_data)
		pipes_note(questions, message);
	ask_by_pairs(questions, message, role);
	surfaces_note(questions, tables, role, message);
	if (message->made.id)
		ask_by_made(questions, tables, message);
}

static void note_event(struct questions *questions, const waywire_tables *tables, struct message *message)
{
	const struct role *role = role_of(questions, tables, message->target.interface);
	if (!role)
		return;
	bool is_configure = role->has_ack && is_called(message, "configure");
	if (is_configure) {
		answer(questions, message, message->target.id, true);
		surfaces_configured(questions, message->target.id);
	}
	if ((is_configure || (role->has_pong && is_called(message, "ping"))) && message->target.state == LIVE
		&& serial_key(message))
		ask_about_target(questions, message, serial_key(message), NULL);
	if (role->moves_data)
		pipes_note(questions, message);
	if (message->destroyed.id || role->pairs || (role->is_buffer && is_called(message, "release")))
		answer(questions, message, message->target.id, true);
}

/* ---- objects that end */

/* An object has ended: no answer comes for it. */
static void forget_object(struct questions *questions, uint32_t id)
{
	struct question *question;
	while ((question = keyed_find(&questions->open, id)))
		close_question(questions, question, questions->seconds, false);
	forget_about(questions, id);
	surfaces_forget(questions, id);
	keyed_drop(&questions->icons, id);
}

void questions_note(struct questions *questions, const waywire_tables *tables, struct message *message)
{
	struct question *question;
	questions->seconds = message->seconds;
	questions->closed_count = 0;
	if (message->status || !message->name.bytes || message->target.state == UNKNOWN)
		return;
	if (message->made.id >= WAYWIRE_FIRST_SERVER_ID)
		forget_object(questions, message->made.id); /* the compositor ends some of its objects on its own */
	if (message->from == CLIENT)
		note_request(questions, tables, message);
	else
		note_event(questions, tables, message);
	if (message->destroyed.id)
		forget_object(questions, message->destroyed.id);
	while (message->freed.id && (question = keyed_find(&questions->open, message->freed.id)))
		close_question(questions, question, message->seconds, false);
	message->closed = questions->closed;
	message->closed_count = questions->closed_count;
}
