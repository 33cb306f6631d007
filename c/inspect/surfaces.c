/* What a commit takes into effect: frames, presentation feedbacks, buffers and the first configure. A commit of a
 * synchronized subsurface takes effect with that of its parent. */
#define _GNU_SOURCE
#include "asking.h"

/* An attach that has not taken effect. */
struct attached {
	struct question_kind *kind; /* null if there is none */
	uint64_t number;
	uint32_t buffer;            /* 0 for no buffer */
};

struct surface {
	struct object object;
	struct surface *parent, *first_child, *next_child; /* subsurfaces */
	uint32_t subsurface;          /* its id as a subsurface; 0 if it is none */
	bool is_sync;
	uint32_t shell;               /* the object that has its configures; 0 if there is none */
	bool has_role, is_configured;
	bool has_own_release;         /* what it held is released in another way */
	struct attached asked, kept;
	struct question *shown;       /* about the buffer that it shows */
};

static bool is_called(const struct message *message, const char *name)
{
	return is_name(message->name, name);
}

/* The surface of an object; null if memory runs out. */
static struct surface *surface_at(struct questions *questions, const struct object *object)
{
	struct surface *surface = keyed_find(&questions->surfaces, object->id);
	if (surface)
		return surface;
	surface = calloc(1, sizeof *surface);
	if (surface && keyed_put(&questions->surfaces, object->id, surface)) {
		surface->object = *object;
		return surface;
	}
	free(surface);
	return NULL;
}

/* The surface that an argument names; null if it names none. */
static struct surface *surface_named(struct questions *questions, const struct message *message, size_t index)
{
	const struct object *object = index < message->arg_count ? &message->args[index].object : NULL;
	bool is_surface = object && object->id && object->state == LIVE && is_name(object->name, "wl_surface");
	return is_surface ? surface_at(questions, object) : NULL;
}

/* ---- buffers */

/* The question about a buffer that a surface holds; null if there is none. */
static struct question *held_by(const struct questions *questions, const struct surface *surface, uint32_t buffer)
{
	struct question *question = keyed_find(&questions->open, buffer);
	while (question && question->about != surface->object.id)
		question = question->again;
	return question;
}

/* The compositor holds a buffer. One that is shown again before it was released is held on. */
static struct question *hold(struct questions *questions, const struct message *message, struct surface *surface)
{
	const struct attached *attached = &surface->asked;
	struct question *question = held_by(questions, surface, attached->buffer);
	if (!question)
		return ask(questions, message, &(struct asking){ attached->kind, attached->buffer, attached->number,
			surface->object, surface->object.id, NULL, WAITS, false, false });
	question->replaced = 0;
	question_rests(questions, question);
	return question;
}

/* A surface shows another buffer, or none. */
static void show(struct questions *questions, const struct message *message, struct surface *surface)
{
	struct question *before = surface->shown;
	if (!surface->asked.kind)
		return;
	surface->shown = NULL;
	bool is_held = surface->asked.buffer && !surface->has_own_release
		&& !keyed_find(&questions->icons, surface->object.id);
	if (before) {
		before->replaced = message->number;
		question_waits(questions, before, message);
	}
	if (is_held)
		surface->shown = hold(questions, message, surface);
	surface->asked.kind = NULL;
}

void surfaces_released(struct questions *questions, const struct question *held)
{
	struct surface *surface = held->about ? keyed_find(&questions->surfaces, held->about) : NULL;
	if (surface && surface->shown == held)
		surface->shown = NULL;
}

/* ---- commits */

/* Goes through the questions of a surface that wait for a commit. */
static void move_on(struct questions *questions, const struct message *message, const struct surface *surface,
	enum stage from, enum stage to)
{
	struct question *first = NULL;
	for (struct question *it = newest_about(questions, surface->object.id); it; it = it->before) {
		bool is_before = it->stage == WAITS && it->key <= UINT32_MAX && it->is_due;
		if (is_before)
			break;
		if (it->stage >= from && it->stage < to)
			first = it;
	}
	for (struct question *it = first; it; it = it->next) {
		if (it->stage < from || it->stage >= to)
			continue;
		it->stage = to;
		it->since = message->number;
		if (to == WAITS)
			question_waits(questions, it, message);
	}
}

/* Whether a commit of a surface waits for one of a surface above. */
static bool is_synchronized(const struct surface *surface)
{
	for (; surface->parent; surface = surface->parent)
		if (surface->is_sync)
			return true;
	return false;
}

/* What was kept for a surface takes effect. */
static void apply_kept(struct questions *questions, const struct message *message, struct surface *surface)
{
	struct attached asked = surface->asked;
	surface->asked = surface->kept;
	surface->kept.kind = NULL;
	show(questions, message, surface);
	surface->asked = asked;
	move_on(questions, message, surface, KEPT, WAITS);
}

/* The surface after this one among those below `top`, which come before what is beside them; null if it is the last. */
static struct surface *next_below(const struct surface *top, struct surface *surface)
{
	if (surface->first_child)
		return surface->first_child;
	while (surface != top && !surface->next_child)
		surface = surface->parent;
	return surface == top ? NULL : surface->next_child;
}

static void apply_below(struct questions *questions, const struct message *message, struct surface *top)
{
	for (struct surface *it = next_below(top, top); it; it = next_below(top, it))
		apply_kept(questions, message, it);
}

/* The first commit of a surface with a role asks for a configure. */
static void ask_for_configure(struct questions *questions, const struct message *message,
	const struct surface *surface)
{
	if (!surface->shell || !surface->has_role || surface->is_configured
		|| keyed_find(&questions->open, surface->shell))
		return;
	ask(questions, message, &(struct asking){ kind_of(questions, message, "configure"), surface->shell,
		message->number, surface->object, surface->shell, NULL, WAITS, true, false });
}

static void commit(struct questions *questions, struct message *message, struct surface *surface)
{
	if (is_synchronized(surface)) {
		if (surface->asked.kind)
			surface->kept = surface->asked;
		surface->asked.kind = NULL;
		move_on(questions, message, surface, ASKED, KEPT);
		message->is_kept = true;
		return;
	}
	show(questions, message, surface);
	move_on(questions, message, surface, ASKED, WAITS);
	apply_below(questions, message, surface);
	ask_for_configure(questions, message, surface);
}

static void note_surface(struct questions *questions, struct message *message)
{
	if (is_called(message, "attach") && message->arg_count) {
		struct surface *surface = surface_at(questions, &message->target);
		if (surface)
			surface->asked = (struct attached){ kind_of(questions, message, "release"), message->number,
				message->args[0].object.id };
	} else if (is_called(message, "commit")) {
		struct surface *surface = surface_at(questions, &message->target);
		if (surface)
			commit(questions, message, surface);
	}
}

/* ---- subsurfaces */

static bool is_within(const struct surface *surface, const struct surface *above)
{
	for (; surface; surface = surface->parent)
		if (surface == above)
			return true;
	return false;
}

static void leave_parent(struct questions *questions, struct surface *surface)
{
	struct surface **at = surface->parent ? &surface->parent->first_child : NULL;
	if (!at)
		return;
	while (*at != surface)
		at = &(*at)->next_child;
	*at = surface->next_child;
	keyed_drop(&questions->subsurfaces, surface->subsurface);
	surface->parent = surface->next_child = NULL;
	surface->subsurface = 0;
}

/* A surface becomes a subsurface, which is synchronized at first. */
static void enter_parent(struct questions *questions, const struct message *message)
{
	struct surface *surface = surface_named(questions, message, 1), *parent = surface_named(questions, message, 2);
	if (!surface || !parent || is_within(parent, surface))
		return;
	leave_parent(questions, surface);
	if (!keyed_put(&questions->subsurfaces, message->made.id, surface))
		return;
	surface->subsurface = message->made.id;
	surface->parent = parent;
	surface->is_sync = true;
	surface->next_child = parent->first_child;
	parent->first_child = surface;
}

static void note_subsurface(struct questions *questions, const struct message *message)
{
	struct surface *surface = keyed_find(&questions->subsurfaces, message->target.id);
	bool is_sync = is_called(message, "set_sync");
	if (!surface || (!is_sync && !is_called(message, "set_desync")))
		return;
	surface->is_sync = is_sync;
	if (is_synchronized(surface))
		return;
	apply_kept(questions, message, surface);
	apply_below(questions, message, surface);
}

/* ---- configures */

/* A request makes the object that has the configures of a surface. */
static void note_shell(struct questions *questions, const struct message *message, const struct role *made)
{
	struct surface *surface = NULL;
	for (size_t i = 0; i < message->arg_count && !surface; i++)
		surface = surface_named(questions, message, i);
	if (!surface || !keyed_put(&questions->shells, message->made.id, surface))
		return;
	keyed_drop(&questions->shells, surface->shell);
	surface->shell = message->made.id;
	surface->has_role = !made->has_toplevel;
	surface->is_configured = false;
	if (made->is_lock_surface)
		ask(questions, message, &(struct asking){ kind_of(questions, message, "configure"), surface->shell,
			message->number, message->target, surface->shell, NULL, WAITS, true, false });
}

void surfaces_configured(struct questions *questions, uint32_t shell)
{
	struct surface *surface = keyed_find(&questions->shells, shell);
	if (surface)
		surface->is_configured = true;
}

/* ---- all */

static void note_made(struct questions *questions, const waywire_tables *tables, const struct message *message,
	bool has_toplevel)
{
	const struct role *made = role_of(questions, tables, message->made.interface);
	struct surface *surface = has_toplevel ? keyed_find(&questions->shells, message->target.id) : NULL;
	if (surface)
		surface->has_role = true;
	if (made && made->has_ack)
		note_shell(questions, message, made);
	if (made && made->has_own_release)
		for (size_t i = 0; i < message->arg_count; i++)
			if ((surface = surface_named(questions, message, i)))
				surface->has_own_release = true;
}

void surfaces_note(struct questions *questions, const waywire_tables *tables, const struct role *role,
	struct message *message)
{
	if (role->is_surface)
		note_surface(questions, message);
	else if (role->is_subsurface)
		note_subsurface(questions, message);
	else if (role->is_subcompositor && message->made.id)
		enter_parent(questions, message);
	else if (message->made.id)
		note_made(questions, tables, message, role->has_toplevel);
}

static void forget_surface(struct questions *questions, struct surface *surface)
{
	leave_parent(questions, surface);
	while (surface->first_child)
		leave_parent(questions, surface->first_child);
	keyed_drop(&questions->shells, surface->shell);
	keyed_drop(&questions->surfaces, surface->object.id);
	free(surface);
}

void surfaces_forget(struct questions *questions, uint32_t id)
{
	struct surface *surface = keyed_find(&questions->surfaces, id);
	if (surface)
		forget_surface(questions, surface);
	if ((surface = keyed_find(&questions->subsurfaces, id)))
		leave_parent(questions, surface);
	if ((surface = keyed_find(&questions->shells, id))) {
		keyed_drop(&questions->shells, id);
		surface->shell = 0;
	}
}

void surfaces_free(struct questions *questions)
{
	for (size_t i = 0; i < questions->surfaces.room; i++)
		free(questions->surfaces.slots[i].value);
	keyed_free(&questions->surfaces);
	keyed_free(&questions->shells);
	keyed_free(&questions->subsurfaces);
}
