/* The objects of the recording and those of this session, and the events at them, which are matched by their order: the
 * third of a kind at an object is the third of the kind at its twin. */
#define _GNU_SOURCE
#include "replay.h"

#include <unistd.h>

struct twin *twins_add(struct twins *twins, uint16_t interface)
{
	struct twin *made = calloc(1, sizeof *made);
	if (!made)
		fail("out of memory");
	made->interface = interface;
	made->file = -1;
	made->next = twins->all;
	if (made->next)
		made->next->before = made;
	twins->all = made;
	return made;
}

void twins_name(struct twins *twins, struct twin *twin, const struct object *recorded)
{
	twin->recorded = *recorded;
	/* The name that a bind has goes with the bind. */
	struct name *name = &twin->recorded.name;
	if (waywire_tables_name(twins->tables, twin->interface, &name->bytes, &name->length))
		name->bytes = NULL;
	if (!keyed_put(&twins->by_birth, recorded->birth, twin))
		fail("out of memory");
}

struct twin *twins_find(const struct twins *twins, const struct object *recorded)
{
	return keyed_find(&twins->by_birth, recorded->birth);
}

/* ---- events */

static struct kind *kind_at(struct twin *twin, uint16_t opcode)
{
	if (opcode >= twin->kind_count) {
		size_t count = (size_t)opcode + 1;
		struct kind *more = realloc(twin->kinds, count * sizeof *more);
		if (!more)
			fail("out of memory");
		memset(more + twin->kind_count, 0, (count - twin->kind_count) * sizeof *more);
		twin->kinds = more;
		twin->kind_count = count;
	}
	return &twin->kinds[opcode];
}

/* Keeps where a recorded serial or string comes from. */
static void keep_origin(struct twins *twins, const struct twin *target, uint16_t opcode, uint64_t index)
{
	struct origin *more = room_for_one(twins->origins, twins->origin_count, sizeof *more);
	if (!more)
		fail("out of memory");
	twins->origins = more;
	more[twins->origin_count++] = (struct origin){ target, opcode, index };
}

/* The twin of the object that an event makes: made by the event with its place in the other session, or new. */
static struct twin *made_by(struct twins *twins, struct kind *kind, const struct noted *event, uint16_t interface)
{
	uint64_t index = kind->count[event->session];
	int other = 1 - event->session;
	struct twin *made = index < kind->count[other] ? kind->carried[other][index].made : NULL;
	made = made ? made : twins_add(twins, interface);
	if (event->session == RECORDED)
		twins_name(twins, made, &event->made);
	return made;
}

struct twin *twins_note(struct twins *twins, struct twin *target, const struct noted *event)
{
	struct kind *kind = kind_at(target, event->opcode);
	const struct places *places = &event->places;
	int session = event->session;
	struct carried carried = event->carried;
	target->is_ended[session] |= places->ends;
	if (places->makes)
		carried.made = made_by(twins, kind, event, event->made.interface);
	if (places->makes || places->serial >= 0 || places->handle >= 0) {
		struct carried *more = room_for_one(kind->carried[session], kind->count[session], sizeof *more);
		if (!more)
			fail("out of memory");
		more[kind->count[session]] = carried;
		kind->carried[session] = more;
	}
	if (session == RECORDED && (carried.has_serial || carried.handle))
		keep_origin(twins, target, event->opcode, kind->count[session]);
	kind->count[session]++;
	return carried.made;
}

/* ---- what events brought */

static bool has_value(const struct origin *origin, uint32_t serial, const struct name *handle)
{
	const struct carried *its = &origin->twin->kinds[origin->opcode].carried[RECORDED][origin->index];
	if (handle)
		return its->handle && strlen(its->handle) == handle->length
			&& !memcmp(its->handle, handle->bytes, handle->length);
	return its->has_serial && its->serial == serial;
}

bool twins_origin(const struct twins *twins, const struct twin *target, uint32_t serial, const struct name *handle,
	struct origin *found)
{
	const struct origin *last = NULL;
	for (size_t i = twins->origin_count; i; i--) {
		const struct origin *origin = &twins->origins[i - 1];
		if (!has_value(origin, serial, handle))
			continue;
		last = last && origin->twin != target ? last : origin;
		if (origin->twin == target)
			break;
	}
	if (last)
		*found = *last;
	return last;
}

uint64_t twin_count(const struct twin *twin, int session, uint16_t opcode)
{
	return opcode < twin->kind_count ? twin->kinds[opcode].count[session] : 0;
}

const struct carried *twin_carried(const struct origin *origin)
{
	return &origin->twin->kinds[origin->opcode].carried[HERE][origin->index];
}

/* ---- which are kept */

static void add_up(struct twins *twins, const struct twin *twin)
{
	if (twin->is_ours || twin->interface >= MOST_INTERFACES)
		return;
	uint64_t (**its)[2] = &twins->sums[twin->interface];
	if (!*its)
		*its = calloc(MOST_EVENTS, sizeof **its);
	for (size_t i = 0; *its && i < twin->kind_count && i < MOST_EVENTS; i++) {
		(*its)[i][RECORDED] += twin->kinds[i].count[RECORDED];
		(*its)[i][HERE] += twin->kinds[i].count[HERE];
	}
}

void twins_sum(struct twins *twins)
{
	for (const struct twin *it = twins->all; it; it = it->next)
		add_up(twins, it);
}

static void free_kind(struct kind *kind)
{
	for (int session = RECORDED; session <= HERE; session++) {
		for (uint64_t i = 0; kind->carried[session] && i < kind->count[session]; i++)
			free(kind->carried[session][i].handle);
		free(kind->carried[session]);
	}
}

static void free_twin(struct twin *twin)
{
	for (size_t i = 0; i < twin->kind_count; i++)
		free_kind(&twin->kinds[i]);
	if (twin->file >= 0)
		close(twin->file);
	free(twin->kinds);
	free(twin);
}

static bool has_brought(const struct twin *twin)
{
	for (size_t i = 0; i < twin->kind_count; i++)
		if (twin->kinds[i].carried[RECORDED] || twin->kinds[i].carried[HERE])
			return true;
	return false;
}

void twins_gone(struct twins *twins, struct twin *twin, int session)
{
	twin->is_gone[session] = true;
	bool was_never_here = twin->is_left_out && !twin->is_here;
	if (!twin->is_gone[RECORDED] || !(twin->is_gone[HERE] || was_never_here) || has_brought(twin))
		return;
	add_up(twins, twin);
	*(twin->before ? &twin->before->next : &twins->all) = twin->next;
	if (twin->next)
		twin->next->before = twin->before;
	if (twin->recorded.id)
		keyed_drop(&twins->by_birth, twin->recorded.birth);
	free_twin(twin);
}

void twins_free(struct twins *twins)
{
	for (struct twin *it = twins->all, *next; it; it = next) {
		next = it->next;
		free_twin(it);
	}
	for (size_t i = 0; i < MOST_INTERFACES; i++)
		free(twins->sums[i]);
	keyed_free(&twins->by_birth);
	free(twins->origins);
}
