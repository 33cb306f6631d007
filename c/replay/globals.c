/* The globals of the two sessions. The recorded client's second wl_output is this session's second wl_output. */
#define _GNU_SOURCE
#include "replay.h"

static const struct global *called(const struct globals *globals, int session, uint32_t name)
{
	for (size_t i = 0; i < globals->count[session]; i++)
		if (globals->of[session][i].name == name)
			return &globals->of[session][i];
	return NULL;
}

void globals_note(struct globals *globals, int session, const waywire_arg *args)
{
	if (called(globals, session, args[0].u))
		return;
	struct global *more = room_for_one(globals->of[session], globals->count[session], sizeof *more);
	char *interface = strndup(args[1].bytes, args[1].length);
	if (!more || !interface)
		fail("out of memory");
	globals->of[session] = more;
	more[globals->count[session]++] = (struct global){ args[0].u, args[2].u, interface };
}

const struct global *global_here(const struct globals *globals, uint32_t recorded_name)
{
	const struct global *recorded = called(globals, RECORDED, recorded_name), *first = globals->of[RECORDED];
	size_t before = 0;
	for (const struct global *it = first; recorded && it < recorded; it++)
		before += !strcmp(it->interface, recorded->interface);
	for (size_t i = 0; recorded && i < globals->count[HERE]; i++)
		if (!strcmp(globals->of[HERE][i].interface, recorded->interface) && !before--)
			return &globals->of[HERE][i];
	return NULL;
}

void globals_free(struct globals *globals)
{
	for (int session = RECORDED; session <= HERE; session++) {
		for (size_t i = 0; i < globals->count[session]; i++)
			free(globals->of[session][i].interface);
		free(globals->of[session]);
	}
}
