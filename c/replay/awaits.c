/* What a replay waits for. */
#define _GNU_SOURCE
#include "replay.h"

bool is_here(const struct await *await)
{
	return await->twin->is_here;
}

bool has_come_so_often(const struct await *await)
{
	return twin_count(await->twin, HERE, await->opcode) >= await->count;
}

bool is_ended(const struct await *await)
{
	return await->twin->is_ended[HERE];
}

bool is_announced(const struct await *await)
{
	return global_here(&await->replay->globals, await->name);
}
