/* A map from numbers to pointers: open addressing, at most half full. */
#define _GNU_SOURCE
#include "keyed.h"

#include <stdlib.h>
#include <string.h>
#include <sys/auxv.h>

#define LEAST_ROOM 16

/* A number that differs from run to run, so that nobody can choose keys that share one slot. */
static uint64_t seed(void)
{
	static uint64_t made;
	const void *bytes = made ? NULL : (const void *)getauxval(AT_RANDOM);
	if (bytes)
		memcpy(&made, bytes, sizeof made);
	return made;
}

static size_t first_slot(const struct keyed *keyed, uint64_t key)
{
	key ^= seed();
	key = (key ^ key >> 30) * 0xbf58476d1ce4e5b9u;
	key = (key ^ key >> 27) * 0x94d049bb133111ebu;
	return (size_t)(key ^ key >> 31) & (keyed->room - 1);
}

/* The slot of a key, or the free one where it would be. */
static size_t slot_of(const struct keyed *keyed, uint64_t key)
{
	size_t slot = first_slot(keyed, key);
	while (keyed->slots[slot].value && keyed->slots[slot].key != key)
		slot = (slot + 1) & (keyed->room - 1);
	return slot;
}

void *keyed_find(const struct keyed *keyed, uint64_t key)
{
	return keyed->room ? keyed->slots[slot_of(keyed, key)].value : NULL;
}

static bool grow(struct keyed *keyed)
{
	struct keyed larger = { NULL, keyed->room ? 2 * keyed->room : LEAST_ROOM, keyed->count };
	larger.slots = calloc(larger.room, sizeof *larger.slots);
	if (!larger.slots)
		return false;
	for (size_t i = 0; i < keyed->room; i++)
		if (keyed->slots[i].value)
			larger.slots[slot_of(&larger, keyed->slots[i].key)] = keyed->slots[i];
	free(keyed->slots);
	*keyed = larger;
	return true;
}

bool keyed_put(struct keyed *keyed, uint64_t key, void *value)
{
	if (2 * keyed->count >= keyed->room && !grow(keyed))
		return false;
	struct keyed_slot *slot = &keyed->slots[slot_of(keyed, key)];
	keyed->count += !slot->value;
	*slot = (struct keyed_slot){ key, value };
	return true;
}

void keyed_drop(struct keyed *keyed, uint64_t key)
{
	size_t free_slot = keyed->room ? slot_of(keyed, key) : 0, last = keyed->room - 1;
	if (!keyed->room || !keyed->slots[free_slot].value)
		return;
	keyed->count--;
	/* Moves the following entries up, unless one would come before the slot where its search begins. */
	for (size_t i = (free_slot + 1) & last; keyed->slots[i].value; i = (i + 1) & last) {
		size_t first = first_slot(keyed, keyed->slots[i].key);
		if (((i - first) & last) < ((i - free_slot) & last))
			continue;
		keyed->slots[free_slot] = keyed->slots[i];
		free_slot = i;
	}
	keyed->slots[free_slot].value = NULL;
}

void keyed_free(struct keyed *keyed)
{
	free(keyed->slots);
	*keyed = (struct keyed){ NULL, 0, 0 };
}
