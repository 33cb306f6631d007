/* A map from numbers to pointers (keyed.c). */
#ifndef INSPECT_KEYED_H
#define INSPECT_KEYED_H

#include <stdbool.h>
#include <stddef.h>
#include <stdint.h>

struct keyed_slot {
	uint64_t key;
	void *value; /* null if the slot is free */
};

/* Its memory grows with the largest number of keys that it had at one time, not with the values of the keys. */
struct keyed {
	struct keyed_slot *slots;
	size_t room, count; /* the room is a power of two, or 0 */
};

/* The value of a key; null if there is none. */
void *keyed_find(const struct keyed *keyed, uint64_t key);

/* Gives a key a value, which is not null. False if memory runs out. */
bool keyed_put(struct keyed *keyed, uint64_t key, void *value);

/* Removes a key, if it is there. */
void keyed_drop(struct keyed *keyed, uint64_t key);

void keyed_free(struct keyed *keyed);

#endif
