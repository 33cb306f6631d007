/* The caller's pointers. They are kept beside an end, by the id of their object, and are valid for the object
 * with the stored birth. A birth never occurs twice in a range of ids, so the pointer of an object that ended is
 * never taken for another's, and nothing need be undone. */
#ifndef WAYWIRE_USERS_H
#define WAYWIRE_USERS_H

#include "calls.h"

struct user {
	uint64_t birth;
	void *pointer;
};

/* Of a range of ids, each at its distance from the first. */
struct user_range {
	struct user *at; /* null until one is set */
	size_t count;
};

/* One vector for the client's ids and one for the server's: a single vector by id would need 64 GiB for the
 * server's first id. */
struct users {
	struct user_range of_client, of_server;
};

static inline void *user_in(const struct user_range *range, uint32_t index, uint64_t birth)
{
	if (index >= range->count || range->at[index].birth != birth)
		return NULL;
	return range->at[index].pointer;
}

/* The pointer of an object; null if it has none. Every report asks for it. */
static inline void *users_get(const struct users *users, waywire_object object)
{
	if (object.id < WAYWIRE_FIRST_SERVER_ID)
		return user_in(&users->of_client, object.id, object.birth);
	return user_in(&users->of_server, object.id - WAYWIRE_FIRST_SERVER_ID, object.birth);
}

/* Sets the pointer of an object that is live. */
HIDDEN waywire_status users_set(struct users *users, waywire_object object, void *pointer);

HIDDEN void users_free(struct users *users);

#endif
