/* The caller's pointers: how one is set. */
#include "users.h"

/* Makes room for the pointer at an index. */
static waywire_status reach(struct user_range *range, size_t index)
{
	if (index < range->count)
		return WAYWIRE_OK;
	size_t count = index < 2 * range->count ? 2 * range->count : index + 1;
	struct user *more = realloc(range->at, count * sizeof *more);
	if (!more)
		return WAYWIRE_NO_MEMORY;
	memset(more + range->count, 0, (count - range->count) * sizeof *more);
	range->at = more;
	range->count = count;
	return WAYWIRE_OK;
}

static waywire_status set_in(struct user_range *range, size_t index, uint64_t birth,
	void *pointer)
{
	waywire_status status = pointer ? reach(range, index) : WAYWIRE_OK;
	if (!status && index < range->count) {
		range->at[index].birth = birth;
		range->at[index].pointer = pointer;
	}
	return status;
}

waywire_status users_set(struct users *users, waywire_object object, void *pointer)
{
	if (object.id < WAYWIRE_FIRST_SERVER_ID)
		return set_in(&users->of_client, object.id, object.birth, pointer);
	return set_in(&users->of_server, object.id - WAYWIRE_FIRST_SERVER_ID, object.birth, pointer);
}

void users_free(struct users *users)
{
	free(users->of_client.at);
	free(users->of_server.at);
}
