/* Pointers of the caller's at objects of both ranges of ids, and what they ask for. An end over the core's
 * tables has no object of a server's id, so beside the calls of ends those of c/lib/users.c are tested (made.c
 * has ends with such objects). The program is linked with that file, and with `--wrap` for what allocates. */
#include "../../c/lib/users.h"
#include "must.h"

#define LAST_SERVER_ID 0xff0ffffeu
#define LAST_CLIENT_ID 1048577

void *__real_malloc(size_t size);
void *__real_realloc(void *at, size_t size);

static long asks;    /* calls for memory */
static size_t asked; /* bytes, by the last of them */
static bool refuses;

void *__wrap_malloc(size_t size)
{
	asks++;
	asked = size;
	return refuses ? NULL : __real_malloc(size);
}

void *__wrap_realloc(void *at, size_t size)
{
	asks++;
	asked = size;
	return refuses ? NULL : __real_realloc(at, size);
}

static const waywire_object display = { 0, 1 };
/* The first objects of a server's range, and a later one that has the first id again. */
static const waywire_object first = { 1, WAYWIRE_FIRST_SERVER_ID },
	second = { 2, WAYWIRE_FIRST_SERVER_ID + 1 }, again = { 3, WAYWIRE_FIRST_SERVER_ID };
static char one, other, third;

/* Calls know no object of a server's id, and ask for no memory. */
static void end_has_none(waywire_end *end)
{
	static const uint32_t ids[] = { WAYWIRE_FIRST_SERVER_ID - 1, WAYWIRE_FIRST_SERVER_ID,
		WAYWIRE_FIRST_SERVER_ID + 1, WAYWIRE_FIRST_SERVER_ID + 2, LAST_SERVER_ID, UINT32_MAX };
	long before = asks;
	for (size_t at = 0; at < sizeof ids / sizeof *ids; at++)
		for (uint64_t birth = 0; birth < 3; birth++) {
			waywire_object object = { birth, ids[at] };
			MUST(!waywire_end_user(end, object));
			MUST(waywire_end_set_user(end, object, &one) == WAYWIRE_STALE);
			MUST(waywire_end_set_user(end, object, NULL) == WAYWIRE_STALE);
		}
	MUST(asks == before);
}

static void ends_have_none(void)
{
	static const waywire_sizes sizes = { 4096, 64, 4096, 64, 0 };
	waywire_tables *tables;
	waywire_client client;
	waywire_server server;
	MUST(!waywire_tables_core(&tables));
	MUST(!waywire_client_new(tables, &sizes, &client));
	MUST(!waywire_server_new(tables, &sizes, &server));
	end_has_none(client.end);
	end_has_none(server.end);
	MUST(!waywire_end_set_user(client.end, display, &one) && asked == 2 * sizeof(struct user));
	MUST(!waywire_end_set_user(server.end, display, &other) && asked == 2 * sizeof(struct user));
	end_has_none(client.end);
	end_has_none(server.end);
	MUST(waywire_end_user(client.end, display) == &one);
	MUST(waywire_end_user(server.end, display) == &other);
	waywire_end_free(client.end);
	waywire_end_free(server.end);
	waywire_tables_free(tables);
}

/* Whether setting an object's pointer takes one allocation, with room for this many. */
static bool is_set_by_one(struct users *users, waywire_object object, void *pointer, size_t count)
{
	long before = asks;
	return !users_set(users, object, pointer) && users_get(users, object) == pointer
		&& asks == before + 1 && asked == count * sizeof(struct user);
}

/* Whether an object's pointer is set without a call for memory. */
static bool is_set_by_none(struct users *users, waywire_object object, void *pointer)
{
	long before = asks;
	return !users_set(users, object, pointer) && users_get(users, object) == pointer
		&& asks == before;
}

static void ranges_lie_apart(void)
{
	/* Of the client's range, at the index and of the birth of `second`. */
	static const waywire_object same = { 2, 1 };
	struct users users = { { NULL, 0 }, { NULL, 0 } };
	MUST(is_set_by_none(&users, first, NULL) && is_set_by_none(&users, display, NULL));
	MUST(is_set_by_one(&users, first, &one, 1) && !users.of_client.at);
	MUST(is_set_by_one(&users, second, &other, 2) && !users.of_client.at);
	MUST(!users_get(&users, same));
	MUST(is_set_by_one(&users, same, &third, 2));
	MUST(users_get(&users, first) == &one && users_get(&users, second) == &other);
	MUST(!users_get(&users, again));
	MUST(is_set_by_none(&users, again, &third) && !users_get(&users, first));
	MUST(is_set_by_none(&users, second, NULL) && users_get(&users, same) == &third);
	users_free(&users);
}

/* Where memory is refused, what was set stays. */
static void refused(void)
{
	static const waywire_object far = { 4, WAYWIRE_FIRST_SERVER_ID + 1000 };
	static const waywire_object client_far = { 4, 1000 };
	static const waywire_object between = { 0, WAYWIRE_FIRST_SERVER_ID + 500 };
	static const waywire_object client_between = { 0, 500 };
	struct users users = { { NULL, 0 }, { NULL, 0 } };
	refuses = true;
	MUST(users_set(&users, first, &one) == WAYWIRE_NO_MEMORY && !users_get(&users, first));
	refuses = false;
	MUST(!users_set(&users, first, &one) && !users_set(&users, display, &other));
	refuses = true;
	MUST(users_set(&users, far, &third) == WAYWIRE_NO_MEMORY && !users_get(&users, far));
	MUST(users_set(&users, client_far, &third) == WAYWIRE_NO_MEMORY);
	MUST(!users_get(&users, client_far));
	refuses = false;
	MUST(users_get(&users, first) == &one && users_get(&users, display) == &other);
	MUST(is_set_by_one(&users, far, &third, 1001));
	MUST(is_set_by_one(&users, client_far, &third, 1001));
	MUST(!users_get(&users, between) && !users_get(&users, client_between));
	users_free(&users);
}

/* All ids of a range, the first object's birth 1: at most 32 bytes for each, in few calls. */
static void asks_by_count(uint32_t from, uint32_t last)
{
	struct users users = { { NULL, 0 }, { NULL, 0 } };
	long before = asks;
	for (uint32_t id = from; id <= last; id++) {
		waywire_object object = { id - from + 1, id };
		MUST(!users_set(&users, object, &one) && asks - before <= 22);
		MUST(asked <= (id - from + 1) * 2 * sizeof(struct user));
	}
	for (uint32_t id = from; id <= last; id++) {
		waywire_object object = { id - from + 1, id };
		MUST(users_get(&users, object) == &one);
	}
	users_free(&users);
}

int main(void)
{
	ends_have_none();
	ranges_lie_apart();
	refused();
	asks_by_count(WAYWIRE_FIRST_SERVER_ID, LAST_SERVER_ID);
	asks_by_count(1, LAST_CLIENT_ID);
	return 0;
}
