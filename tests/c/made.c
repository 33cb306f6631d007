/* Objects that the server makes, at both ends: a dev makes offs, which a request can end. The caller's pointers,
 * what each object costs, and allocations that fail. The program is linked with `--wrap` for each function of
 * memory. */
#include "pair.h"

#define MOST_BY_SERVER 1048575u
#define IN_TURN 100000u

void *__real_malloc(size_t size);
void *__real_realloc(void *at, size_t size);
void __real_free(void *at);

/* Each block begins with its size. */
#define HEAD 16

static size_t live;  /* bytes that are not freed */
static long asks;    /* calls for memory */
static bool refuses; /* whether they are refused */

void *__wrap_malloc(size_t size)
{
	asks++;
	char *at = refuses ? NULL : __real_malloc(size + HEAD);
	if (!at)
		return NULL;
	memcpy(at, &size, sizeof size);
	live += size;
	return at + HEAD;
}

void __wrap_free(void *at)
{
	size_t size;
	if (!at)
		return;
	memcpy(&size, (char *)at - HEAD, sizeof size);
	live -= size;
	__real_free((char *)at - HEAD);
}

void *__wrap_realloc(void *at, size_t size)
{
	size_t old;
	if (!at)
		return __wrap_malloc(size);
	asks++;
	memcpy(&old, (char *)at - HEAD, sizeof old);
	char *moved = refuses ? NULL : __real_realloc((char *)at - HEAD, size + HEAD);
	if (!moved)
		return NULL;
	memcpy(moved, &size, sizeof size);
	live += size - old;
	return moved + HEAD;
}

static const char text[] = "interface dev 3\nrequest release D\nevent made N(off)\n"
	"interface off 3\nrequest destroy D\n";
static const waywire_sizes sizes = { 4096, 64, 4096, 64, 0 };

/* Opcodes of the tables. */
enum { MADE = 0, DESTROY = 0 };

/* Both ends over tables with dev and off, a dev that both have, and what the client read last. */
static struct pair pair;
static waywire_object dev;
static waywire_report at_client;

static uint32_t read_event(void)
{
	MUST(!waywire_end_next(pair.client.end, &at_client));
	return at_client.kind;
}

static void begin(void)
{
	waywire_tables *tables = core_and(text);
	open_pair(&pair, tables, &sizes);
	waywire_tables_free(tables);
	dev = bound(&pair, "dev");
}

static void end(void)
{
	close_pair(&pair);
	MUST(live == 0);
}

static waywire_object makes(void)
{
	waywire_object made;
	waywire_arg new = waywire_new();
	MUST(!waywire_end_send(pair.server.end, dev, MADE, &new, 1, &made, NULL));
	return made;
}

static bool is(waywire_object object, uint32_t id, uint64_t birth)
{
	return object.id == id && object.birth == birth;
}

/* What the message that the client read last made. */
static waywire_object made_last(void)
{
	waywire_object made;
	MUST(!waywire_client_made(pair.client, &made));
	return made;
}

static size_t counted_by_client(void)
{
	return waywire_end_object_count(pair.client.end);
}

static size_t counted_by_server(void)
{
	return waywire_end_object_count(pair.server.end);
}

/* The objects of both ranges, one after another, with the pointers of the caller's. */
static void both_ranges_are_gone_through(void)
{
	char users[3] = { 0 };
	uint16_t interface;
	uint32_t version;
	begin();
	waywire_object first = makes(), second = makes();
	MUST(is(second, WAYWIRE_FIRST_SERVER_ID + 1, 2) && counted_by_server() == 5);
	to_client(&pair);
	MUST(read_event() == WAYWIRE_MESSAGE && read_event() == WAYWIRE_MESSAGE);
	MUST(counted_by_client() == 5);
	MUST(!waywire_end_live(pair.client.end, second, &interface, &version));
	MUST(interface == index_of(pair.client.end, "off") && version == 3);
	MUST(!waywire_end_set_user(pair.client.end, dev, &users[0]));
	MUST(!waywire_end_set_user(pair.client.end, first, &users[1]));
	MUST(!waywire_end_set_user(pair.client.end, second, &users[2]));

	static const uint32_t ids[] = { 1, 2, 3, WAYWIRE_FIRST_SERVER_ID, WAYWIRE_FIRST_SERVER_ID + 1 };
	void *wanted[] = { NULL, NULL, &users[0], &users[1], &users[2] };
	size_t at = 0;
	for (waywire_object object = { 0, 0 }; !waywire_end_object_after(pair.client.end, object.id, &object); at++)
		MUST(at < 5 && object.id == ids[at] && waywire_end_user(pair.client.end, object) == wanted[at]);
	MUST(at == 5);
	at = 0;
	for (waywire_object object = { 0, 0 }; !waywire_end_object_after(pair.server.end, object.id, &object); at++)
		MUST(at < 5 && object.id == ids[at]);
	MUST(at == 5);
	waywire_object none;
	static const uint32_t behind[] = { WAYWIRE_FIRST_SERVER_ID + 1, WAYWIRE_FIRST_SERVER_ID + 2, UINT32_MAX };
	for (at = 0; at < 3; at++)
		MUST(waywire_end_object_after(pair.client.end, behind[at], &none) == WAYWIRE_NOT_FOUND);
	end();
}

/* A client that has no memory for the object reads its event later. With a row of its id it needs none. */
static void refused(void)
{
	begin();
	waywire_object made = makes();
	to_client(&pair);
	refuses = true;
	MUST(waywire_end_next(pair.client.end, &at_client) == WAYWIRE_NO_MEMORY);
	refuses = false;
	MUST(at_client.kind == WAYWIRE_NOTHING && counted_by_client() == 3);
	MUST(read_event() == WAYWIRE_MESSAGE && waywire_object_equal(made_last(), made));
	MUST(!waywire_end_send(pair.client.end, made, DESTROY, NULL, 0, NULL, NULL));
	server_reads(&pair);
	makes();
	to_client(&pair);
	refuses = true;
	MUST(read_event() == WAYWIRE_MESSAGE);
	MUST(is(made_last(), WAYWIRE_FIRST_SERVER_ID, 2));
	refuses = false;
	end();
}

/* Objects opened and destroyed in turn take the memory of one, and ask for none. */
static void in_turn(void)
{
	long asked = 0;
	begin();
	for (uint32_t round = 1; round <= IN_TURN; round++) {
		waywire_object made = makes();
		MUST(is(made, WAYWIRE_FIRST_SERVER_ID, round));
		to_client(&pair);
		MUST(read_event() == WAYWIRE_MESSAGE);
		MUST(waywire_object_equal(at_client.args[0].object, made));
		MUST(!waywire_end_send(pair.client.end, made, DESTROY, NULL, 0, NULL, NULL));
		server_reads(&pair);
		if (round == 1)
			asked = asks;
	}
	MUST(asks == asked && counted_by_client() == 4 && counted_by_server() == 3);
	end();
}

/* A server that makes objects for ever: what each costs the client, up to the last id. */
static void hostile_server(void)
{
	unsigned char event[] = { 3, 0, 0, 0, 0, 0, 12, 0, 0, 0, 0, 255 };
	waywire_amounts fed;
	begin();
	size_t before = live;
	for (uint32_t i = 0; i < MOST_BY_SERVER; i++) {
		uint32_t id = WAYWIRE_FIRST_SERVER_ID + i;
		memcpy(event + 8, &id, sizeof id);
		MUST(!waywire_end_feed(pair.client.end, event, sizeof event, NULL, 0, &fed));
		MUST(read_event() == WAYWIRE_MESSAGE && is(made_last(), id, i + 1));
		MUST(i < 1000 || live - before <= 48 * (size_t)(i + 2));
	}
	MUST(live - before <= 40 * (size_t)MOST_BY_SERVER);
	MUST(counted_by_client() == MOST_BY_SERVER + 3);
	uint32_t past = WAYWIRE_FIRST_SERVER_ID + MOST_BY_SERVER;
	memcpy(event + 8, &past, sizeof past);
	MUST(!waywire_end_feed(pair.client.end, event, sizeof event, NULL, 0, &fed));
	MUST(waywire_end_next(pair.client.end, &at_client) == WAYWIRE_FAULT_TOO_MANY_OBJECTS);
	end();
}

/* How often a new client and a new server over the core's tables and a text ask for memory. */
struct asks {
	long client, server;
};

static struct asks asks_over(const char *more)
{
	struct asks asked;
	waywire_client client;
	waywire_server server;
	waywire_tables *tables = core_and(more);
	long before = asks;
	MUST(!waywire_client_new(tables, &sizes, &client));
	asked.client = asks - before;
	before = asks;
	MUST(!waywire_server_new(tables, &sizes, &server));
	asked.server = asks - before;
	waywire_end_free(client.end);
	waywire_end_free(server.end);
	waywire_tables_free(tables);
	MUST(live == 0);
	return asked;
}

/* An end has a table for the server's objects only if an event makes some: that is one more allocation. */
static void second_table(void)
{
	struct asks of_core = asks_over("");
	struct asks without = asks_over("interface dev 3\nrequest release D\nevent made u\n");
	struct asks with = asks_over(text);
	MUST(without.client == of_core.client && without.server == of_core.server);
	MUST(with.client == of_core.client + 1 && with.server == of_core.server + 1);
}

int main(void)
{
	second_table();
	both_ranges_are_gone_through();
	refused();
	in_turn();
	hostile_server();
	return 0;
}
