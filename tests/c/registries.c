/* Many open registries cost little.
 *
 *     registries             tests that 100,000 registries take less than 120 MB
 *     registries TASK OPEN   does a task with OPEN registries open, all of it in `measured`, and prints
 *                            how often. The instructions are counted from outside
 *
 * TASK is the number of a task: to make and destroy an object; an announce that writes nothing; to make
 * a registry; to destroy one and make another; to announce a global that is added and withdrawn. Each
 * request that makes or destroys a registry is followed by an announce. */
#include "must.h"

#include <string.h>

#define COUNT 100000
#define TIMES 200
#define GLOBALS 30

static const waywire_sizes sizes = { 65536, 64, 65536, 64, 0 };
static const waywire_tables *tables;
static waywire_server server;
static uint32_t next_id, fixes, compositor;

static void request(const uint32_t *words, size_t count)
{
	waywire_amounts fed;
	waywire_report report;
	MUST(!waywire_end_feed(server.end, words, 4 * count, NULL, 0, &fed) && fed.bytes == 4 * count);
	MUST(!waywire_end_next(server.end, &report) && report.kind == WAYWIRE_MESSAGE);
}

static uint32_t get_registry(void)
{
	uint32_t words[] = { 1, 12 << 16 | WAYWIRE_WL_DISPLAY_REQUEST_GET_REGISTRY, next_id };
	request(words, 3);
	return next_id++;
}

static uint32_t bind_global(uint32_t registry, uint32_t name, const char *interface)
{
	size_t length = strlen(interface) + 1;
	uint32_t words[10] = { registry, 0, name, (uint32_t)length };
	uint32_t end = 4 + (uint32_t)(length + 3) / 4;
	words[1] = 4 * (end + 2) << 16 | WAYWIRE_WL_REGISTRY_REQUEST_BIND;
	memcpy(words + 4, interface, length);
	words[end] = 1;
	words[end + 1] = next_id;
	request(words, end + 2);
	return next_id++;
}

/* Announces and takes all that waits. Returns how many events were announced. */
static size_t announce(void)
{
	static unsigned char bytes[65536];
	waywire_amounts taken;
	size_t count;
	MUST(!waywire_server_announce(server, &count, NULL));
	MUST(!waywire_end_take(server.end, bytes, sizeof bytes, NULL, 0, &taken));
	return count;
}

static uint16_t index_of(const char *interface)
{
	uint16_t index;
	MUST(!waywire_tables_interface(tables, interface, &index));
	return index;
}

/* Makes a server that advertises wl_fixes and wl_compositor, and this many globals in all. Its client has
 * bound these two through its only registry. */
static void make_server(size_t globals)
{
	uint32_t of_fixes, of_compositor;
	next_id = 2;
	MUST(!waywire_server_new(tables, &sizes, &server));
	MUST(!waywire_server_add_global(server, index_of(WAYWIRE_WL_FIXES_NAME), 1, &of_fixes));
	MUST(!waywire_server_add_global(server, index_of(WAYWIRE_WL_COMPOSITOR_NAME), 1, &of_compositor));
	for (size_t i = 2; i < globals; i++)
		MUST(!waywire_server_add_global(server, index_of(WAYWIRE_WL_COMPOSITOR_NAME), 1, NULL));
	uint32_t registry = get_registry();
	MUST(announce() == globals);
	fixes = bind_global(registry, of_fixes, WAYWIRE_WL_FIXES_NAME);
	compositor = bind_global(registry, of_compositor, WAYWIRE_WL_COMPOSITOR_NAME);
}

/* ---- the works, beside `open` registries whose ids begin at `first`; each returns how often */

static size_t destroys(uint32_t first, uint32_t open)
{
	(void)first, (void)open;
	for (int i = 0; i < TIMES; i++) {
		uint32_t create[] = { compositor, 12 << 16 | WAYWIRE_WL_COMPOSITOR_REQUEST_CREATE_REGION,
			next_id };
		uint32_t destroy[] = { next_id, 8 << 16 | WAYWIRE_WL_REGION_REQUEST_DESTROY };
		request(create, 3);
		request(destroy, 2);
		MUST(announce() == 0);
	}
	return TIMES;
}

static size_t announces(uint32_t first, uint32_t open)
{
	size_t count;
	(void)first, (void)open;
	for (int i = 0; i < TIMES; i++)
		MUST(!waywire_server_announce(server, &count, NULL) && !count);
	return TIMES;
}

static size_t opens(uint32_t first, uint32_t open)
{
	(void)first, (void)open;
	for (int i = 0; i < TIMES; i++) {
		get_registry();
		MUST(announce() == GLOBALS);
	}
	return TIMES;
}

/* The oldest is destroyed, and another is made. So often that the slots of those that ended are
 * taken out at least once. */
static size_t replaces(uint32_t first, uint32_t open)
{
	uint32_t pairs = open < 1000 ? 1000 : open + open / 10;
	for (uint32_t i = 0; i < pairs; i++) {
		uint32_t id = first + i % open;
		uint32_t destroy[] = { fixes, 12 << 16 | WAYWIRE_WL_FIXES_REQUEST_DESTROY_REGISTRY, id };
		uint32_t get[] = { 1, 12 << 16 | WAYWIRE_WL_DISPLAY_REQUEST_GET_REGISTRY, id };
		request(destroy, 3);
		MUST(announce() == 0);
		request(get, 3);
		MUST(announce() == GLOBALS);
	}
	return pairs;
}

/* All registries get the events, the client's first one too. */
static size_t sends_events(uint32_t first, uint32_t open)
{
	uint32_t name;
	size_t sent = 0, removed = 0, count;
	(void)first;
	MUST(!waywire_server_add_global(server, index_of(WAYWIRE_WL_COMPOSITOR_NAME), 1, &name));
	while ((count = announce()))
		sent += count;
	MUST(!waywire_server_withdraw(server, name));
	while ((count = announce()))
		removed += count;
	MUST(sent == open + 1 && removed == open + 1);
	return sent + removed;
}

static const struct {
	const char *name;
	size_t (*done)(uint32_t first, uint32_t open);
} works[] = {
	{ "destroys", destroys }, { "announces", announces }, { "opens", opens }, { "replaces", replaces },
	{ "tells", sends_events },
};

__attribute__((noinline)) size_t measured(size_t work, uint32_t first, uint32_t open);

size_t measured(size_t work, uint32_t first, uint32_t open)
{
	return works[work].done(first, open);
}

/* Does a task with this many open registries, to which all globals were announced. */
static void measure(const char *name, uint32_t open)
{
	size_t work = 0;
	while (work < sizeof works / sizeof *works && strcmp(works[work].name, name))
		work++;
	MUST(work < sizeof works / sizeof *works && open);
	make_server(GLOBALS);
	uint32_t first = next_id;
	for (uint32_t i = 0; i < open; i++) {
		get_registry();
		MUST(announce() == GLOBALS);
	}
	printf("%zu\n", measured(work, first, open));
	waywire_end_free(server.end);
}

/* The most memory that this program has had at once, in KB. That of getrusage begins with what was there before
 * the program began. */
static long kilobytes(void)
{
	char line[128];
	long most = 0;
	FILE *status = fopen("/proc/self/status", "r");
	MUST(status);
	while (!most && fgets(line, sizeof line, status))
		sscanf(line, "VmHWM: %ld kB", &most);
	fclose(status);
	MUST(most);
	return most;
}

static void take_little_memory(void)
{
	make_server(2);
	long before = kilobytes();
	for (int i = 0; i < COUNT; i++)
		get_registry();
	long took = kilobytes() - before;
	fprintf(stderr, "registries: %ld KB\n", took);
	MUST(took < 120000);
	waywire_end_free(server.end);
}

int main(int count, char **words)
{
	waywire_tables *core;
	MUST(!waywire_tables_core(&core));
	tables = core;
	if (count > 2)
		measure(words[1], (uint32_t)strtoul(words[2], NULL, 10));
	else
		take_little_memory();
	waywire_tables_free(core);
	return 0;
}
