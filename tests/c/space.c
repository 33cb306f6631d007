/* Bytes that were written to `space`, and whose tokens have no room, stay there until `received` takes them
 * in, whatever is read and sent in between. */
#include "must.h"

#include <string.h>

#define POOLS 20
#define FIRST_POOL 4

/* As many tokens as one message may have, and fewer than the requests below bring. */
static const waywire_sizes sizes = { 4096, 64, 4096, 20 };
static waywire_server server;

/* wl_shm.create_pool of wl_shm@3, whose token and length in bytes are the id of its pool. */
static void create_pool(uint32_t words[4], uint32_t pool)
{
	words[0] = 3;
	words[1] = 16 << 16 | WAYWIRE_WL_SHM_REQUEST_CREATE_POOL;
	words[2] = words[3] = pool;
}

static void feed(const uint32_t *words, size_t count, const uint32_t *tokens, size_t token_count)
{
	waywire_amounts fed;
	MUST(!waywire_end_feed(server.end, words, 4 * count, tokens, token_count, &fed));
	MUST(fed.bytes == 4 * count && fed.tokens == token_count);
}

/* Makes wl_registry@2 and wl_shm@3, which it returns. */
static waywire_wl_shm bind_shm(const waywire_tables *tables)
{
	uint32_t registry[] = { 1, 12 << 16 | WAYWIRE_WL_DISPLAY_REQUEST_GET_REGISTRY, 2 };
	uint32_t bind[8] = { 2, 32 << 16 | WAYWIRE_WL_REGISTRY_REQUEST_BIND, 0, sizeof WAYWIRE_WL_SHM_NAME, 0, 0, 1, 3 };
	uint16_t index;
	waywire_report report;
	MUST(!waywire_tables_interface(tables, WAYWIRE_WL_SHM_NAME, &index));
	MUST(!waywire_server_add_global(server, index, 1, &bind[2]));
	memcpy(bind + 4, WAYWIRE_WL_SHM_NAME, sizeof WAYWIRE_WL_SHM_NAME);
	feed(registry, 3, NULL, 0);
	feed(bind, 8, NULL, 0);
	for (int i = 0; i < 2; i++)
		MUST(!waywire_end_next(server.end, &report) && report.kind == WAYWIRE_MESSAGE);
	MUST(report.arg_count == 2 && report.args[1].kind == WAYWIRE_BOUND && report.args[1].object.id == 3);
	return waywire_wl_shm_of(report.args[1].object);
}

/* Reads the request that makes this pool, with its own token. */
static void read_pool(uint32_t pool)
{
	waywire_report report;
	MUST(!waywire_end_next(server.end, &report) && report.kind == WAYWIRE_MESSAGE && report.arg_count == 3);
	MUST(report.args[0].object.id == pool);
	MUST(report.args[1].u == pool && report.args[2].i == (int32_t)pool);
}

/* Writes requests for pools where the server's space is. */
static void write_pools(uint32_t first)
{
	waywire_part parts[2];
	uint32_t words[4 * POOLS];
	for (uint32_t i = 0; i < POOLS; i++)
		create_pool(words + 4 * i, first + i);
	waywire_end_space(server.end, parts);
	MUST(parts[0].length + parts[1].length >= sizeof words);
	size_t front = parts[0].length < sizeof words ? parts[0].length : sizeof words;
	memcpy(parts[0].bytes, words, front);
	if (front < sizeof words)
		memcpy(parts[1].bytes, (unsigned char *)words + front, sizeof words - front);
}

int main(void)
{
	waywire_tables *tables;
	waywire_amounts fed;
	waywire_report report;
	uint32_t words[4], tokens[POOLS + 1];
	for (uint32_t i = 0; i <= POOLS; i++)
		tokens[i] = FIRST_POOL + i;
	MUST(!waywire_tables_core(&tables) && !waywire_server_new(tables, &sizes, &server));
	waywire_wl_shm shm = bind_shm(tables);

	create_pool(words, FIRST_POOL);
	feed(words, 4, tokens, 1);
	write_pools(FIRST_POOL + 1);
	MUST(!waywire_end_received(server.end, 16 * POOLS, tokens + 1, POOLS, &fed));
	MUST(!fed.bytes && fed.tokens == POOLS - 1);
	read_pool(FIRST_POOL);
	MUST(!waywire_wl_shm_send_format(server, shm, WAYWIRE_WL_SHM_FORMAT_XRGB8888));
	MUST(!waywire_end_received(server.end, 16 * POOLS, tokens + POOLS, 1, &fed));
	MUST(fed.bytes == 16 * POOLS && fed.tokens == 1);
	for (uint32_t i = 1; i <= POOLS; i++)
		read_pool(FIRST_POOL + i);
	MUST(!waywire_end_next(server.end, &report) && report.kind == WAYWIRE_NOTHING);

	waywire_end_free(server.end);
	waywire_tables_free(tables);
	return 0;
}
