/* What is done for each message costs the same, however much waits to be sent.
 *
 *     waiting TASK COUNT    does a task beside COUNT messages that wait, all of it in `measured`, and prints how
 *                           often. The instructions are counted from outside
 *
 * TASK is `answers` (a client reads an event, whose callback writes a request), `requests` (a client writes one, and
 * asks whether something waits) or `syncs` (a server reads and answers a wl_display.sync). The socket takes nothing,
 * so that all of them wait. */
#define _GNU_SOURCE
#include "connected.h"

#include <errno.h>
#include <string.h>
#include <sys/socket.h>

#define TIMES 100

/* An outbox of which less than half is filled by all of this. */
static const waywire_sizes sizes = { 1 << 20, 64, 65536, 256, 0 };
static waywire_wl_surface surface;
static size_t count;

static void on_scale(void *data, waywire_wl_surface at, int32_t scale)
{
	(void)data, (void)scale;
	count++;
	MUST(!waywire_wl_surface_commit(requests, at));
}

static const struct waywire_wl_surface_events surface_events = { .preferred_buffer_scale = on_scale };

/* Both ends, with a surface. */
static void begin(void)
{
	uint32_t name;
	waywire_wl_compositor compositor;
	begin_both(&sizes, &sizes);
	MUST(!waywire_connection_add_global(server, WAYWIRE_WL_COMPOSITOR_NAME, 6, &name));
	waywire_wl_registry registry = get_registry();
	MUST(!waywire_connection_flush(client) && waywire_connection_dispatch(server, WAIT) == 1);
	MUST(!waywire_connection_flush(server) && waywire_connection_dispatch(client, WAIT) == 1);
	MUST(!waywire_wl_compositor_bind(requests, registry, name, 6, &compositor));
	MUST(!waywire_wl_compositor_create_surface(requests, compositor, &surface));
	MUST(!waywire_connection_flush(client) && waywire_connection_dispatch(server, WAIT) == 2);
	MUST(!waywire_connection_listen(client, surface.object, waywire_wl_surface_event_dispatcher,
		&surface_events, NULL));
}

static void send_one(waywire_connection *by)
{
	MUST(!(by == client ? waywire_wl_surface_commit(requests, surface)
		: waywire_wl_surface_send_preferred_buffer_scale(events, surface, 1)));
}

/* Fills the socket until it takes no more, and writes so many messages that wait behind that. */
static void fill(waywire_connection *by, size_t messages)
{
	const size_t length = by == client ? 8 : 12;
	while (messages && !waywire_connection_flush(by))
		for (size_t i = 0; i < 100; i++)
			send_one(by);
	while (messages && sizes.out_bytes - waywire_end_out_room(waywire_connection_end(by)).bytes
		< messages * length)
		send_one(by);
}

static void prepare_answers(size_t messages)
{
	for (int i = 0; i < TIMES; i++)
		send_one(server);
	MUST(!waywire_connection_flush(server));
	fill(client, messages);
	MUST(waywire_connection_fill(client) == 1);
}

static void answers(void)
{
	MUST(waywire_connection_dispatch_pending(client) == TIMES);
}

static void prepare_requests(size_t messages)
{
	fill(client, messages);
}

static void write_requests(void)
{
	for (; count < TIMES; count++) {
		send_one(client);
		MUST(waywire_connection_wants_write(client));
	}
}

static void prepare_syncs(size_t messages)
{
	for (int i = 0; i < TIMES; i++)
		MUST(!waywire_wl_display_sync(requests, display, NULL));
	MUST(!waywire_connection_flush(client));
	fill(server, messages);
	MUST(waywire_connection_fill(server) == 1);
}

static void syncs(void)
{
	count = (size_t)waywire_connection_dispatch_pending(server);
}

static const struct {
	const char *name;
	void (*prepare)(size_t messages);
	void (*done)(void);
} tasks[] = {
	{ "answers", prepare_answers, answers },
	{ "requests", prepare_requests, write_requests },
	{ "syncs", prepare_syncs, syncs },
};

__attribute__((noinline)) void measured(size_t task);

void measured(size_t task)
{
	tasks[task].done();
}

int main(int argument_count, char **words)
{
	size_t task = 0;
	MUST(argument_count == 3);
	while (task < sizeof tasks / sizeof *tasks && strcmp(tasks[task].name, words[1]))
		task++;
	MUST(task < sizeof tasks / sizeof *tasks);
	MUST(!waywire_tables_core(&tables));
	begin();
	tasks[task].prepare(strtoul(words[2], NULL, 10));
	measured(task);
	MUST(count == TIMES);
	printf("%zu\n", count);
	end_both();
	waywire_tables_free(tables);
	return 0;
}
