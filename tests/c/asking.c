/* The room of a server's outbox. A server asks for it, and announces, once for the messages of a read. It asks again
 * if a callback has written, and before delete_ids and answers fill the room that a callback has. What the outbox does
 * not hold is sent at once, as much as the socket takes. */
#define _GNU_SOURCE
#include "connected.h"

#include <malloc.h>
#include <string.h>

/* So many bytes of requests are in the socket at once, and fewer than the inbox holds. */
#define COMMITS 400
#define QUEUE 4096

static const waywire_sizes small = { QUEUE, 64, QUEUE, 64, 0 };
static const waywire_sizes large = { 65536, 64, 65536, 64, 0 };
static waywire_wl_compositor compositor;
static waywire_wl_surface surface;
static size_t asked, announced, commits;
static bool adds_global;
static size_t scales, heard_scales; /* so many are sent at a commit, and have come */
static waywire_status sent;

waywire_amounts __real_waywire_end_out_room(const waywire_end *end);
waywire_amounts __wrap_waywire_end_out_room(const waywire_end *end);
waywire_status __real_waywire_server_announce(waywire_server of, size_t *count, bool *all);
waywire_status __wrap_waywire_server_announce(waywire_server of, size_t *count, bool *all);

waywire_amounts __wrap_waywire_end_out_room(const waywire_end *end)
{
	asked++;
	return __real_waywire_end_out_room(end);
}

waywire_status __wrap_waywire_server_announce(waywire_server of, size_t *count, bool *all)
{
	announced++;
	return __real_waywire_server_announce(of, count, all);
}

/* Half of the outbox is free before each message. */
static void on_commit(void *data, waywire_wl_surface at)
{
	(void)data, (void)at;
	commits++;
	MUST(__real_waywire_end_out_room(events.end).bytes >= QUEUE / 2);
	for (size_t i = 0; i < scales && !sent; i++)
		sent = waywire_wl_surface_send_preferred_buffer_scale(events, at, (int32_t)i);
	if (adds_global)
		MUST(!waywire_connection_add_global(server, WAYWIRE_WL_SEAT_NAME, 9, NULL));
}

static const struct waywire_wl_surface_requests surface_requests = { .commit = on_commit };
static const waywire_listener of_server = { WAYWIRE_WL_SURFACE_NAME,
	waywire_wl_surface_request_dispatcher, &surface_requests };

static void begin(const waywire_sizes *of_the_server)
{
	uint32_t name;
	begin_both(&large, of_the_server);
	MUST(!waywire_connection_implement(server, &of_server, 1, NULL));
	MUST(!waywire_connection_add_global(server, WAYWIRE_WL_COMPOSITOR_NAME, 6, &name));
	waywire_wl_registry registry = get_registry();
	MUST(!waywire_connection_flush(client) && waywire_connection_dispatch(server, WAIT) == 1);
	MUST(!waywire_connection_flush(server) && waywire_connection_dispatch(client, WAIT) == 1);
	MUST(!waywire_wl_compositor_bind(requests, registry, name, 6, &compositor));
	MUST(!waywire_wl_compositor_create_surface(requests, compositor, &surface));
	MUST(!waywire_connection_flush(client) && waywire_connection_dispatch(server, WAIT) == 2);
	asked = announced = commits = 0;
}

/* The server reads all that the client has written. */
static void read_all(size_t messages)
{
	size_t count = 0;
	MUST(!waywire_connection_flush(client));
	while (count < messages) {
		int read = waywire_connection_dispatch(server, WAIT);
		MUST(read > 0);
		count += (size_t)read;
	}
	MUST(count == messages);
}

static void once_a_read(void)
{
	begin(&large);
	for (int i = 0; i < COMMITS; i++)
		MUST(!waywire_wl_surface_commit(requests, surface));
	MUST(!waywire_connection_flush(client) && waywire_connection_dispatch(server, WAIT) == COMMITS);
	MUST(commits == COMMITS && asked <= 4 && announced <= 4);
	end_both();
}

/* Surfaces that end, each with its delete_id, and syncs, each with its answer. */
static void beside_own_writes(void)
{
	waywire_wl_surface made;
	begin(&small);
	for (int i = 0; i < COMMITS; i++) {
		MUST(!waywire_wl_compositor_create_surface(requests, compositor, &made));
		MUST(!waywire_wl_surface_destroy(requests, made));
		MUST(!waywire_wl_display_sync(requests, display, NULL));
		MUST(!waywire_wl_surface_commit(requests, surface));
	}
	read_all(4 * COMMITS);
	MUST(commits == COMMITS);
	end_both();
}

static char heard[3];

static void on_global(void *data, waywire_wl_registry registry, uint32_t name, const char *interface,
	uint32_t version)
{
	(void)data, (void)registry, (void)name, (void)version;
	strcat(heard, !strcmp(interface, WAYWIRE_WL_SEAT_NAME) ? "g" : "");
}

static void on_done(void *data, waywire_wl_callback callback, uint32_t number)
{
	(void)data, (void)callback, (void)number;
	strcat(heard, "d");
}

static const struct waywire_wl_registry_events registry_events = { .global = on_global };
static const struct waywire_wl_callback_events callback_events = { .done = on_done };
static const waywire_listener of_client[] = {
	{ WAYWIRE_WL_REGISTRY_NAME, waywire_wl_registry_event_dispatcher, &registry_events },
	{ WAYWIRE_WL_CALLBACK_NAME, waywire_wl_callback_event_dispatcher, &callback_events },
};

/* A global that a callback adds comes before the answer to a sync of the same read. */
static void added_in_a_callback(void)
{
	begin(&large);
	adds_global = true;
	MUST(!waywire_connection_implement(client, of_client, 2, NULL));
	MUST(!waywire_wl_surface_commit(requests, surface));
	MUST(!waywire_wl_display_sync(requests, display, NULL));
	read_all(2);
	MUST(!waywire_connection_flush(server) && waywire_connection_dispatch(client, WAIT) == 3);
	MUST(!strcmp(heard, "gd"));
	end_both();
}

static void on_scale(void *data, waywire_wl_surface at, int32_t scale)
{
	(void)data, (void)at;
	MUST(scale == (int32_t)heard_scales++);
}

static const struct waywire_wl_surface_events surface_events = { .preferred_buffer_scale = on_scale };

static void begin_flood(size_t count)
{
	begin(NULL);
	MUST(!waywire_connection_listen(client, surface.object, waywire_wl_surface_event_dispatcher,
		&surface_events, NULL));
	scales = count;
	heard_scales = 0;
	MUST(!waywire_wl_surface_commit(requests, surface));
	read_all(1);
}

/* A callback writes more than the outbox holds, and then more than the socket takes. */
static void more_than_it_holds(void)
{
	begin_flood(2000);
	MUST(!sent && !waywire_connection_flush(server));
	while (heard_scales < 2000)
		MUST(waywire_connection_dispatch(client, WAIT) > 0);
	end_both();
	begin_flood(SIZE_MAX);
	MUST(sent == WAYWIRE_FULL);
	/* What was written before that comes, and then there is room. */
	while (waywire_wl_surface_send_preferred_buffer_scale(events, surface, (int32_t)heard_scales))
		MUST(waywire_connection_dispatch(client, WAIT) > 0);
	MUST(!waywire_connection_failure(server));
	scales = 0;
	end_both();
}

/* libwayland's takes 17 KB. */
static void is_small(void)
{
	int sockets[2];
	size_t before = mallinfo2().uordblks;
	make_pair(sockets);
	begin_server(sockets[1], NULL);
	MUST(mallinfo2().uordblks - before <= 40000);
	waywire_connection_close(server);
	close(sockets[0]);
}

int main(void)
{
	MUST(!waywire_tables_core(&tables));
	is_small();
	more_than_it_holds();
	once_a_read();
	beside_own_writes();
	added_in_a_callback();
	waywire_tables_free(tables);
	return 0;
}
