/* Connections with both ends in this process: when a connection waits, which callbacks it calls, when data
 * are destroyed, and how it ends. */
#define _GNU_SOURCE
#include "connected.h"

#include <errno.h>
#include <poll.h>

static waywire_wl_registry registry;
static waywire_wl_compositor compositor;
static waywire_wl_shm shm;
static int destroyed; /* how many data were */

/* ---- the server */

/* What callbacks of the server note. */
static struct {
	int pools, last_length; /* of which descriptor the last one was */
	int commits, regions;
	waywire_wl_surface surface;
	waywire_wl_callback callback;
	void *data;
} noted;

static void on_sync(void *data, waywire_wl_display at, waywire_wl_callback callback)
{
	(void)data, (void)at;
	MUST(!waywire_wl_callback_send_done(events, callback, 0));
}

static const struct waywire_wl_display_requests display_requests = { .sync = on_sync }, no_requests;

static void on_create_pool(void *data, waywire_wl_shm at, waywire_wl_shm_pool pool, int fd,
	int32_t size)
{
	(void)data, (void)at, (void)pool;
	noted.last_length = length_of(fd);
	MUST(noted.last_length == size);
	noted.pools++;
}

static const struct waywire_wl_shm_requests shm_requests = { .create_pool = on_create_pool };

static void on_create_surface(void *data, waywire_wl_compositor at, waywire_wl_surface surface)
{
	(void)data, (void)at;
	noted.surface = surface;
}

static void on_create_region(void *data, waywire_wl_compositor at, waywire_wl_region region)
{
	(void)data, (void)at, (void)region;
	noted.regions++;
}

static const struct waywire_wl_compositor_requests compositor_requests = {
	.create_surface = on_create_surface, .create_region = on_create_region };

static void on_commit(void *data, waywire_wl_surface surface)
{
	(void)surface;
	noted.data = data;
	noted.commits++;
}

static void on_frame(void *data, waywire_wl_surface surface, waywire_wl_callback callback)
{
	(void)data, (void)surface;
	noted.callback = callback;
}

/* The data of the surface are still there. */
static void on_destroy(void *data, waywire_wl_surface surface)
{
	MUST(!waywire_connection_data(server, surface.object));
	noted.data = data;
}

static const struct waywire_wl_surface_requests surface_requests = {
	.destroy = on_destroy, .commit = on_commit, .frame = on_frame };

static const waywire_listener listeners[] = {
	{ "wl_display", waywire_wl_display_request_dispatcher, &display_requests },
	{ "wl_compositor", waywire_wl_compositor_request_dispatcher, &compositor_requests },
	{ "wl_shm", waywire_wl_shm_request_dispatcher, &shm_requests },
	{ "wl_surface", waywire_wl_surface_request_dispatcher, &surface_requests },
};

/* ---- the client */

static void on_global(void *data, waywire_wl_registry at, uint32_t name, const char *interface,
	uint32_t version)
{
	++*(int *)data;
	if (!strcmp(interface, WAYWIRE_WL_COMPOSITOR_NAME))
		MUST(!waywire_wl_compositor_bind(requests, at, name, version, &compositor));
	else if (!strcmp(interface, WAYWIRE_WL_SHM_NAME))
		MUST(!waywire_wl_shm_bind(requests, at, name, version, &shm));
}

static const struct waywire_wl_registry_events registry_events = { .global = on_global };

/* Both ends; the client has bound the globals. */
static void begin(const waywire_sizes *sizes)
{
	int globals = 0;
	memset(&noted, 0, sizeof noted);
	destroyed = 0;
	begin_both(sizes, sizes);
	MUST(requests.end == waywire_connection_end(client));
	MUST(events.end == waywire_connection_end(server));
	MUST(!waywire_connection_server(client).end && !waywire_connection_client(server).end);
	MUST(!waywire_connection_implement(server, listeners, 4, &noted));
	MUST(!waywire_connection_add_global(server, WAYWIRE_WL_COMPOSITOR_NAME, 4, NULL));
	MUST(!waywire_connection_add_global(server, WAYWIRE_WL_SHM_NAME, 1, NULL));
	registry = get_registry();
	MUST(!waywire_connection_listen(client, registry.object,
		waywire_wl_registry_event_dispatcher, &registry_events, &globals));
	MUST(!waywire_connection_flush(client) && waywire_connection_dispatch(server, WAIT) == 1);
	MUST(!waywire_connection_flush(server) && waywire_connection_dispatch(client, WAIT) == 2);
	MUST(globals == 2 && compositor.object.id && shm.object.id);
	MUST(!waywire_connection_flush(client) && waywire_connection_dispatch(server, WAIT) == 2);
}

/* What the client wrote is read, so many messages, and then what the server wrote. */
static void turn(int of_client, int of_server)
{
	MUST(!waywire_connection_flush(client));
	MUST(waywire_connection_dispatch(server, of_client ? WAIT : 0) == of_client);
	MUST(!waywire_connection_flush(server));
	MUST(waywire_connection_dispatch(client, of_server ? WAIT : 0) == of_server);
}

static waywire_wl_surface make_surface(void)
{
	waywire_wl_surface made;
	MUST(!waywire_wl_compositor_create_surface(requests, compositor, &made));
	turn(1, 0);
	return made;
}

/* ---- waiting */

static void waits(void)
{
	begin(NULL);
	MUST(!waywire_connection_dispatch(client, 0) && !waywire_connection_dispatch(server, 1));
	MUST(!waywire_connection_roundtrip(client, 1)); /* nobody reads it */
	MUST(waywire_connection_dispatch(server, WAIT) == 1 && !waywire_connection_flush(server));
	MUST(!waywire_connection_roundtrip(client, 0)); /* that answer is not its own */
	turn(1, 2);
	MUST(waywire_connection_roundtrip(server, 1) == -1 && errno == EINVAL);
	MUST(!waywire_connection_drain(client, 0));
	end_both();
}

static bool counts(const void *calls, void *data, const waywire_report *report)
{
	(void)calls;
	MUST(!report->user);
	++*(int *)data;
	return true;
}

/* The callback of a round trip is its own: neither a late answer nor a delete_id brings a listener anything of it. */
static void round_trips(void)
{
	int answers = 0, deleted = 0;
	waywire_listener listener = { WAYWIRE_WL_CALLBACK_NAME, counts, NULL };
	begin(NULL);
	MUST(!waywire_connection_implement(client, &listener, 1, &answers));
	MUST(!waywire_connection_listen(client, display.object, counts, NULL, &deleted));
	MUST(!waywire_connection_roundtrip(client, 1));
	turn(1, 2);
	MUST(!answers && deleted == 1);
	end_both();
}

static void must_answer(uint32_t *last)
{
	waywire_wl_callback callback;
	MUST(!waywire_wl_display_sync(requests, display, &callback) && !waywire_connection_flush(client));
	MUST(waywire_connection_dispatch(server, WAIT) == 1 && !waywire_connection_flush(server));
	*last = UINT32_MAX;
	MUST(waywire_connection_dispatch(client, 0) == 2 && *last != UINT32_MAX);
	MUST(waywire_end_live(requests.end, callback.object, NULL, NULL));
}

static void on_done(void *data, waywire_wl_callback callback, uint32_t serial)
{
	(void)callback;
	*(uint32_t *)data = serial;
}

/* A server answers a sync by itself, unless a callback gets it. */
static void answers_syncs(void)
{
	static const struct waywire_wl_callback_events callback_events = { .done = on_done };
	static const waywire_listener done = {
		WAYWIRE_WL_CALLBACK_NAME, waywire_wl_callback_event_dispatcher, &callback_events };
	waywire_listener own = { WAYWIRE_WL_DISPLAY_NAME, waywire_wl_display_request_dispatcher, &no_requests };
	uint32_t last;
	begin_both(NULL, NULL);
	MUST(!waywire_connection_implement(client, &done, 1, &last));
	must_answer(&last);
	MUST(last == 0);
	must_answer(&last);
	MUST(last == 1);
	MUST(!waywire_connection_implement(server, &own, 1, NULL)); /* its sync is null */
	must_answer(&last);
	MUST(last == 2);
	own.calls = &display_requests;
	MUST(!waywire_connection_implement(server, &own, 1, NULL));
	must_answer(&last);
	MUST(last == 0); /* that of on_sync */
	end_both();
}

/* A loop of one's own. */
static void own_loop(void)
{
	begin(NULL);
	MUST(!waywire_connection_wants_write(client) && waywire_connection_wants_read(client));
	MUST(!waywire_wl_display_sync(requests, display, NULL));
	MUST(waywire_connection_wants_write(client));
	MUST(!waywire_connection_fill(server) && !waywire_connection_dispatch_pending(server));
	MUST(!waywire_connection_flush(client) && !waywire_connection_wants_write(client));
	MUST(waywire_connection_fill(server) == 1 && !waywire_connection_wants_read(server));
	MUST(!waywire_wl_display_sync(requests, display, NULL) && !waywire_connection_flush(client));
	MUST(!waywire_connection_fill(server)); /* what came is to be dispatched before */
	MUST(waywire_connection_dispatch_pending(server) == 1);
	MUST(waywire_connection_wants_read(server));
	MUST(waywire_connection_fill(server) == 1);
	MUST(waywire_connection_dispatch_pending(server) == 1);
	MUST(!waywire_connection_flush(server) && waywire_connection_fill(client) == 1);
	MUST(waywire_connection_dispatch_pending(client) == 4);
	MUST(!waywire_connection_failure(client));
	end_both();
}

/* ---- data */

static void on_gone(void *data)
{
	destroyed++;
	++*(int *)data;
}

/* Data of a client's object go with its delete_id. */
static void data_of_client(void)
{
	int one = 0, other = 0, third = 0;
	begin(NULL);
	waywire_wl_surface typed = make_surface();
	waywire_object surface = typed.object, gone = { 77, 77 };
	MUST(!waywire_connection_data(client, surface));
	MUST(!waywire_connection_set_data(client, surface, &one, on_gone));
	MUST(!waywire_connection_set_data(client, surface, &one, on_gone) && !one);
	MUST(waywire_connection_data(client, surface) == &one);
	MUST(!waywire_connection_set_data(client, surface, &other, on_gone) && one == 1 && !other);
	MUST(!waywire_connection_listen(client, surface, NULL, NULL, &third) && other == 1);
	MUST(!waywire_connection_set_data(client, surface, &one, on_gone) && !third);
	MUST(!waywire_connection_listen(client, surface, NULL, NULL, &one) && one == 1); /* what destroys it stays */
	MUST(waywire_connection_set_data(client, gone, &one, on_gone) == WAYWIRE_STALE);
	MUST(waywire_connection_listen(client, gone, NULL, NULL, NULL) == WAYWIRE_STALE);
	MUST(!waywire_wl_surface_destroy(requests, typed));
	MUST(!waywire_connection_data(client, surface));
	waywire_connection_forget(client, surface); /* too late: its delete_id is to come */
	MUST(waywire_connection_set_data(client, surface, &one, on_gone) == WAYWIRE_STALE);
	MUST(one == 1);
	turn(1, 1);
	MUST(one == 2 && destroyed == 3 && !waywire_connection_data(client, surface));
	surface = make_surface().object;
	MUST(!waywire_connection_set_data(client, surface, &third, on_gone) && !third);
	waywire_connection_forget(client, surface);
	MUST(third == 1 && !waywire_connection_data(client, surface));
	waywire_connection_forget(client, surface);
	MUST(!waywire_connection_set_data(client, surface, &other, on_gone));
	end_both();
	MUST(other == 2 && destroyed == 5);
}

/* Data of a server's object go after the request that destroys it. */
static void data_of_server(void)
{
	int one = 0;
	begin(NULL);
	waywire_wl_surface surface = make_surface();
	MUST(!waywire_wl_surface_commit(requests, surface));
	turn(1, 0);
	MUST(noted.data == &noted); /* it has none of its own */
	MUST(!waywire_connection_set_data(server, noted.surface.object, &one, on_gone));
	MUST(!waywire_wl_surface_commit(requests, surface));
	turn(1, 0);
	MUST(noted.data == &one && noted.commits == 2);
	noted.data = NULL;
	MUST(!waywire_wl_surface_destroy(requests, surface));
	turn(1, 1);
	MUST(noted.data == &one && one == 1);
	end_both();
	MUST(one == 1);
}

/* No report says that an event has destroyed an object. Its data are destroyed when other objects get data.
 * */
static void data_of_callbacks(void)
{
	int counts[1000] = { 0 };
	begin(NULL);
	waywire_wl_surface surface = make_surface();
	for (int i = 0; i < 1000; i++) {
		MUST(!waywire_wl_surface_frame(requests, surface, NULL));
		turn(1, 0);
		MUST(!waywire_connection_set_data(server, noted.callback.object, &counts[i],
			on_gone));
		if (i % 100) /* the others stay */
			MUST(!waywire_wl_callback_send_done(events, noted.callback, 0));
		turn(0, i % 100 ? 2 : 0);
		MUST(i - destroyed <= 100);
	}
	int before = destroyed;
	waywire_connection_forget(server, noted.callback.object); /* it is gone */
	MUST(destroyed == before);
	end_both();
	for (int i = 0; i < 1000; i++)
		MUST(counts[i] == 1);
}

/* Data of objects that the client has destroyed, while others get data. */
static void data_of_many(void)
{
	int counts[100] = { 0 };
	begin(NULL);
	for (int i = 0; i < 100; i++) {
		waywire_wl_surface surface;
		MUST(!waywire_wl_compositor_create_surface(requests, compositor, &surface));
		MUST(!waywire_connection_set_data(client, surface.object, &counts[i], on_gone));
		MUST(!waywire_wl_surface_destroy(requests, surface) && !destroyed);
	}
	turn(200, 100);
	MUST(destroyed == 100);
	end_both();
	for (int i = 0; i < 100; i++)
		MUST(counts[i] == 1);
}

/* What destroys data may use the connection. */
static void on_gone_with_another(void *data)
{
	waywire_object *other = data;
	destroyed++;
	if (!waywire_connection_data(client, *other))
		return;
	waywire_connection_forget(client, *other);
	waywire_connection_set_data(client, *other, NULL, NULL);
}

static void data_with_data(void)
{
	waywire_object surfaces[40];
	begin(NULL);
	for (int i = 0; i < 40; i++)
		surfaces[i] = make_surface().object;
	for (int i = 0; i < 40; i++)
		MUST(!waywire_connection_set_data(client, surfaces[i],
			&surfaces[(i + 1) % 40], on_gone_with_another));
	waywire_connection_forget(client, surfaces[7]);
	MUST(destroyed == 40);
	for (int i = 0; i < 40; i++)
		MUST(!waywire_connection_set_data(client, surfaces[i],
			&surfaces[(i + 1) % 40], on_gone_with_another));
	end_both();
	MUST(destroyed == 80);
}

/* ---- listeners */

static int heard_by_interface, heard_by_object;

static bool by_interface(const void *calls, void *data, const waywire_report *report)
{
	MUST(calls == &heard_by_interface && data == &display && report->kind == WAYWIRE_MESSAGE);
	heard_by_interface++;
	return true;
}

static bool by_object(const void *calls, void *data, const waywire_report *report)
{
	MUST(calls == &heard_by_object && data == &registry && report->kind == WAYWIRE_MESSAGE);
	MUST(report->user == data && !report->replaced_user);
	heard_by_object++;
	return true;
}

static bool of_display(const void *calls, void *data, const waywire_report *report)
{
	(void)calls;
	++*(int *)data;
	return report->kind == WAYWIRE_DELETED;
}

static void listens(void)
{
	int deleted = 0;
	waywire_listener listener = { "wl_callback", by_interface, &heard_by_interface };
	waywire_listener none = { "no_such", NULL, NULL };
	begin(NULL);
	MUST(waywire_connection_implement(client, &none, 1, NULL) == WAYWIRE_NOT_FOUND);
	MUST(!waywire_connection_implement(client, &listener, 0, NULL));
	MUST(!waywire_connection_implement(client, &listener, 1, &display));
	MUST(!waywire_connection_listen(client, display.object, of_display, NULL, &deleted));
	waywire_wl_callback first;
	MUST(!waywire_wl_display_sync(requests, display, &first));
	MUST(!waywire_wl_display_sync(requests, display, NULL));
	MUST(!waywire_connection_listen(client, first.object, by_object, &heard_by_object,
		&registry));
	turn(2, 4);
	MUST(heard_by_object == 1 && heard_by_interface == 1 && deleted == 2);
	listener.dispatch = NULL;
	MUST(!waywire_connection_implement(client, &listener, 1, NULL));
	MUST(!waywire_wl_display_sync(requests, display, NULL));
	turn(1, 2);
	MUST(heard_by_object == 1 && heard_by_interface == 1 && deleted == 3);
	MUST(waywire_connection_add_global(client, "wl_seat", 1, NULL) == WAYWIRE_NULL);
	MUST(waywire_connection_add_global(server, "no_such", 1, NULL) == WAYWIRE_NOT_FOUND);
	end_both();
}

/* ---- descriptors */

#define MOST WAYWIRE_SOCKET_DESCRIPTORS

/* Sends a part of the client's bytes. */
static void send_part(unsigned char *bytes, size_t length, const int *descriptors, size_t count)
{
	waywire_part parts[2] = { { bytes, length }, { NULL, 0 } };
	int socket = waywire_connection_fd(client);
	MUST(waywire_socket_send(socket, parts, descriptors, count) == (ssize_t)length);
}

/* As many pools as there may be descriptors in one message, which all go with its first byte, before
 * the first message is whole. */
static void many_at_once(void)
{
	unsigned char bytes[4096];
	uint32_t tokens[MOST];
	int descriptors[MOST];
	waywire_amounts taken;
	begin(NULL);
	for (int i = 1; i <= MOST; i++)
		MUST(!waywire_wl_shm_create_pool(requests, shm, new_descriptor(i), i, NULL));
	MUST(!waywire_end_take(requests.end, bytes, sizeof bytes, tokens, MOST, &taken));
	MUST(taken.tokens == MOST);
	for (int i = 0; i < MOST; i++)
		descriptors[i] = (int)tokens[i];
	send_part(bytes, 7, descriptors, MOST);
	for (int i = 0; i < MOST; i++)
		close(descriptors[i]);
	MUST(!waywire_connection_dispatch(server, 0));
	send_part(bytes + 7, taken.bytes - 7, NULL, 0);
	MUST(waywire_connection_dispatch(server, WAIT) == MOST);
	MUST(noted.pools == MOST && noted.last_length == MOST);
	end_both();
}

/* Descriptors that no callback gets, and those that were not sent. */
static void none_hears(void)
{
	int before = count_open();
	waywire_listener listener = { "wl_shm", NULL, NULL };
	begin(NULL);
	MUST(!waywire_connection_implement(server, &listener, 1, NULL));
	MUST(!waywire_wl_shm_create_pool(requests, shm, new_descriptor(1), 1, NULL));
	turn(1, 0);
	MUST(!noted.pools && count_open() == before + 2);
	for (int i = 0; i < 40; i++)
		MUST(!waywire_wl_shm_create_pool(requests, shm, new_descriptor(1), 1, NULL));
	MUST(count_open() == before + 42);
	end_both();
	MUST(count_open() == before);
}

static uint32_t pinged;

static bool on_ping(const void *calls, void *data, const waywire_report *report)
{
	(void)calls, (void)data;
	pinged += report->args[0].u;
	return true;
}

/* The tables of a client grow that nobody else has: its connection goes by those that came. */
static void more_tables(void)
{
	static const char text[] = "interface pinger 1\nevent ping u\n";
	static const waywire_listener listener = { "pinger", on_ping, NULL };
	waywire_tables *core = tables, *few = tables_over(core, ""), *more = tables_over(core, text);
	waywire_object pinger;
	waywire_arg number = waywire_uint(5);
	uint32_t name;
	int sockets[2];
	make_pair(sockets);
	tables = few;
	begin_client(sockets[0], NULL);
	tables = more;
	begin_server(sockets[1], NULL);
	tables = core;
	waywire_tables_free(few);
	waywire_tables_free(more);
	MUST(waywire_connection_implement(client, &listener, 1, NULL) == WAYWIRE_NOT_FOUND);
	MUST(!waywire_client_more_tables(requests, text, strlen(text), NULL, NULL));
	MUST(!waywire_connection_implement(client, &listener, 1, NULL));
	MUST(!waywire_connection_add_global(server, "pinger", 1, &name));
	registry = get_registry();
	turn(1, 1);
	MUST(!waywire_client_bind_unannounced(requests, registry.object, name, "pinger", 1, &pinger));
	turn(1, 0);
	MUST(!waywire_end_send(events.end, pinger, 0, &number, 1, NULL, NULL));
	MUST(!waywire_server_post_error(events, pinger, 3, "no") && !waywire_connection_flush(server));
	MUST(waywire_connection_dispatch(client, WAIT) == -1 && pinged == 5);
	MUST(!strcmp(waywire_connection_failure(client)->text, "pinger@3: error 3: no"));
	end_both();
}

int main(void)
{
	MUST(!waywire_tables_core(&tables));
	int before = count_open();
	waits();
	round_trips();
	answers_syncs();
	own_loop();
	data_of_client();
	data_of_server();
	data_of_callbacks();
	data_of_many();
	data_with_data();
	listens();
	many_at_once();
	none_hears();
	more_tables();
	MUST(count_open() == before);
	waywire_tables_free(tables);
	return 0;
}
