/* Each allocation of a call of a connection refused in turn: the call says so, leaves everything
 * as it was, and can be made again. The program is linked with `--wrap` for each function of
 * memory. */
#define _GNU_SOURCE
#include "connected.h"
#include "refusing.h"

/* Objects that the server makes. */
static const char text[] = "interface maker 1\nevent made N(thing)\n"
	"interface thing 1\nrequest destroy D\n";

static waywire_connection *made;
static waywire_listening_socket *listening;
static waywire_object object;
static int pair[2], data, destroyed, heard;

static void on_gone(void *given)
{
	MUST(given == &data);
	destroyed++;
}

static bool on_report(const void *calls, void *given, const waywire_report *report)
{
	(void)calls, (void)given;
	heard += report->kind == WAYWIRE_MESSAGE;
	return true;
}

/* ---- calls that are refused: each returns whether it was made, or why not */

static bool no_memory(bool is_done)
{
	MUST(is_done || errno == ENOMEM);
	return is_done;
}

static bool of_status(waywire_status status)
{
	MUST(!status || status == WAYWIRE_NO_MEMORY);
	return !status;
}

static bool makes_client(void)
{
	return no_memory((made = waywire_connection_of_client(tables, NULL, pair[0])) != NULL);
}

static bool makes_server(void)
{
	return no_memory((made = waywire_connection_of_server(tables, NULL, pair[0])) != NULL);
}

/* It connects last, so nothing is lost before. */
static bool connects(void)
{
	char number[16];
	snprintf(number, sizeof number, "%d", pair[0]);
	MUST(!setenv("WAYLAND_SOCKET", number, 1));
	made = waywire_connection_connect(tables, NULL, NULL);
	MUST(made || getenv("WAYLAND_SOCKET"));
	return no_memory(made);
}

static bool listens_at(void)
{
	return no_memory((listening = waywire_socket_listen(NULL)) != NULL);
}

static bool listens(void)
{
	return of_status(waywire_connection_listen(client, object, on_report, NULL, NULL));
}

static bool sets_data(void)
{
	return of_status(waywire_connection_set_data(client, object, &data, on_gone));
}

static bool implements(void)
{
	static const waywire_listener listeners[] = {
		{ "wl_callback", on_report, NULL }, { "wl_seat", on_report, NULL } };
	return of_status(waywire_connection_implement(client, listeners, 2, NULL));
}

static bool goes_round(void)
{
	int count = waywire_connection_roundtrip(client, 0);
	MUST(count <= 0);
	return no_memory(!count);
}

/* The message stays, and is read by a later call. */
static bool dispatches_at_server(void)
{
	int count = waywire_connection_dispatch(server, 0);
	return no_memory(count == 1);
}

static bool dispatches_at_client(void)
{
	int count = waywire_connection_dispatch(client, 0);
	return no_memory(count == 1);
}

/* ---- both ends */

static void begin(void)
{
	begin_both(NULL, NULL);
	MUST(!waywire_connection_add_global(server, "maker", 1, NULL));
}

/* A new object of the client's, which the server knows. */
static void make_object(void)
{
	object = get_registry().object;
	MUST(!waywire_connection_flush(client));
	MUST(waywire_connection_dispatch(server, WAIT) == 1 && !waywire_connection_flush(server));
	MUST(waywire_connection_dispatch(client, WAIT) == 1);
}

static void makes(void)
{
	static const struct {
		const char *name;
		bool (*call)(void);
	} all[] = { { "a client", makes_client }, { "a server", makes_server },
		{ "a client that connects", connects } };
	for (int i = 0; i < 3; i++) {
		make_pair(pair);
		each_refused(all[i].name, all[i].call, false);
		waywire_connection_close(made);
		close(pair[1]);
	}
	each_refused("a listening socket", listens_at, false);
	waywire_listening_socket_close(listening);
}

static void keeps(void)
{
	begin();
	make_object();
	each_refused("a listener", listens, false);
	make_object();
	each_refused("data", sets_data, false);
	MUST(!destroyed && waywire_connection_data(client, object) == &data);
	each_refused("listeners of interfaces", implements, false);
	end_both();
	MUST(destroyed == 1);
}

static void reads(void)
{
	begin();
	each_refused("a round trip", goes_round, true);
	while (waywire_connection_dispatch(server, 0) > 0)
		;
	MUST(!waywire_connection_failure(server));
	object = get_registry().object;
	MUST(!waywire_connection_flush(client));
	each_refused("a request", dispatches_at_server, true);
	MUST(!waywire_connection_flush(server) && waywire_connection_dispatch(client, WAIT) >= 1);
	waywire_object maker, thing;
	waywire_arg new = waywire_new();
	MUST(!waywire_client_bind(requests, object, 1, "maker", 1, &maker));
	MUST(!waywire_connection_listen(client, maker, on_report, NULL, NULL));
	MUST(!waywire_connection_flush(client) && waywire_connection_dispatch(server, WAIT) == 1);
	MUST(!waywire_end_send(events.end, maker, 0, &new, 1, &thing, NULL));
	MUST(!waywire_connection_flush(server));
	each_refused("an event that makes an object", dispatches_at_client, true);
	MUST(heard == 1 && !waywire_end_live(requests.end, thing, NULL, NULL));
	end_both();
}

int main(int count, char **words)
{
	MUST(count == 2 && !setenv("XDG_RUNTIME_DIR", words[1], 1));
	int open = count_open();
	long before = used;
	tables = core_and(text);
	makes();
	keeps();
	reads();
	waywire_tables_free(tables);
	MUST(used == before && count_open() == open);
	return 0;
}
