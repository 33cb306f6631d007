/* Each allocation of a call refused in turn: the call says so, nothing is lost and nothing is written. */
#include "refusing.h"

#include <string.h>

static const waywire_sizes sizes = { 4096, 64, 4096, 64 };
static const char text[] = "interface wp_one 2\nrequest destroy D\nrequest name ?s\nevent done u @2\n"
	"interface wp_two 1\nevent at f f\n";
static waywire_tables *core, *made_tables;
static waywire_client client;
static waywire_server server;
static waywire_inspector *inspector, *passing;

/* Whether a call was made, which has left nothing if its memory was refused. */
static bool is_made(waywire_status status)
{
	MUST(!status || status == WAYWIRE_NO_MEMORY);
	MUST(!status || (!made_tables && !client.end && !server.end && !inspector));
	return !status;
}

static bool makes_core(void)
{
	return is_made(waywire_tables_core(&made_tables));
}

static bool makes_core_unended(void)
{
	return is_made(waywire_tables_core_unended(&made_tables));
}

static bool reads(void)
{
	return is_made(waywire_tables_read(core, text, strlen(text), &made_tables, NULL, NULL));
}

static bool makes_client(void)
{
	return is_made(waywire_client_new(core, &sizes, &client));
}

static bool makes_server(void)
{
	return is_made(waywire_server_new(core, &sizes, &server));
}

static bool makes_inspector(void)
{
	return is_made(waywire_inspector_new(core, WAYWIRE_USUAL_LIMIT, &inspector));
}

static void frees(void)
{
	waywire_tables_free(made_tables);
	waywire_end_free(client.end);
	waywire_end_free(server.end);
	waywire_inspector_free(inspector);
	made_tables = NULL;
	client.end = NULL;
	server.end = NULL;
	inspector = NULL;
}

static void makes(const char *name, bool (*call)(void))
{
	long before = used;
	each_refused(name, call, false);
	frees();
	MUST(used == before);
}

static const char lawful[] = "lawful: 1 requests, 0 events, 0 and 0 bytes left\n";
static const char line[] = "-> wl_display@1.sync(new id wl_callback@2)\n";

/* Whether the inspector's last piece printed this. */
static bool has_lines(const char *wanted)
{
	size_t length;
	const char *lines = waywire_inspector_lines(passing, &length);
	return length == strlen(wanted) && !memcmp(lines, wanted, length);
}

static bool is_done(waywire_status status)
{
	MUST(!status || status == WAYWIRE_NO_MEMORY);
	return !status;
}

/* A piece whose allocations are refused is not passed, and passes once they are granted. */
static bool passes(void)
{
	static const unsigned char sync[] = { 1, 0, 0, 0, 0, 0, 12, 0, 2, 0, 0, 0 };
	waywire_status status = waywire_inspector_pass(passing, WAYWIRE_FROM_CLIENT, sync, sizeof sync, 0);
	MUST(has_lines(status ? "" : line));
	return is_done(status);
}

/* A verdict that is refused leaves the inspector as it was. */
static bool judges(void)
{
	const char *text = line;
	size_t length = 7;
	bool broken = true;
	waywire_status status = waywire_inspector_verdict(passing, &text, &length, &broken);
	if (status)
		MUST(text == line && length == 7 && broken);
	else
		MUST(!broken && length == strlen(lawful) && !memcmp(text, lawful, length));
	MUST(has_lines(line));
	return is_done(status);
}

/* A client with the core's tables, and a registry of it to which no global was announced. */
static waywire_client growing;
static waywire_object registry;

static void opens_client(void)
{
	waywire_arg new = waywire_new();
	MUST(!waywire_client_new(core, &sizes, &growing));
	waywire_object display = waywire_end_display(growing.end);
	MUST(!waywire_end_send(growing.end, display, WAYWIRE_WL_DISPLAY_REQUEST_GET_REGISTRY, &new, 1, &registry,
		NULL));
	for (int i = 0; i < 2; i++) /* the room made for ids is used up */
		MUST(!waywire_end_send(growing.end, display, WAYWIRE_WL_DISPLAY_REQUEST_SYNC, &new, 1, NULL, NULL));
}

/* A text that is refused leaves the tables of its end. */
static bool grows(waywire_end *end)
{
	const waywire_tables *before = waywire_end_tables(end);
	long blocks = used;
	size_t line = 7;
	uint32_t rule = 7;
	uint16_t index;
	waywire_status status = waywire_end_more_tables(end, text, strlen(text), &line, &rule);
	const waywire_tables *now = waywire_end_tables(end);
	MUST(line == 7 && rule == 7 && (now == before) == (status != WAYWIRE_OK));
	MUST(waywire_tables_interface(now, "wp_two", &index) == (status ? WAYWIRE_NOT_FOUND : WAYWIRE_OK));
	MUST(!status || used == blocks);
	return is_done(status);
}

static bool client_grows(void)
{
	return grows(growing.end);
}

/* A bind that is refused writes nothing, and opens no object. */
static bool binds_unannounced(void)
{
	waywire_object bound = { 7, 7 };
	size_t bytes = waywire_end_goes(growing.end, 4096, 0).bytes, count = waywire_end_object_count(growing.end);
	waywire_status status = waywire_client_bind_unannounced(growing, registry, 1, "wp_two", 1, &bound);
	bool is_written = waywire_end_goes(growing.end, 4096, 0).bytes > bytes;
	MUST(is_written == !status && waywire_end_object_count(growing.end) == count + is_written);
	MUST(status ? bound.id == 7 && bound.birth == 7 : bound.id == 5 && bound.birth == 4);
	return is_done(status);
}

/* A server that answers no fault, and the sync that it reads. */
static waywire_server unanswering;

static void opens_server(void)
{
	static const unsigned char syncs[] = { 1, 0, 0, 0, 0, 0, 12, 0, 2, 0, 0, 0 };
	waywire_amounts fed;
	MUST(!waywire_server_new(core, &sizes, &unanswering));
	MUST(!waywire_end_feed(unanswering.end, syncs, sizeof syncs, NULL, 0, &fed));
}

static bool server_grows(void)
{
	return grows(unanswering.end);
}

/* A request that is refused memory stays, and opens no object. */
static bool reads_unanswered(void)
{
	waywire_report report;
	waywire_status status = waywire_server_next_unanswered(unanswering, &report);
	MUST(report.kind == (status ? WAYWIRE_NOTHING : WAYWIRE_MESSAGE) && !waywire_end_has_failed(unanswering.end));
	MUST(waywire_end_object_count(unanswering.end) == (status ? 1 : 2));
	MUST(waywire_end_is_drained(unanswering.end) == !status);
	MUST(status || (report.opcode == WAYWIRE_WL_DISPLAY_REQUEST_SYNC && report.args[0].object.id == 2));
	return is_done(status);
}

int main(void)
{
	long before = used;
	MUST(!waywire_tables_core(&core));
	makes("core tables", makes_core);
	makes("core tables of a server whose caller ends objects", makes_core_unended);
	makes("tables of a text", reads);
	makes("a client", makes_client);
	makes("a server", makes_server);
	makes("an inspector", makes_inspector);
	MUST(!waywire_inspector_new(core, WAYWIRE_USUAL_LIMIT, &passing));
	each_refused("a piece", passes, true);
	each_refused("a verdict", judges, true);
	waywire_inspector_free(passing);
	opens_client();
	each_refused("more tables of a client", client_grows, true);
	each_refused("a bind that was not announced", binds_unannounced, true);
	waywire_end_free(growing.end);
	opens_server();
	each_refused("a request that is not answered", reads_unanswered, true);
	each_refused("more tables of a server", server_grows, true);
	waywire_end_free(unanswering.end);
	MUST(waywire_tables_read(core, "nonsense", 8, &made_tables, NULL, NULL) == WAYWIRE_BAD_LINE);
	waywire_tables_free(core);
	MUST(used == before);
	return 0;
}
