/* An end whose tables grow while it has objects: texts that are refused, when tables are freed, the version of a bind
 * that the server judges, and a global of an interface that both ends got later. What passes while tables grow, and which objects stay, is tested in fuzz.c and
 * in rust/waywire/tests/more_tables.rs, and what else such a bind does in
 * tests/rattle/test_scenes/data/unannounced.scenes. With an argument it also uses up all ids, which takes long under
 * valgrind. */
#include "pair.h"

static const waywire_sizes sizes = { 4096, 64, 4096, 64 };
static waywire_tables *core;

/* What is read over the core's tables, one after the other. The first has an event by which the server makes an
 * object. */
static const char first[] = "interface maker 1\nevent made N(thing)\n"
	"interface thing 3\nrequest set u\nrequest put u @3\n";
static const char second[] = "extend thing 4\nrequest turn i @4\ninterface later 7\nevent made N(later)\n";
static const char third[] = "extend thing 5\nrequest name s o(thing) @5\n";

enum { SET, PUT, TURN }; /* requests of a thing */
enum { NONE = 7 };       /* the name of a global that no server has */

static waywire_status grow(waywire_end *end, const char *text)
{
	return waywire_end_more_tables(end, text, strlen(text), NULL, NULL);
}

/* The interface and the version of an object that is live. */
static bool is_live(const waywire_end *end, waywire_object object, const char *interface, uint32_t version)
{
	uint16_t index;
	uint32_t found;
	return !waywire_end_live(end, object, &index, &found) && index == index_of(end, interface)
		&& found == version;
}

/* A message that is added without a since number is one of the old objects too. */
static void without_since(void)
{
	static const char text[] = "extend wl_shm 3\nrequest more u\nevent more u\n";
	static const uint32_t event[] = { 3, 12 << 16 | 1, 5 };
	waywire_client client;
	waywire_arg number = waywire_uint(5);
	waywire_amounts fed;
	waywire_report report;
	waywire_object shm;
	MUST(!waywire_client_new(core, &sizes, &client));
	MUST(!waywire_client_bind_unannounced(client, get_registry(client).object, NONE, "wl_shm", 1, &shm) && shm.id == 3);
	MUST(waywire_end_send(client.end, shm, 2, &number, 1, NULL, NULL) == WAYWIRE_NO_SUCH_MESSAGE);
	MUST(!grow(client.end, text) && is_live(client.end, shm, "wl_shm", 2));
	MUST(!waywire_end_send(client.end, shm, 2, &number, 1, NULL, NULL));
	MUST(!waywire_end_feed(client.end, event, sizeof event, NULL, 0, &fed));
	MUST(!waywire_end_next(client.end, &report) && report.kind == WAYWIRE_MESSAGE && report.args[0].u == 5);
	waywire_end_free(client.end);
}

/* A refused text: the status, the place of the fault, and nothing else changed or written. */
static void refused(waywire_end *end, const char *text, waywire_status wanted, size_t at, uint32_t broken)
{
	struct state before = state_of(end);
	size_t line = 77;
	uint32_t rule = 77;
	MUST(waywire_end_more_tables(end, text, strlen(text), &line, &rule) == wanted);
	MUST(line == at && rule == broken && is_state_of(end, before));
	MUST(grow(end, text) == wanted && is_state_of(end, before));
}

static void texts_at(waywire_end *end, waywire_object registry)
{
	MUST(waywire_end_tables(end) == core);
	MUST(!grow(end, "interface other 1\nrequest ask u\n") && waywire_end_tables(end) != core);
	refused(end, "interface one 1\n\nnonsense\n", WAYWIRE_BAD_LINE, 3, 77);
	refused(end, "request ask u\n", WAYWIRE_BAD_LINE, 1, 77);
	/* by the tables that it has now, and not by those that it had */
	refused(end, "interface one 1\ninterface other 1\n", WAYWIRE_BAD_TABLE, 2, 1);
	refused(end, "extend wl_display 2\n", WAYWIRE_BAD_TABLE, 1, 2);
	refused(end, "interface one 1\nrequest ask n(no)\n", WAYWIRE_BAD_TABLE, 2, 9);
	refused(end, "interface one 1\nevent made N(wl_callback)\n", WAYWIRE_BAD_TABLE, 2, 11);
	/* the first event by which the server makes an object; if the text has another fault too, that one is
	 * reported */
	refused(end, first, WAYWIRE_FIRST_SERVER_OBJECT, 77, 77);
	refused(end, "extend other 2\nevent made N(other)\n", WAYWIRE_FIRST_SERVER_OBJECT, 77, 77);
	refused(end, "interface one 1\nevent made N(one)\nnonsense\n", WAYWIRE_BAD_LINE, 3, 77);
	MUST(is_live(end, registry, "wl_registry", 1));
	MUST(!waywire_end_more_tables(end, NULL, 0, NULL, NULL));
	/* what was refused as a whole can come in part */
	MUST(!grow(end, "interface one 1\n") && newest(end, "one") == 1);
}

static void texts(void)
{
	struct pair pair;
	open_pair(&pair, core, &sizes);
	texts_at(pair.client.end, pair.registry.object);
	texts_at(pair.server.end, pair.registry.object);
	MUST(!strcmp(waywire_strerror(WAYWIRE_FIRST_SERVER_OBJECT), "first event by which the server makes an object"));
	close_pair(&pair);
}

/* A server tells a client that is connected of a global whose interface both got later, and makes objects of it. What
 * there was before stays. */
static void late_global(void)
{
	waywire_tables *few = tables_over(core, first);
	struct pair pair;
	waywire_object maker, later, made;
	waywire_arg new = waywire_new();
	uint16_t index;
	open_pair(&pair, few, &sizes);
	waywire_tables_free(few);
	maker = bound(&pair, "maker");
	MUST(!waywire_end_send(pair.server.end, maker, 0, &new, 1, &made, NULL));
	reads(pair.server.end, pair.client.end);
	MUST(waywire_tables_interface(waywire_end_tables(pair.server.end), "later", &index) == WAYWIRE_NOT_FOUND);
	MUST(!grow(pair.server.end, second) && !grow(pair.client.end, second));
	MUST(is_live(pair.server.end, maker, "maker", 1) && is_live(pair.server.end, made, "thing", 1));
	later = bound(&pair, "later");
	MUST(is_live(pair.server.end, later, "later", 7) && is_live(pair.client.end, later, "later", 7));
	MUST(!waywire_end_send(pair.server.end, later, 0, &new, 1, &made, NULL));
	reads(pair.server.end, pair.client.end);
	MUST(is_live(pair.server.end, made, "later", 7) && is_live(pair.client.end, made, "later", 7));
	close_pair(&pair);
}

/* A client that has failed can be given tables, too. */
static void of_a_failed_client(void)
{
	waywire_client client;
	size_t count;
	MUST(!waywire_client_new(core, &sizes, &client));
	MUST(!waywire_end_take_waiting_tokens(client.end, NULL, 0, &count) && waywire_end_has_failed(client.end));
	MUST(!grow(client.end, "interface one 1\n") && newest(client.end, "one") == 1);
	MUST(waywire_end_has_failed(client.end));
	waywire_end_free(client.end);
}

/* The tables that a client had are freed once, with the last that uses them: the caller, another end, an inspector,
 * or the client. */
static void freed_once(void)
{
	waywire_tables *few = tables_over(core, first);
	waywire_client one, other;
	waywire_inspector *inspector;
	waywire_arg new = waywire_new();
	uint16_t index;
	MUST(!waywire_client_new(few, &sizes, &one) && !waywire_client_new(few, &sizes, &other));
	MUST(!waywire_inspector_new(few, WAYWIRE_USUAL_LIMIT, &inspector));
	MUST(!grow(one.end, second)); /* the caller still has those before */
	MUST(waywire_tables_interface(few, "later", &index) == WAYWIRE_NOT_FOUND);
	waywire_tables_free(few);
	MUST(waywire_end_tables(other.end) == few && newest(other.end, "thing") == 3);
	MUST(!waywire_end_send(other.end, waywire_end_display(other.end), WAYWIRE_WL_DISPLAY_REQUEST_SYNC, &new, 1,
		NULL, NULL));
	/* an end that is made with a client's tables uses them as any other */
	waywire_client later;
	MUST(!waywire_client_new(waywire_end_tables(one.end), &sizes, &later));
	MUST(!grow(one.end, third) && newest(later.end, "thing") == 4 && newest(one.end, "thing") == 5);
	waywire_end_free(one.end);
	MUST(!grow(later.end, third) && newest(later.end, "thing") == 5);
	waywire_end_free(later.end);
	MUST(!grow(other.end, second)); /* the inspector is the last that has the first tables */
	waywire_end_free(other.end);
	waywire_inspector_free(inspector);
}

/* An object has the version that the tables had at its bind, also when they have grown. */
static void keeps_its_version(void)
{
	waywire_tables *few = tables_over(core, first);
	waywire_client client;
	waywire_arg number = waywire_int(5);
	waywire_object before, after;
	MUST(!waywire_client_new(few, &sizes, &client));
	waywire_tables_free(few);
	waywire_object registry = get_registry(client).object;
	MUST(!waywire_client_bind_unannounced(client, registry, NONE, "thing", 1, &before));
	MUST(!grow(client.end, second) && is_live(client.end, before, "thing", 3));
	MUST(waywire_end_send(client.end, before, TURN, &number, 1, NULL, NULL) == WAYWIRE_TOO_OLD);
	MUST(!waywire_client_bind_unannounced(client, registry, NONE, "thing", 1, &after));
	MUST(is_live(client.end, after, "thing", 4) && is_live(client.end, before, "thing", 3));
	MUST(!waywire_end_send(client.end, after, TURN, &number, 1, NULL, NULL));
	waywire_end_free(client.end);
}

/* All ids are used up; this is tested after the outbox. */
static void no_ids(void)
{
	waywire_client client;
	waywire_arg new = waywire_new();
	unsigned char bytes[4096];
	waywire_amounts taken;
	MUST(!waywire_client_new(core, &sizes, &client));
	waywire_object registry = get_registry(client).object, display = waywire_end_display(client.end);
	waywire_status status;
	do {
		status = waywire_end_send(client.end, display, WAYWIRE_WL_DISPLAY_REQUEST_SYNC, &new, 1, NULL, NULL);
		if (status == WAYWIRE_FULL)
			MUST(!waywire_end_take(client.end, bytes, sizeof bytes, NULL, 0, &taken));
	} while (!status || status == WAYWIRE_FULL);
	MUST(status == WAYWIRE_NO_IDS && waywire_end_object_count(client.end) == 1048576);
	MUST(!waywire_end_take(client.end, bytes, sizeof bytes, NULL, 0, &taken));
	MUST(waywire_client_bind_unannounced(client, registry, NONE, "wl_shm", 3, NULL) == WAYWIRE_BAD_BIND);
	MUST(waywire_client_bind_unannounced(client, registry, NONE, "wl_shm", 1, NULL) == WAYWIRE_NO_IDS);
	waywire_end_free(client.end);
}

int main(int argc, char **argv)
{
	(void)argv;
	MUST(!waywire_tables_core(&core));
	without_since();
	texts();
	late_global();
	of_a_failed_client();
	freed_once();
	keeps_its_version();
	if (argc > 1)
		no_ids();
	waywire_tables_free(core);
	return 0;
}
