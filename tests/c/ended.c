/* What a server's caller does in place of the library: it ends objects, answers faults in its own words, and asks
 * whether all was announced. */
#include "pair.h"

static const waywire_sizes sizes = { 4096, 64, 4096, 64, 0 };

/* A pair whose server has the tables where no request destroys, and an object of an interface that both have. */
static waywire_object open_unended(struct pair *pair, waywire_tables *of_client, waywire_tables *of_server,
	const char *interface)
{
	MUST(!waywire_client_new(of_client, &sizes, &pair->client));
	MUST(!waywire_server_new(of_server, &sizes, &pair->server));
	pair->display = waywire_wl_display_of(waywire_end_display(pair->client.end));
	pair->registry = get_registry(pair->client);
	server_reads(pair);
	return bound(pair, interface);
}

/* What tables say about a message of an interface. */
static waywire_message message_of(const waywire_tables *tables, const char *interface, waywire_sender sender,
	uint16_t opcode)
{
	waywire_message message;
	uint16_t index;
	MUST(!waywire_tables_interface(tables, interface, &index));
	MUST(!waywire_tables_message(tables, index, sender, opcode, &message, NULL, NULL));
	return message;
}

/* The tables differ from the core's in what requests destroy and in which version has an event, and in nothing
 * else. */
static void tables_without_ends(const waywire_tables *core, const waywire_tables *unended)
{
	const char *name, *other;
	size_t length, other_length, messages = 0;
	for (uint16_t index = 0; !waywire_tables_name(core, index, &name, &length); index++) {
		bool is_fixed = index < 3 || (length == 8 && !memcmp(name, "wl_fixes", 8));
		MUST(!waywire_tables_name(unended, index, &other, &other_length));
		MUST(length == other_length && !memcmp(name, other, length));
		for (int sender = WAYWIRE_FROM_CLIENT; sender <= WAYWIRE_FROM_SERVER; sender++) {
			waywire_message of_core, of_server;
			for (uint16_t opcode = 0; !waywire_tables_message(core, index, (waywire_sender)sender, opcode,
					&of_core, NULL, NULL); opcode++) {
				MUST(!waywire_tables_message(unended, index, (waywire_sender)sender, opcode, &of_server,
					NULL, NULL));
				bool is_event = sender == WAYWIRE_FROM_SERVER;
				MUST(of_server.since == (is_event ? 1 : of_core.since));
				MUST(of_server.destroys == (is_event || is_fixed ? of_core.destroys
					: WAYWIRE_DESTROYS_NOTHING));
				MUST(of_server.arg_count == of_core.arg_count);
				messages++;
			}
		}
	}
	MUST(messages > 90);
}

/* The client's destroy is read, an event that names the object is still written, and then its delete_id. */
static void ends_late(struct pair *pair, waywire_object compositor)
{
	waywire_wl_surface surface, of_server;
	waywire_object made;
	waywire_report report;
	MUST(!waywire_wl_compositor_create_surface(pair->client, waywire_wl_compositor_of(compositor), &surface));
	report = server_reads(pair);
	of_server = waywire_wl_surface_of(report.args[0].object);
	made = surface.object;
	MUST(!waywire_wl_surface_destroy(pair->client, surface));
	report = server_reads(pair);
	MUST(report.opcode == WAYWIRE_WL_SURFACE_REQUEST_DESTROY);
	MUST(waywire_object_equal(report.target, of_server.object));
	MUST(!waywire_end_live(pair->server.end, of_server.object, NULL, NULL));
	MUST(waywire_end_is_drained(pair->server.end));
	MUST(!waywire_wl_surface_send_preferred_buffer_scale(pair->server, of_server, 2));
	MUST(!waywire_server_end_object(pair->server, of_server.object));
	MUST(waywire_server_end_object(pair->server, of_server.object) == WAYWIRE_STALE);
	to_client(pair);
	MUST(!waywire_end_next(pair->client.end, &report) && report.kind == WAYWIRE_DISCARDED);
	MUST(waywire_object_equal(report.target, made));
	MUST(!waywire_end_next(pair->client.end, &report) && report.kind == WAYWIRE_DELETED);
	MUST(waywire_object_equal(report.target, made));
}

/* An id that was ended is free at once. */
static void uses_ids_again(struct pair *pair, waywire_object compositor)
{
	for (int i = 0; i < 1000; i++)
		ends_late(pair, compositor);
	MUST(waywire_end_object_count(pair->server.end) == 3);
	MUST(waywire_server_end_object(pair->server, pair->registry.object) == WAYWIRE_NOT_DROPPABLE);
	MUST(waywire_server_end_object(pair->server, pair->display.object) == WAYWIRE_NOT_DROPPABLE);
}

static void feed(waywire_server server, const void *bytes, size_t length)
{
	waywire_amounts fed;
	MUST(!waywire_end_feed(server.end, bytes, length, NULL, 0, &fed) && fed.bytes == length);
}

static waywire_report read_fault(waywire_server server, waywire_status wanted)
{
	waywire_report report;
	MUST(waywire_server_next_unanswered(server, &report) == wanted && report.kind == WAYWIRE_FAULT);
	MUST(!waywire_end_has_failed(server.end) && !waywire_end_goes(server.end, 9, 0).bytes);
	return report;
}

/* Reads a fault again and again, and returns its report, which is the same each time. */
static waywire_report left_fault(waywire_server server, waywire_status wanted)
{
	waywire_report first = read_fault(server, wanted);
	for (int i = 0; i < 3; i++) {
		waywire_report report = read_fault(server, wanted);
		MUST(report.id == first.id && report.opcode == first.opcode && report.text_length == first.text_length);
	}
	return read_fault(server, wanted);
}

static waywire_server new_server(const waywire_tables *tables)
{
	waywire_server server;
	MUST(!waywire_server_new(tables, &sizes, &server));
	return server;
}

/* An unknown object: the report has its id, the opcode and the bytes, and the caller's answer is the only one. */
static void answers_itself(const waywire_tables *tables)
{
	static const unsigned char commit[] = { 99, 0, 0, 0, 6, 0, 8, 0, 1 };
	static const char text[] = "invalid object 99";
	waywire_server server = new_server(tables);
	waywire_client client;
	waywire_report report;
	feed(server, commit, sizeof commit);
	report = left_fault(server, WAYWIRE_FAULT_UNKNOWN_OBJECT);
	MUST(report.id == 99 && report.opcode == 6 && !report.target.id && !report.arg_count);
	MUST(report.text_length == 8 && !memcmp(report.text, commit, 8));
	MUST(!waywire_server_post_error(server, waywire_end_display(server.end), 0, text));
	MUST(waywire_server_next_unanswered(server, &report) == WAYWIRE_FAILED && report.kind == WAYWIRE_NOTHING);
	MUST(!waywire_client_new(tables, &sizes, &client));
	carry(server.end, client.end);
	MUST(!waywire_end_next(client.end, &report) && report.kind == WAYWIRE_ERROR);
	MUST(report.text_length == strlen(text) && !memcmp(report.text, text, report.text_length));
	waywire_end_free(client.end);
	waywire_end_free(server.end);
}

/* A bind of nothing, at each place of the ring of the inbox: its bytes are in one piece, and say what it names. */
static void reads_bad_bind(const waywire_tables *tables)
{
	static const uint32_t get_registry[] = { 1, 12 << 16 | 1, 2 };
	static const uint32_t sync[] = { 1, 12 << 16, 3 };
	static const uint32_t bind[] = { 2, 40 << 16, 7, 14, 0x635f6c77, 0x6f706d6f, 0x6f746973, 'r', 9, 3 };
	for (int syncs = 0; syncs < 400; syncs++) {
		waywire_server server = new_server(tables);
		waywire_decoded decoded;
		waywire_report report;
		uint16_t registry;
		feed(server, get_registry, sizeof get_registry);
		MUST(!waywire_server_next_unanswered(server, &report) && report.kind == WAYWIRE_MESSAGE);
		for (int i = 0; i < syncs; i++) {
			feed(server, sync, sizeof sync);
			MUST(!waywire_server_next_unanswered(server, &report));
			MUST(!waywire_server_drop_object(server, report.args[0].object));
			MUST(waywire_end_sent(server.end, 12).bytes == 12);
		}
		feed(server, bind, sizeof bind);
		report = left_fault(server, WAYWIRE_FAULT_BAD_BIND);
		MUST(report.id == 2 && report.opcode == WAYWIRE_WL_REGISTRY_REQUEST_BIND);
		MUST(report.text_length == sizeof bind && !memcmp(report.text, bind, sizeof bind));
		MUST(!waywire_tables_interface(tables, "wl_registry", &registry));
		MUST(!waywire_tables_decode(tables, registry, 1, WAYWIRE_FROM_CLIENT, report.text, report.text_length,
			&decoded));
		MUST(decoded.args[0].u == 7 && decoded.args[1].u == 9 && decoded.args[1].length == 13);
		MUST(!memcmp(decoded.args[1].bytes, "wl_compositor", 13));
		waywire_end_free(server.end);
	}
}

/* Of a bad size there is the header, and of what is not whole nothing. */
static void reads_bad_size(const waywire_tables *tables)
{
	static const unsigned char bad[] = { 5, 0, 0, 0, 2, 0, 7, 0, 1, 1 };
	waywire_server server = new_server(tables);
	waywire_report report;
	feed(server, bad, 7);
	MUST(!waywire_server_next_unanswered(server, &report) && report.kind == WAYWIRE_NOTHING && !report.text_length);
	feed(server, bad + 7, 3);
	report = left_fault(server, WAYWIRE_FAULT_BAD_SIZE);
	MUST(report.id == 5 && report.opcode == 2 && report.text_length == 8 && !memcmp(report.text, bad, 8));
	MUST(waywire_end_next(server.end, &report) == WAYWIRE_FAULT_BAD_SIZE && !report.id && !report.text_length);
	waywire_end_free(server.end);
}

/* A missing descriptor is no fault any more once it is there. */
static void waits_for_descriptor(const waywire_tables *tables)
{
	static const uint32_t words[] = { 1, 12 << 16 | 1, 2, 2, 32 << 16, 1, 7, 0x735f6c77, 'm' << 8 | 'h', 1, 3,
		3, 16 << 16, 4, 64 };
	waywire_server server = new_server(tables);
	waywire_amounts fed;
	waywire_report report;
	uint32_t token = 5;
	uint16_t shm;
	MUST(!waywire_tables_interface(tables, "wl_shm", &shm) && !waywire_server_add_global(server, shm, 1, NULL));
	feed(server, words, sizeof words);
	for (int i = 0; i < 2; i++)
		MUST(!waywire_server_next_unanswered(server, &report) && report.kind == WAYWIRE_MESSAGE);
	left_fault(server, WAYWIRE_FAULT_MISSING_DESCRIPTOR);
	MUST(!waywire_end_feed(server.end, NULL, 0, &token, 1, &fed) && fed.tokens == 1);
	MUST(!waywire_server_next_unanswered(server, &report) && report.token_count == 1 && report.tokens[0] == 5);
	waywire_end_free(server.end);
}

/* Whether all was announced, where the outbox has room for one event less than all. */
static void announces(const waywire_tables *tables)
{
	static const uint32_t get_registry[] = { 1, 12 << 16 | 1, 2 };
	waywire_sizes small = { 80, 0, 4096, 20, 0 };
	waywire_server server;
	waywire_report report;
	size_t count = 7;
	bool all = false;
	uint16_t seat;
	MUST(!waywire_server_new(tables, &small, &server) && !waywire_tables_interface(tables, "wl_seat", &seat));
	for (int i = 0; i < 3; i++)
		MUST(!waywire_server_add_global(server, seat, 9, NULL));
	MUST(!waywire_server_announce(server, &count, &all) && !count && all);
	feed(server, get_registry, sizeof get_registry);
	MUST(!waywire_end_next(server.end, &report));
	MUST(!waywire_server_announce(server, &count, &all) && count == 2 && !all);
	MUST(!waywire_server_announce(server, NULL, &all) && !all);
	MUST(waywire_end_sent(server.end, 80).bytes == 56);
	MUST(!waywire_server_announce(server, &count, &all) && count == 1 && all);
	MUST(!waywire_server_post_error(server, waywire_end_display(server.end), 0, "x"));
	count = 7;
	all = false;
	MUST(waywire_server_announce(server, &count, &all) == WAYWIRE_FAILED && count == 7 && !all);
	waywire_end_free(server.end);
}

/* How many globals a server may add: 1,024, or as many as it is allowed, up to a number. */
static void many_globals(const waywire_tables *tables)
{
	waywire_server server = new_server(tables);
	uint32_t name;
	uint16_t seat;
	MUST(!waywire_tables_interface(tables, "wl_seat", &seat));
	for (uint32_t i = 1; i <= 1024; i++)
		MUST(!waywire_server_add_global(server, seat, 9, &name) && name == i);
	MUST(waywire_server_add_global(server, seat, 9, &name) == WAYWIRE_TOO_MANY_GLOBALS && name == 1024);
	MUST(!waywire_server_allow_globals(server, SIZE_MAX));
	for (uint32_t i = 1025; i <= WAYWIRE_MOST_GLOBALS; i++)
		MUST(!waywire_server_add_global(server, seat, 9, &name) && name == i);
	MUST(waywire_server_add_global(server, seat, 9, NULL) == WAYWIRE_TOO_MANY_GLOBALS);
	MUST(!waywire_server_withdraw(server, WAYWIRE_MOST_GLOBALS));
	MUST(waywire_server_add_global(server, seat, 9, NULL) == WAYWIRE_TOO_MANY_GLOBALS);
	waywire_end_free(server.end);
}

/* An error takes 127 bytes of text. Of a longer one the rest is cut, but no character of UTF-8. */
static void long_errors(const waywire_tables *tables)
{
	static const struct { size_t plain; const char *last; size_t written; } texts[] = {
		{ 127, "", 127 }, { 128, "", 127 }, { 300, "", 127 }, { 125, "\xc3\xa9", 127 }, { 126, "\xc3\xa9", 126 },
		{ 124, "\xf0\x9f\x98\x80", 124 }, { 123, "\xf0\x9f\x98\x80", 127 },
	};
	for (size_t i = 0; i < sizeof texts / sizeof *texts; i++) {
		char text[320] = { 0 };
		waywire_sizes none = { 0, 0, 4096, 20, 0 };
		waywire_server server;
		waywire_client client;
		waywire_report report;
		memset(text, 'a', texts[i].plain);
		strcat(text, texts[i].last);
		MUST(!waywire_server_new(tables, &none, &server) && !waywire_client_new(tables, &sizes, &client));
		MUST(!waywire_server_post_error(server, waywire_end_display(server.end), 3, text));
		MUST(carry(server.end, client.end) == 20 + (texts[i].written + 4) / 4 * 4);
		MUST(!waywire_end_next(client.end, &report) && report.kind == WAYWIRE_ERROR && report.code == 3);
		MUST(report.text_length == texts[i].written && !memcmp(report.text, text, report.text_length));
		waywire_end_free(client.end);
		waywire_end_free(server.end);
	}
}

int main(void)
{
	struct pair pair;
	waywire_tables *core, *unended;
	MUST(!waywire_tables_core(&core) && !waywire_tables_core_unended(&unended));
	MUST(waywire_tables_core_unended(NULL) == WAYWIRE_NULL);
	MUST(message_of(unended, "wl_surface", WAYWIRE_FROM_CLIENT, 0).destroys == WAYWIRE_DESTROYS_NOTHING);
	MUST(message_of(unended, "wl_output", WAYWIRE_FROM_SERVER, WAYWIRE_WL_OUTPUT_EVENT_DONE).since == 1);
	tables_without_ends(core, unended);
	uses_ids_again(&pair, open_unended(&pair, core, unended, "wl_compositor"));
	close_pair(&pair);
	answers_itself(core);
	reads_bad_bind(core);
	reads_bad_size(core);
	waits_for_descriptor(core);
	announces(core);
	many_globals(core);
	long_errors(core);
	waywire_tables_free(unended);
	waywire_tables_free(core);
	return 0;
}
