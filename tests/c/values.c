/* Wrong values are statuses: null, lengths, kinds, sizes, opcodes, indices; and each status has a text. A call that
 * returns no status takes a null end for one that has failed. */
#include "pair.h"

static const waywire_sizes sizes = { 65536, 64, 4096, 20 };
static waywire_tables *tables;
static waywire_client client;
static waywire_server server;
static waywire_object display = { 0, 1 };

static void nulls(void)
{
	waywire_amounts amounts;
	waywire_report report;
	uint16_t interface;
	size_t count = 7;
	MUST(waywire_tables_core(NULL) == WAYWIRE_NULL);
	MUST(waywire_tables_interface(NULL, "wl_seat", &interface) == WAYWIRE_NULL);
	MUST(waywire_end_object_after(NULL, 0, &display) == WAYWIRE_NULL);
	MUST(waywire_end_object_after(client.end, 0, NULL) == WAYWIRE_NULL);
	MUST(waywire_tables_interface(tables, NULL, &interface) == WAYWIRE_NULL);
	MUST(waywire_client_new(tables, NULL, &client) == WAYWIRE_NULL);
	MUST(waywire_end_next(NULL, &report) == WAYWIRE_NULL);
	MUST(waywire_end_next(server.end, NULL) == WAYWIRE_NULL);
	MUST(waywire_end_take(client.end, NULL, 1, NULL, 0, &amounts) == WAYWIRE_NULL);
	MUST(waywire_end_take(client.end, NULL, 0, NULL, 1, &amounts) == WAYWIRE_NULL);
	MUST(waywire_end_take(client.end, NULL, 0, NULL, 0, &amounts) == WAYWIRE_OK);
	MUST(waywire_end_take_waiting_tokens(client.end, NULL, 1, &count) == WAYWIRE_NULL);
	MUST(waywire_end_take_waiting_tokens(client.end, NULL, 0, NULL) == WAYWIRE_NULL);
	MUST(waywire_end_take_waiting_tokens(NULL, NULL, 0, &count) == WAYWIRE_NULL && count == 7);
	MUST(waywire_end_feed(server.end, NULL, 4, NULL, 0, &amounts) == WAYWIRE_NULL);
	MUST(waywire_end_feed(server.end, NULL, 0, NULL, 0, &amounts) == WAYWIRE_OK);
	MUST(waywire_end_send(client.end, display, 0, NULL, 1, NULL, NULL) == WAYWIRE_NULL);
	MUST(waywire_client_bind(client, display, 1, NULL, 1, NULL) == WAYWIRE_NULL);
	MUST(waywire_client_bind_unannounced(client, display, 1, NULL, 1, NULL) == WAYWIRE_NULL);
	MUST(waywire_client_more_tables(client, NULL, 1, NULL, NULL) == WAYWIRE_NULL);
	MUST(waywire_server_post_error(server, display, 0, NULL) == WAYWIRE_NULL);
	waywire_tables_free(NULL);
	waywire_end_free(NULL);
}

static bool is_none(waywire_amounts amounts)
{
	return !amounts.bytes && !amounts.tokens;
}

/* The calls of one end alone without their end, or without what they write to. */
static void null_of_one_end(void)
{
	static const waywire_client no_client = { NULL };
	static const waywire_server no_server = { NULL };
	waywire_object made = { 7, 7 };
	waywire_report report;
	MUST(waywire_client_new(tables, &sizes, NULL) == WAYWIRE_NULL);
	MUST(waywire_client_bind(no_client, display, 1, "wl_seat", 1, &made) == WAYWIRE_NULL);
	MUST(waywire_client_bind_unannounced(no_client, display, 1, "wl_seat", 1, &made) == WAYWIRE_NULL);
	MUST(waywire_client_more_tables(no_client, "", 0, NULL, NULL) == WAYWIRE_NULL);
	MUST(waywire_client_made(no_client, &made) == WAYWIRE_NULL && made.id == 7 && made.birth == 7);
	MUST(waywire_client_made(client, NULL) == WAYWIRE_NULL);
	MUST(waywire_server_new(tables, &sizes, NULL) == WAYWIRE_NULL);
	MUST(waywire_server_add_global(no_server, 0, 1, NULL) == WAYWIRE_NULL);
	MUST(waywire_server_withdraw(no_server, 1) == WAYWIRE_NULL);
	MUST(waywire_server_allow_globals(no_server, 2000) == WAYWIRE_NULL);
	MUST(waywire_server_announce(no_server, NULL, NULL) == WAYWIRE_NULL);
	MUST(waywire_server_drop_object(no_server, display) == WAYWIRE_NULL);
	MUST(waywire_server_end_object(no_server, display) == WAYWIRE_NULL);
	MUST(waywire_server_next_unanswered(no_server, &report) == WAYWIRE_NULL);
	MUST(waywire_server_next_unanswered(server, NULL) == WAYWIRE_NULL);
	MUST(waywire_server_post_error(no_server, display, 0, "x") == WAYWIRE_NULL);
}

/* What calls without a status return for null. */
static void null_end(void)
{
	char byte;
	waywire_part parts[2] = { { &byte, 1 }, { &byte, 1 } };
	size_t length = 7;
	MUST(!waywire_end_display(NULL).id && !waywire_end_display(NULL).birth);
	MUST(!waywire_end_object_count(NULL) && !waywire_end_user(NULL, display));
	MUST(!waywire_end_tables(NULL));
	MUST(waywire_end_has_failed(NULL) && waywire_end_is_drained(NULL));
	MUST(is_none(waywire_end_in_room(NULL)) && is_none(waywire_end_out_room(NULL)));
	MUST(!waywire_end_writes(NULL));
	waywire_end_on_full(NULL, NULL, NULL);
	MUST(is_none(waywire_end_goes(NULL, 9, 9)));
	MUST(is_none(waywire_end_sent(NULL, 9)));
	waywire_end_space(NULL, parts);
	MUST(!parts[0].length && !parts[1].length && !parts[0].bytes && !parts[1].bytes);
	waywire_end_space(NULL, NULL);
	waywire_end_space(client.end, NULL);
	MUST(!waywire_inspector_lines(NULL, &length) && !length);
	MUST(!waywire_inspector_lines(NULL, NULL));
}

static void lengths(void)
{
	waywire_part parts[2];
	size_t count = 7;
	waywire_amounts amounts;
	char byte = 0;
	uint32_t token = 0;
	waywire_arg args[21];
	size_t index = 9;
	MUST(waywire_end_feed(client.end, &byte, SIZE_MAX, NULL, 0, &amounts) == WAYWIRE_TOO_LARGE);
	MUST(waywire_end_feed(client.end, &byte, 0, &token, SIZE_MAX / 4, &amounts)
		== WAYWIRE_TOO_LARGE);
	MUST(waywire_end_peek(client.end, parts, &token, SIZE_MAX / 4, &count) == WAYWIRE_TOO_LARGE);
	MUST(waywire_end_peek(client.end, parts, NULL, 1, &count) == WAYWIRE_NULL && count == 7);
	MUST(!waywire_end_peek(client.end, parts, NULL, 0, &count) && !count);
	MUST(waywire_client_more_tables(client, &byte, SIZE_MAX, NULL, NULL) == WAYWIRE_TOO_LARGE);
	args[0] = waywire_array(&byte, (size_t)PTRDIFF_MAX + 1);
	MUST(waywire_end_send(client.end, display, 0, args, 1, NULL, NULL) == WAYWIRE_TOO_LARGE);
	args[0] = waywire_array(NULL, 1);
	MUST(waywire_end_send(client.end, display, 0, args, 1, NULL, NULL) == WAYWIRE_NULL);
	for (size_t i = 0; i < 21; i++)
		args[i] = waywire_new();
	MUST(waywire_end_send(client.end, display, 0, args, 21, NULL, &index) == WAYWIRE_WRONG_ARGS);
	MUST(index == 1);
	MUST(waywire_end_send(client.end, display, 0, args, SIZE_MAX, NULL, NULL) == WAYWIRE_WRONG_ARGS);
	MUST(waywire_end_send(client.end, display, 0, NULL, 0, NULL, &index) == WAYWIRE_WRONG_ARGS);
	MUST(index == 0);
}

/* What C may pass wrongly as words, and words for messages that have other arguments. */
static void words(void)
{
	uint32_t many[22] = { 0 };
	waywire_object stale = { 7, 1 };
	size_t index = 9;
	MUST(waywire_end_send_words(NULL, display, 0, many, 1, &index) == WAYWIRE_NULL);
	MUST(waywire_end_send_words(client.end, display, 0, NULL, 1, &index) == WAYWIRE_NULL);
	MUST(waywire_end_send_words(client.end, display, 0, NULL, SIZE_MAX, &index) == WAYWIRE_NULL);
	MUST(waywire_end_send_words(client.end, stale, 0, many, 1, &index) == WAYWIRE_STALE);
	MUST(waywire_end_send_words(client.end, display, 65535, many, 1, &index) == WAYWIRE_NO_SUCH_MESSAGE);
	MUST(index == 9);
	/* The argument of wl_display.sync is a new object. */
	MUST(waywire_end_send_words(client.end, display, 0, many, 1, NULL) == WAYWIRE_WRONG_ARGS);
	MUST(waywire_end_send_words(client.end, display, 0, many, 22, &index) == WAYWIRE_WRONG_ARGS && index == 0);
	index = 9;
	MUST(waywire_end_send_words(client.end, display, 0, many, SIZE_MAX, &index) == WAYWIRE_WRONG_ARGS);
	MUST(index == 0);
	index = 9;
	MUST(waywire_end_send_words(client.end, display, 0, NULL, 0, &index) == WAYWIRE_WRONG_ARGS && index == 0);
}

static void kinds(void)
{
	waywire_arg arg = waywire_new();
	for (uint32_t kind = 0; kind < 20; kind++)
		if (kind < WAYWIRE_INT || kind > WAYWIRE_FD) {
			arg.kind = kind;
			MUST(waywire_end_send(client.end, display, 0, &arg, 1, NULL, NULL)
				== WAYWIRE_BAD_VALUE);
		}
	arg = waywire_int(2); /* of another kind than the signature's */
	MUST(waywire_end_send(client.end, display, 0, &arg, 1, NULL, NULL) == WAYWIRE_WRONG_ARGS);
}

static void calls(void)
{
	waywire_object stale = { 7, 1 }, object;
	waywire_arg index = waywire_new();
	waywire_sizes small = { 0, 0, 4095, 20 };
	waywire_client none = { NULL };
	uint16_t interface = 999;
	uint32_t version, name;
	size_t count = 9;
	MUST(waywire_client_new(tables, &small, &none) == WAYWIRE_BAD_SIZES && !none.end);
	MUST(waywire_end_send(client.end, stale, 0, &index, 1, NULL, NULL) == WAYWIRE_STALE);
	MUST(waywire_end_send(client.end, display, 65535, &index, 1, NULL, NULL)
		== WAYWIRE_NO_SUCH_MESSAGE);
	MUST(waywire_client_bind(client, display, 1, "wl_seat", 1, NULL) == WAYWIRE_NO_SUCH_MESSAGE);
	MUST(waywire_client_bind_unannounced(client, display, 1, "wl_seat", 1, NULL) == WAYWIRE_NO_SUCH_MESSAGE);
	MUST(waywire_end_live(client.end, stale, NULL, NULL) == WAYWIRE_NOT_FOUND);
	MUST(waywire_tables_interface(tables, "no_such", &interface) == WAYWIRE_NOT_FOUND);
	MUST(interface == 999);
	MUST(waywire_tables_version(tables, 999, &version) == WAYWIRE_NOT_FOUND);
	MUST(waywire_server_add_global(server, 999, 1, &name) == WAYWIRE_BAD_GLOBAL);
	MUST(waywire_server_withdraw(server, 1) == WAYWIRE_NO_SUCH_GLOBAL);
	MUST(waywire_server_drop_object(server, display) == WAYWIRE_NOT_DROPPABLE);
	MUST(waywire_server_drop_object(server, stale) == WAYWIRE_STALE);
	MUST(waywire_server_end_object(server, display) == WAYWIRE_NOT_DROPPABLE);
	MUST(waywire_server_end_object(server, stale) == WAYWIRE_STALE);
	MUST(!waywire_server_announce(server, &count, NULL) && count == 0);
	MUST(waywire_end_object_count(client.end) == 1);
	MUST(!waywire_end_send(client.end, display, 0, &index, 1, &object, NULL));
	MUST(object.id == 2 && object.birth == 1);
	MUST(waywire_end_object_count(client.end) == 2 && waywire_end_object_count(server.end) == 1);
}

/* A message that breaks a rule: the fault, and the error that the server then writes. */
static void faults(void)
{
	static const unsigned char bad_new_id[] = { 1, 0, 0, 0, 1, 0, 12, 0, 3, 0, 0, 0 };
	unsigned char bytes[256];
	waywire_report report;
	waywire_amounts amounts;
	MUST(!waywire_end_feed(server.end, bad_new_id, sizeof bad_new_id, NULL, 0, &amounts));
	MUST(!waywire_end_has_failed(server.end));
	MUST(waywire_end_next(server.end, &report) == WAYWIRE_FAULT_BAD_NEW_ID);
	MUST(waywire_end_has_failed(server.end));
	MUST(report.kind == WAYWIRE_FAULT && report.place == 0 && report.offset == 0);
	MUST(waywire_end_next(server.end, &report) == WAYWIRE_FAILED);
	MUST(waywire_server_post_error(server, display, 1, "x") == WAYWIRE_FAILED);
	MUST(waywire_end_feed(server.end, bytes, 1, NULL, 0, &amounts) == WAYWIRE_FAILED);
	MUST(amounts.bytes == 0 && amounts.tokens == 0);
	MUST(waywire_end_feed(server.end, NULL, 0, NULL, 0, &amounts) == WAYWIRE_FAILED);
	MUST(!waywire_end_take(server.end, bytes, sizeof bytes, NULL, 0, &amounts));
	MUST(amounts.bytes == 32); /* what was asked of it since left nothing there */
	MUST(!waywire_end_feed(client.end, bytes, amounts.bytes, NULL, 0, &amounts));
	MUST(!waywire_end_has_failed(client.end) && !waywire_end_next(client.end, &report));
	MUST(waywire_end_has_failed(client.end));
	MUST(report.kind == WAYWIRE_ERROR && report.id == 1 && report.code == 1);
	MUST(report.named == WAYWIRE_OBJECT && waywire_object_equal(report.target, display));
	MUST(!strcmp(report.text, "bad new id") && report.text_length == 10);
	MUST(waywire_end_next(client.end, &report) == WAYWIRE_FAILED);
	MUST(waywire_end_feed(client.end, bytes, 1, NULL, 0, &amounts) == WAYWIRE_FAILED);
	MUST(amounts.bytes == 0 && amounts.tokens == 0);
}

/* A table text: read, with a bad line, and with a line that breaks a rule. */
static void more_tables(void)
{
	static const char good[] = "interface wp_thing 2\nrequest destroy D\nrequest set_name s @2\n";
	static const char bad[] = "interface wp_thing 2\n\nnonsense\n";
	static const char broken[] = "interface wl_seat 1\n";
	waywire_tables *joined, *more = NULL;
	uint16_t interface;
	uint32_t version, rule = 0;
	size_t line = 0;
	MUST(!waywire_tables_read(tables, good, strlen(good), &joined, NULL, NULL));
	MUST(!waywire_tables_interface(joined, "wp_thing", &interface) && interface == 19);
	MUST(!waywire_tables_version(joined, interface, &version) && version == 2);
	MUST(waywire_tables_interface(tables, "wp_thing", &interface) == WAYWIRE_NOT_FOUND);
	MUST(waywire_tables_read(tables, bad, strlen(bad), &more, &line, &rule) == WAYWIRE_BAD_LINE);
	MUST(line == 3 && !more);
	MUST(waywire_tables_read(tables, broken, strlen(broken), &more, &line, &rule)
		== WAYWIRE_BAD_TABLE);
	MUST(line == 1 && rule == 1 && !more);
	MUST(waywire_tables_read(tables, NULL, 3, &more, NULL, NULL) == WAYWIRE_NULL);
	waywire_tables_free(joined);
}

/* What tables say of messages and their arguments. */
static void messages(void)
{
	waywire_message message = { 9, 9, 9, 9 };
	uint16_t surface, fixes;
	const char *name = NULL;
	size_t length = 9;
	MUST(!waywire_tables_interface(tables, "wl_surface", &surface));
	MUST(!waywire_tables_interface(tables, "wl_fixes", &fixes));
	MUST(!waywire_tables_message(tables, surface, WAYWIRE_FROM_CLIENT, 1, &message, &name, &length));
	MUST(length == 6 && !memcmp(name, "attach", 6) && message.arg_count == 3);
	MUST(message.since == 1 && message.destroys == WAYWIRE_DESTROYS_NOTHING && message.destroyed == 0);
	MUST(!waywire_tables_message(tables, surface, WAYWIRE_FROM_CLIENT, 0, &message, NULL, NULL));
	MUST(message.destroys == WAYWIRE_DESTROYS_TARGET && message.arg_count == 0);
	MUST(!waywire_tables_message(tables, fixes, WAYWIRE_FROM_CLIENT, 1, &message, NULL, &length));
	MUST(length == strlen("destroy_registry"));
	MUST(message.destroys == WAYWIRE_DESTROYS_ARG && message.destroyed == 0 && message.arg_count == 1);
	MUST(waywire_tables_message(tables, 999, WAYWIRE_FROM_CLIENT, 0, &message, &name, &length)
		== WAYWIRE_NOT_FOUND);
	MUST(waywire_tables_message(tables, surface, (waywire_sender)2, 0, &message, &name, &length)
		== WAYWIRE_NOT_FOUND);
	MUST(waywire_tables_message(tables, surface, WAYWIRE_FROM_SERVER, 99, &message, &name, &length)
		== WAYWIRE_NOT_FOUND);
	MUST(message.arg_count == 1 && length == strlen("destroy_registry"));
	MUST(waywire_tables_message(NULL, 0, WAYWIRE_FROM_CLIENT, 0, &message, NULL, NULL) == WAYWIRE_NULL);
	MUST(waywire_tables_message(tables, 0, WAYWIRE_FROM_CLIENT, 0, NULL, NULL, NULL) == WAYWIRE_NULL);
}

static void kinds_of_arguments(void)
{
	waywire_kind kind = { 9, true, 9 };
	uint16_t registry, surface, buffer, output;
	MUST(!waywire_tables_interface(tables, "wl_registry", &registry));
	MUST(!waywire_tables_interface(tables, "wl_surface", &surface));
	MUST(!waywire_tables_interface(tables, "wl_buffer", &buffer));
	MUST(!waywire_tables_interface(tables, "wl_output", &output));
	MUST(!waywire_tables_kind(tables, surface, WAYWIRE_FROM_CLIENT, 1, 0, &kind));
	MUST(kind.kind == WAYWIRE_OBJECT && kind.nullable && kind.interface == buffer);
	MUST(!waywire_tables_kind(tables, surface, WAYWIRE_FROM_CLIENT, 1, 2, &kind));
	MUST(kind.kind == WAYWIRE_INT && !kind.nullable && kind.interface == WAYWIRE_ANY_INTERFACE);
	MUST(waywire_tables_kind(tables, surface, WAYWIRE_FROM_CLIENT, 1, 3, &kind) == WAYWIRE_NOT_FOUND);
	MUST(kind.kind == WAYWIRE_INT);
	MUST(!waywire_tables_kind(tables, surface, WAYWIRE_FROM_SERVER, 0, 0, &kind));
	MUST(kind.kind == WAYWIRE_OBJECT && !kind.nullable && kind.interface == output);
	MUST(!waywire_tables_kind(tables, registry, WAYWIRE_FROM_CLIENT, 0, 1, &kind));
	MUST(kind.kind == WAYWIRE_NEW && kind.interface == WAYWIRE_ANY_INTERFACE);
	MUST(waywire_tables_kind(NULL, 0, WAYWIRE_FROM_CLIENT, 0, 0, &kind) == WAYWIRE_NULL);
	MUST(waywire_tables_kind(tables, 0, WAYWIRE_FROM_CLIENT, 0, 0, NULL) == WAYWIRE_NULL);
}

/* A new object of the server has a kind of its own, which only the tables show. */
static void server_objects(void)
{
	static const char text[] = "interface wp_maker 1\nevent made N(wp_maker)\nrequest make n(wp_maker)";
	waywire_tables *more = tables_over(tables, text);
	waywire_kind kind = { 9, true, 9 };
	uint16_t maker;
	MUST(!waywire_tables_interface(more, "wp_maker", &maker));
	MUST(!waywire_tables_kind(more, maker, WAYWIRE_FROM_SERVER, 0, 0, &kind));
	MUST(kind.kind == WAYWIRE_NEW_BY_SERVER && !kind.nullable && kind.interface == maker);
	MUST(!waywire_tables_kind(more, maker, WAYWIRE_FROM_CLIENT, 0, 0, &kind));
	MUST(kind.kind == WAYWIRE_NEW && !kind.nullable && kind.interface == maker);
	waywire_tables_free(more);
}

/* A message of 60,012 bytes is too long for ends of the usual limit, and passes those of a greater one. */
static void at_limit(const waywire_tables *more, uint32_t limit, waywire_status wanted)
{
	static char bytes[60000];
	waywire_sizes wide = { 65536, 64, 65536, 64, limit };
	struct pair pair;
	waywire_arg arg = waywire_array(bytes, sizeof bytes);
	open_pair(&pair, more, &wide);
	MUST(waywire_end_send(pair.client.end, bound(&pair, "wp_thing"), 0, &arg, 1, NULL, NULL) == wanted);
	MUST(wanted || server_reads(&pair).args[0].length == sizeof bytes);
	close_pair(&pair);
}

/* Limits that messages can have. */
static void limits(void)
{
	static const char declared[] = "interface wp_thing 1\nrequest write a\n";
	static const uint32_t wrong[] = { 1, 4095, 4098, 65533, 65536, UINT32_MAX };
	waywire_sizes narrow = { 65536, 64, 4096, 64, 4100 };
	waywire_tables *more = tables_over(tables, declared);
	waywire_client one;
	for (size_t i = 0; i < sizeof wrong / sizeof *wrong; i++) {
		waywire_sizes bad = { 65536, 64, 65536, 64, wrong[i] };
		MUST(waywire_client_new(tables, &bad, &one) == WAYWIRE_BAD_SIZES);
	}
	MUST(waywire_client_new(tables, &narrow, &one) == WAYWIRE_BAD_SIZES);
	at_limit(more, 0, WAYWIRE_TOO_LONG);
	at_limit(more, WAYWIRE_USUAL_LIMIT, WAYWIRE_TOO_LONG);
	at_limit(more, 60008, WAYWIRE_TOO_LONG);
	at_limit(more, 60012, WAYWIRE_OK);
	at_limit(more, 65532, WAYWIRE_OK);
	waywire_tables_free(more);
}

/* What a client's report of wl_registry.global says: whether the client does not remember the global. */
static bool forgets(waywire_client one, uint32_t name, const char *interface)
{
	waywire_report report;
	waywire_amounts fed;
	uint32_t length = (uint32_t)strlen(interface) + 1, last = 4 + (length + 3) / 4, size = 4 * (last + 1);
	uint32_t words[16] = { 2, size << 16 | WAYWIRE_WL_REGISTRY_EVENT_GLOBAL, name, length };
	memcpy(words + 4, interface, length);
	words[last] = 1;
	MUST(!waywire_end_feed(one.end, words, size, NULL, 0, &fed) && fed.bytes == size);
	MUST(!waywire_end_next(one.end, &report) && report.kind == WAYWIRE_MESSAGE && report.arg_count == 3);
	return report.forgotten;
}

/* A client remembers 1,024 globals. The report of any further global says that it is forgotten. */
static void globals(void)
{
	static const uint32_t remove[] = { 2, 12 << 16 | WAYWIRE_WL_REGISTRY_EVENT_GLOBAL_REMOVE, 7 };
	waywire_client one;
	waywire_report report;
	waywire_amounts fed;
	MUST(!waywire_client_new(tables, &sizes, &one));
	waywire_object registry = get_registry(one).object;
	MUST(forgets(one, 1, "no_such"));
	for (uint32_t name = 1; name <= 1024; name++)
		MUST(!forgets(one, name, "wl_seat"));
	MUST(forgets(one, 1025, "wl_seat"));
	MUST(waywire_client_bind(one, registry, 1025, "wl_seat", 1, NULL) == WAYWIRE_BAD_BIND);
	MUST(!waywire_client_bind(one, registry, 1024, "wl_seat", 1, NULL));
	MUST(!forgets(one, 7, "wl_output")); /* in the place of the one that had its name */
	MUST(!waywire_end_feed(one.end, remove, sizeof remove, NULL, 0, &fed) && fed.bytes == sizeof remove);
	MUST(!waywire_end_next(one.end, &report) && report.opcode == WAYWIRE_WL_REGISTRY_EVENT_GLOBAL_REMOVE);
	MUST(report.kind == WAYWIRE_MESSAGE && !report.forgotten);
	MUST(!forgets(one, 1025, "wl_seat") && forgets(one, 1026, "wl_seat") && forgets(one, 1025, "no_such"));
	MUST(waywire_client_bind(one, registry, 1025, "wl_seat", 1, NULL) == WAYWIRE_BAD_BIND);
	waywire_end_free(one.end);
}

static void texts(void)
{
	static const int all[] = { 0, 1, 2, 3, 4, 5, 6, 7, 8, 9, 10, 11, 12, 22, 23, 25, 31, 32, 33, 34,
		35, 36, 37, 38, 39, 40, 51, 61, 62, 63, 64, 65, 66, 71, 72, 73 };
	for (size_t i = 0; i < sizeof all / sizeof *all; i++) {
		const char *text = waywire_strerror((waywire_status)all[i]);
		MUST(*text && strcmp(text, "unknown status"));
	}
	MUST(!strcmp(waywire_strerror((waywire_status)99), "unknown status"));
	MUST(!strcmp(waywire_strspelling(2), "null is not allowed here"));
	const char *how = waywire_version() + strlen(WAYWIRE_VERSION);
	MUST(!strncmp(waywire_version(), WAYWIRE_VERSION, strlen(WAYWIRE_VERSION)));
	MUST(!*how || !strcmp(how, " (not proved)"));
}

/* The pieces of a recording's text, and what is wrong with one. */
static void recordings(void)
{
	static const char text[] = "# head\n\n> 0A0b +2\r\n# 0.5\n< - +1\n< ff";
	size_t length = sizeof text - 1;
	unsigned char bytes[sizeof text];
	waywire_piece piece = { 9, 9, 9, 9, 9, 9 };
	MUST(!waywire_recording_next(text, length, 0, 0, bytes, sizeof bytes, &piece));
	MUST(piece.sender == WAYWIRE_FROM_CLIENT && piece.token_count == 2 && piece.length == 2);
	MUST(bytes[0] == 10 && bytes[1] == 11 && piece.begin == 8 && piece.behind == 19 && piece.line == 3);
	MUST(waywire_recording_next(text, length, 0, 0, bytes, 1, &piece) == WAYWIRE_FULL);
	MUST(!waywire_recording_next(text, length, piece.behind, piece.line, NULL, 0, &piece));
	MUST(piece.sender == WAYWIRE_FROM_SERVER && piece.token_count == 1 && !piece.length && piece.begin == 25);
	MUST(!waywire_recording_next(text, length, piece.behind, piece.line, bytes, 1, &piece));
	MUST(bytes[0] == 255 && piece.behind == length && piece.line == 6);
	MUST(waywire_recording_next(text, length, length, 6, bytes, 1, &piece) == WAYWIRE_NOT_FOUND);
	MUST(waywire_recording_next("# 1\n> 0a0\n", 10, 0, 0, bytes, 1, &piece) == WAYWIRE_BAD_LINE && piece.line == 2);
	MUST(waywire_recording_next(text, length, length + 1, 0, bytes, 1, &piece) == WAYWIRE_BAD_VALUE);
	MUST(waywire_recording_next(text, length, 0, SIZE_MAX, bytes, 1, &piece) == WAYWIRE_BAD_VALUE);
	MUST(waywire_recording_next(NULL, 1, 0, 0, bytes, 1, &piece) == WAYWIRE_NULL);
	MUST(waywire_recording_next(text, SIZE_MAX, 0, 0, bytes, 1, &piece) == WAYWIRE_TOO_LARGE);
	MUST(waywire_recording_next(text, length, 0, 0, bytes, 1, NULL) == WAYWIRE_NULL);
	MUST(waywire_recording_next(NULL, 0, 0, 0, NULL, 0, &piece) == WAYWIRE_NOT_FOUND);
}

int main(void)
{
	MUST(!waywire_tables_core(&tables));
	MUST(!waywire_client_new(tables, &sizes, &client));
	MUST(!waywire_server_new(tables, &sizes, &server));
	nulls();
	null_of_one_end();
	null_end();
	lengths();
	words();
	kinds();
	calls();
	faults();
	more_tables();
	messages();
	kinds_of_arguments();
	server_objects();
	limits();
	globals();
	texts();
	recordings();
	waywire_end_free(client.end);
	waywire_end_free(server.end);
	waywire_tables_free(tables);
	return 0;
}
