/* What passes through the library's pointers, at its edges: spellings, the last slot of a report, sizes, tables
 * over tables; an inspector's values and lines; a report behind calls that only ask; calls of one end with the
 * other; and the numbers and texts that the header makes itself. */
#include "pair.h"

#include <limits.h>
#include <math.h>

static waywire_tables *tables;
static const waywire_sizes sizes = { 65536, 64, 65536, 64 };

/* A surface that the client makes, and a region. */
static waywire_object new_surface(const struct pair *pair, waywire_object compositor)
{
	waywire_wl_surface surface;
	MUST(!waywire_wl_compositor_create_surface(pair->client, waywire_wl_compositor_of(compositor), &surface));
	return surface.object;
}

static waywire_wl_region new_region(const struct pair *pair, waywire_object compositor)
{
	waywire_wl_region region;
	MUST(!waywire_wl_compositor_create_region(pair->client, waywire_wl_compositor_of(compositor), &region));
	return region;
}

/* An attach with OBJECT and id 0 if null is allowed: it is no null. */
static void object_without_id(void)
{
	struct pair pair;
	open_pair(&pair, tables, &sizes);
	waywire_object surface = new_surface(&pair, bound(&pair, "wl_compositor"));
	waywire_object none = { 0, 0 };
	waywire_arg args[] = { waywire_of(none), waywire_int(0), waywire_int(0) };
	size_t index = 7;
	MUST(waywire_end_send(pair.client.end, surface, WAYWIRE_WL_SURFACE_REQUEST_ATTACH, args, 3, NULL, &index)
		== WAYWIRE_BAD_OBJECT && index == 0);
	close_pair(&pair);
}

/* Raw bytes at a fresh server that has a registry with id 2: the fault of the message. */
static waywire_report fault(const unsigned char *bytes, size_t length, waywire_status wanted)
{
	struct pair pair;
	waywire_report report;
	waywire_amounts fed;
	open_pair(&pair, tables, &sizes);
	MUST(!waywire_end_feed(pair.server.end, bytes, length, NULL, 0, &fed) && fed.bytes == length);
	MUST(waywire_end_next(pair.server.end, &report) == wanted && report.kind == WAYWIRE_FAULT);
	MUST(report.offset == 12);
	close_pair(&pair);
	return report;
}

/* Binds whose interface is null, has no ending NUL, a NUL inside, or whose new id is in use. */
static void faults(void)
{
	static const unsigned char null[] = { 2, 0, 0, 0, 0, 0, 24, 0, 1, 0, 0, 0, 0, 0, 0, 0, 1, 0, 0, 0, 3, 0, 0, 0 };
	static const unsigned char without[] = { 2, 0, 0, 0, 0, 0, 28, 0, 1, 0, 0, 0, 2, 0, 0, 0, 'a', 'b', 0, 0,
		1, 0, 0, 0, 3, 0, 0, 0 };
	static const unsigned char inside[] = { 2, 0, 0, 0, 0, 0, 28, 0, 1, 0, 0, 0, 4, 0, 0, 0, 'a', 0, 'b', 0,
		1, 0, 0, 0, 3, 0, 0, 0 };
	static const unsigned char used[] = { 2, 0, 0, 0, 0, 0, 28, 0, 1, 0, 0, 0, 3, 0, 0, 0, 'a', 'b', 0, 0,
		1, 0, 0, 0, 2, 0, 0, 0 };
	waywire_report report = fault(null, sizeof null, WAYWIRE_FAULT_BAD_ARGUMENT);
	MUST(report.place == 1 && report.spelling == 2);
	report = fault(without, sizeof without, WAYWIRE_FAULT_BAD_ARGUMENT);
	MUST(report.place == 1 && report.spelling == 3);
	report = fault(inside, sizeof inside, WAYWIRE_FAULT_BAD_ARGUMENT);
	MUST(report.place == 1 && report.spelling == 4);
	report = fault(used, sizeof used, WAYWIRE_FAULT_BAD_NEW_ID);
	MUST(report.place == 1 && report.spelling == 0);
	MUST(waywire_is_fault(WAYWIRE_FAULT_BAD_SIZE) && waywire_is_fault(WAYWIRE_FAULT_TOO_MANY_OBJECTS));
	MUST(!waywire_is_fault(WAYWIRE_OUT_FULL) && !waywire_is_fault(WAYWIRE_NO_SUCH_GLOBAL));
}

/* What a field has that its argument's kind does not use changes nothing, in calls of few arguments and of more;
 * and a new object may be written over an argument. */
static void unused(void)
{
	static const char text[] = "interface some 1\n"
		"request six i i i i i i\n"
		"request seven i i i i i i n(some)\n";
	waywire_tables *more = tables_over(tables, text);
	struct pair pair;
	waywire_report report;
	waywire_arg args[7];
	open_pair(&pair, more, &sizes);
	waywire_object some = bound(&pair, "some");
	for (int form = 0; form < 6; form++) {
		uint16_t opcode = form % 2;
		for (int i = 0; i < 6; i++) {
			args[i] = waywire_int(10 * form + i);
			if (form / 2)
				args[i].bytes = form / 2 == 1 ? NULL : args;
			if (form / 2 == 2)
				args[i].length = i % 2 ? SIZE_MAX : 1;
		}
		args[6] = waywire_new();
		MUST(!waywire_end_send(pair.client.end, some, opcode, args, 6 + opcode, &args[0].object, NULL));
		MUST(!args[0].object.id == !opcode);
		report = server_reads(&pair);
		MUST(report.arg_count == 6u + opcode);
		for (int i = 0; i < 6; i++)
			MUST(report.args[i].kind == WAYWIRE_INT && report.args[i].i == 10 * form + i
				&& !report.args[i].bytes && !report.args[i].length);
		MUST(!opcode || report.args[6].object.id == args[0].object.id);
	}
	close_pair(&pair);
	waywire_tables_free(more);
}

/* A message with 20 arguments passes, and one with 21 is refused, even if 20 would fit. */
static void twenty(void)
{
	static const char text[] = "interface many 1\n"
		"request most i i i i i i i i i i i i i i i i i i i i\n";
	waywire_tables *more = tables_over(tables, text), *again = tables_over(more, "interface last 1\n");
	struct pair pair;
	waywire_report report;
	waywire_arg args[21];
	size_t index = 7;
	waywire_tables_free(more); /* the others have all that is theirs */
	open_pair(&pair, again, &sizes);
	MUST(index_of(pair.client.end, "last") == 20);
	waywire_object many = bound(&pair, "many");
	for (int i = 0; i < 21; i++)
		args[i] = waywire_int(i + 1);
	MUST(waywire_end_send(pair.client.end, many, 0, args, 21, NULL, &index) == WAYWIRE_WRONG_ARGS);
	MUST(index == 20);
	MUST(!waywire_end_send(pair.client.end, many, 0, args, 20, NULL, NULL));
	report = server_reads(&pair);
	MUST(report.arg_count == 20);
	for (int i = 0; i < 20; i++)
		MUST(report.args[i].kind == WAYWIRE_INT && report.args[i].i == i + 1);
	close_pair(&pair);
	waywire_tables_free(again);
}

/* An empty string of a report, and the empty text of an error, begin with a NUL: they are never null. */
static void empty(void)
{
	waywire_tables *more = tables_over(tables, "interface some 1\nrequest say s\n");
	struct pair pair;
	waywire_report report;
	waywire_arg none = waywire_string("");
	open_pair(&pair, more, &sizes);
	waywire_object some = bound(&pair, "some");
	MUST(!waywire_end_send(pair.client.end, some, 0, &none, 1, NULL, NULL));
	report = server_reads(&pair);
	MUST(report.args[0].kind == WAYWIRE_STRING && !report.args[0].length);
	MUST(report.args[0].bytes && !*(const char *)report.args[0].bytes);
	MUST(report.text && !*report.text && !report.text_length);
	MUST(!waywire_server_post_error(pair.server, some, 3, ""));
	to_client(&pair);
	MUST(!waywire_end_next(pair.client.end, &report) && report.kind == WAYWIRE_ERROR);
	MUST(report.text && !*report.text && !report.text_length);
	close_pair(&pair);
	waywire_tables_free(more);
}

/* What waits in the outbox lies in two parts once it goes over the end of its memory. Together they are what goes. */
static void peeked(void)
{
	static const waywire_sizes small = { 4096, 64, 4096, 64 };
	struct pair pair;
	int32_t number = 0;
	bool is_in_two = false;
	open_pair(&pair, tables, &small);
	waywire_wl_region region = new_region(&pair, bound(&pair, "wl_compositor"));
	for (int round = 0; round < 16; round++) {
		unsigned char seen[8192], taken[2000];
		waywire_part parts[2];
		waywire_amounts amounts;
		size_t count;
		while (!waywire_wl_region_add(pair.client, region, number, 0, 1, 1))
			number++;
		MUST(!waywire_end_peek(pair.client.end, parts, NULL, 0, &count) && !count);
		MUST(parts[0].length && parts[0].length + parts[1].length <= sizeof seen);
		memcpy(seen, parts[0].bytes, parts[0].length);
		if (parts[1].length)
			memcpy(seen + parts[0].length, parts[1].bytes, parts[1].length);
		is_in_two |= parts[1].length && parts[0].length < sizeof taken;
		MUST(!waywire_end_take(pair.client.end, taken, sizeof taken, NULL, 0, &amounts));
		MUST(amounts.bytes == sizeof taken && !memcmp(seen, taken, sizeof taken));
	}
	MUST(is_in_two);
	close_pair(&pair);
}

#define FORTY_TWO "a text that is as long as forty-two bytes "
#define LONG_TEXT FORTY_TWO FORTY_TWO FORTY_TWO

/* An error that names an object which the client has destroyed, and a text that is too long for it. */
static void errors(void)
{
	struct pair pair;
	waywire_report report;
	open_pair(&pair, tables, &sizes);
	waywire_object compositor = bound(&pair, "wl_compositor");
	waywire_wl_region region = new_region(&pair, compositor);
	server_reads(&pair);
	MUST(!waywire_wl_region_destroy(pair.client, region));
	/* 126 bytes, and then a character of two: the 127th byte would cut it */
	MUST(!waywire_server_post_error(pair.server, region.object, 3, LONG_TEXT "\xc3\xa9" " and more"));
	MUST(waywire_end_has_failed(pair.server.end));
	to_client(&pair);
	MUST(!waywire_end_next(pair.client.end, &report) && report.kind == WAYWIRE_ERROR);
	MUST(report.named == WAYWIRE_DEAD_OBJECT && waywire_object_equal(report.target, region.object));
	MUST(report.id == region.object.id && report.code == 3 && report.text_length == 126);
	MUST(!strcmp(report.text, LONG_TEXT));
	close_pair(&pair);
}

/* The greatest sizes, and one more. */
static void greatest(void)
{
	waywire_sizes most = { 16777216, 65536, 16777216, 65536 }, more;
	waywire_client client;
	MUST(!waywire_client_new(tables, &most, &client));
	waywire_amounts room = waywire_end_in_room(client.end);
	MUST(room.bytes == 16777216 && room.tokens == 65536);
	waywire_end_free(client.end);
	size_t *const each[] = { &more.in_bytes, &more.out_bytes, &more.in_tokens, &more.out_tokens };
	for (size_t i = 0; i < 4; i++) {
		more = most, ++*each[i];
		MUST(waywire_client_new(tables, &more, &client) == WAYWIRE_BAD_SIZES);
	}
	/* the outbox is as large as it was asked for, and not as the inbox: a request of 12 bytes is too much */
	waywire_sizes unlike = { 8, 1, 4096, 20 };
	waywire_wl_callback none = { { 5, 6 } };
	MUST(!waywire_client_new(tables, &unlike, &client));
	waywire_wl_display display = waywire_wl_display_of(waywire_end_display(client.end));
	MUST(waywire_wl_display_sync(client, display, &none) == WAYWIRE_FULL);
	MUST(none.object.birth == 5 && none.object.id == 6); /* nothing is written */
	waywire_end_free(client.end);
}

/* Which limits an inspector takes. */
static void limits(void)
{
	static const uint32_t taken[] = { 4096, 4100, 65532 };
	static const uint32_t refused[] = { 0, 4092, 4097, 65533, 65536, UINT32_MAX };
	waywire_inspector *inspector = NULL;
	for (size_t i = 0; i < sizeof refused / sizeof *refused; i++)
		MUST(waywire_inspector_new(tables, refused[i], &inspector) == WAYWIRE_BAD_SIZES && !inspector);
	for (size_t i = 0; i < sizeof taken / sizeof *taken; i++) {
		MUST(!waywire_inspector_new(tables, taken[i], &inspector));
		waywire_inspector_free(inspector);
		inspector = NULL;
	}
	MUST(waywire_inspector_new(NULL, 4096, &inspector) == WAYWIRE_NULL && !inspector);
	MUST(waywire_inspector_new(tables, 4096, NULL) == WAYWIRE_NULL);
	waywire_inspector_free(NULL);
}

/* Whether the last piece printed this. */
static bool has_lines(const waywire_inspector *inspector, const char *wanted)
{
	size_t length = 7;
	const char *lines = waywire_inspector_lines(inspector, &length);
	return lines && length == strlen(wanted) && !memcmp(lines, wanted, length);
}

/* Whether this is the verdict. */
static bool has_verdict(waywire_inspector *inspector, const char *wanted)
{
	const char *line = NULL;
	size_t length = 7;
	bool is_broken = *wanted == 'b', broken = !is_broken;
	MUST(!waywire_inspector_verdict(inspector, &line, &length, &broken));
	MUST(broken == is_broken);
	return length == strlen(wanted) && !memcmp(line, wanted, length);
}

/* An inspector goes by the limit that it was made with: wl_display.error of 4,116 bytes is within one, and breaks
 * a rule by a smaller one. */
static void at_limit(uint32_t limit, const char *verdict)
{
	static uint32_t words[4116 / 4] = { 1, 4116 << 16 | WAYWIRE_WL_DISPLAY_EVENT_ERROR, 1, 0, 4096 };
	waywire_inspector *inspector;
	memset(words + 5, 'a', 4095);
	MUST(!waywire_inspector_new(tables, limit, &inspector));
	MUST(!waywire_inspector_pass(inspector, WAYWIRE_FROM_SERVER, words, sizeof words, 0));
	MUST(has_verdict(inspector, verdict) && has_lines(inspector, "") == (*verdict == 'b'));
	waywire_inspector_free(inspector);
}

static void long_message(void)
{
	at_limit(WAYWIRE_USUAL_LIMIT, "broken: < message 1 at byte 0: F1 bad message size\n");
	at_limit(4112, "broken: < message 1 at byte 0: F1 bad message size\n");
	at_limit(4116, "lawful: 0 requests, 1 events, 0 and 0 bytes left\n");
	at_limit(65532, "lawful: 0 requests, 1 events, 0 and 0 bytes left\n");
}

/* What is no piece changes nothing, the lines are those of the last one, and the verdict is that of all. */
static void inspected(void)
{
	static const unsigned char sync[] = { 1, 0, 0, 0, 0, 0, 12, 0, 2, 0, 0, 0 };
	static const unsigned char unknown[] = { 9, 0, 0, 0, 0, 0, 8, 0 };
	static const char line[] = "-> wl_display@1.sync(new id wl_callback@2)\n";
	static const char lawful[] = "lawful: 1 requests, 0 events, 0 and 0 bytes left\n";
	static const char broken[] = "broken: > message 2 at byte 12: F2 unknown object\n";
	waywire_inspector *inspector;
	const char *text = line;
	size_t length = 7;
	MUST(!waywire_inspector_new(tables, WAYWIRE_USUAL_LIMIT, &inspector));
	MUST(has_lines(inspector, ""));
	MUST(has_verdict(inspector, "lawful: 0 requests, 0 events, 0 and 0 bytes left\n"));
	MUST(!waywire_inspector_pass(inspector, WAYWIRE_FROM_CLIENT, sync, sizeof sync, 0));
	MUST(has_lines(inspector, line));
	MUST(waywire_inspector_pass(inspector, (waywire_sender)2, sync, sizeof sync, 0) == WAYWIRE_BAD_VALUE);
	MUST(waywire_inspector_pass(inspector, WAYWIRE_FROM_CLIENT, NULL, 1, 0) == WAYWIRE_NULL);
	MUST(waywire_inspector_pass(inspector, WAYWIRE_FROM_CLIENT, sync, SIZE_MAX, 0) == WAYWIRE_TOO_LARGE);
	MUST(waywire_inspector_pass(NULL, WAYWIRE_FROM_CLIENT, sync, sizeof sync, 0) == WAYWIRE_NULL);
	MUST(!waywire_inspector_lines(inspector, NULL));
	MUST(waywire_inspector_verdict(inspector, NULL, &length, NULL) == WAYWIRE_NULL && length == 7);
	MUST(waywire_inspector_verdict(inspector, &text, NULL, NULL) == WAYWIRE_NULL && text == line);
	MUST(!waywire_inspector_verdict(inspector, &text, &length, NULL) && length == strlen(lawful));
	MUST(has_lines(inspector, line) && has_verdict(inspector, lawful));
	MUST(!waywire_inspector_pass(inspector, WAYWIRE_FROM_SERVER, NULL, 0, 0));
	MUST(has_lines(inspector, "") && has_verdict(inspector, lawful));
	MUST(!waywire_inspector_pass(inspector, WAYWIRE_FROM_CLIENT, unknown, sizeof unknown, 0));
	MUST(has_lines(inspector, "") && has_verdict(inspector, broken));
	MUST(!waywire_inspector_pass(inspector, WAYWIRE_FROM_CLIENT, sync, sizeof sync, 0));
	MUST(has_lines(inspector, "") && has_verdict(inspector, broken));
	waywire_inspector_free(inspector);
}

/* The target in a report, and its line. */
static void is_line(waywire_sender sender, const waywire_report *report, const char *interface,
	uint32_t version, const char *wanted)
{
	char line[256], begun[6];
	uint16_t index = 0;
	MUST(!interface || !waywire_tables_interface(tables, interface, &index));
	MUST(report->interface == index && report->version == version);
	size_t length = waywire_report_line(tables, sender, report, line, sizeof line);
	MUST(length == strlen(wanted) && !strcmp(line, wanted));
	MUST(waywire_report_line(tables, sender, report, begun, sizeof begun) == length);
	MUST(strlen(begun) == (length < 5 ? length : 5) && !strncmp(begun, wanted, 5));
	MUST(waywire_report_line(tables, sender, report, NULL, 0) == length);
}

/* Reports have the interface and version of their target, also if it is a zombie or has just ended. */
static void lines(void)
{
	struct pair pair;
	waywire_report report;
	waywire_arg scale = waywire_int(2);
	open_pair(&pair, tables, &sizes);
	waywire_object compositor = bound(&pair, "wl_compositor");
	waywire_object surface = new_surface(&pair, compositor);
	to_server(&pair);
	MUST(!waywire_end_next(pair.server.end, &report));
	is_line(WAYWIRE_FROM_CLIENT, &report, "wl_compositor", 6,
		"-> wl_compositor@3.create_surface(new id wl_surface@4)");
	MUST(!waywire_end_next(pair.server.end, &report));
	is_line(WAYWIRE_FROM_CLIENT, &report, NULL, 0, "");
	MUST(!waywire_end_send(pair.server.end, surface, WAYWIRE_WL_SURFACE_EVENT_PREFERRED_BUFFER_SCALE,
		&scale, 1, NULL, NULL));
	to_client(&pair);
	MUST(!waywire_end_next(pair.client.end, &report));
	is_line(WAYWIRE_FROM_SERVER, &report, "wl_surface", 6, "<- wl_surface@4.preferred_buffer_scale(2)");
	MUST(!waywire_end_send(pair.server.end, surface, WAYWIRE_WL_SURFACE_EVENT_PREFERRED_BUFFER_SCALE,
		&scale, 1, NULL, NULL));
	MUST(!waywire_wl_surface_destroy(pair.client, waywire_wl_surface_of(surface)));
	to_server(&pair);
	MUST(!waywire_end_next(pair.server.end, &report));
	is_line(WAYWIRE_FROM_CLIENT, &report, "wl_surface", 6, "-> wl_surface@4.destroy()");
	MUST(!waywire_server_post_error(pair.server, compositor, 7, "no \"way\""));
	to_client(&pair);
	MUST(!waywire_end_next(pair.client.end, &report) && report.kind == WAYWIRE_DISCARDED);
	is_line(WAYWIRE_FROM_SERVER, &report, "wl_surface", 6, "<- wl_surface@4.preferred_buffer_scale(..)");
	MUST(!waywire_end_next(pair.client.end, &report) && report.kind == WAYWIRE_DELETED);
	is_line(WAYWIRE_FROM_SERVER, &report, "wl_surface", 6, "<- wl_display@1.delete_id(4)");
	MUST(!waywire_end_next(pair.client.end, &report) && report.kind == WAYWIRE_ERROR);
	is_line(WAYWIRE_FROM_SERVER, &report, "wl_compositor", 6,
		"<- wl_display@1.error(wl_compositor@3, 7, \"no \\x22way\\x22\")");
	close_pair(&pair);
}

/* Each call that only asks, to which its end is const. */
static void ask(const waywire_end *end)
{
	waywire_object object = waywire_end_display(end);
	waywire_part parts[2];
	uint32_t tokens[WAYWIRE_MAX_ARGS];
	size_t count;
	MUST(object.id == 1 && object.birth == 0 && !waywire_end_live(end, object, NULL, NULL));
	MUST(!waywire_end_user(end, object) && waywire_end_object_count(end) > 1);
	MUST(waywire_end_tables(end) == tables);
	MUST(!waywire_end_object_after(end, 0, &object) && object.id == 1);
	MUST(!waywire_end_has_failed(end) && !waywire_end_is_drained(end));
	MUST(waywire_end_in_room(end).tokens == 64 && waywire_end_goes(end, 9, 9).bytes == 9);
	MUST(!waywire_end_peek(end, parts, tokens, WAYWIRE_MAX_ARGS, &count) && parts[0].length);
}

static bool names(const waywire_arg *arg, const char *interface)
{
	return arg->length == strlen(interface) && !memcmp(arg->bytes, interface, arg->length);
}

/* A report stays valid after calls that only ask. */
static void asked(void)
{
	static const char seat[] = "wl_seat";
	uint16_t index;
	uint32_t name;
	waywire_object made;
	waywire_report report;
	struct pair pair;
	open_pair(&pair, tables, &sizes);
	MUST(!waywire_tables_interface(tables, seat, &index));
	MUST(!waywire_server_add_global(pair.server, index, 1, &name));
	MUST(!waywire_server_announce(pair.server, NULL, NULL));
	to_client(&pair);
	MUST(!waywire_wl_display_sync(pair.client, pair.display, NULL));
	MUST(!waywire_end_next(pair.client.end, &report) && report.arg_count == 3);
	ask(pair.client.end);
	MUST(!waywire_client_made(pair.client, &made) && !made.id);
	MUST(names(&report.args[1], seat));
	MUST(!waywire_client_bind(pair.client, pair.registry.object, name, seat, 1, NULL));
	to_server(&pair);
	MUST(!waywire_server_withdraw(pair.server, name) && !waywire_server_announce(pair.server, NULL, NULL));
	MUST(!waywire_end_next(pair.server.end, &report) && report.arg_count == 1);
	MUST(!waywire_end_next(pair.server.end, &report) && report.arg_count == 2);
	ask(pair.server.end);
	MUST(names(&report.args[1], seat));
	close_pair(&pair);
}

/* A client's calls refuse a server, and change nothing. */
static void refused_by_client(const struct pair *pair)
{
	waywire_client wrong = { pair->server.end };
	struct state before = state_of(wrong.end);
	waywire_object registry = pair->registry.object, object = { 7, 7 };
	size_t line = 7;
	uint32_t rule = 7;
	MUST(waywire_client_bind(wrong, registry, 1, "wl_seat", 1, &object) == WAYWIRE_OTHER_END);
	MUST(waywire_client_bind(wrong, registry, 1, "wl_seat", 1, NULL) == WAYWIRE_OTHER_END);
	MUST(waywire_client_bind_unannounced(wrong, registry, 1, "wl_seat", 1, &object) == WAYWIRE_OTHER_END);
	MUST(waywire_client_bind_unannounced(wrong, registry, 1, "wl_seat", 1, NULL) == WAYWIRE_OTHER_END);
	MUST(waywire_client_made(wrong, &object) == WAYWIRE_OTHER_END);
	MUST(object.id == 7 && object.birth == 7);
	MUST(waywire_client_more_tables(wrong, "interface one 1\n", 16, &line, &rule) == WAYWIRE_OTHER_END);
	MUST(waywire_client_more_tables(wrong, "nonsense", 8, &line, &rule) == WAYWIRE_OTHER_END);
	MUST(line == 7 && rule == 7 && waywire_end_tables(wrong.end) == tables);
	MUST(is_state_of(wrong.end, before));
}

/* A server's calls refuse a client, and change nothing. */
static void refused_by_server(const struct pair *pair)
{
	waywire_server wrong = { pair->client.end };
	struct state before = state_of(wrong.end);
	uint16_t seat;
	uint32_t name = 7;
	size_t count = 7;
	bool all = true;
	waywire_report report;
	MUST(!waywire_tables_interface(tables, "wl_seat", &seat));
	MUST(waywire_server_add_global(wrong, seat, 1, &name) == WAYWIRE_OTHER_END && name == 7);
	MUST(waywire_server_add_global(wrong, seat, 1, NULL) == WAYWIRE_OTHER_END);
	MUST(waywire_server_withdraw(wrong, 1) == WAYWIRE_OTHER_END);
	MUST(waywire_server_allow_globals(wrong, 2000) == WAYWIRE_OTHER_END);
	MUST(waywire_server_announce(wrong, &count, &all) == WAYWIRE_OTHER_END && count == 7 && all);
	MUST(waywire_server_announce(wrong, NULL, NULL) == WAYWIRE_OTHER_END);
	MUST(waywire_server_drop_object(wrong, pair->registry.object) == WAYWIRE_OTHER_END);
	MUST(waywire_server_end_object(wrong, pair->registry.object) == WAYWIRE_OTHER_END);
	MUST(waywire_server_next_unanswered(wrong, &report) == WAYWIRE_OTHER_END && report.kind == WAYWIRE_NOTHING);
	MUST(waywire_server_post_error(wrong, pair->display.object, 1, "x") == WAYWIRE_OTHER_END);
	MUST(is_state_of(wrong.end, before));
}

/* Each call that only one end has is made with the other end, also after that has failed. */
static void other_end(void)
{
	struct pair pair;
	size_t count;
	open_pair(&pair, tables, &sizes);
	refused_by_client(&pair);
	refused_by_server(&pair);
	MUST(!waywire_end_take_waiting_tokens(pair.client.end, NULL, 0, &count));
	MUST(!waywire_end_take_waiting_tokens(pair.server.end, NULL, 0, &count));
	refused_by_client(&pair);
	refused_by_server(&pair);
	close_pair(&pair);
}

static void numbers(void)
{
	MUST(waywire_fixed_from_double(2.5) == 640 && waywire_fixed_to_double(640) == 2.5);
	MUST(waywire_fixed_from_double(-1) == -256 && waywire_fixed_to_double(-1) == -0.00390625);
	MUST(waywire_fixed_from_double(1e300) == INT32_MAX && waywire_fixed_from_double(-1e300) == INT32_MIN);
	MUST(waywire_fixed_from_double(8388607.99609375) == INT32_MAX);
	MUST(waywire_fixed_from_double(-8388608) == INT32_MIN);
	MUST(waywire_fixed_from_double((double)NAN) == 0);
	for (int64_t parts = INT32_MIN; parts <= INT32_MAX; parts += 65521)
		MUST(waywire_fixed_from_double(waywire_fixed_to_double((int32_t)parts)) == parts);
}

int main(void)
{
	MUST(!waywire_tables_core(&tables));
	object_without_id();
	faults();
	unused();
	twenty();
	empty();
	peeked();
	errors();
	greatest();
	limits();
	long_message();
	inspected();
	lines();
	asked();
	other_end();
	numbers();
	waywire_tables_free(tables);
	return 0;
}
