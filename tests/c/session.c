/* Plays the demonstration's session over the C library, prints what each end reads, compares the lines of
 * the reports with the trace, and writes what passed as a recording. Written from waywire.h and
 * waywire-core.h alone.
 *
 *     session [BYTES A CARRY [RECORDING]] */
#include "must.h"

static waywire_tables *tables;
static waywire_client client;
static waywire_server server;
static FILE *recording;
static waywire_inspector *inspector;

/* The lines of what passed, by the inspector, and of what the ends reported. */
static char passed[4096], reported[4096];

static void add_report(waywire_sender sender, const waywire_report *report)
{
	size_t length = strlen(reported);
	length += waywire_report_line(tables, sender, report, reported + length, sizeof reported - length - 2);
	strcpy(reported + length, "\n");
}

/* A line of what one end read. */
static void show(const char *arrow, const waywire_report *report)
{
	add_report(*arrow == '-' ? WAYWIRE_FROM_CLIENT : WAYWIRE_FROM_SERVER, report);
	if (report->kind == WAYWIRE_DELETED) {
		printf("%s deleted %u/%u\n", arrow, report->target.id, (unsigned)report->target.birth);
		return;
	}
	MUST(report->kind == WAYWIRE_MESSAGE);
	printf("%s %u/%u opcode %u", arrow, report->target.id, (unsigned)report->target.birth,
		report->opcode);
	for (size_t i = 0; i < report->arg_count; i++) {
		const waywire_arg *arg = &report->args[i];
		switch (arg->kind) {
		case WAYWIRE_UINT:
			printf(" %u", arg->u);
			break;
		case WAYWIRE_STRING:
			MUST(strlen(arg->bytes) == arg->length);
			printf(" \"%s\"", (const char *)arg->bytes);
			break;
		case WAYWIRE_NEW:
			printf(" new %u/%u", arg->object.id, (unsigned)arg->object.birth);
			break;
		case WAYWIRE_BOUND:
			printf(" bound %s %u %u/%u", (const char *)arg->bytes, arg->u, arg->object.id,
				(unsigned)arg->object.birth);
			break;
		default:
			MUST(!"an argument of this kind");
		}
	}
	printf("\n");
}

static void record(char arrow, const unsigned char *bytes, size_t length)
{
	size_t lines_length;
	waywire_sender sender = arrow == '>' ? WAYWIRE_FROM_CLIENT : WAYWIRE_FROM_SERVER;
	MUST(!waywire_inspector_pass(inspector, sender, bytes, length, 0));
	const char *lines = waywire_inspector_lines(inspector, &lines_length);
	strncat(passed, lines, lines_length);
	if (!recording)
		return;
	fprintf(recording, "%c ", arrow);
	for (size_t i = 0; i < length; i++)
		fprintf(recording, "%02x", bytes[i]);
	fprintf(recording, "\n");
}

/* Carries what one end wrote to the other, at most `most` bytes a time. */
static void carry(waywire_end *from, waywire_end *to, char arrow, size_t most)
{
	unsigned char bytes[4096];
	waywire_amounts taken, fed;
	for (;;) {
		MUST(!waywire_end_take(from, bytes, most, NULL, 0, &taken));
		if (!taken.bytes)
			return;
		record(arrow, bytes, taken.bytes);
		MUST(!waywire_end_feed(to, bytes, taken.bytes, NULL, 0, &fed));
		MUST(fed.bytes == taken.bytes);
	}
}

/* The server reads all that came, and answers sync. */
static void serve(void)
{
	waywire_report report;
	waywire_object display = waywire_end_display(server.end);
	for (;;) {
		MUST(!waywire_end_next(server.end, &report));
		if (report.kind == WAYWIRE_NOTHING)
			break;
		show("->", &report);
		if (waywire_object_equal(report.target, display)
				&& report.opcode == WAYWIRE_WL_DISPLAY_REQUEST_SYNC) {
			waywire_arg one = waywire_uint(1);
			MUST(!waywire_end_send(server.end, report.args[0].object,
				WAYWIRE_WL_CALLBACK_EVENT_DONE, &one, 1, NULL, NULL));
		}
	}
	MUST(!waywire_server_announce(server, NULL, NULL));
}

static void hear(void)
{
	waywire_report report;
	for (;;) {
		MUST(!waywire_end_next(client.end, &report));
		if (report.kind == WAYWIRE_NOTHING)
			return;
		show("<-", &report);
	}
}

static void turn(size_t most)
{
	carry(client.end, server.end, '>', most);
	serve();
	carry(server.end, client.end, '<', most);
	hear();
}

static waywire_object make(waywire_object target, uint16_t opcode)
{
	waywire_arg index = waywire_new();
	waywire_object made;
	MUST(!waywire_end_send(client.end, target, opcode, &index, 1, &made, NULL));
	return made;
}

static void add(const char *name, uint32_t version)
{
	uint16_t interface;
	MUST(!waywire_tables_interface(tables, name, &interface));
	MUST(!waywire_server_add_global(server, interface, version, NULL));
}

static void play(size_t most)
{
	waywire_object display = waywire_end_display(client.end), registry, compositor, seat, surface;
	add("wl_compositor", 6);
	add("wl_seat", 9);
	registry = make(display, WAYWIRE_WL_DISPLAY_REQUEST_GET_REGISTRY);
	turn(most);
	MUST(!waywire_client_bind(client, registry, 1, "wl_compositor", 6, &compositor));
	MUST(!waywire_client_bind(client, registry, 2, "wl_seat", 9, &seat));
	make(display, WAYWIRE_WL_DISPLAY_REQUEST_SYNC);
	turn(most);
	surface = make(compositor, WAYWIRE_WL_COMPOSITOR_REQUEST_CREATE_SURFACE);
	MUST(!waywire_end_send(client.end, surface, WAYWIRE_WL_SURFACE_REQUEST_COMMIT, NULL, 0, NULL,
		NULL));
	MUST(!waywire_end_send(client.end, surface, WAYWIRE_WL_SURFACE_REQUEST_DESTROY, NULL, 0, NULL,
		NULL));
	turn(most);
	MUST(waywire_end_live(client.end, surface, NULL, NULL) == WAYWIRE_NOT_FOUND);
	MUST(waywire_end_live(server.end, surface, NULL, NULL) == WAYWIRE_NOT_FOUND);
}

/* Nothing waits, and both ends have the same four objects. */
static void agree(void)
{
	MUST(waywire_end_is_drained(client.end) && waywire_end_is_drained(server.end));
	for (uint32_t id = 1; id <= 4; id++) {
		waywire_object object = { id - 1, id };
		uint16_t interface, its_interface;
		uint32_t version, its_version;
		MUST(!waywire_end_live(client.end, object, &interface, &version));
		MUST(!waywire_end_live(server.end, object, &its_interface, &its_version));
		MUST(interface == its_interface && version == its_version);
	}
	printf("agree: 4 objects\n");
}

int main(int argc, char **argv)
{
	waywire_sizes sizes = { 65536, 64, 65536, 64 };
	size_t most = argc > 1 ? (size_t)atoi(argv[1]) : 4096;
	if (argc > 2)
		MUST(recording = fopen(argv[2], "w"));
	MUST(!waywire_tables_core(&tables));
	MUST(!waywire_client_new(tables, &sizes, &client));
	MUST(!waywire_server_new(tables, &sizes, &server));
	MUST(!waywire_inspector_new(tables, 4096, &inspector));
	puts("# Made by tests/c/session.c, which prints what each end reads.");
	play(most);
	agree();
	MUST(*reported && !strcmp(reported, passed));
	waywire_inspector_free(inspector);
	waywire_end_free(client.end);
	waywire_end_free(server.end);
	waywire_tables_free(tables);
	if (recording)
		fclose(recording);
	return 0;
}
