/* What the programs that tests/every_stub.py writes share: a pair of ends, an inspector of what passes between
 * them, and what is to come. */
#ifndef EVERY_STUB_H
#define EVERY_STUB_H

#include "must.h"
#include <limits.h>
#include <string.h>

struct value {
	int64_t number;
	const char *text;
	size_t length;
	waywire_object object;
};

static waywire_tables *tables;
static waywire_client client;
static waywire_server server;
static waywire_inspector *inspector;
static waywire_object registry, target, made_here, made_there;
static const waywire_object no_object = { 0, 0 };
static waywire_report report;
static struct value want[WAYWIRE_MAX_ARGS];
static const char *want_interface = "wl_compositor";
static uint32_t want_version = 1;
static int mark, calls_that_came;
static const char long_text[] = "a text of more than one word of four bytes";

static inline void read_tables(const char *path)
{
	static char text[65536];
	MUST(!waywire_tables_core(&tables));
	if (!path)
		return;
	FILE *file = fopen(path, "rb");
	MUST(file);
	size_t length = fread(text, 1, sizeof text, file);
	fclose(file);
	waywire_tables *more;
	MUST(length < sizeof text && !waywire_tables_read(tables, text, length, &more, NULL, NULL));
	waywire_tables_free(tables);
	tables = more;
}

/* What was carried last. */
static unsigned char bytes[4096];
static size_t carried;

static inline void carry(waywire_end *from, waywire_end *to, waywire_sender sender)
{
	uint32_t tokens[28];
	waywire_amounts taken, fed;
	MUST(!waywire_end_take(from, bytes, sizeof bytes, tokens, 28, &taken));
	MUST(!waywire_end_feed(to, bytes, taken.bytes, tokens, taken.tokens, &fed));
	MUST(fed.bytes == taken.bytes && fed.tokens == taken.tokens);
	MUST(!waywire_inspector_pass(inspector, sender, bytes, taken.bytes, taken.tokens));
	carried = taken.bytes;
}

/* The kind that an argument has when it is decoded, and as `read` in a report. */
static inline uint32_t kind_apart(const waywire_arg *read, const waywire_kind *kind)
{
	if (kind->kind == WAYWIRE_NEW_BY_SERVER)
		return WAYWIRE_NEW_BY_SERVER;
	return read->kind == WAYWIRE_DEAD_OBJECT ? (uint32_t)WAYWIRE_OBJECT : read->kind;
}

/* An argument that was decoded is the one of the report. */
static inline void must_be_apart(waywire_sender sender, size_t index, const waywire_decoded *decoded)
{
	const waywire_arg *arg = &decoded->args[index], *read = &report.args[index];
	waywire_kind kind;
	MUST(!waywire_tables_kind(tables, report.interface, sender, decoded->opcode, index, &kind));
	if (arg->kind == WAYWIRE_BOUND)
		MUST(!waywire_tables_interface(tables, (const char *)arg->bytes, &kind.interface));
	MUST(decoded->interfaces[index] == kind.interface);
	MUST(arg->kind == kind_apart(read, &kind));
	MUST(arg->i == read->i && arg->u == (arg->kind == WAYWIRE_FD ? 0 : read->u));
	MUST(arg->object.id == read->object.id && !arg->object.birth && arg->length == read->length);
	MUST(!arg->length || !memcmp(arg->bytes, read->bytes, arg->length));
	MUST(arg->kind != WAYWIRE_STRING || !((const char *)arg->bytes)[arg->length]);
}

/* The message that was read is decoded to the same, and its report lists its tokens. */
static inline void must_come_apart(waywire_sender sender)
{
	waywire_decoded decoded;
	waywire_message message;
	const char *name;
	size_t length, count = 0;
	if (report.kind != WAYWIRE_MESSAGE || !carried)
		return;
	MUST(!waywire_tables_decode(tables, report.interface, report.version, sender, bytes, carried, &decoded));
	if (decoded.target != report.target.id || decoded.opcode != report.opcode)
		return; /* another message comes first */
	MUST(!waywire_tables_message(tables, report.interface, sender, decoded.opcode, &message, &name, &length));
	MUST(decoded.name == name && decoded.name_length == length && decoded.arg_count == report.arg_count);
	MUST(decoded.size <= carried && !decoded.place && !decoded.spelling);
	for (size_t i = 0; i < decoded.arg_count; i++) {
		must_be_apart(sender, i, &decoded);
		if (report.args[i].kind == WAYWIRE_FD)
			MUST(count < report.token_count && report.tokens[count++] == report.args[i].u);
	}
	MUST(count == report.token_count);
}

/* The message that passed last has this name in the tables. */
static inline void must_be_called(const char *arrow, const char *interface, const char *message)
{
	char wanted[256];
	size_t length, most;
	most = (size_t)snprintf(wanted, sizeof wanted, "%s %s@%u.%s(", arrow, interface, target.id, message);
	const char *lines = waywire_inspector_lines(inspector, &length);
	MUST(most < sizeof wanted && most <= length && !memcmp(lines, wanted, most));
}

static inline void carry_and_read_at_server(void)
{
	carry(client.end, server.end, WAYWIRE_FROM_CLIENT);
	MUST(!waywire_end_next(server.end, &report));
	must_come_apart(WAYWIRE_FROM_CLIENT);
}

static inline void carry_and_read_at_client(void)
{
	carry(server.end, client.end, WAYWIRE_FROM_SERVER);
	MUST(!waywire_end_next(client.end, &report));
	must_come_apart(WAYWIRE_FROM_SERVER);
}

static inline void open_pair(void)
{
	waywire_sizes sizes = { .out_bytes = 65536, .out_tokens = 64, .in_bytes = 65536, .in_tokens = 64 };
	waywire_arg args[1];
	MUST(!waywire_client_new(tables, &sizes, &client));
	MUST(!waywire_server_new(tables, &sizes, &server));
	MUST(!waywire_inspector_new(tables, WAYWIRE_USUAL_LIMIT, &inspector));
	args[0] = waywire_new();
	MUST(!waywire_end_send(client.end, waywire_end_display(client.end),
		WAYWIRE_WL_DISPLAY_REQUEST_GET_REGISTRY, args, 1, &registry, NULL));
	carry_and_read_at_server();
	memset(want, 0, sizeof want);
	made_here = made_there = no_object;
	calls_that_came = 0;
}

static inline void close_pair(void)
{
	waywire_end_free(client.end);
	waywire_end_free(server.end);
	waywire_inspector_free(inspector);
}

/* Advertises an interface at its newest version, and returns its name among the globals. */
static inline uint32_t advertise(const char *interface, uint32_t *version)
{
	uint16_t index;
	uint32_t name;
	MUST(!waywire_tables_interface(tables, interface, &index));
	MUST(!waywire_tables_version(tables, index, version));
	MUST(!waywire_server_add_global(server, index, *version, &name));
	MUST(!waywire_server_announce(server, NULL, NULL));
	do
		carry_and_read_at_client();
	while (report.kind != WAYWIRE_NOTHING);
	return name;
}

/* The name for the next bind is where the bind's first argument is looked for. */
static inline void bind_next(void)
{
	advertise(want_interface, &want_version);
}

/* An object of an interface, of its newest version, that both ends have. */
static inline waywire_object object_of(const char *interface)
{
	waywire_object made;
	uint32_t version;
	if (!strcmp(interface, "wl_display"))
		return waywire_end_display(client.end);
	if (!strcmp(interface, "wl_registry"))
		return registry;
	uint32_t name = advertise(interface, &version);
	MUST(!waywire_client_bind(client, registry, name, interface, version, &made));
	carry_and_read_at_server();
	return made;
}

static inline void must_be_target(void *data, waywire_object came)
{
	MUST(data == &mark && waywire_object_equal(came, target));
	calls_that_came++;
}

static inline void must_be_text(const char *came, const char *wanted)
{
	MUST(!came == !wanted && (!came || !strcmp(came, wanted)));
}

static inline void must_be_bytes(const void *came, size_t length, const struct value *wanted)
{
	MUST(length == wanted->length && (!length || !memcmp(came, wanted->text, length)));
}

static inline void must_have_come(void)
{
	MUST(calls_that_came == 1 && waywire_object_equal(made_here, made_there));
}

#endif
