/* Tables, and messages that are decoded with them. An export takes a handle of tables by value, because any
 * number of calls may have it at one time. */
#include "calls.h"

uint32_t waywire_c_tables_core(void **tables);
uint32_t waywire_c_tables_core_unended(void **tables);
void waywire_c_tables_free(struct handle);
uint32_t waywire_c_tables_read(struct handle, const void *text, size_t length, void **more,
	size_t *line, uint32_t *rule);
uint32_t waywire_c_end_more_tables(struct handle *, const void *text, size_t length, void **more,
	size_t *line, uint32_t *rule);
uint32_t waywire_c_tables_interface(struct handle, const void *name, size_t length,
	uint16_t *interface);
uint32_t waywire_c_tables_name(struct handle, uint16_t interface, const void **name,
	size_t *length);
uint32_t waywire_c_tables_version(struct handle, uint16_t interface, uint32_t *version);
uint32_t waywire_c_tables_message(struct handle, uint16_t interface, uint32_t sender,
	uint16_t opcode, waywire_message *message, const void **name, size_t *length);
uint32_t waywire_c_tables_kind(struct handle, uint16_t interface, uint32_t sender,
	uint16_t opcode, size_t index, waywire_kind *kind);
uint32_t waywire_c_tables_decode(struct handle, uint16_t interface, uint32_t version,
	uint32_t sender, const void *bytes, size_t length, waywire_decoded *, waywire_arg *args,
	size_t arg_count);

SAME(message, sizeof(waywire_message) == 24 && offsetof(waywire_message, destroys) == 4
	&& offsetof(waywire_message, destroyed) == 8 && offsetof(waywire_message, arg_count) == 16);
SAME(kind, sizeof(waywire_kind) == 8 && offsetof(waywire_kind, nullable) == 4
	&& offsetof(waywire_kind, interface) == 6);
SAME(decoded, offsetof(waywire_decoded, opcode) == 4 && offsetof(waywire_decoded, size) == 6
	&& offsetof(waywire_decoded, name) == 8 && offsetof(waywire_decoded, name_length) == 16
	&& offsetof(waywire_decoded, arg_count) == 24 && offsetof(waywire_decoded, place) == 32
	&& offsetof(waywire_decoded, spelling) == 40
	&& offsetof(waywire_decoded, interfaces) == 44); /* an export writes 48 bytes, before `interfaces` are */

/* ---- who uses tables
 *
 * An end and an inspector borrow the tables they are made with. So an export may free tables only when the caller, the
 * ends and the inspectors no longer use them. Tables share what they have in common with those that they were made
 * from; the exports count who has it. */

/* Frees tables that have no users. */
static void free_tables(waywire_tables *tables)
{
	if (tables->handle.at)
		waywire_c_tables_free(tables->handle);
	free(tables);
}

/* Empty tables, for one caller. */
static waywire_tables *empty_tables(void)
{
	waywire_tables *tables = malloc(sizeof *tables);
	if (tables) {
		tables->handle.at = NULL;
		tables->users = 1;
		tables->own = tables;
	}
	return tables;
}

/* Returns tables that were made, or frees what there is of them. */
static waywire_status made_tables(waywire_status status, waywire_tables *made, waywire_tables **tables)
{
	if (status)
		free_tables(made);
	else
		*tables = made;
	return status;
}

waywire_tables *tables_ref(const waywire_tables *tables)
{
	__atomic_add_fetch(&tables->own->users, 1, __ATOMIC_SEQ_CST);
	return tables->own;
}

void waywire_tables_free(waywire_tables *tables)
{
	if (tables && !__atomic_sub_fetch(&tables->users, 1, __ATOMIC_SEQ_CST))
		free_tables(tables);
}

/* ---- tables */

/* The export that makes core tables. */
typedef uint32_t core_maker(void **tables);

static waywire_status core_by(core_maker *make, waywire_tables **tables)
{
	if (!tables)
		return WAYWIRE_NULL;
	waywire_tables *made = empty_tables();
	if (!made)
		return WAYWIRE_NO_MEMORY;
	waywire_status status = make(&made->handle.at);
	return made_tables(status, made, tables);
}

waywire_status waywire_tables_core(waywire_tables **tables)
{
	return core_by(waywire_c_tables_core, tables);
}

waywire_status waywire_tables_core_unended(waywire_tables **tables)
{
	return core_by(waywire_c_tables_core_unended, tables);
}

/* Reads a text and appends it to these tables, or to those of an end, which takes the result. */
static waywire_status read_over(const waywire_tables *tables, struct handle *end, const void *text,
	size_t length, waywire_tables **more, size_t *line, uint32_t *rule)
{
	size_t no_line;
	uint32_t no_rule;
	waywire_status status = call_slice(&text, length, 1);
	if (status)
		return status;
	waywire_tables *made = empty_tables();
	if (!made)
		return WAYWIRE_NO_MEMORY;
	if (!line)
		line = &no_line;
	if (!rule)
		rule = &no_rule;
	status = end
		? waywire_c_end_more_tables(end, text, length, &made->handle.at, line, rule)
		: waywire_c_tables_read(tables->handle, text, length, &made->handle.at, line, rule);
	return made_tables(status, made, more);
}

waywire_status waywire_tables_read(const waywire_tables *tables, const void *text, size_t length,
	waywire_tables **more, size_t *line, uint32_t *rule)
{
	if (!tables || !more)
		return WAYWIRE_NULL;
	return read_over(tables, NULL, text, length, more, line, rule);
}

waywire_status tables_read_for_end(struct handle *end, const void *text, size_t length,
	waywire_tables **more, size_t *line, uint32_t *rule)
{
	return read_over(NULL, end, text, length, more, line, rule);
}

waywire_status waywire_tables_interface(const waywire_tables *tables, const char *name,
	uint16_t *interface)
{
	if (!tables || !name || !interface)
		return WAYWIRE_NULL;
	return waywire_c_tables_interface(tables->handle, name, strlen(name), interface);
}

waywire_status waywire_tables_name(const waywire_tables *tables, uint16_t interface,
	const char **name, size_t *length)
{
	if (!tables || !name || !length)
		return WAYWIRE_NULL;
	const void *found = NULL;
	waywire_status status = waywire_c_tables_name(tables->handle, interface, &found, length);
	if (!status)
		*name = found;
	return status;
}

waywire_status waywire_tables_version(const waywire_tables *tables, uint16_t interface,
	uint32_t *version)
{
	if (!tables || !version)
		return WAYWIRE_NULL;
	return waywire_c_tables_version(tables->handle, interface, version);
}

waywire_status waywire_tables_message(const waywire_tables *tables, uint16_t interface,
	waywire_sender sender, uint16_t opcode, waywire_message *message, const char **name, size_t *length)
{
	if (!tables || !message)
		return WAYWIRE_NULL;
	const void *found = NULL;
	size_t no_length;
	waywire_status status = waywire_c_tables_message(tables->handle, interface, sender, opcode, message,
		&found, length ? length : &no_length);
	if (!status && name)
		*name = found;
	return status;
}

waywire_status waywire_tables_kind(const waywire_tables *tables, uint16_t interface,
	waywire_sender sender, uint16_t opcode, size_t index, waywire_kind *kind)
{
	if (!tables || !kind)
		return WAYWIRE_NULL;
	return waywire_c_tables_kind(tables->handle, interface, sender, opcode, index, kind);
}

/* The interface of a decoded argument, and who makes it if it is new. */
static uint16_t decoded_interface(const waywire_tables *tables, const waywire_kind *kind, waywire_arg *arg)
{
	uint16_t bound;
	if (kind->kind == WAYWIRE_NEW_BY_SERVER)
		arg->kind = WAYWIRE_NEW_BY_SERVER;
	if (arg->kind == WAYWIRE_BOUND
			&& !waywire_c_tables_interface(tables->handle, arg->bytes, arg->length, &bound))
		return bound;
	return kind->interface;
}

waywire_status waywire_tables_decode(const waywire_tables *tables, uint16_t interface, uint32_t version,
	waywire_sender sender, const void *bytes, size_t length, waywire_decoded *decoded)
{
	if (!tables || !decoded)
		return WAYWIRE_NULL;
	waywire_status status = call_slice(&bytes, length, 1);
	if (status)
		return status;
	status = waywire_c_tables_decode(tables->handle, interface, version, sender, bytes, length, decoded,
		decoded->args, WAYWIRE_MAX_ARGS);
	if (status == WAYWIRE_BAD_VALUE || status == WAYWIRE_NOT_FOUND)
		return status;
	for (size_t i = 0; i < decoded->arg_count; i++) {
		waywire_arg *arg = &decoded->args[i];
		waywire_kind kind;
		waywire_c_tables_kind(tables->handle, interface, sender, decoded->opcode, i, &kind);
		decoded->interfaces[i] = decoded_interface(tables, &kind, arg);
	}
	return status;
}
