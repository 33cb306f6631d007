/* Messages that are decoded by their signatures, those at fault with all that is known of them. That each message
 * is decoded as it is read is tested with the stubs (every_stub.h). */
#include "must.h"

static waywire_tables *tables;
static waywire_decoded decoded;

static waywire_status decode(const char *interface, uint32_t version, waywire_sender sender, const void *bytes,
	size_t length)
{
	uint16_t index;
	MUST(!waywire_tables_interface(tables, interface, &index));
	memset(&decoded, 0x5a, sizeof decoded);
	return waywire_tables_decode(tables, index, version, sender, bytes, length, &decoded);
}

static bool is_called(const char *name)
{
	return decoded.name_length == strlen(name) && !memcmp(decoded.name, name, decoded.name_length);
}

static void whole(void)
{
	/* wl_registry.bind of name 7: "wl_seat", version 5, new id 9; followed by one byte more */
	static const uint32_t bind[] = { 2, 32 << 16, 7, 8, 0x735f6c77, 0x00746165, 5, 9, 0 };
	uint16_t seat;
	MUST(!waywire_tables_interface(tables, "wl_seat", &seat));
	MUST(!decode("wl_registry", 1, WAYWIRE_FROM_CLIENT, bind, 33));
	MUST(decoded.target == 2 && decoded.opcode == 0 && decoded.size == 32 && is_called("bind"));
	MUST(decoded.arg_count == 2 && !decoded.place && !decoded.spelling);
	MUST(decoded.args[0].kind == WAYWIRE_UINT && decoded.args[0].u == 7);
	MUST(decoded.interfaces[0] == WAYWIRE_ANY_INTERFACE);
	MUST(decoded.args[1].kind == WAYWIRE_BOUND && decoded.args[1].u == 5 && decoded.args[1].object.id == 9);
	MUST(decoded.args[1].length == 7 && !strcmp(decoded.args[1].bytes, "wl_seat"));
	MUST(decoded.args[1].bytes == bind + 4 && decoded.interfaces[1] == seat);
}

/* An interface that the tables do not have, an object that is null, one of the server's. */
static void unusual(void)
{
	static const char text[] = "interface wp_thing 1\nrequest set ?o(wl_surface)\nevent made N(wl_surface)\n";
	static const uint32_t bind[] = { 2, 28 << 16, 7, 4, 0x00626f77, 5, 9 };
	static const uint32_t set[] = { 3, 12 << 16, 0 }, made[] = { 3, 12 << 16, 0xff000000 };
	waywire_tables *core = tables, *more;
	uint16_t surface;
	MUST(!decode("wl_registry", 1, WAYWIRE_FROM_CLIENT, bind, sizeof bind));
	MUST(decoded.args[1].kind == WAYWIRE_BOUND && decoded.interfaces[1] == WAYWIRE_ANY_INTERFACE);
	MUST(!waywire_tables_read(core, text, sizeof text - 1, &more, NULL, NULL));
	tables = more;
	MUST(!waywire_tables_interface(tables, "wl_surface", &surface));
	MUST(!decode("wp_thing", 1, WAYWIRE_FROM_CLIENT, set, sizeof set));
	MUST(decoded.args[0].kind == WAYWIRE_NULL_OBJECT && decoded.interfaces[0] == surface);
	MUST(!decode("wp_thing", 1, WAYWIRE_FROM_SERVER, made, sizeof made));
	MUST(decoded.args[0].kind == WAYWIRE_NEW_BY_SERVER);
	MUST(decoded.args[0].object.id == WAYWIRE_FIRST_SERVER_ID);
	MUST(decoded.interfaces[0] == surface);
	waywire_tables_free(more);
	tables = core;
}

static void faults(void)
{
	static const uint32_t bind[] = { 2, 32 << 16, 7, 8, 0x735f6c77, 0x01746165, 5, 9 };
	static const uint32_t commit[] = { 3, 12 << 16 | 6, 0 }, offset[] = { 3, 16 << 16 | 10, 1, 2 };
	static const uint32_t sizes[] = { 3, 4 << 16 | 6, 3, 10 << 16 | 6, 3, 16 << 16 | 6 };
	/* its string has no NUL at its end: the arguments before it are decoded */
	MUST(decode("wl_registry", 1, WAYWIRE_FROM_CLIENT, bind, sizeof bind) == WAYWIRE_FAULT_BAD_ARGUMENT);
	MUST(decoded.place == 1 && decoded.spelling == 3 && decoded.arg_count == 1 && is_called("bind"));
	MUST(decoded.args[0].u == 7 && decoded.size == 32);
	MUST(decode("wl_surface", 1, WAYWIRE_FROM_CLIENT, commit, 12) == WAYWIRE_FAULT_TRAILING_BYTES);
	MUST(is_called("commit") && !decoded.arg_count && decoded.target == 3 && decoded.opcode == 6);
	/* newer than the object, and not there at all */
	MUST(decode("wl_surface", 4, WAYWIRE_FROM_CLIENT, offset, 16) == WAYWIRE_FAULT_UNKNOWN_MESSAGE);
	MUST(!decoded.name && !decoded.name_length && decoded.opcode == 10 && !decoded.arg_count);
	MUST(!decode("wl_surface", 5, WAYWIRE_FROM_CLIENT, offset, 16) && decoded.args[1].i == 2);
	MUST(!decode("wl_surface", UINT32_MAX, WAYWIRE_FROM_CLIENT, offset, 16));
	MUST(decode("wl_surface", 5, WAYWIRE_FROM_SERVER, offset, 16) == WAYWIRE_FAULT_UNKNOWN_MESSAGE);
	/* no header; sizes of 4 and of 10; fewer bytes than the size */
	MUST(decode("wl_surface", 1, WAYWIRE_FROM_CLIENT, commit, 7) == WAYWIRE_FAULT_BAD_SIZE);
	MUST(!decoded.target && !decoded.size && !decoded.name && !decoded.arg_count);
	MUST(decode("wl_surface", 1, WAYWIRE_FROM_CLIENT, NULL, 0) == WAYWIRE_FAULT_BAD_SIZE);
	for (int i = 0; i < 3; i++) {
		MUST(decode("wl_surface", 1, WAYWIRE_FROM_CLIENT, sizes + 2 * i, 8) == WAYWIRE_FAULT_BAD_SIZE);
		MUST(decoded.target == 3 && decoded.size == sizes[2 * i + 1] >> 16 && !decoded.name);
	}
}

/* Refusals, which write nothing. */
static void refusals(void)
{
	static const uint32_t commit[] = { 3, 8 << 16 | 6 };
	waywire_decoded before;
	MUST(decode("wl_surface", 1, (waywire_sender)2, commit, 8) == WAYWIRE_BAD_VALUE);
	memset(&before, 0x5a, sizeof before);
	MUST(!memcmp(&before, &decoded, sizeof before));
	MUST(waywire_tables_decode(tables, 1000, 1, WAYWIRE_FROM_CLIENT, commit, 8, &decoded) == WAYWIRE_NOT_FOUND);
	MUST(waywire_tables_decode(NULL, 0, 1, WAYWIRE_FROM_CLIENT, commit, 8, &decoded) == WAYWIRE_NULL);
	MUST(waywire_tables_decode(tables, 0, 1, WAYWIRE_FROM_CLIENT, NULL, 8, &decoded) == WAYWIRE_NULL);
	MUST(waywire_tables_decode(tables, 0, 1, WAYWIRE_FROM_CLIENT, commit, (size_t)PTRDIFF_MAX + 1, &decoded)
		== WAYWIRE_TOO_LARGE);
	MUST(waywire_tables_decode(tables, 0, 1, WAYWIRE_FROM_CLIENT, commit, 8, NULL) == WAYWIRE_NULL);
	MUST(!memcmp(&before, &decoded, sizeof before));
}

int main(void)
{
	MUST(!waywire_tables_core(&tables));
	whole();
	unusual();
	faults();
	refusals();
	waywire_tables_free(tables);
	return 0;
}
