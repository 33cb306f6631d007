/* The tables of a client, which grow with the wl_interface structs that the program passes in. See client.h.
 *
 * Before the program makes its first object with an interface, a table text is written: the interface and all
 * interfaces that its messages name, unless the tables have them already. The client reads the text. So the
 * tables have an interface before an event can come for it.
 *
 * Nothing is marked `D` except in the core. A delete_id then ends a live object, and the server may reuse the id of a
 * live object of its own. */
#include "client.h"

#include <errno.h>

bool tables_agree(struct wl_display *display, const struct wl_interface *interface)
{
	return structs_agree(waywire_end_tables(display->client.end), &display->known, interface);
}

/* Gives the client tables that have the text. False with errno. */
static bool read_growth(const struct growth *growth, waywire_client client)
{
	size_t line = 0;
	uint32_t rule = 0;
	if (!growth->length)
		return true;
	waywire_status status = waywire_client_more_tables(client, growth->text, growth->length,
		&line, &rule);
	return growth_was_read(growth, status, line, rule);
}

bool tables_learn(struct wl_display *display, const struct wl_interface *interface)
{
	if (known_find(&display->known, interface))
		return true;
	struct growth growth = { .known = &display->known };
	growth.tables = waywire_end_tables(display->client.end);
	bool has_grown = growth_reach(&growth, interface) && growth_write(&growth)
		&& read_growth(&growth, display->client) && growth_know(&growth);
	growth_end(&growth);
	return has_grown && tables_agree(display, interface);
}

bool tables_make_client(struct wl_display *display, const waywire_sizes *sizes)
{
	waywire_tables *core;
	errno = ENOMEM;
	if (waywire_tables_core(&core))
		return false;
	waywire_tables *tables = structs_first_tables(core, &display->known);
	waywire_tables_free(core);
	waywire_status status = tables ? waywire_client_new(tables, sizes, &display->client)
		: WAYWIRE_NO_MEMORY;
	waywire_tables_free(tables); /* the client keeps them */
	return !status;
}
