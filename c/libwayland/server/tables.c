/* The tables of a display, which grow with the wl_interface structs that the compositor passes in. See server.h.
 * A client's end is made with the tables of its display, and grows with them.
 *
 * No message is marked `D` but those of wl_fixes, and wl_callback.done: which request ends an object, and when, is the
 * compositor's to say. */
#include "server.h"

#include <errno.h>

bool tables_init(struct wl_display *display)
{
	waywire_tables *core;
	errno = ENOMEM;
	if (waywire_tables_core_unended(&core))
		return false;
	display->tables = structs_first_tables(core, &display->known);
	waywire_tables_free(core);
	return display->tables;
}

void tables_end(struct wl_display *display)
{
	waywire_tables_free(display->tables);
	known_drop(&display->known);
}

/* Gives the text to the ends that were made before. They have had the same tables as the display, so only memory can
 * be lacking, and a client without it is lost. */
static void give_to_clients(struct wl_display *display, const struct growth *growth)
{
	struct wl_client *client;
	wl_list_for_each(client, &display->clients, link)
		if (client->server.end && waywire_end_more_tables(client->server.end, growth->text,
			growth->length, NULL, NULL))
			wl_client_post_no_memory(client);
}

/* Gives the tables the text. False with errno; unless `is_tried`, it has said why then. */
static bool read_growth(struct wl_display *display, const struct growth *growth, bool is_tried)
{
	waywire_tables *more;
	size_t line = 0;
	uint32_t rule = 0;
	if (!growth->length)
		return true;
	waywire_status status = waywire_tables_read(display->tables, growth->text, growth->length,
		&more, &line, &rule);
	if (status && is_tried)
		return false;
	if (!growth_was_read(growth, status, line, rule))
		return false;
	waywire_tables_free(display->tables);
	display->tables = more;
	give_to_clients(display, growth);
	return true;
}

static struct growth begin_growth(struct wl_display *display)
{
	struct growth growth = { .tables = display->tables, .known = &display->known };
	return growth;
}

/* Writes the text for what was reached, and gives it to the tables. False with errno. */
static bool grow(struct wl_display *display, struct growth *growth, bool is_tried)
{
	bool has_grown = growth_write(growth) && read_growth(display, growth, is_tried)
		&& growth_know(growth);
	growth_end(growth);
	return has_grown;
}

const struct known_interface *tables_learn(struct wl_display *display,
	const struct wl_interface *interface)
{
	const struct known_interface *known = known_find(&display->known, interface);
	if (known)
		return known;
	struct growth growth = begin_growth(display);
	if (!growth_reach(&growth, interface)) {
		growth_end(&growth);
		return NULL;
	}
	if (!grow(display, &growth, false)
		|| !structs_agree(display->tables, &display->known, interface))
		return NULL;
	return known_find(&display->known, interface);
}

/* Gives the tables the interfaces of all globals with one text. False if there is one that they cannot have. */
static bool learn_at_once(struct wl_display *display)
{
	struct wl_global *global;
	struct growth growth = begin_growth(display);
	wl_list_for_each(global, &display->globals, link)
		if (!global->is_refused && !growth_reach(&growth, global->interface)) {
			growth_end(&growth);
			return false;
		}
	return grow(display, &growth, true);
}

bool tables_learn_globals(struct wl_display *display)
{
	struct wl_global *global;
	if (!display->has_new_globals)
		return true;
	learn_at_once(display);
	wl_list_for_each(global, &display->globals, link) {
		if (global->is_refused || tables_learn(display, global->interface))
			continue;
		if (errno == ENOMEM)
			return false;
		global->is_refused = true;
		log_line("no client is told of the global %s\n", global->interface->name);
	}
	display->has_new_globals = false;
	return true;
}
