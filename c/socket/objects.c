/* What a connection keeps for its objects: an entry, which its end keeps as the user's pointer of the object.
 *
 * A pointer of an object that is gone may lead to an entry that was freed. So a pointer is followed only if its
 * object is live, or if it comes with the object's last report. */
#include "socket.h"

#include <stdlib.h>

static bool is_live(const waywire_connection *connection, waywire_object object)
{
	return !waywire_end_live(connection->end, object, NULL, NULL);
}

/* The entry of an object that is live; null if it has none. */
static struct entry *entry_of(const waywire_connection *connection, waywire_object object)
{
	return is_live(connection, object) ? waywire_end_user(connection->end, object) : NULL;
}

/* ---- the ring */

static void link_entry(struct entry *entry, struct entry *before)
{
	entry->before = before;
	entry->after = before->after;
	entry->before->after = entry;
	entry->after->before = entry;
}

static void unlink_entry(struct entry *entry)
{
	entry->before->after = entry->after;
	entry->after->before = entry->before;
}

/* Frees an entry, and destroys its data. */
static void free_entry(struct entry *entry)
{
	void (*destroy)(void *data) = entry->destroy;
	void *data = entry->data;
	free(entry);
	if (destroy)
		destroy(data);
}

/* Ends an entry that is out of the ring. */
static void end_unlinked(struct entry *entry)
{
	entry->is_ended = true;
	if (!entry->held)
		free_entry(entry);
}

void entry_end(waywire_connection *connection, struct entry *entry)
{
	/* Refused if the object is gone: its pointer is not followed then. */
	waywire_end_set_user(connection->end, entry->object, NULL);
	unlink_entry(entry);
	connection->entry_count--;
	end_unlinked(entry);
}

void entry_hold(struct entry *entry)
{
	if (entry)
		entry->held++;
}

void entry_release(struct entry *entry)
{
	if (entry && !--entry->held && entry->is_ended)
		free_entry(entry);
}

void entries_end(waywire_connection *connection)
{
	while (connection->entries.after != &connection->entries)
		entry_end(connection, connection->entries.after);
}

/* Whether no report will bring an entry any more: its object is gone, and had no last report. At a
 * client each object that it made has one. */
static bool is_left(const waywire_connection *connection, const struct entry *entry)
{
	return (connection->server.end || entry->object.id >= WAYWIRE_FIRST_SERVER_ID)
		&& !is_live(connection, entry->object);
}

/* Ends the entries of objects that had no last report. It is done again once there are twice as
 * many entries as are left, so that all of it takes time linear in the number of entries that were
 * made. */
static void sweep(waywire_connection *connection)
{
	struct entry left = { .before = &left, .after = &left };
	struct entry *next = connection->entries.after;
	while (next != &connection->entries) {
		struct entry *entry = next;
		next = entry->after;
		if (!is_left(connection, entry))
			continue;
		unlink_entry(entry);
		connection->entry_count--;
		link_entry(entry, &left);
	}
	connection->sweep_at = FIRST_SWEEP + 2 * connection->entry_count;
	while (left.after != &left) { /* what destroys data may make and end entries */
		struct entry *entry = left.after;
		unlink_entry(entry);
		end_unlinked(entry);
	}
}

/* The entry of a live object, which is made if it has none. */
static waywire_status make_entry(waywire_connection *connection, waywire_object object,
	struct entry **made)
{
	if (!is_live(connection, object))
		return WAYWIRE_STALE;
	*made = waywire_end_user(connection->end, object);
	if (*made)
		return WAYWIRE_OK;
	if (connection->entry_count >= connection->sweep_at)
		sweep(connection);
	struct entry *entry = calloc(1, sizeof *entry);
	if (!entry)
		return WAYWIRE_NO_MEMORY;
	waywire_status status = waywire_end_set_user(connection->end, object, entry);
	if (status) {
		free(entry);
		return status;
	}
	entry->object = object;
	link_entry(entry, connection->entries.before);
	connection->entry_count++;
	*made = entry;
	return WAYWIRE_OK;
}

/* Replaces the data of an entry. */
static void replace_data(struct entry *entry, void *data, void (*destroy)(void *data))
{
	void (*destroy_before)(void *data) = entry->destroy;
	void *before = entry->data;
	entry->data = data;
	entry->destroy = destroy;
	if (destroy_before && before != data)
		destroy_before(before);
}

/* ---- the calls */

waywire_status waywire_connection_listen(waywire_connection *connection, waywire_object object,
	waywire_dispatcher *dispatch, const void *calls, void *data)
{
	struct entry *entry;
	waywire_status status = make_entry(connection, object, &entry);
	if (status)
		return status;
	entry->dispatch = dispatch;
	entry->calls = calls;
	replace_data(entry, data, data == entry->data ? entry->destroy : NULL);
	return WAYWIRE_OK;
}

waywire_status waywire_connection_set_data(waywire_connection *connection, waywire_object object,
	void *data, void (*destroy)(void *data))
{
	struct entry *entry;
	waywire_status status = make_entry(connection, object, &entry);
	if (!status)
		replace_data(entry, data, destroy);
	return status;
}

void *waywire_connection_data(const waywire_connection *connection, waywire_object object)
{
	const struct entry *entry = entry_of(connection, object);
	return entry ? entry->data : NULL;
}

void waywire_connection_forget(waywire_connection *connection, waywire_object object)
{
	struct entry *entry = entry_of(connection, object);
	if (entry)
		entry_end(connection, entry);
}

/* Makes room for this number of listeners. */
static waywire_status reach(waywire_connection *connection, size_t count)
{
	if (count <= connection->implemented_count)
		return WAYWIRE_OK;
	struct implemented *more = realloc(connection->implemented, count * sizeof *more);
	if (!more)
		return WAYWIRE_NO_MEMORY;
	memset(more + connection->implemented_count, 0,
		(count - connection->implemented_count) * sizeof *more);
	connection->implemented = more;
	connection->implemented_count = count;
	return WAYWIRE_OK;
}

waywire_status waywire_connection_implement(waywire_connection *connection,
	const waywire_listener *listeners, size_t count, void *data)
{
	const waywire_tables *tables = waywire_end_tables(connection->end);
	size_t count_needed = 0;
	uint16_t index;
	for (size_t i = 0; i < count; i++) {
		waywire_status status = waywire_tables_interface(tables, listeners[i].interface, &index);
		if (status)
			return status;
		if (count_needed <= index)
			count_needed = (size_t)index + 1;
	}
	waywire_status status = reach(connection, count_needed);
	for (size_t i = 0; !status && i < count; i++) {
		const waywire_listener *listener = &listeners[i];
		status = waywire_tables_interface(tables, listener->interface, &index);
		connection->implemented[index] = (struct implemented){
			listener->dispatch, listener->calls, data };
	}
	return status;
}

bool connection_is_heard(const waywire_connection *connection, waywire_object object,
	uint16_t interface)
{
	const struct entry *entry = entry_of(connection, object);
	return (entry && entry->dispatch) || (interface < connection->implemented_count
		&& connection->implemented[interface].dispatch);
}
