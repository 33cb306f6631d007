/* Globals, which each client's end announces, and wl_registry. See server.h. */
#include "server.h"

#include <errno.h>
#include <stdlib.h>
#include <string.h>

/* ---- what a client is told */

static bool is_visible(const struct wl_client *client, const struct wl_global *global)
{
	const struct wl_display *display = client->display;
	return !display->filter || display->filter(client, global, display->filter_data);
}

/* Writes what the registries of a client are owed. A client that does not read is lost. */
static void announce(struct wl_client *client)
{
	size_t count;
	bool all;
	do {
		if (waywire_server_announce(client->server, &count, &all))
			return;
		client->wants_flush |= count > 0;
	} while (!all && client_make_room(client));
	if (!all) {
		log_line("the globals do not fit: the client does not read\n");
		client_fail(client);
	}
}

/* Prints an event of one registry, or calls the loggers with it. */
static void tell_registry(struct wl_resource *registry, const struct wl_global *global,
	uint32_t name, uint32_t opcode)
{
	union wl_argument args[3];
	args[0].u = name;
	args[1].s = global->interface->name;
	args[2].u = (uint32_t)global->version;
	log_tell(registry, &wl_registry_interface.events[opcode], opcode, args, true);
}

/* The same for all registries of a client. */
static void tell_registries(struct wl_client *client, const struct wl_global *global, uint32_t name,
	uint32_t opcode)
{
	if (!log_is_watching(client->display))
		return;
	for (uint32_t id = 0; id < client->of_client.count; id++) {
		struct wl_resource *resource = client->of_client.at[id].resource;
		if (resource && resource->object.interface == &wl_registry_interface)
			tell_registry(resource, global, name, opcode);
	}
}

/* Makes room for a name among the globals of a client. False without memory. */
static bool make_place(struct wl_client *client, uint32_t name)
{
	if (name < client->global_count)
		return true;
	size_t count = 2 * (size_t)name + 16;
	struct wl_global **more = realloc(client->globals, count * sizeof *more);
	if (!more)
		return false;
	for (size_t i = client->global_count; i < count; i++)
		more[i] = NULL;
	client->globals = more;
	client->global_count = (uint32_t)count;
	return true;
}

/* Adds a global to the end of a client. Returns its name there; 0 if that cannot be. */
static uint32_t add_to_end(struct wl_client *client, struct wl_global *global)
{
	uint16_t index;
	uint32_t name = 0;
	const waywire_tables *tables = waywire_end_tables(client->server.end);
	waywire_status status = waywire_tables_interface(tables, global->interface->name, &index);
	if (!status)
		status = waywire_server_add_global(client->server, index, (uint32_t)global->version,
			&name);
	if (!status && !make_place(client, name)) {
		waywire_server_withdraw(client->server, name);
		status = WAYWIRE_NO_MEMORY;
	}
	if (!status) {
		client->globals[name] = global;
		return name;
	}
	if (status == WAYWIRE_NO_MEMORY)
		wl_client_post_no_memory(client);
	else
		log_line("a client is not told of the global %s: %s\n", global->interface->name,
			waywire_strerror(status));
	return 0;
}

/* The name of a global at the end of a client; 0 if it has none. */
static uint32_t name_at(const struct wl_client *client, const struct wl_global *global)
{
	for (uint32_t name = 1; name < client->global_count; name++)
		if (client->globals[name] == global)
			return name;
	return 0;
}

/* ---- making and removing them */

/* Tells a client of a new global, whose interface the tables have. */
static void tell_client(struct wl_client *client, struct wl_global *global)
{
	uint32_t name = add_to_end(client, global);
	if (!name)
		return;
	tell_registries(client, global, name, REGISTRY_GLOBAL);
	announce(client);
}

/* Tells the clients that have a registry of a new global. */
static void tell_clients(struct wl_global *global)
{
	struct wl_client *client;
	wl_list_for_each(client, &global->display->clients, link) {
		if (!client->has_registry || client->has_failed || !is_visible(client, global))
			continue;
		if (!tables_learn_globals(global->display))
			wl_client_post_no_memory(client);
		else if (!global->is_refused)
			tell_client(client, global);
	}
}

/* Whether a global can have a version. If not, it says so. */
static bool is_version(const struct wl_interface *interface, int version)
{
	if (version < 1)
		log_line("wl_global_create: failing to create interface '%s' with version %d because "
			"it is less than 1\n", interface->name, version);
	else if (version > interface->version)
		log_line("wl_global_create: implemented version for '%s' higher than interface version "
			"(%d > %d)\n", interface->name, version, interface->version);
	else
		return true;
	return false;
}

EXPORT struct wl_global *wl_global_create(struct wl_display *display,
	const struct wl_interface *interface, int version, void *data, wl_global_bind_func_t bind)
{
	if (!is_version(interface, version))
		return NULL;
	struct wl_global *global = calloc(1, sizeof *global);
	if (!global)
		return NULL;
	global->display = display;
	global->interface = interface;
	global->name = ++display->last_global;
	global->version = version;
	global->data = data;
	global->bind = bind;
	wl_list_insert(display->globals.prev, &global->link);
	display->has_new_globals = true;
	tell_clients(global);
	return global;
}

EXPORT void wl_global_remove(struct wl_global *global)
{
	struct wl_client *client;
	if (global->is_removed) {
		log_line("wl_global_remove: called twice on the same global '%s@%u'\n",
			global->interface->name, global->name);
		abort();
	}
	wl_list_for_each(client, &global->display->clients, link) {
		uint32_t name = name_at(client, global);
		if (!name || waywire_server_withdraw(client->server, name))
			continue;
		tell_registries(client, global, name, REGISTRY_GLOBAL_REMOVE);
		announce(client);
	}
	global->is_removed = true;
}

/* A bind of its name is refused from now on. */
EXPORT void wl_global_destroy(struct wl_global *global)
{
	struct wl_client *client;
	if (!global->is_removed)
		wl_global_remove(global);
	wl_list_for_each(client, &global->display->clients, link) {
		uint32_t name = name_at(client, global);
		if (name)
			client->globals[name] = NULL;
	}
	wl_list_remove(&global->link);
	free(global);
}

void globals_free(struct wl_display *display)
{
	struct wl_global *global, *next;
	wl_list_for_each_safe(global, next, &display->globals, link)
		free(global);
}

/* ---- wl_registry */

/* The global with a name at the end of a client; null if it is destroyed, or never was. */
static struct wl_global *global_at(const struct wl_client *client, uint32_t name)
{
	return name < client->global_count ? client->globals[name] : NULL;
}

/* The order of the tests, and the words, are those of libwayland. */
bool globals_refuse(struct wl_resource *registry, uint32_t name, const char *interface,
	uint32_t version)
{
	const struct wl_global *global = global_at(registry->client, name);
	if (!global || (!strcmp(global->interface->name, interface) && version
		&& version <= (uint32_t)global->version && !is_visible(registry->client, global)))
		wl_resource_post_error(registry, INVALID_OBJECT, "invalid global %s (%d)", interface,
			(int)name);
	else if (strcmp(global->interface->name, interface))
		wl_resource_post_error(registry, INVALID_OBJECT,
			"invalid interface for global %u: have %s, wanted %s", name, interface,
			global->interface->name);
	else if (!version)
		wl_resource_post_error(registry, INVALID_OBJECT,
			"invalid version for global %s (%d): 0 is not a valid version", interface,
			(int)name);
	else if (version > (uint32_t)global->version)
		wl_resource_post_error(registry, INVALID_OBJECT,
			"invalid version for global %s (%d): have %d, wanted %d", interface, (int)name,
			global->version, (int)version);
	else
		return false;
	return true;
}

static void bind_global(struct wl_client *client, struct wl_resource *registry, uint32_t name,
	const char *interface, uint32_t version, uint32_t id)
{
	const struct wl_global *global = global_at(client, name);
	if (!globals_refuse(registry, name, interface, version))
		global->bind(client, global->data, version, id);
}

/* The functions for the requests of wl_registry. */
static const struct {
	void (*bind)(struct wl_client *, struct wl_resource *, uint32_t, const char *, uint32_t,
		uint32_t);
} registry_requests = { bind_global };

/* Adds the globals to the end of a client. */
static void add_all(struct wl_client *client)
{
	struct wl_global *global;
	if (!tables_learn_globals(client->display)) {
		wl_client_post_no_memory(client);
		return;
	}
	wl_list_for_each(global, &client->display->globals, link)
		if (!global->is_removed && !global->is_refused && is_visible(client, global))
			add_to_end(client, global);
	client->has_registry = true;
}

void globals_get_registry(struct wl_client *client, struct wl_resource *display, uint32_t id)
{
	struct wl_resource *registry = wl_resource_create(client, &wl_registry_interface, 1, id);
	if (!registry) {
		wl_resource_post_no_memory(display);
		return;
	}
	wl_resource_set_implementation(registry, &registry_requests, client->display, NULL);
	if (!client->has_registry)
		add_all(client);
	for (uint32_t name = 1; log_is_watching(client->display) && name < client->global_count; name++) {
		const struct wl_global *global = client->globals[name];
		if (global && !global->is_removed)
			tell_registry(registry, global, name, REGISTRY_GLOBAL);
	}
	announce(client);
}

/* ---- what compositors ask */

EXPORT void wl_display_set_global_filter(struct wl_display *display,
	wl_display_global_filter_func_t filter, void *data)
{
	display->filter = filter;
	display->filter_data = data;
}

EXPORT const struct wl_interface *wl_global_get_interface(const struct wl_global *global)
{
	return global->interface;
}

EXPORT uint32_t wl_global_get_version(const struct wl_global *global)
{
	return (uint32_t)global->version;
}

EXPORT struct wl_display *wl_global_get_display(const struct wl_global *global)
{
	return global->display;
}

EXPORT void *wl_global_get_user_data(const struct wl_global *global)
{
	return global->data;
}

EXPORT void wl_global_set_user_data(struct wl_global *global, void *data)
{
	global->data = data;
}

EXPORT uint32_t wl_global_get_name(const struct wl_global *global, const struct wl_client *client)
{
	return is_visible(client, global) ? name_at(client, global) : 0;
}

EXPORT struct wl_global *wl_display_add_global(struct wl_display *display,
	const struct wl_interface *interface, void *data, wl_global_bind_func_t bind)
{
	return wl_global_create(display, interface, interface->version, data, bind);
}

EXPORT void wl_display_remove_global(struct wl_display *display, struct wl_global *global)
{
	(void)display;
	wl_global_destroy(global);
}

/* ---- wl_fixes */

static void end_by_request(struct wl_client *client, struct wl_resource *resource)
{
	(void)client;
	wl_resource_destroy(resource);
}

static void destroy_registry(struct wl_client *client, struct wl_resource *fixes,
	struct wl_resource *registry)
{
	(void)client;
	(void)fixes;
	wl_resource_destroy(registry);
}

/* The functions for the requests of wl_fixes. */
static const struct {
	void (*destroy)(struct wl_client *, struct wl_resource *);
	void (*destroy_registry)(struct wl_client *, struct wl_resource *, struct wl_resource *);
} fixes_requests = { end_by_request, destroy_registry };

static void bind_fixes(struct wl_client *client, void *data, uint32_t version, uint32_t id)
{
	(void)data;
	struct wl_resource *fixes = wl_resource_create(client, &wl_fixes_interface, (int)version, id);
	if (fixes)
		wl_resource_set_implementation(fixes, &fixes_requests, NULL, NULL);
	else
		wl_client_post_no_memory(client);
}

EXPORT struct wl_global *wl_fixes_create(struct wl_display *display, int version)
{
	return wl_global_create(display, &wl_fixes_interface, version, NULL, bind_fixes);
}
