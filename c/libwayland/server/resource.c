/* Resources, the ids that lead to them, and what listens to their ends. See server.h. */
#include "server.h"

#include <errno.h>
#include <stdlib.h>
#include <string.h>

/* ---- ids */

static bool is_of_server(uint32_t id)
{
	return id >= WAYWIRE_FIRST_SERVER_ID;
}

/* The slots that have an id, and its place in them. */
static struct slots *slots_of(struct wl_client *client, uint32_t id, uint32_t *place)
{
	*place = is_of_server(id) ? id - WAYWIRE_FIRST_SERVER_ID : id;
	return is_of_server(id) ? &client->of_server : &client->of_client;
}

struct slot *slot_find(struct wl_client *client, uint32_t id)
{
	uint32_t place;
	struct slots *slots = slots_of(client, id, &place);
	return place < slots->count ? &slots->at[place] : NULL;
}

struct wl_resource *client_resource(struct wl_client *client, uint32_t id)
{
	const struct slot *slot = slot_find(client, id);
	return slot ? slot->resource : NULL;
}

struct slot *slot_make(struct wl_client *client, uint32_t id)
{
	uint32_t place;
	struct slots *slots = slots_of(client, id, &place);
	if (place >= slots->room) {
		size_t room = 2 * (size_t)place + 16;
		struct slot *more = realloc(slots->at, room * sizeof *more);
		if (!more)
			return NULL;
		memset(more + slots->room, 0, (room - slots->room) * sizeof *more);
		slots->at = more;
		slots->room = (uint32_t)room;
	}
	if (place >= slots->count)
		slots->count = place + 1;
	return &slots->at[place];
}

/* The lowest id of the server's range that no resource has. The end gives an id when an event makes the object:
 * mostly this one. */
static uint32_t next_id_of_server(const struct wl_client *client)
{
	uint32_t place = 0;
	while (place < client->of_server.count && client->of_server.at[place].resource)
		place++;
	return WAYWIRE_FIRST_SERVER_ID + place;
}

/* If the object has another id than the resource was made with, a resource that waits for its own event may have that
 * id: the two change places. */
bool resource_adopt(struct wl_resource *resource, waywire_object made)
{
	struct wl_client *client = resource->client;
	struct slot *slot = slot_make(client, made.id);
	if (!slot)
		return false;
	if (slot->resource != resource) {
		struct slot *before = slot_find(client, resource->object.id);
		if (before->resource == resource)
			before->resource = slot->resource;
		if (slot->resource)
			slot->resource->object.id = resource->object.id;
		slot->resource = resource;
		resource->object.id = made.id;
	}
	slot->birth = made.birth;
	resource->handle = made;
	return true;
}

/* ---- making and destroying */

/* Whether a new resource can have an id: a request has just made the object, or the id is one of the server's. If
 * not, the client is told. */
static bool is_new_id(struct wl_client *client, uint32_t id)
{
	const struct slot *slot = slot_find(client, id);
	bool is_new = is_of_server(id)
		? id - WAYWIRE_FIRST_SERVER_ID <= client->of_server.count : slot && slot->is_fresh;
	if (!is_new && client->display_resource)
		wl_resource_post_error(client->display_resource, INVALID_OBJECT, "invalid new id %d",
			(int)id);
	return is_new;
}

EXPORT struct wl_resource *wl_resource_create(struct wl_client *client,
	const struct wl_interface *interface, int version, uint32_t id)
{
	if (!id)
		id = next_id_of_server(client);
	if (!is_new_id(client, id))
		return NULL;
	const struct known_interface *known = tables_learn(client->display, interface);
	if (!known && errno == ENOMEM)
		return NULL;
	struct wl_resource *resource = calloc(1, sizeof *resource);
	struct slot *slot = resource ? slot_make(client, id) : NULL;
	if (!slot) {
		free(resource);
		return NULL;
	}
	resource->object.interface = interface;
	resource->object.id = id;
	resource->client = client;
	resource->version = version;
	resource->known = known;
	wl_list_init(&resource->link);
	signal_init(&resource->destroy_signal);
	if (!is_of_server(id))
		resource->handle = (waywire_object){ slot->birth, id };
	slot->resource = resource;
	slot->is_fresh = false;
	wl_signal_emit_mutable(&client->resource_created, resource);
	return resource;
}

/* The id leads to the resource until all that listens was called. Another resource may have got the id by then. */
void resource_end(struct wl_resource *resource)
{
	signal_emit_last(&resource->destroy_signal, resource);
	if (resource->destroy)
		resource->destroy(resource);
	struct slot *slot = slot_find(resource->client, resource->object.id);
	if (slot->resource == resource)
		slot->resource = NULL;
	free(resource);
}

/* Ends the object of a resource at the end. An event or wl_fixes may have ended it before. */
static void end_object(struct wl_client *client, waywire_object object)
{
	if (waywire_server_end_object(client->server, object) != WAYWIRE_FULL)
		return;
	log_line("object %u cannot be ended: the client does not read\n", object.id);
	client_fail(client);
}

EXPORT void wl_resource_destroy(struct wl_resource *resource)
{
	struct wl_client *client = resource->client;
	waywire_object object = resource->handle;
	uint32_t id = resource->object.id;
	resource_end(resource);
	if (!client->display_resource)
		return;
	if (!is_of_server(id) && log_is_watching(client->display)) {
		union wl_argument arg;
		arg.u = id;
		log_tell(client->display_resource, &wl_display_interface.events[DISPLAY_DELETE_ID],
			DISPLAY_DELETE_ID, &arg, true);
	}
	if (object.id && client->server.end && !client->has_failed)
		end_object(client, object);
}

EXPORT struct wl_resource *wl_client_get_object(struct wl_client *client, uint32_t id)
{
	return client_resource(client, id);
}

/* Calls the iterator for each resource of a range. Whether it goes on. */
static bool goes_on(const struct slots *slots, wl_client_for_each_resource_iterator_func_t iterator,
	void *data)
{
	for (uint32_t i = 0; i < slots->count; i++) {
		struct wl_resource *resource = slots->at[i].resource;
		if (resource && iterator(resource, data) == WL_ITERATOR_STOP)
			return false;
	}
	return true;
}

EXPORT void wl_client_for_each_resource(struct wl_client *client,
	wl_client_for_each_resource_iterator_func_t iterator, void *data)
{
	if (goes_on(&client->of_client, iterator, data))
		goes_on(&client->of_server, iterator, data);
}

/* ---- what a resource has */

EXPORT void wl_resource_set_implementation(struct wl_resource *resource, const void *implementation,
	void *data, wl_resource_destroy_func_t destroy)
{
	wl_resource_set_dispatcher(resource, NULL, implementation, data, destroy);
}

EXPORT void wl_resource_set_dispatcher(struct wl_resource *resource,
	wl_dispatcher_func_t dispatcher, const void *implementation, void *data,
	wl_resource_destroy_func_t destroy)
{
	resource->dispatcher = dispatcher;
	resource->object.implementation = implementation;
	resource->data = data;
	resource->destroy = destroy;
}

EXPORT void wl_resource_set_destructor(struct wl_resource *resource,
	wl_resource_destroy_func_t destroy)
{
	resource->destroy = destroy;
}

EXPORT void wl_resource_set_user_data(struct wl_resource *resource, void *data)
{
	resource->data = data;
}

EXPORT void *wl_resource_get_user_data(struct wl_resource *resource)
{
	return resource->data;
}

EXPORT uint32_t wl_resource_get_id(struct wl_resource *resource)
{
	return resource->object.id;
}

EXPORT struct wl_list *wl_resource_get_link(struct wl_resource *resource)
{
	return &resource->link;
}

EXPORT struct wl_resource *wl_resource_from_link(struct wl_list *link)
{
	struct wl_resource *resource = wl_container_of(link, resource, link);
	return resource;
}

EXPORT struct wl_resource *wl_resource_find_for_client(struct wl_list *list,
	struct wl_client *client)
{
	struct wl_resource *resource;
	if (!client)
		return NULL;
	wl_list_for_each(resource, list, link)
		if (resource->client == client)
			return resource;
	return NULL;
}

EXPORT struct wl_client *wl_resource_get_client(struct wl_resource *resource)
{
	return resource->client;
}

EXPORT int wl_resource_get_version(struct wl_resource *resource)
{
	return resource->version;
}

EXPORT const char *wl_resource_get_class(struct wl_resource *resource)
{
	return resource->object.interface->name;
}

EXPORT const struct wl_interface *wl_resource_get_interface(struct wl_resource *resource)
{
	return resource->object.interface;
}

EXPORT int wl_resource_instance_of(struct wl_resource *resource,
	const struct wl_interface *interface, const void *implementation)
{
	const struct wl_interface *own = resource->object.interface;
	return resource->object.implementation == implementation
		&& (own == interface || !strcmp(own->name, interface->name));
}

EXPORT void wl_resource_add_destroy_listener(struct wl_resource *resource,
	struct wl_listener *listener)
{
	signal_add(&resource->destroy_signal, listener);
}

EXPORT struct wl_listener *wl_resource_get_destroy_listener(struct wl_resource *resource,
	wl_notify_func_t notify)
{
	return signal_get(&resource->destroy_signal, notify);
}

/* ---- deprecated since 2013 */

EXPORT uint32_t wl_client_add_resource(struct wl_client *client, struct wl_resource *resource)
{
	(void)client;
	(void)resource;
	log_line("wl_client_add_resource is not served: use wl_resource_create\n");
	return 0;
}

EXPORT struct wl_resource *wl_client_add_object(struct wl_client *client,
	const struct wl_interface *interface, const void *implementation, uint32_t id, void *data)
{
	struct wl_resource *resource = wl_resource_create(client, interface, -1, id);
	if (resource)
		wl_resource_set_implementation(resource, implementation, data, NULL);
	return resource;
}

EXPORT struct wl_resource *wl_client_new_object(struct wl_client *client,
	const struct wl_interface *interface, const void *implementation, void *data)
{
	return wl_client_add_object(client, interface, implementation, 0, data);
}
