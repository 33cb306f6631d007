/* Where the fields are that compositors read and write themselves, without a call: listeners, signals, lists, arrays,
 * and the front of struct wl_resource, which old headers show. It looks at them in objects that the library has made,
 * so what it prints must be the same over two libraries. */
#define _GNU_SOURCE
#include "served.h"

static struct peer peer;
static struct wire wire;
static int data;

static void notes(struct wl_listener *listener, void *given)
{
	(void)listener;
	printf("notified %d\n", given != NULL);
}

static void has_ended(struct wl_resource *resource)
{
	printf("ended %u\n", resource->object.id);
}

static void sizes(void)
{
	printf("wl_listener %zu, wl_signal %zu, wl_list %zu, wl_array %zu, wl_resource %zu, wl_object %zu\n",
		sizeof(struct wl_listener), sizeof(struct wl_signal), sizeof(struct wl_list), sizeof(struct wl_array),
		sizeof(struct wl_resource), sizeof(struct wl_object));
	printf("events %d %d %d %d\n", WL_EVENT_READABLE, WL_EVENT_WRITABLE, WL_EVENT_HANGUP, WL_EVENT_ERROR);
	printf("iterators %d %d, logger %d %d\n", WL_ITERATOR_STOP, WL_ITERATOR_CONTINUE, WL_PROTOCOL_LOGGER_REQUEST,
		WL_PROTOCOL_LOGGER_EVENT);
}

/* The fields of a resource, read and written. */
static void resources(void)
{
	static struct wl_listener listener = { .notify = notes };
	struct wl_resource *it = last_surface;
	wl_resource_set_implementation(it, &of_surface, &data, has_ended);
	printf("interface %d, implementation %d, id %u, destroy %d, client %d, data %d\n",
		it->object.interface == &wl_surface_interface || !strcmp(it->object.interface->name, "wl_surface"),
		it->object.implementation == (const void *)&of_surface, it->object.id, it->destroy == has_ended,
		it->client == peer.client, it->data == &data);
	it->data = &wire;
	printf("written data %d\n", wl_resource_get_user_data(it) == &wire);
	wl_list_init(&it->link);
	printf("link %d\n", wl_resource_get_link(it) == &it->link && wl_resource_from_link(&it->link) == it);
	wl_resource_add_destroy_listener(it, &listener);
}

/* Signals that the compositor keeps itself, with the header's own calls. */
static void signals(void)
{
	struct wl_signal signal;
	struct wl_listener first = { .notify = notes }, second = { .notify = notes };
	wl_signal_init(&signal);
	wl_signal_add(&signal, &first);
	wl_signal_add(&signal, &second);
	printf("found %d, listeners %d\n", wl_signal_get(&signal, notes) == &first, wl_list_length(&signal.listener_list));
	wl_signal_emit(&signal, &data);
	wl_signal_emit_mutable(&signal, &data);
	wl_list_remove(&first.link);
	printf("left %d, first %d\n", wl_list_length(&signal.listener_list),
		signal.listener_list.next == &second.link && second.link.prev == &signal.listener_list);
}

/* Lists and arrays that the library gives, walked by the header's macros. */
static void lists(void)
{
	struct wl_client *client;
	struct wl_array array;
	uint32_t *word;
	int count = 0;
	wl_client_for_each(client, wl_display_get_client_list(display))
		count += client == peer.client;
	printf("clients %d\n", count);
	wl_array_init(&array);
	for (uint32_t at = 0; at < 40; at++)
		*(uint32_t *)wl_array_add(&array, sizeof at) = at;
	count = 0;
	wl_array_for_each(word, &array)
		count += (int)*word;
	printf("array %zu bytes, sum %d\n", array.size, count);
	wl_array_release(&array);
}

/* wl_log's handler gets what a library prints itself. */
static void logs(const char *format, va_list list)
{
	char line[200];
	vsnprintf(line, sizeof line, format, list);
	printf("logged: %s", line);
}

int main(void)
{
	wl_log_set_handler_server(logs);
	display = wl_display_create();
	add_compositor();
	open_with_compositor(&peer, 4);
	put_message(&wire, COMPOSITOR, 0, 1, 4);
	asks(&peer, &wire);
	sizes();
	resources();
	signals();
	lists();
	put_message(&wire, 4, SURFACE_DESTROY, 0);
	asks(&peer, &wire);
	close_display();
	return 0;
}
