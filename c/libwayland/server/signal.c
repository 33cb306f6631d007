/* Signals: "wl_signal" in the Wayland documentation. See server.h. */
#include "server.h"

void signal_init(struct wl_signal *signal)
{
	wl_list_init(&signal->listener_list);
}

void signal_add(struct wl_signal *signal, struct wl_listener *listener)
{
	wl_list_insert(signal->listener_list.prev, &listener->link);
}

struct wl_listener *signal_get(struct wl_signal *signal, wl_notify_func_t notify)
{
	struct wl_listener *listener;
	wl_list_for_each(listener, &signal->listener_list, link)
		if (listener->notify == notify)
			return listener;
	return NULL;
}

/* A listener may free itself, and remove others. */
void signal_emit_last(struct wl_signal *signal, void *data)
{
	while (!wl_list_empty(&signal->listener_list)) {
		struct wl_listener *first = wl_container_of(signal->listener_list.next, first, link);
		wl_list_remove(&first->link);
		wl_list_init(&first->link);
		first->notify(first, data);
	}
}

static void ignore(struct wl_listener *listener, void *data)
{
	(void)listener;
	(void)data;
}

/* Two marks are in the list while its listeners are called: one goes from each to the next, and the other stays
 * where the list ended. So any listener may be removed, and one that is added is not called. */
EXPORT void wl_signal_emit_mutable(struct wl_signal *signal, void *data)
{
	struct wl_listener here = { .notify = ignore }, last = { .notify = ignore };
	wl_list_insert(&signal->listener_list, &here.link);
	wl_list_insert(signal->listener_list.prev, &last.link);
	while (here.link.next != &last.link) {
		struct wl_list *next = here.link.next;
		struct wl_listener *listener = wl_container_of(next, listener, link);
		wl_list_remove(&here.link);
		wl_list_insert(next, &here.link);
		listener->notify(listener, data);
	}
	wl_list_remove(&here.link);
	wl_list_remove(&last.link);
}
