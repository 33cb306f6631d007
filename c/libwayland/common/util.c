/* Lists and arrays: "wl_list" and "wl_array" in the Wayland documentation. */
#include "wayland-abi.h"

#include <errno.h>
#include <stdlib.h>
#include <string.h>

/* The room of an array when it has its first bytes. */
#define FIRST_ROOM 16

/* What the data of a released array point to, as in libwayland: nothing is there. */
#define RELEASED ((void *)4)

EXPORT void wl_list_init(struct wl_list *list)
{
	list->prev = list;
	list->next = list;
}

EXPORT void wl_list_insert(struct wl_list *list, struct wl_list *element)
{
	element->prev = list;
	element->next = list->next;
	list->next->prev = element;
	list->next = element;
}

/* The links of a removed element are null, so it cannot be removed again unnoticed. */
EXPORT void wl_list_remove(struct wl_list *element)
{
	element->prev->next = element->next;
	element->next->prev = element->prev;
	element->prev = NULL;
	element->next = NULL;
}

EXPORT int wl_list_length(const struct wl_list *list)
{
	int count = 0;
	for (const struct wl_list *link = list->next; link != list; link = link->next)
		count++;
	return count;
}

EXPORT int wl_list_empty(const struct wl_list *list)
{
	return list->next == list;
}

EXPORT void wl_list_insert_list(struct wl_list *list, struct wl_list *other)
{
	if (wl_list_empty(other))
		return;
	struct wl_list *first = other->next, *last = other->prev;
	last->next = list->next;
	list->next->prev = last;
	first->prev = list;
	list->next = first;
}

EXPORT void wl_array_init(struct wl_array *array)
{
	array->size = 0;
	array->alloc = 0;
	array->data = NULL;
}

EXPORT void wl_array_release(struct wl_array *array)
{
	free(array->data);
	array->data = RELEASED;
}

/* Makes room for this many bytes in all, by doubling. False with ENOMEM, and nothing has changed. */
static bool make_room(struct wl_array *array, size_t size)
{
	size_t room = array->alloc ? array->alloc : FIRST_ROOM;
	while (room < size && room <= SIZE_MAX / 2)
		room *= 2;
	if (room == array->alloc)
		return true;
	/* An array that was never filled has no data of its own, whatever it points to. */
	void *data = room < size ? NULL : realloc(array->alloc ? array->data : NULL, room);
	if (!data) {
		errno = ENOMEM;
		return false;
	}
	array->data = data;
	array->alloc = room;
	return true;
}

EXPORT void *wl_array_add(struct wl_array *array, size_t size)
{
	if (size > SIZE_MAX - array->size) {
		errno = ENOMEM;
		return NULL;
	}
	if (!make_room(array, array->size + size))
		return NULL;
	char *added = (char *)array->data + array->size;
	array->size += size;
	return added;
}

EXPORT int wl_array_copy(struct wl_array *array, struct wl_array *source)
{
	if (array->size < source->size) {
		if (!wl_array_add(array, source->size - array->size))
			return -1;
	} else {
		array->size = source->size;
	}
	if (source->size)
		memcpy(array->data, source->data, source->size);
	return 0;
}
