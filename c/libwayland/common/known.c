/* The interfaces that agree with the tables, and the signatures of their messages, which are parsed once. What is
 * found here stays until the display goes. See structs.h. */
#include "structs.h"

#include <errno.h>
#include <stdlib.h>

static size_t bucket_of(const struct wl_interface *interface)
{
	uint32_t mixed = (uint32_t)((uintptr_t)interface >> 3) * 2654435761u;
	return mixed >> 8 & (KNOWN_BUCKETS - 1);
}

static bool is_as_it_was(const struct known_interface *known, const struct wl_interface *interface)
{
	const struct wl_interface *was = &known->was;
	return known->at == interface && was->name == interface->name
		&& was->methods == interface->methods && was->events == interface->events
		&& was->method_count == interface->method_count
		&& was->event_count == interface->event_count;
}

const struct known_interface *known_find(const struct known_interfaces *known,
	const struct wl_interface *interface)
{
	const struct known_interface *found = known->buckets[bucket_of(interface)];
	while (found && !is_as_it_was(found, interface))
		found = found->next;
	return found;
}

bool known_add(struct known_interfaces *known, const struct wl_interface *interface)
{
	if (known_find(known, interface))
		return true;
	size_t requests = (size_t)interface->method_count, events = (size_t)interface->event_count;
	struct known_interface *added = malloc(sizeof *added
		+ (requests + events) * sizeof *added->signatures);
	if (!added) {
		errno = ENOMEM;
		return false;
	}
	added->at = interface;
	added->was = *interface;
	for (size_t i = 0; i < requests; i++)
		signature_read(&added->signatures[i], interface->methods[i].signature);
	for (size_t i = 0; i < events; i++)
		signature_read(&added->signatures[requests + i], interface->events[i].signature);
	struct known_interface **bucket = &known->buckets[bucket_of(interface)];
	added->next = *bucket;
	*bucket = added;
	return true;
}

void known_drop(struct known_interfaces *known)
{
	for (size_t i = 0; i < KNOWN_BUCKETS; i++)
		while (known->buckets[i]) {
			struct known_interface *first = known->buckets[i];
			known->buckets[i] = first->next;
			free(first);
		}
}
