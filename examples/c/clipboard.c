/* The clipboard: keeps which source is the selection, offers it to each device, and
 * hands the descriptors of readers to the source's client. The text itself does not pass here. */
#include "clipboard.h"

#include <err.h>
#include <stdlib.h>
#include <unistd.h>

/* The source that is selected, null if none is, and the number of its last change. */
static struct source *selection;
static uint64_t change = 1;

static struct device *devices;

static void select_source(struct source *source)
{
	selection = source;
	change++;
}

waywire_status send_event(const struct client *client, waywire_object object, uint16_t event,
	const waywire_arg *args, size_t count)
{
	return waywire_end_send(client->server.end, object, event, args, count, NULL, NULL);
}

/* ---- sources */

/* A source that goes ends the selection, whether its client destroys it or goes itself. */
static void free_source(void *data)
{
	struct source *source = data;
	if (selection == source)
		select_source(NULL);
	for (size_t i = 0; i < source->count; i++)
		free(source->types[i]);
	free(source);
}

void new_source(struct client *client, waywire_object object,
	const struct clipboard_protocol *protocol)
{
	static uint64_t count;
	struct source *source = new_data(client, object, sizeof *source, free_source);
	source->client = client;
	source->protocol = protocol;
	source->object = object;
	source->number = ++count;
}

void add_type(struct source *source, const char *type)
{
	if (source->count == MOST_TYPES || strlen(type) > LONGEST_TYPE)
		return;
	source->types[source->count] = strdup(type);
	if (!source->types[source->count++])
		err(1, "memory");
}

/* A program of GTK sets its source once more when that has got more types. */
void set_selection(struct device *device, waywire_object object)
{
	static const uint32_t used_source = 1; /* an error of zwlr_data_control_device_v1 */
	struct client *client = device->client;
	struct source *source = waywire_connection_data(client->connection, object);
	if (source && source->was_set && source->protocol->sets_once) {
		waywire_server_post_error(client->server, device->object, used_source,
			"the source was used before");
		return;
	}
	if (selection && selection != source)
		may(selection->client, send_event(selection->client, selection->object,
			selection->protocol->cancelled, NULL, 0));
	if (source)
		source->was_set = true;
	select_source(source);
}

/* ---- devices and offers */

/* A device with version 1 of its protocol has no destructor, and goes with its client. */
static void free_device(void *data)
{
	struct device **link = &devices;
	while (*link != data)
		link = &(*link)->next;
	*link = (*link)->next;
	free(data);
}

/* Makes an offer of the selection at a device, with all types. */
static waywire_object make_offer(struct device *device)
{
	struct client *client = device->client;
	waywire_object made = { 0, 0 };
	waywire_arg new = waywire_new();
	may(client, waywire_end_send(client->server.end, device->object,
		device->protocol->data_offer, &new, 1, &made, NULL));
	if (!made.id)
		return made;
	struct offer *offer = new_data(client, made, sizeof *offer, free);
	offer->source = selection->number;
	for (size_t i = 0; i < selection->count; i++) {
		waywire_arg type = waywire_string(selection->types[i]);
		may(client, send_event(client, made, device->protocol->offer, &type, 1));
	}
	return made;
}

static void send_selection(struct device *device)
{
	static const waywire_object none;
	struct client *client = device->client;
	waywire_object offer = selection ? make_offer(device) : none;
	waywire_arg arg = offer.id ? waywire_of(offer) : waywire_no_object();
	device->sent = change;
	may(client, send_event(client, device->object, device->protocol->selection, &arg, 1));
}

void new_device(struct client *client, waywire_object object,
	const struct clipboard_protocol *protocol)
{
	struct device *device = new_data(client, object, sizeof *device, free_device);
	*device = (struct device){ devices, client, protocol, object, 0 };
	devices = device;
}

/* Sends the selection to the devices of a client that do not know it, once the client has read what
 * was written before. So a client that sets one selection after another takes others no room: they
 * get the last one. */
static void send_to_client(struct client *client)
{
	waywire_connection_flush(client->connection);
	if (waywire_connection_wants_write(client->connection))
		return;
	for (struct device *device = devices; device; device = device->next)
		if (device->client == client && device->sent != change
				&& (!device->protocol->needs_focus || focus == client))
			send_selection(device);
}

void send_selections(void)
{
	for (struct client *client = clients; client; client = client->next)
		send_to_client(client);
}

void send_selection_at_focus(struct client *client)
{
	for (struct device *device = devices; device; device = device->next)
		if (device->protocol->needs_focus && device->client == client)
			send_selection(device);
}

/* The reader's descriptor goes to the client of the source. If that is not the selection any more,
 * or if its client has no room, the descriptor is closed: the reader finds an empty text. */
void receive(const struct offer *offer, const char *type, int fd)
{
	waywire_status status = WAYWIRE_STALE;
	waywire_arg args[] = { waywire_string(type), waywire_fd((uint32_t)fd) };
	if (selection && offer->source == selection->number)
		status = send_event(selection->client, selection->object,
			selection->protocol->send, args, 2);
	if (status)
		close(fd);
}
