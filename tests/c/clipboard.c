/* Two clients at the clipboard of the example compositor: offers that are gone, sources that are destroyed
 * and set twice, and clients that write much and read nothing.
 *
 *     clipboard SOCKET */
#define _GNU_SOURCE
#include "data-control.h"
#include "descriptors.h"

#include <errno.h>
#include <fcntl.h>
#include <poll.h>

/* Sets one selection after another, with so many types, and such long names, that a socket and an outbox
 * cannot hold them. Then readers ask at once. */
#define SELECTIONS 300
#define TYPES 64
#define LONG 200
#define READERS 3000

typedef waywire_zwlr_data_control_source_v1 source;
typedef waywire_zwlr_data_control_offer_v1 offer;

/* A client with a device. */
struct side {
	waywire_connection *connection;
	waywire_client client;
	waywire_wl_seat seat;
	waywire_zwlr_data_control_manager_v1 manager;
	waywire_zwlr_data_control_device_v1 device;
	offer made, selected; /* the last offer, and that of the selection */
	int types, selections, cancelled, sends;
};

static waywire_tables *tables;

static void on_global(void *data, waywire_wl_registry registry, uint32_t name, const char *interface,
	uint32_t version)
{
	struct side *side = data;
	(void)version;
	if (!strcmp(interface, WAYWIRE_WL_SEAT_NAME))
		MUST(!waywire_wl_seat_bind(side->client, registry, name, 1, &side->seat));
	if (!strcmp(interface, WW_ZWLR_DATA_CONTROL_MANAGER_V1_NAME))
		MUST(!ww_zwlr_data_control_manager_v1_bind(side->client, registry, name, 1, &side->manager));
}

static const struct waywire_wl_registry_events registry_events = { .global = on_global };

static void on_data_offer(void *data, waywire_zwlr_data_control_device_v1 device, offer made)
{
	struct side *side = data;
	(void)device;
	side->made = made;
	side->types = 0;
}

static void on_selection(void *data, waywire_zwlr_data_control_device_v1 device, offer selected)
{
	struct side *side = data;
	(void)device;
	MUST(!selected.object.id || waywire_object_equal(selected.object, side->made.object));
	side->selected = selected;
	side->selections++;
}

static const struct ww_zwlr_data_control_device_v1_events device_events = {
	.data_offer = on_data_offer, .selection = on_selection };

static void on_type(void *data, offer object, const char *type)
{
	(void)object, (void)type;
	((struct side *)data)->types++;
}

static const struct ww_zwlr_data_control_offer_v1_events offer_events = { .offer = on_type };

/* Writes the type that is asked for as the text. */
static void on_send(void *data, source object, const char *type, int fd)
{
	(void)object;
	((struct side *)data)->sends++;
	MUST(write(fd, type, strlen(type)) == (ssize_t)strlen(type) && !close(fd));
}

static void on_cancelled(void *data, source object)
{
	(void)object;
	((struct side *)data)->cancelled++;
}

static const struct ww_zwlr_data_control_source_v1_events source_events = {
	.send = on_send, .cancelled = on_cancelled };

static const waywire_listener listeners[] = {
	{ WAYWIRE_WL_REGISTRY_NAME, waywire_wl_registry_event_dispatcher, &registry_events },
	{ WW_ZWLR_DATA_CONTROL_DEVICE_V1_NAME, ww_zwlr_data_control_device_v1_event_dispatcher, &device_events },
	{ WW_ZWLR_DATA_CONTROL_OFFER_V1_NAME, ww_zwlr_data_control_offer_v1_event_dispatcher, &offer_events },
	{ WW_ZWLR_DATA_CONTROL_SOURCE_V1_NAME, ww_zwlr_data_control_source_v1_event_dispatcher, &source_events },
};

/* Reads until a condition is true. */
#define UNTIL(side, condition) \
	while (!(condition)) \
	MUST(waywire_connection_dispatch((side)->connection, WAIT) > 0)

static void connect_side(struct side *side, const char *path)
{
	waywire_wl_registry registry;
	side->connection = waywire_connection_connect(tables, NULL, path);
	MUST(side->connection);
	side->client = waywire_connection_client(side->connection);
	MUST(!waywire_connection_implement(side->connection, listeners, sizeof listeners / sizeof *listeners, side));
	MUST(!waywire_wl_display_get_registry(side->client,
		waywire_wl_display_of(waywire_end_display(side->client.end)), &registry));
	MUST(waywire_connection_roundtrip(side->connection, WAIT) > 0 && side->manager.object.id);
	MUST(!ww_zwlr_data_control_manager_v1_get_data_device(side->client, side->manager, side->seat, &side->device));
	UNTIL(side, side->selections == 1);
}

/* Makes a call again once there is room for it. */
#define SEND(side, call) \
	do { \
		waywire_status status; \
		while ((status = (call)) == WAYWIRE_FULL) \
			MUST(!waywire_connection_drain((side)->connection, WAIT)); \
		MUST(!status); \
	} while (0)

/* Selects a new source with so many types, whose names are at least so long. */
static source copy_long(struct side *side, int types, int least)
{
	source made;
	char name[LONG + 16];
	SEND(side, ww_zwlr_data_control_manager_v1_create_data_source(side->client, side->manager, &made));
	for (int i = 0; i < types; i++) {
		snprintf(name, sizeof name, "type %0*d", least, i);
		SEND(side, ww_zwlr_data_control_source_v1_offer(side->client, made, name));
	}
	SEND(side, ww_zwlr_data_control_device_v1_set_selection(side->client, side->device, made));
	MUST(!waywire_connection_drain(side->connection, WAIT));
	return made;
}

static source copy(struct side *side, int types)
{
	return copy_long(side, types, 1);
}

/* Asks for a text, and returns the other end of the pipe. */
static int ask(struct side *side, offer of, const char *type)
{
	int ends[2];
	MUST(!pipe2(ends, O_CLOEXEC));
	MUST(!ww_zwlr_data_control_offer_v1_receive(side->client, of, type, ends[1]));
	MUST(!waywire_connection_drain(side->connection, WAIT));
	return ends[0];
}

/* What comes from a pipe to its end, while a client sends. */
static size_t text_of(int pipe, struct side *sends, char *text, size_t room)
{
	size_t length = 0;
	for (ssize_t count = 1; count;) {
		struct pollfd polled[2] = { { pipe, POLLIN, 0 },
			{ waywire_connection_fd(sends->connection), POLLIN, 0 } };
		MUST(poll(polled, 2, WAIT) > 0);
		if (polled[1].revents)
			MUST(waywire_connection_dispatch(sends->connection, 0) >= 0);
		if (!polled[0].revents)
			continue;
		count = read(pipe, text + length, room - length);
		MUST(count >= 0);
		length += (size_t)count;
	}
	MUST(!close(pipe));
	return length;
}

/* A text goes by the offer of the selection, and none by an offer that is gone. */
static void test_offers(struct side *one, struct side *other)
{
	char text[16];
	int before = other->selections;
	source first = copy(one, 2);
	UNTIL(other, other->selections > before && other->selected.object.id);
	MUST(other->types == 2);
	offer stale = other->selected;
	copy(one, 3);
	UNTIL(other, other->types == 3 && !waywire_object_equal(other->selected.object, stale.object));
	UNTIL(one, one->cancelled == 1);
	MUST(text_of(ask(other, stale, "type 1"), one, text, sizeof text) == 0);
	MUST(text_of(ask(other, other->selected, "type 1"), one, text, sizeof text) == 6);
	MUST(!memcmp(text, "type 1", 6) && one->sends == 1);
	MUST(!ww_zwlr_data_control_offer_v1_destroy(other->client, stale));
	MUST(!ww_zwlr_data_control_source_v1_destroy(one->client, first));
	MUST(waywire_connection_roundtrip(one->connection, WAIT) > 0);
}

/* A source that is destroyed ends the selection. */
static void test_destroyed(struct side *one, struct side *other)
{
	char text[16];
	source selected = copy(one, 1);
	UNTIL(other, other->types == 1);
	offer stale = other->selected;
	MUST(!ww_zwlr_data_control_source_v1_destroy(one->client, selected));
	MUST(!waywire_connection_drain(one->connection, WAIT));
	UNTIL(other, !other->selected.object.id);
	MUST(text_of(ask(other, stale, "type 0"), one, text, sizeof text) == 0);
}

/* One client sets many selections while the other reads nothing: that gets the last one. */
static void test_much(struct side *one, struct side *other)
{
	for (int i = 0; i < SELECTIONS; i++) {
		source selected = copy_long(one, TYPES, LONG);
		SEND(one, ww_zwlr_data_control_source_v1_destroy(one->client, selected));
		MUST(waywire_connection_dispatch(one->connection, 0) >= 0);
	}
	copy(one, 5);
	UNTIL(other, other->types == 5 && other->selected.object.id
		&& waywire_object_equal(other->selected.object, other->made.object));
}

/* One client asks for a text many times while the other does not read: it gets all that found room, and each
 * descriptor is closed. */
static void test_readers(struct side *one, struct side *other)
{
	static char text[6 * READERS];
	int ends[2], before = one->sends;
	MUST(!pipe2(ends, O_CLOEXEC));
	for (int i = 0; i < READERS; i++) {
		int fd = fcntl(ends[1], F_DUPFD_CLOEXEC, 0);
		MUST(fd >= 0);
		SEND(other, ww_zwlr_data_control_offer_v1_receive(other->client, other->selected, "type 0", fd));
	}
	MUST(!close(ends[1]) && waywire_connection_roundtrip(other->connection, WAIT) > 0);
	size_t length = text_of(ends[0], one, text, sizeof text);
	MUST(length > 0 && length == 6 * (size_t)(one->sends - before));
}

/* A source that is set twice ends its client, and with that the selection. */
static void test_set_twice(struct side *one, struct side *other)
{
	source selected = copy(one, 7);
	UNTIL(other, other->types == 7);
	MUST(!ww_zwlr_data_control_device_v1_set_selection(one->client, one->device, selected));
	while (waywire_connection_dispatch(one->connection, WAIT) > 0)
		;
	const waywire_failure *failure = waywire_connection_failure(one->connection);
	MUST(failure && failure->kind == WAYWIRE_ERROR && failure->id == one->device.object.id);
	MUST(failure->code == WW_ZWLR_DATA_CONTROL_DEVICE_V1_ERROR_USED_SOURCE);
	UNTIL(other, !other->selected.object.id);
}

int main(int argc, char **argv)
{
	static struct side one, other;
	int open_before = count_open();
	MUST(argc == 2);
	tables = core_and(WW_WLR_DATA_CONTROL_UNSTABLE_V1_TABLES);
	connect_side(&one, argv[1]);
	connect_side(&other, argv[1]);
	test_offers(&one, &other);
	test_destroyed(&one, &other);
	test_much(&one, &other);
	test_readers(&one, &other);
	test_set_twice(&one, &other);
	MUST(waywire_connection_roundtrip(other.connection, WAIT) > 0);
	waywire_connection_close(one.connection);
	waywire_connection_close(other.connection);
	waywire_tables_free(tables);
	MUST(count_open() == open_before);
	return 0;
}
