/* What is dispatched of reports that are no messages, of messages that other calls write, and of messages
 * without a callback. */
#include "every_stub.h"

static waywire_object named;
static uint32_t number;
static char heard[64];

static void on_error(void *data, waywire_wl_display display, waywire_object object, uint32_t code,
	const char *text)
{
	target = display.object;
	must_be_target(data, display.object);
	MUST(target.id == 1 && target.birth == 0);
	named = object;
	number = code;
	snprintf(heard, sizeof heard, "%s", text);
}

static void on_delete_id(void *data, waywire_wl_display display, uint32_t id)
{
	target = display.object;
	must_be_target(data, display.object);
	number = id;
}

static void on_global(void *data, waywire_wl_registry object, uint32_t name, const char *interface, uint32_t version)
{
	must_be_target(data, object.object);
	MUST(version == 6);
	number = name;
	snprintf(heard, sizeof heard, "%s", interface);
}

static void on_global_remove(void *data, waywire_wl_registry object, uint32_t name)
{
	must_be_target(data, object.object);
	number = name;
}

static const struct waywire_wl_display_events display_events = { on_error, on_delete_id };
static const struct waywire_wl_registry_events registry_events = { on_global, on_global_remove };

static void globals(void)
{
	uint16_t index;
	uint32_t name;
	open_pair();
	target = registry;
	MUST(!waywire_tables_interface(tables, WAYWIRE_WL_COMPOSITOR_NAME, &index));
	MUST(!waywire_server_add_global(server, index, 6, &name));
	MUST(!waywire_server_announce(server, NULL, NULL));
	carry_and_read_at_client();
	MUST(waywire_wl_registry_dispatch_event(&registry_events, &mark, &report));
	MUST(calls_that_came == 1 && number == name && !strcmp(heard, "wl_compositor"));
	MUST(!waywire_server_withdraw(server, name));
	MUST(!waywire_server_announce(server, NULL, NULL));
	carry_and_read_at_client();
	number = 0;
	MUST(waywire_wl_registry_event_dispatcher(&registry_events, &mark, &report));
	MUST(calls_that_came == 2 && number == name);
	close_pair();
}

/* An object that the client destroys while an event for it is on its way. */
static void deleted(void)
{
	static const struct waywire_wl_pointer_events none = { 0 };
	waywire_wl_pointer pointer;
	open_pair();
	MUST(!waywire_wl_seat_get_pointer(client, waywire_wl_seat_of(object_of("wl_seat")), &pointer));
	carry_and_read_at_server();
	MUST(!waywire_wl_pointer_send_frame(server, pointer));
	MUST(!waywire_wl_pointer_send_frame(server, pointer));
	carry_and_read_at_client();
	MUST(report.kind == WAYWIRE_MESSAGE && report.opcode == WAYWIRE_WL_POINTER_EVENT_FRAME);
	MUST(!waywire_wl_pointer_dispatch_event(&none, &mark, &report));
	MUST(!waywire_wl_display_dispatch_event(&display_events, &mark, &report));
	MUST(!waywire_wl_pointer_release(client, pointer));
	carry_and_read_at_client();
	MUST(report.kind == WAYWIRE_DISCARDED);
	MUST(!waywire_wl_pointer_dispatch_event(&none, &mark, &report));
	carry_and_read_at_server();
	carry_and_read_at_client();
	MUST(report.kind == WAYWIRE_DELETED);
	MUST(waywire_wl_display_event_dispatcher(&display_events, &mark, &report));
	MUST(calls_that_came == 1 && number == pointer.object.id);
	carry_and_read_at_client();
	MUST(report.kind == WAYWIRE_NOTHING);
	MUST(!waywire_wl_display_dispatch_event(&display_events, &mark, &report));
	close_pair();
}

static void failed(void)
{
	static const struct waywire_wl_display_events none = { 0 };
	open_pair();
	MUST(!waywire_server_post_error(server, registry, 7, "a reason"));
	carry_and_read_at_client();
	MUST(report.kind == WAYWIRE_ERROR);
	MUST(!waywire_wl_display_dispatch_event(&none, &mark, &report));
	MUST(waywire_wl_display_dispatch_event(&display_events, &mark, &report));
	MUST(calls_that_came == 1 && waywire_object_equal(named, registry));
	MUST(number == 7 && !strcmp(heard, "a reason"));
	close_pair();
}

/* A report stays as it is while the end writes, until its outbox is full. */
static void answered(void)
{
	waywire_wl_callback callback;
	uint16_t index;
	uint32_t name;
	size_t count = 0;
	open_pair();
	target = registry;
	MUST(!waywire_tables_interface(tables, WAYWIRE_WL_COMPOSITOR_NAME, &index));
	MUST(!waywire_server_add_global(server, index, 6, &name));
	MUST(!waywire_server_announce(server, NULL, NULL));
	carry_and_read_at_client();
	while (!waywire_wl_display_sync(client, waywire_wl_display_of(waywire_end_display(client.end)), &callback))
		count++;
	MUST(count > 100 && waywire_end_out_room(client.end).bytes < 12);
	MUST(!waywire_end_set_user(client.end, callback.object, &mark));
	MUST(waywire_end_sent(client.end, SIZE_MAX).bytes == 12 * count);
	MUST(!waywire_client_bind(client, registry, report.args[0].u, report.args[1].bytes, report.args[2].u, NULL));
	MUST(waywire_wl_registry_dispatch_event(&registry_events, &mark, &report));
	MUST(calls_that_came == 1 && number == name && !strcmp(heard, "wl_compositor"));
	close_pair();
}

/* One dispatch over several interfaces, by that of the target. */
static void by_interface(void)
{
	static const waywire_listener listeners[] = {
		{ WAYWIRE_WL_REGISTRY_NAME, waywire_wl_registry_event_dispatcher, &registry_events },
		{ WAYWIRE_WL_DISPLAY_NAME, waywire_wl_display_event_dispatcher, &display_events },
	};
	static const unsigned char delete_9[] = { 1, 0, 0, 0, 1, 0, 12, 0, 9, 0, 0, 0 };
	static const waywire_report nothing = { 0 };
	waywire_amounts fed;
	uint16_t index;
	open_pair();
	target = registry;
	MUST(!waywire_tables_interface(tables, WAYWIRE_WL_COMPOSITOR_NAME, &index));
	MUST(!waywire_server_add_global(server, index, 6, NULL));
	MUST(!waywire_server_announce(server, NULL, NULL));
	carry_and_read_at_client();
	MUST(waywire_dispatch(tables, listeners, 2, &mark, &report));
	MUST(calls_that_came == 1 && !strcmp(heard, "wl_compositor"));
	MUST(!waywire_dispatch(tables, listeners + 1, 1, &mark, &report)); /* no listener for wl_registry */
	MUST(!waywire_dispatch(tables, NULL, 0, &mark, &report));
	MUST(!waywire_end_feed(client.end, delete_9, sizeof delete_9, NULL, 0, &fed));
	MUST(!waywire_end_next(client.end, &report) && report.kind == WAYWIRE_STRAY);
	MUST(waywire_dispatch(tables, listeners, 2, &mark, &report));
	MUST(calls_that_came == 2 && number == 9);
	MUST(!waywire_dispatch(tables, listeners, 2, &mark, &nothing));
	close_pair();
}

int main(void)
{
	read_tables(NULL);
	globals();
	answered();
	by_interface();
	deleted();
	failed();
	waywire_tables_free(tables);
	return 0;
}
