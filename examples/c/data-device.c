/* The clipboard's two protocols: that of wl_data_device_manager, which the client that has the focus
 * can use, and that of zwlr_data_control_manager_v1, for programs without a window. Their messages
 * differ in names, numbers and serials alone, so the calls here take a message's number: there is no
 * typed call for both. Nothing is dragged: a source that should be is cancelled. A serial is not
 * looked at. */
#include "clipboard.h"
#include "wayland.h"
#ifdef WITH_DATA_CONTROL
#include "data-control.h"
#endif

#define NO_REQUEST UINT16_MAX

static const struct clipboard_protocol data_device = {
	.needs_focus = true,
	.data_offer = WW_WL_DATA_DEVICE_EVENT_DATA_OFFER,
	.selection = WW_WL_DATA_DEVICE_EVENT_SELECTION,
	.offer = WW_WL_DATA_OFFER_EVENT_OFFER,
	.send = WW_WL_DATA_SOURCE_EVENT_SEND,
	.cancelled = WW_WL_DATA_SOURCE_EVENT_CANCELLED,
	.create_data_source = WW_WL_DATA_DEVICE_MANAGER_REQUEST_CREATE_DATA_SOURCE,
	.get_data_device = WW_WL_DATA_DEVICE_MANAGER_REQUEST_GET_DATA_DEVICE,
	.offers = WW_WL_DATA_SOURCE_REQUEST_OFFER,
	.start_drag = WW_WL_DATA_DEVICE_REQUEST_START_DRAG,
	.set_selection = WW_WL_DATA_DEVICE_REQUEST_SET_SELECTION,
	.receive = WW_WL_DATA_OFFER_REQUEST_RECEIVE };

#ifdef WITH_DATA_CONTROL
static const struct clipboard_protocol data_control = {
	.sets_once = true,
	.data_offer = WW_ZWLR_DATA_CONTROL_DEVICE_V1_EVENT_DATA_OFFER,
	.selection = WW_ZWLR_DATA_CONTROL_DEVICE_V1_EVENT_SELECTION,
	.offer = WW_ZWLR_DATA_CONTROL_OFFER_V1_EVENT_OFFER,
	.send = WW_ZWLR_DATA_CONTROL_SOURCE_V1_EVENT_SEND,
	.cancelled = WW_ZWLR_DATA_CONTROL_SOURCE_V1_EVENT_CANCELLED,
	.create_data_source = WW_ZWLR_DATA_CONTROL_MANAGER_V1_REQUEST_CREATE_DATA_SOURCE,
	.get_data_device = WW_ZWLR_DATA_CONTROL_MANAGER_V1_REQUEST_GET_DATA_DEVICE,
	.offers = WW_ZWLR_DATA_CONTROL_SOURCE_V1_REQUEST_OFFER,
	.start_drag = NO_REQUEST,
	.set_selection = WW_ZWLR_DATA_CONTROL_DEVICE_V1_REQUEST_SET_SELECTION,
	.receive = WW_ZWLR_DATA_CONTROL_OFFER_V1_REQUEST_RECEIVE };
#endif

/* ---- dispatchers: they get the protocol as `calls` */

static bool on_manager(const void *calls, void *data, const waywire_report *report)
{
	const struct clipboard_protocol *protocol = calls;
	if (report->opcode == protocol->create_data_source)
		new_source(data, report->args[0].object, protocol);
	else if (report->opcode == protocol->get_data_device)
		new_device(data, report->args[0].object, protocol);
	return true;
}

static bool on_source(const void *calls, void *data, const waywire_report *report)
{
	const struct clipboard_protocol *protocol = calls;
	if (report->opcode == protocol->offers)
		add_type(data, report->args[0].bytes);
	return true;
}

static bool on_device(const void *calls, void *data, const waywire_report *report)
{
	const struct clipboard_protocol *protocol = calls;
	waywire_object source = report->arg_count ? report->args[0].object : (waywire_object){ 0, 0 };
	if (report->opcode == protocol->set_selection)
		set_selection(data, source);
	else if (report->opcode == protocol->start_drag && source.id)
		must(send_event(((struct device *)data)->client, source, protocol->cancelled, NULL, 0));
	return true;
}

static bool on_offer(const void *calls, void *data, const waywire_report *report)
{
	const struct clipboard_protocol *protocol = calls;
	if (report->opcode != protocol->receive)
		return false;
	receive(data, report->args[0].bytes, (int)report->args[1].u);
	return true;
}

static const waywire_listener listeners[] = {
	{ WW_WL_DATA_DEVICE_MANAGER_NAME, on_manager, &data_device },
	{ WW_WL_DATA_SOURCE_NAME, on_source, &data_device },
	{ WW_WL_DATA_DEVICE_NAME, on_device, &data_device },
	{ WW_WL_DATA_OFFER_NAME, on_offer, &data_device },
#ifdef WITH_DATA_CONTROL
	{ WW_ZWLR_DATA_CONTROL_MANAGER_V1_NAME, on_manager, &data_control },
	{ WW_ZWLR_DATA_CONTROL_SOURCE_V1_NAME, on_source, &data_control },
	{ WW_ZWLR_DATA_CONTROL_DEVICE_V1_NAME, on_device, &data_control },
	{ WW_ZWLR_DATA_CONTROL_OFFER_V1_NAME, on_offer, &data_control },
#endif
};

void serve_clipboard(struct client *client)
{
	must(waywire_connection_implement(client->connection, listeners,
		sizeof listeners / sizeof *listeners, client));
}
