/* This session: the library's client at a compositor's socket. */
#define _GNU_SOURCE
#include "replay.h"

#include <errno.h>
#include <poll.h>
#include <unistd.h>

/* After how many milliseconds something is tried again for which the kernel had no room. */
#define AGAIN 5

static const struct waywire_sizes usual_sizes = { 65536, 64, 16384, 256, 0 };

static double seconds_now(void)
{
	struct timespec now;
	clock_gettime(CLOCK_MONOTONIC, &now);
	return (double)now.tv_sec + (double)now.tv_nsec / 1e9;
}

void live_begin(struct replay *replay)
{
	struct live *live = &replay->live;
	struct waywire_sizes sizes = usual_sizes;
	sizes.limit = replay->options->limit;
	sizes.in_bytes += sizes.limit;
	sizes.out_bytes += sizes.limit;
	live->socket = waywire_socket_connect(NULL);
	if (live->socket < 0)
		fail("cannot connect to a compositor: %s", strerror(errno));
	waywire_status status = waywire_client_new(replay->known->tables, &sizes, &live->client);
	struct twin *display = twins_add(&replay->twins, 0);
	display->here = waywire_end_display(live->client.end);
	display->is_here = true;
	twins_name(&replay->twins, display, &(struct object){ .id = DISPLAY_ID });
	if (!status)
		status = waywire_end_set_user(live->client.end, display->here, display);
	if (status)
		fail("%s", waywire_strerror(status));
}

void live_end(struct replay *replay)
{
	struct live *live = &replay->live;
	waywire_socket_close(live->socket, live->client.end);
	waywire_end_free(live->client.end);
	text_free(&live->why);
}

/* ---- what comes */

static void end_by(struct live *live, const char *words)
{
	live->is_over = true;
	text_add(&live->why, words);
}

static void end_by_error(struct live *live, const struct replay *replay, const waywire_report *report)
{
	struct object here = { .id = report->id };
	const struct twin *about = report->named == WAYWIRE_NULL_OBJECT ? NULL : report->user;
	live->has_error = live->is_over = true;
	live->code = report->code;
	live->about = about;
	if (!about || waywire_tables_name(replay->known->tables, about->interface, &here.name.bytes, &here.name.length))
		here.name.bytes = NULL;
	text_add(&live->why, "wl_display.error: ");
	put_object(&live->why, &here);
	if (about && about->recorded.id) {
		text_add(&live->why, ", in the recording ");
		put_object(&live->why, &about->recorded);
	}
	text_format(&live->why, ": error %u: ", report->code);
	text_put_quoted(&live->why, report->text, report->text_length);
}

/* What an event of this session brings. */
static struct carried brought(const struct noted *event, const waywire_report *report)
{
	struct carried carried = { .made = NULL };
	int serial = event->places.serial, handle = event->places.handle;
	if (report->kind != WAYWIRE_MESSAGE)
		return carried;
	if (serial >= 0 && report->args[serial].kind == WAYWIRE_UINT) {
		carried.serial = report->args[serial].u;
		carried.has_serial = true;
	}
	if (handle >= 0 && report->args[handle].kind == WAYWIRE_STRING)
		carried.handle = strndup(report->args[handle].bytes, report->args[handle].length);
	return carried;
}

static bool is_event(const struct replay *replay, const struct twin *target, uint16_t opcode, const char *interface,
	const char *name)
{
	struct name its;
	return !waywire_tables_name(replay->known->tables, target->interface, &its.bytes, &its.length)
		&& is_name(its, interface)
		&& opcode_called(replay->known->tables, target->interface, COMPOSITOR, name) == opcode;
}

/* Answers a ping, whatever its interface. */
static void answer_ping(struct replay *replay, const struct twin *target, const struct noted *event)
{
	const waywire_tables *tables = replay->known->tables;
	int pong = opcode_called(tables, target->interface, CLIENT, "pong");
	if (!replay->answers_pings || !event->carried.has_serial || pong < 0
		|| opcode_called(tables, target->interface, COMPOSITOR, "ping") != event->opcode)
		return;
	const waywire_arg serial = waywire_uint(event->carried.serial);
	waywire_end_send(replay->live.client.end, target->here, (uint16_t)pong, &serial, 1, NULL, NULL);
}

/* Notes an event, and gives an object that it makes to its twin. */
static void take_event(struct replay *replay, struct twin *target, const waywire_report *report)
{
	struct noted event = { .session = HERE, .opcode = (uint16_t)report->opcode };
	waywire_end *end = replay->live.client.end;
	waywire_object made;
	event.places = places_of(replay->known->tables, target->interface, event.opcode);
	event.carried = brought(&event, report);
	if (report->kind == WAYWIRE_MESSAGE && is_event(replay, target, event.opcode, "wl_registry", "global"))
		globals_note(&replay->globals, HERE, report->args);
	bool makes = event.places.makes && !waywire_client_made(replay->live.client, &made) && made.id;
	if (makes)
		waywire_end_live(end, made, &event.made.interface, NULL);
	struct twin *twin = twins_note(&replay->twins, target, &event);
	if (makes && twin) {
		twin->here = made;
		twin->is_here = true;
		waywire_end_set_user(end, made, twin);
	}
	answer_ping(replay, target, &event);
}

static void take_report(struct replay *replay, const waywire_report *report)
{
	for (size_t i = 0; i < report->token_count; i++)
		close((int)report->tokens[i]);
	struct twin *target = report->user;
	if (report->kind == WAYWIRE_DELETED && target)
		twins_gone(&replay->twins, target, HERE);
	if (report->kind == WAYWIRE_ERROR)
		end_by_error(&replay->live, replay, report);
	if ((report->kind != WAYWIRE_MESSAGE && report->kind != WAYWIRE_DISCARDED) || !target)
		return;
	replay->live.came += !target->is_ours;
	take_event(replay, target, report);
}

/* Reads the messages that wait. */
static void read_reports(struct replay *replay)
{
	struct live *live = &replay->live;
	waywire_report report;
	waywire_status status = WAYWIRE_OK;
	while (!live->is_over && !(status = waywire_end_next(live->client.end, &report)) && report.kind != WAYWIRE_NOTHING)
		take_report(replay, &report);
	if (status && !live->is_over) {
		end_by(live, "an event of the compositor cannot be read: ");
		text_add(&live->why, waywire_strerror(status));
	}
}

/* ---- waiting */

/* Sends what waits. Returns what the socket is polled for besides POLLIN. If the kernel had no room, the time is cut
 * short. A closed socket can still be read, and the end of its stream is found there. */
static short flush_requests(struct live *live, int *milliseconds)
{
	if (!waywire_socket_flush(live->socket, live->client.end))
		return 0;
	if (errno == ENOBUFS || errno == ENOMEM || errno == ETOOMANYREFS)
		*milliseconds = *milliseconds < AGAIN ? *milliseconds : AGAIN;
	return errno == EAGAIN ? POLLOUT : 0;
}

void live_step(struct replay *replay, int milliseconds)
{
	struct live *live = &replay->live;
	if (live->is_over)
		return;
	struct pollfd polled = { live->socket, (short)(POLLIN | flush_requests(live, &milliseconds)), 0 };
	if (poll(&polled, 1, milliseconds) < 1 || !(polled.revents & ~POLLOUT))
		return;
	ssize_t came = waywire_socket_fill(live->socket, live->client.end);
	if (came > 0)
		read_reports(replay);
	else if (!came || errno == ECONNRESET) /* reset: it had not read all */
		end_by(live, "the compositor has closed the connection");
	else if (errno == ENOMEM)
		poll(NULL, 0, AGAIN);
	else if (errno != EAGAIN) {
		end_by(live, "the connection cannot be read: ");
		text_add(&live->why, strerror(errno));
	}
}

bool live_wait(struct replay *replay, bool (*has_come)(const struct await *await), const struct await *await)
{
	double until = seconds_now() + replay->wishes.wait;
	live_step(replay, 0);
	while (!has_come(await)) {
		double left = until - seconds_now();
		if (replay->live.is_over || left <= 0)
			return false;
		live_step(replay, left < 1000 ? (int)(1000 * left) + 1 : 1000000);
	}
	return true;
}

/* ---- what is sent */

static bool has_room(const struct await *await)
{
	const struct live *live = &await->replay->live;
	waywire_amounts room = waywire_end_out_room(live->client.end);
	return room.bytes >= usual_sizes.out_bytes / 2 && room.tokens >= WAYWIRE_MAX_ARGS;
}

static waywire_status note_made(struct replay *replay, waywire_status status, struct twin *made, waywire_object here)
{
	if (status)
		return status;
	replay->live.sent++;
	if (!made)
		return WAYWIRE_OK;
	made->here = here;
	made->is_here = true;
	return waywire_end_set_user(replay->live.client.end, here, made);
}

waywire_status live_send(struct replay *replay, const struct twin *target, uint16_t opcode, const waywire_arg *args,
	size_t count, struct twin *made)
{
	waywire_end *end = replay->live.client.end;
	const struct await await = { .replay = replay };
	waywire_object here;
	waywire_status status = waywire_end_send(end, target->here, opcode, args, count, &here, NULL);
	if (status == WAYWIRE_FULL && live_wait(replay, has_room, &await))
		status = waywire_end_send(end, target->here, opcode, args, count, &here, NULL);
	return note_made(replay, status, made, here);
}

waywire_status live_bind(struct replay *replay, const struct twin *registry, const struct global *global,
	uint32_t version, struct twin *made)
{
	waywire_client client = replay->live.client;
	const struct await await = { .replay = replay };
	waywire_object here;
	waywire_status status = waywire_client_bind(client, registry->here, global->name, global->interface, version, &here);
	if (status == WAYWIRE_FULL && live_wait(replay, has_room, &await))
		status = waywire_client_bind(client, registry->here, global->name, global->interface, version, &here);
	return note_made(replay, status, made, here);
}

bool live_roundtrip(struct replay *replay)
{
	const waywire_arg callback = waywire_new();
	uint16_t interface;
	if (waywire_tables_interface(replay->known->tables, "wl_callback", &interface))
		return false;
	struct twin *made = twins_add(&replay->twins, interface);
	const struct twin *display = twins_find(&replay->twins, &(struct object){ .id = DISPLAY_ID });
	made->is_ours = true;
	if (live_send(replay, display, 0, &callback, 1, made))
		return false;
	replay->live.sent--;
	bool has_come = live_wait(replay, is_ended, &(struct await){ .twin = made });
	twins_gone(&replay->twins, made, RECORDED);
	return has_come;
}
