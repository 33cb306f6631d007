/* Reading and calling back: see waywire-socket.h. */
#define _GNU_SOURCE
#include "socket.h"

#include <errno.h>
#include <limits.h>
#include <poll.h>
#include <waywire-core.h>

/* The index of wl_display in all tables. */
#define DISPLAY_INTERFACE 0

/* What a server writes to end an object of the client. */
#define DELETE_ID_LENGTH 12

/* While messages are read, the objects are counted once in so many. */
#define COUNTED 32

#define CLOSED "the other end has closed the connection"

/* ---- writing */

static int ended_before(const waywire_connection *connection)
{
	errno = connection->failure.error;
	return -1;
}

/* Whether an error says that the other end has closed the connection. The error is ECONNRESET if that end had not
 * read all. */
static bool is_gone(int error)
{
	return error == EPIPE || error == ECONNRESET;
}

/* The socket takes no more. Returns -1: with EAGAIN, or ETIMEDOUT if that has been so for too
 * long. */
static int is_stuck(waywire_connection *connection, bool went)
{
	int64_t now = connection_moment();
	connection->is_blocked = true;
	if (connection->stuck_since < 0 || went)
		connection->stuck_since = now;
	if (connection->patience >= 0 && now - connection->stuck_since >= connection->patience)
		return connection_fail(connection, ETIMEDOUT, "the other end does not read");
	errno = EAGAIN;
	return -1;
}

/* The compositor has closed the connection. What waits is dropped; what the compositor wrote before can still be
 * read. Returns -1 with errno. */
static int is_closed(waywire_connection *connection, int error)
{
	connection->gone = error;
	connection_drop_outbox(connection->end);
	errno = error;
	return -1;
}

int waywire_connection_flush(waywire_connection *connection)
{
	bool went;
	if (connection->failure.error)
		return ended_before(connection);
	if (connection->gone)
		return is_closed(connection, connection->gone);
	if (!socket_flush_end(connection->socket, connection->end, &went)) {
		connection->is_blocked = false;
		connection->stuck_since = -1;
		return 0;
	}
	if (errno == EAGAIN)
		return is_stuck(connection, went);
	if (errno == ENOBUFS || errno == ENOMEM || errno == ETOOMANYREFS)
		return -1; /* the kernel has no room now */
	if (!is_gone(errno))
		return connection_fail(connection, errno, "the socket does not take what is written");
	if (connection->server.end)
		return connection_fail(connection, EPIPE, CLOSED);
	return is_closed(connection, errno);
}

bool waywire_connection_wants_write(const waywire_connection *connection)
{
	return !connection->failure.error && socket_has_waiting(connection->end);
}

/* Flushes, and says whether the connection continues. It does even if the socket takes no more, or if a client's
 * server has closed it. */
static bool flushes(waywire_connection *connection)
{
	return !waywire_connection_flush(connection)
		|| (!connection->failure.error && (errno == EAGAIN || is_gone(errno)));
}

bool connection_make_room(void *data)
{
	waywire_connection *connection = data;
	size_t before = waywire_end_out_room(connection->end).bytes;
	flushes(connection);
	return waywire_end_out_room(connection->end).bytes > before;
}

/* ---- reading */

bool waywire_connection_wants_read(const waywire_connection *connection)
{
	return !connection->failure.error && !connection->is_unread;
}

int waywire_connection_fill(waywire_connection *connection)
{
	if (connection->failure.error)
		return ended_before(connection);
	if (connection->is_unread)
		return 0;
	ssize_t came = waywire_socket_fill(connection->socket, connection->end);
	if (came > 0) {
		connection->is_unread = true;
		return 1;
	}
	if (!came || is_gone(errno))
		return connection_fail(connection, EPIPE, CLOSED);
	if (errno == EAGAIN)
		return 0;
	if (errno == ENOMEM)
		return -1; /* nothing is lost: it is received by the next call */
	if (errno == ENOBUFS)
		return connection_fail(connection, EPROTO, "descriptors came that belong to no message");
	if (errno == EMFILE)
		return connection_fail(connection, EMFILE, "no descriptor is left for one that came");
	return connection_fail(connection, errno, "the socket cannot be read");
}

/* Destroys the object that the last event has made, by a destructor without arguments. It stays if something
 * listens to it, if its interface has no such destructor, or if the outbox has no room. No callback gets the object
 * of an event that is discarded, so that one is destroyed though something listens. */
static void destroy_made(waywire_connection *connection, bool is_discarded)
{
	waywire_object made;
	uint16_t interface;
	uint32_t version;
	waywire_message request;
	if (waywire_client_made(connection->client, &made)
		|| waywire_end_live(connection->end, made, &interface, &version)
		|| (!is_discarded && connection_is_heard(connection, made, interface)))
		return;
	for (uint16_t opcode = 0; !waywire_tables_message(waywire_end_tables(connection->end), interface,
			WAYWIRE_FROM_CLIENT, opcode, &request, NULL, NULL); opcode++) {
		if (request.destroys != WAYWIRE_DESTROYS_TARGET || request.arg_count
			|| request.since > version)
			continue;
		waywire_end_send(connection->end, made, opcode, NULL, 0, NULL, NULL);
		return;
	}
}

/* Calls the dispatcher of the report's object, else that of the interface. Returns false if there was no
 * callback. */
static bool call(waywire_connection *connection, struct entry *entry, uint16_t interface,
	const waywire_report *report)
{
	if (entry && entry->dispatch)
		return entry->dispatch(entry->calls, entry->data, report);
	if (interface >= connection->implemented_count)
		return false;
	const struct implemented *calls = &connection->implemented[interface];
	void *data = entry && entry->data ? entry->data : calls->data;
	return calls->dispatch && calls->dispatch(calls->calls, data, report);
}

/* Takes the entry of a report's target out of the report, which gets the data in its place, and
 * ends that of a replaced object. Of an object that the client has destroyed, only the last report
 * leads to an entry. */
static struct entry *take_entry(waywire_connection *connection, waywire_report *report)
{
	bool has_entry = report->kind == WAYWIRE_MESSAGE || report->kind == WAYWIRE_DELETED;
	struct entry *target = has_entry ? report->user : NULL;
	entry_hold(target);
	if (report->replaced_user)
		entry_end(connection, report->replaced_user);
	report->user = target ? target->data : NULL;
	report->replaced_user = NULL;
	return target;
}

/* Answers a wl_display.sync that no callback has got, as libwayland's server does. There is room: half of the outbox
 * was free before. */
static void answer_sync(waywire_connection *connection, const waywire_report *report)
{
	if (report->interface == DISPLAY_INTERFACE && report->opcode == WAYWIRE_WL_DISPLAY_REQUEST_SYNC)
		waywire_wl_callback_send_done(connection->server,
			waywire_wl_callback_of(report->args[0].object), connection->serial++);
}

/* Whether a report is the last of its target. */
static bool is_last(const waywire_connection *connection, const waywire_report *report)
{
	return report->kind == WAYWIRE_DELETED || (connection->server.end
		&& waywire_end_live(connection->end, report->target, NULL, NULL));
}

/* Calls the callback for one report, and ends the entry of its target if it is the last. */
static void hear(waywire_connection *connection, waywire_report *report)
{
	const waywire_end *end = connection->end;
	bool was_heard = false;
	/* If a callback dispatches, the end overwrites these with others. */
	uint32_t tokens[WAYWIRE_MAX_ARGS];
	size_t token_count = report->token_count;
	if (token_count)
		memcpy(tokens, report->tokens, token_count * sizeof *tokens);
	struct entry *target = take_entry(connection, report);
	if (report->kind == WAYWIRE_MESSAGE) {
		was_heard = call(connection, target, report->interface, report);
	} else if (report->kind != WAYWIRE_DISCARDED) { /* an event of wl_display */
		struct entry *display = waywire_end_user(end, waywire_end_display(end));
		entry_hold(display);
		was_heard = call(connection, display, DISPLAY_INTERFACE, report);
		entry_release(display);
	}
	if (!was_heard) {
		if (token_count)
			report_close_tokens(tokens, token_count);
		if (connection->client.end)
			destroy_made(connection, report->kind == WAYWIRE_DISCARDED);
		else
			answer_sync(connection, report);
	}
	if (target && !target->is_ended && is_last(connection, report))
		entry_end(connection, target);
	entry_release(target);
}

/* For how many messages the outbox has this room: each has it before it is read, and `next` then writes a delete_id
 * at most. It must not depend on how much waits. */
static size_t ready_with(const waywire_connection *connection, const waywire_amounts *least)
{
	waywire_amounts room = waywire_end_out_room(connection->end);
	if (room.bytes < least->bytes || room.tokens < least->tokens)
		return 0;
	return (room.bytes - least->bytes) / DELETE_ID_LENGTH + 1;
}

/* For how many messages the outbox has room for what callbacks write; sends what waits when there is enough of it.
 * False if there is an error. */
static bool make_room(waywire_connection *connection)
{
	connection->ready = ready_with(connection, &connection->unsent);
	if (connection->ready)
		return true;
	if (!connection->is_blocked && !flushes(connection))
		return false;
	connection->ready = ready_with(connection, &connection->half);
	return true;
}

/* Prepares for the next messages. Returns 1, or 0 if they have to wait: a server reads nothing more from a client
 * that does not read. A client reads on; otherwise the two could wait for each other forever. -1 with errno. */
static int make_ready(waywire_connection *connection)
{
	size_t announced = 0;
	bool all = true;
	if (!make_room(connection))
		return -1;
	while (connection->ready && !waywire_server_announce(connection->server, &announced, &all) && announced
		&& !all) {
		announced = 0;
		if (!make_room(connection))
			return -1;
	}
	connection->writes = waywire_end_writes(connection->end);
	return connection->ready || connection->client.end;
}

/* Whether there is room for one message more, since nothing but `next` has written after `make_ready`. */
static inline bool is_ready(const waywire_connection *connection)
{
	return connection->ready && connection->writes == waywire_end_writes(connection->end);
}

/* Whether a message makes an object. It may be a registry, to which globals are announced at once. */
static bool makes_object(const waywire_report *report)
{
	for (size_t i = 0; i < report->arg_count; i++)
		if (report->args[i].kind == WAYWIRE_NEW)
			return true;
	return false;
}

/* Whether there are more objects than there may be. A message makes one at most, so they are counted again before
 * there can be one too many. Callbacks may make others, which are counted 31 messages later at most. */
static bool has_too_many(waywire_connection *connection)
{
	size_t most = connection->most_objects, count;
	if (connection->uncounted) {
		connection->uncounted--;
		return false;
	}
	count = waywire_end_object_count(connection->end);
	if (count > most)
		return true;
	connection->uncounted = most - count < COUNTED ? most - count : COUNTED - 1;
	return false;
}

/* Ends a connection with too many objects; a server reports it to its client. */
static int end_with_too_many(waywire_connection *connection)
{
	static const char text[] = "too many objects";
	if (connection->server.end)
		waywire_server_post_error(connection->server, waywire_end_display(connection->end),
			WAYWIRE_WL_DISPLAY_ERROR_NO_MEMORY, text);
	return connection_fail(connection, EPROTO, text);
}

/* Reads the next message, and calls its callback. Returns 1, or 0 if none is read now, or -1 with errno. */
static int read_next(waywire_connection *connection)
{
	waywire_report report;
	if (connection->most_objects && has_too_many(connection))
		return end_with_too_many(connection);
	if (!is_ready(connection)) {
		int ready = make_ready(connection);
		if (ready <= 0)
			return ready;
	}
	if (connection->ready)
		connection->ready--;
	waywire_status status = waywire_end_next(connection->end, &report);
	if (status == WAYWIRE_OUT_FULL)
		return 0;
	if (status == WAYWIRE_NO_MEMORY) {
		errno = ENOMEM;
		return -1;
	}
	if (waywire_is_fault(status))
		return connection_fail_by_fault(connection, status, &report);
	if (status)
		return connection_fail(connection, EPROTO, "this end has ended the connection");
	if (report.kind == WAYWIRE_NOTHING) {
		connection->is_unread = false;
		return 0;
	}
	if (report.kind == WAYWIRE_ERROR)
		connection_fail_by_error(connection, &report);
	if (connection->server.end && makes_object(&report))
		connection->ready = 0;
	hear(connection, &report);
	/* It can have ended in a callback, too. */
	return connection->failure.error ? ended_before(connection) : 1;
}

/* Calls the callbacks for all that waits. Adds to `count` how many messages were read. Returns 0, or -1 with
 * errno. */
static int read_all(waywire_connection *connection, int *count)
{
	int read;
	if (connection->failure.error)
		return ended_before(connection);
	/* If nothing has come, a server may still have new globals, or too many objects. */
	if (!connection->is_unread
		&& (is_ready(connection) || (connection->client.end && !connection->most_objects)))
		return 0;
	connection->is_unread = true;
	connection->uncounted = 0; /* the program may have made some objects */
	while ((read = read_next(connection)) > 0)
		++*count;
	return read;
}

int waywire_connection_dispatch_pending(waywire_connection *connection)
{
	int count = 0;
	return read_all(connection, &count) ? -1 : count;
}

/* ---- waiting */

/* The end of a period that begins now: 0, which is long ago, if it has no length, and below 0 if it has no end. */
static int64_t end_of(int milliseconds)
{
	return milliseconds <= 0 ? milliseconds : connection_moment() + milliseconds;
}

/* How long poll may wait until a moment, and until the other end has not read for too long. */
static int left_until(const waywire_connection *connection, int64_t end)
{
	bool can_end = connection->stuck_since >= 0 && connection->patience >= 0;
	int64_t stuck = can_end ? connection->stuck_since + connection->patience : -1;
	if (end < 0 || (stuck >= 0 && stuck < end))
		end = stuck;
	if (end < 0)
		return -1;
	int64_t left = end - connection_moment();
	return left < 0 ? 0 : left > INT_MAX ? INT_MAX : (int)left;
}

/* Waits until the socket can be read or written, and reads from it. Returns 1, or 0 if the time is
 * over, or -1 with errno. */
static int wait_until(waywire_connection *connection, int64_t end)
{
	bool reads = waywire_connection_wants_read(connection);
	if (!end && reads) /* reading itself says whether something is there */
		return waywire_connection_fill(connection);
	struct pollfd polled = { connection->socket, 0, 0 };
	if (reads)
		polled.events |= POLLIN;
	if (waywire_connection_wants_write(connection))
		polled.events |= POLLOUT;
	int ready = poll(&polled, 1, left_until(connection, end));
	if (ready < 0 && errno != EINTR)
		return -1;
	if (ready > 0 && reads && (polled.revents & ~POLLOUT))
		return waywire_connection_fill(connection) < 0 ? -1 : 1;
	return ready > 0 || end < 0 || connection_moment() < end;
}

/* Flushes, and calls the callbacks for what waits; if nothing waits, waits itself. Adds to `count` how many
 * messages were read. Returns 1, or 0 if the time is over, or -1 with errno. */
static int step(waywire_connection *connection, int64_t end, int *count)
{
	int before = *count;
	if (!flushes(connection) || read_all(connection, count))
		return -1;
	if (*count > before)
		return 1;
	int went = wait_until(connection, end);
	if (went <= 0 || !connection->is_unread || connection->is_blocked)
		return went;
	return read_all(connection, count) ? -1 : 1; /* it has just been flushed */
}

int waywire_connection_dispatch(waywire_connection *connection, int milliseconds)
{
	int64_t end = end_of(milliseconds);
	int count = 0, went;
	do
		went = step(connection, end, &count);
	while (went > 0 && !count);
	return went < 0 ? -1 : count;
}

int waywire_connection_drain(waywire_connection *connection, int milliseconds)
{
	int64_t end = end_of(milliseconds);
	while (waywire_connection_flush(connection)) {
		if (errno != EAGAIN)
			return -1;
		struct pollfd polled = { connection->socket, POLLOUT, 0 };
		int ready = poll(&polled, 1, left_until(connection, end));
		if (ready < 0 && errno != EINTR)
			return -1;
		if (ready <= 0 && end >= 0 && connection_moment() >= end) {
			errno = EAGAIN;
			return -1;
		}
	}
	return 0;
}

/* As `step`, but 0 if the time was over before it and it did nothing. */
static int step_in_time(waywire_connection *connection, int64_t end, int *count, const bool *is_done)
{
	bool is_late = end >= 0 && connection_moment() >= end;
	int went = step(connection, end, count);
	return went > 0 && is_late && !*is_done ? 0 : went;
}

/* `calls` leads to what says that the answer has come. It is null if nobody waits for it any more. */
static bool on_done(const void *calls, void *data, const waywire_report *report)
{
	bool *const *is_done = calls;
	(void)data, (void)report;
	if (is_done)
		**is_done = true;
	return true;
}

int waywire_connection_roundtrip(waywire_connection *connection, int milliseconds)
{
	int64_t end = end_of(milliseconds);
	int count = 0, went = 1;
	bool is_done = false, *const done = &is_done;
	waywire_status status;
	waywire_wl_callback callback;
	waywire_wl_display display = waywire_wl_display_of(waywire_end_display(connection->end));
	if (connection->failure.error)
		return ended_before(connection);
	do
		status = waywire_wl_display_sync(connection->client, display, &callback);
	while (status == WAYWIRE_FULL && (went = step_in_time(connection, end, &count, &is_done)) > 0);
	if (went <= 0)
		return went;
	if (!status)
		status = waywire_connection_listen(connection, callback.object, on_done, &done, NULL);
	if (status) {
		errno = status == WAYWIRE_NO_MEMORY ? ENOMEM : EINVAL;
		return -1;
	}
	while (!is_done && (went = step_in_time(connection, end, &count, &is_done)) > 0)
		;
	if (!is_done) /* a late answer must not reach the program's own listener */
		waywire_connection_listen(connection, callback.object, on_done, NULL, NULL);
	return is_done ? count : went;
}
