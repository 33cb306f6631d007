/* A connection: how it is made and how it ends. See waywire-socket.h. */
#define _GNU_SOURCE
#include "socket.h"

#include <errno.h>
#include <inttypes.h>
#include <stdio.h>
#include <stdlib.h>
#include <time.h>

/* A server's default limits for its client. */
#define SERVER_OBJECTS 50000
#define SERVER_PATIENCE 120000

/* While messages are read, this many bytes are sent in one go: the size of libwayland's buffer. */
#define BATCH 4096

/* One read fills the inbox at most: libwayland's reads take 4,096 bytes, and a desktop's clients and compositors write
 * less at once. A libwayland whose buffers grow can send many descriptors before the bytes of their messages. Each one
 * that waits counts against the process's limit, often 1,024. */
#define IN_TOKENS 256

/* A server has a connection for each client, so its queues are as large as the longest message. */
static const waywire_sizes client_sizes = { 65536, 64, 16384, IN_TOKENS, WAYWIRE_USUAL_LIMIT };
static const waywire_sizes server_sizes = { 4096, 64, 4096, IN_TOKENS, WAYWIRE_USUAL_LIMIT };

int64_t connection_moment(void)
{
	struct timespec now;
	clock_gettime(CLOCK_MONOTONIC, &now);
	return (int64_t)now.tv_sec * 1000 + now.tv_nsec / 1000000;
}

/* ---- making one */

/* Whether an end with these sizes can take what libwayland sends at once, and any message, even while the
 * descriptors of an incomplete message wait. */
static bool can_carry(const waywire_sizes *sizes)
{
	size_t limit = sizes->limit ? sizes->limit : WAYWIRE_USUAL_LIMIT;
	return sizes->out_bytes >= limit && sizes->out_tokens >= WAYWIRE_MAX_ARGS
		&& sizes->in_tokens >= WAYWIRE_SOCKET_DESCRIPTORS + WAYWIRE_MAX_ARGS;
}

/* The outbox room that is left while this many bytes wait, and half of its tokens. */
static waywire_amounts least_room(const waywire_sizes *sizes, size_t waiting)
{
	waywire_amounts room = { sizes->out_bytes - waiting, sizes->out_tokens - sizes->out_tokens / 2 };
	return room;
}

/* A connection without an end; null with errno. */
static waywire_connection *new_connection(const waywire_tables *tables, const waywire_sizes *sizes,
	int socket)
{
	if (!tables || !can_carry(sizes)) {
		errno = EINVAL;
		return NULL;
	}
	waywire_connection *connection = calloc(1, sizeof *connection);
	if (!connection)
		return NULL;
	connection->socket = socket;
	connection->half = least_room(sizes, sizes->out_bytes / 2);
	connection->unsent = least_room(sizes, BATCH < sizes->out_bytes / 2 ? BATCH : sizes->out_bytes / 2);
	connection->entries.before = connection->entries.after = &connection->entries;
	connection->sweep_at = FIRST_SWEEP;
	connection->patience = connection->stuck_since = -1;
	return connection;
}

/* A connection whose end was made, or which is freed; null with errno. */
static waywire_connection *with_end(waywire_connection *connection, waywire_end *end,
	waywire_status status)
{
	if (!status) {
		connection->end = end;
		waywire_end_on_full(end, connection_make_room, connection);
		return connection;
	}
	free(connection);
	errno = status == WAYWIRE_NO_MEMORY ? ENOMEM : EINVAL;
	return NULL;
}

waywire_connection *waywire_connection_of_client(const waywire_tables *tables,
	const waywire_sizes *sizes, int socket)
{
	if (!sizes)
		sizes = &client_sizes;
	waywire_connection *made = new_connection(tables, sizes, socket);
	if (!made)
		return NULL;
	waywire_status status = waywire_client_new(tables, sizes, &made->client);
	return with_end(made, made->client.end, status);
}

waywire_connection *waywire_connection_of_server(const waywire_tables *tables,
	const waywire_sizes *sizes, int socket)
{
	if (!sizes)
		sizes = &server_sizes;
	waywire_connection *made = new_connection(tables, sizes, socket);
	if (!made)
		return NULL;
	made->most_objects = SERVER_OBJECTS;
	made->patience = SERVER_PATIENCE;
	waywire_status status = waywire_server_new(tables, sizes, &made->server);
	return with_end(made, made->server.end, status);
}

waywire_connection *waywire_connection_connect(const waywire_tables *tables,
	const waywire_sizes *sizes, const char *name)
{
	waywire_connection *made = waywire_connection_of_client(tables, sizes, -1);
	if (!made)
		return NULL;
	made->socket = waywire_socket_connect(name);
	if (made->socket >= 0)
		return made;
	waywire_connection_close(made);
	return NULL;
}

void waywire_connection_close(waywire_connection *connection)
{
	int error = errno;
	if (!connection)
		return;
	waywire_socket_flush(connection->socket, connection->end);
	waywire_socket_close(connection->socket, connection->end);
	entries_end(connection);
	waywire_end_free(connection->end);
	free(connection->implemented);
	free(connection);
	errno = error;
}

/* ---- what it is of */

waywire_end *waywire_connection_end(const waywire_connection *connection)
{
	return connection->end;
}

waywire_client waywire_connection_client(const waywire_connection *connection)
{
	return connection->client;
}

waywire_server waywire_connection_server(const waywire_connection *connection)
{
	return connection->server;
}

int waywire_connection_fd(const waywire_connection *connection)
{
	return connection->socket;
}

waywire_status waywire_connection_add_global(waywire_connection *connection, const char *interface,
	uint32_t version, uint32_t *name)
{
	uint16_t index;
	waywire_status status = waywire_tables_interface(waywire_end_tables(connection->end), interface,
		&index);
	if (!status)
		status = waywire_server_add_global(connection->server, index, version, name);
	return status;
}

void waywire_connection_set_limits(waywire_connection *connection, size_t objects,
	int milliseconds)
{
	connection->most_objects = objects;
	connection->uncounted = 0;
	connection->ready = 0; /* so that the next dispatch counts them */
	connection->patience = milliseconds;
}

/* ---- failing */

const waywire_failure *waywire_connection_failure(const waywire_connection *connection)
{
	return connection->failure.error ? &connection->failure : NULL;
}

/* Notes why a connection has ended; its text is written already. */
static int ended(waywire_connection *connection, int error)
{
	if (connection->server.end) /* its client is still sent the wl_display.error that waits */
		waywire_socket_flush(connection->socket, connection->end);
	connection->failure.error = error;
	connection->failure.text = connection->text;
	errno = error;
	return -1;
}

int connection_fail(waywire_connection *connection, int error, const char *text)
{
	snprintf(connection->text, sizeof connection->text, "%s", text);
	return ended(connection, error);
}

/* Whether a fault is one of an argument, whose index its report has. */
static bool is_of_argument(waywire_status status)
{
	return status == WAYWIRE_FAULT_BAD_ARGUMENT || status == WAYWIRE_FAULT_BAD_OBJECT
		|| status == WAYWIRE_FAULT_BAD_NEW_ID;
}

int connection_fail_by_fault(waywire_connection *connection, waywire_status status,
	const waywire_report *report)
{
	char argument[48] = "";
	if (is_of_argument(status))
		snprintf(argument, sizeof argument, "argument %zu: ", report->place);
	snprintf(connection->text, sizeof connection->text,
		"the message at byte %" PRIu64 ": %s%s%s%s", report->offset, argument,
		waywire_strerror(status), report->spelling ? ": " : "",
		report->spelling ? waywire_strspelling(report->spelling) : "");
	connection->failure.kind = WAYWIRE_FAULT;
	connection->failure.status = status;
	return ended(connection, EPROTO);
}

int connection_fail_by_error(waywire_connection *connection, const waywire_report *report)
{
	const char *name = "object";
	size_t length = strlen(name);
	if (report->named != WAYWIRE_NULL_OBJECT)
		waywire_tables_name(waywire_end_tables(connection->end), report->interface, &name, &length);
	snprintf(connection->text, sizeof connection->text,
		"%.*s@%" PRIu32 ": error %" PRIu32 ": %s", (int)length, name, report->id,
		report->code, report->text);
	connection->failure.kind = WAYWIRE_ERROR;
	connection->failure.id = report->id;
	connection->failure.code = report->code;
	return ended(connection, EPROTO);
}
