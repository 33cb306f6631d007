/* How connections end: by errors, by faults, at an other end that goes or does not read, and by
 * limits; and calls that callbacks make. It is linked with `--wrap` for clock_gettime and poll. */
#define _GNU_SOURCE
#include "connected.h"

#include <errno.h>
#include <poll.h>
#include <pthread.h>
#include <sys/wait.h>
#include <time.h>

/* Objects that the server makes, which no request can end. */
static const char text[] = "interface maker 1\nrequest ask\nrequest give h\nevent plugged N(head)\n"
	"interface head 1\nevent split N(head)\n";

enum { ASK = 0, GIVE = 1, PLUGGED = 0, SPLIT = 0 };

static int before; /* how many descriptors there were */

/* How many seconds have gone by that nobody waited for. */
static time_t skipped;

int __real_clock_gettime(clockid_t clock, struct timespec *time);

int __wrap_clock_gettime(clockid_t clock, struct timespec *time)
{
	int failed = __real_clock_gettime(clock, time);
	time->tv_sec += skipped;
	return failed;
}

static int polls;

int __real_poll(struct pollfd *polled, nfds_t count, int milliseconds);

int __wrap_poll(struct pollfd *polled, nfds_t count, int milliseconds)
{
	polls++;
	return __real_poll(polled, count, milliseconds);
}

/* ---- both ends */

/* Whether the server ends the connection at the next sync. */
static bool ends_at_sync;

static void on_sync(void *data, waywire_wl_display at, waywire_wl_callback callback)
{
	(void)data;
	MUST(!waywire_wl_callback_send_done(events, callback, 0));
	if (ends_at_sync)
		MUST(!waywire_server_post_error(events, at.object, 7, "enough"));
}

static const struct waywire_wl_display_requests display_requests = { .sync = on_sync };

static bool on_ask(const void *calls, void *data, const waywire_report *report)
{
	waywire_arg made = waywire_new();
	(void)calls, (void)data;
	return !waywire_end_send(events.end, report->target, PLUGGED, &made, 1, NULL, NULL);
}

static const waywire_listener listeners[] = {
	{ WAYWIRE_WL_DISPLAY_NAME, waywire_wl_display_request_dispatcher, &display_requests },
	{ "maker", on_ask, NULL },
};

static void serve(int socket, const waywire_sizes *sizes)
{
	begin_server(socket, sizes);
	MUST(!waywire_connection_implement(server, listeners, 2, NULL));
	MUST(!waywire_connection_add_global(server, "maker", 1, NULL));
}

static void begin(const waywire_sizes *sizes)
{
	int sockets[2];
	before = count_open();
	make_pair(sockets);
	begin_client(sockets[0], sizes);
	serve(sockets[1], sizes);
}

static void end(void)
{
	end_both();
	MUST(count_open() == before);
}

static void turn(void)
{
	MUST(!waywire_connection_flush(client) && waywire_connection_dispatch(server, WAIT) > 0);
	MUST(!waywire_connection_flush(server) && waywire_connection_dispatch(client, WAIT) > 0);
}

/* A connection has ended, with this error at each call from now on. */
static const waywire_failure *has_ended(waywire_connection *connection, int error)
{
	const waywire_failure *failure = waywire_connection_failure(connection);
	MUST(failure && failure->error == error && *failure->text);
	MUST(waywire_connection_flush(connection) == -1 && errno == error);
	MUST(waywire_connection_fill(connection) == -1 && errno == error);
	MUST(waywire_connection_dispatch_pending(connection) == -1 && errno == error);
	MUST(waywire_connection_dispatch(connection, WAIT) == -1 && errno == error);
	MUST(waywire_connection_roundtrip(connection, WAIT) == -1 && errno == error);
	MUST(waywire_connection_drain(connection, WAIT) == -1 && errno == error);
	MUST(!waywire_connection_wants_read(connection));
	MUST(!waywire_connection_wants_write(connection));
	return failure;
}

/* ---- errors and faults */

static void on_error(void *data, waywire_wl_display at, waywire_object object, uint32_t code,
	const char *message)
{
	MUST(waywire_object_equal(at.object, display.object) && object.id == 2);
	MUST(code == 7 && !strcmp(message, "enough"));
	*(bool *)data = true;
}

static const struct waywire_wl_display_events display_events = { .error = on_error };

/* wl_display.error, after which the server goes. `is_late`: the client writes once the server has
 * gone. */
static void error_comes(bool is_late)
{
	bool was_heard = false;
	begin(NULL);
	waywire_wl_registry registry = get_registry();
	turn();
	MUST(!waywire_connection_listen(client, display.object,
		waywire_wl_display_event_dispatcher, &display_events, &was_heard));
	MUST(!waywire_server_post_error(events, registry.object, 7, "enough"));
	if (!is_late) {
		MUST(!waywire_wl_display_sync(requests, display, NULL));
		MUST(!waywire_connection_flush(client));
	}
	MUST(waywire_connection_dispatch(server, WAIT) == -1 && errno == EPROTO);
	MUST(!waywire_connection_failure(server)->kind);
	has_ended(server, EPROTO);
	waywire_connection_close(server);
	server = NULL;
	if (is_late) {
		MUST(!waywire_wl_display_sync(requests, display, NULL));
		MUST(waywire_connection_flush(client) == -1);
		MUST(errno == EPIPE || errno == ECONNRESET);
		MUST(!waywire_connection_failure(client));
		MUST(!waywire_connection_wants_write(client));
	}
	MUST(waywire_connection_roundtrip(client, WAIT) == -1 && errno == EPROTO && was_heard);
	const waywire_failure *failure = has_ended(client, EPROTO);
	MUST(failure->kind == WAYWIRE_ERROR && failure->code == 7);
	MUST(failure->id == registry.object.id);
	MUST(!strcmp(failure->text, "wl_registry@2: error 7: enough"));
	end();
}

/* A message that breaks a rule, with a descriptor. */
static void fault_comes(waywire_connection *at, int from, const uint32_t *words, size_t length,
	const char *wanted)
{
	waywire_part parts[2] = { { (void *)words, length }, { NULL, 0 } };
	int descriptor = new_descriptor(1);
	MUST(waywire_socket_send(from, parts, &descriptor, 1) == (ssize_t)length);
	close(descriptor);
	MUST(waywire_connection_dispatch(at, WAIT) == -1 && errno == EPROTO);
	const waywire_failure *failure = has_ended(at, EPROTO);
	MUST(failure->kind == WAYWIRE_FAULT && waywire_is_fault(failure->status));
	if (strcmp(failure->text, wanted))
		fprintf(stderr, "%s\n", failure->text);
	MUST(!strcmp(failure->text, wanted));
}

static void fault_at_client(void)
{
	static const uint32_t unknown[] = { 9, 8 << 16 };
	begin(NULL);
	fault_comes(client, waywire_connection_fd(server), unknown, sizeof unknown,
		"the message at byte 0: unknown object");
	end();
}

/* The client hears of it. */
static void fault_at_server(void)
{
	static const uint32_t bad[] = { 1, 12 << 16, 2, 2, 28 << 16, 1, 99, 0, 1, 3 };
	begin(NULL);
	get_registry();
	turn();
	fault_comes(server, waywire_connection_fd(client), bad + 3, sizeof bad - 12,
		"the message at byte 12: argument 1: malformed argument: "
		"the message ends before the argument does");
	MUST(waywire_connection_dispatch(client, WAIT) == -1 && errno == EPROTO);
	MUST(has_ended(client, EPROTO)->kind == WAYWIRE_ERROR);
	end();
}

/* ---- ends that go */

/* A maker that the client has bound. */
static waywire_object bind_maker(void)
{
	waywire_object made;
	waywire_wl_registry registry = get_registry();
	turn();
	MUST(!waywire_client_bind(requests, registry.object, 1, "maker", 1, &made));
	return made;
}

/* Descriptors that are written once the server has gone. */
static void not_sent(void)
{
	begin(NULL);
	waywire_object to = bind_maker();
	MUST(!waywire_connection_drain(client, WAIT));
	waywire_connection_close(server);
	server = NULL;
	for (int i = 0; i < 3; i++) {
		waywire_arg descriptor = waywire_fd((uint32_t)new_descriptor(1));
		MUST(!waywire_end_send(requests.end, to, GIVE, &descriptor, 1, NULL, NULL));
	}
	MUST(count_open() == before + 4);
	for (int i = 0; i < 2; i++) /* the second time, nothing waits any more */
		MUST(waywire_connection_flush(client) == -1 && (errno == EPIPE || errno == ECONNRESET));
	MUST(count_open() == before + 1 && !waywire_connection_wants_write(client));
	MUST(waywire_connection_drain(client, WAIT) == -1 && (errno == EPIPE || errno == ECONNRESET));
	MUST(!waywire_connection_failure(client) && waywire_connection_wants_read(client));
	end();
}

static void other_goes(void)
{
	begin(NULL);
	waywire_connection_close(server);
	server = NULL;
	MUST(waywire_connection_dispatch(client, WAIT) == -1 && errno == EPIPE);
	MUST(!has_ended(client, EPIPE)->kind);
	end();
	begin(NULL);
	MUST(!waywire_wl_display_sync(requests, display, NULL));
	waywire_connection_close(client);
	client = NULL;
	MUST(waywire_connection_dispatch(server, WAIT) == 1); /* what it wrote is read */
	/* The answer does not go. */
	MUST(waywire_connection_dispatch(server, WAIT) == -1 && errno == EPIPE);
	MUST(!strcmp(has_ended(server, EPIPE)->text, "the other end has closed the connection"));
	end();
	/* Nor do the first of many, which are sent while requests wait. */
	begin(NULL);
	for (int i = 0; i < 1000; i++)
		MUST(!waywire_wl_display_sync(requests, display, NULL));
	MUST(!waywire_connection_flush(client));
	waywire_connection_close(client);
	client = NULL;
	MUST(waywire_connection_dispatch(server, WAIT) == -1 && errno == EPIPE);
	end();
	/* In the middle of a message, with a descriptor. */
	static const uint32_t half[] = { 1 };
	waywire_part parts[2] = { { (void *)half, sizeof half }, { NULL, 0 } };
	begin(NULL);
	int descriptor = new_descriptor(1);
	int socket = waywire_connection_fd(client);
	MUST(waywire_socket_send(socket, parts, &descriptor, 1) == sizeof half);
	MUST(!close(descriptor) && !waywire_connection_dispatch(server, 0));
	waywire_connection_close(client);
	client = NULL;
	MUST(waywire_connection_dispatch(server, WAIT) == -1 && errno == EPIPE);
	end();
}

/* Descriptors that belong to no message. */
static void strange_descriptors(void)
{
	static const uint32_t begun[] = { 1, 4096u << 16, 0 };
	waywire_part parts[2] = { { NULL, 1 }, { NULL, 0 } };
	int descriptors[WAYWIRE_SOCKET_DESCRIPTORS];
	begin(NULL);
	for (int i = 0; i < WAYWIRE_SOCKET_DESCRIPTORS; i++)
		descriptors[i] = new_descriptor(1);
	/* 256 tokens find room. After nine times 28 nothing more could be read. */
	for (int i = 0; i < 9; i++) {
		parts[0].bytes = (char *)begun + i;
		MUST(waywire_socket_send(waywire_connection_fd(client), parts, descriptors,
			WAYWIRE_SOCKET_DESCRIPTORS) == 1);
		int read = waywire_connection_dispatch(server, 0);
		MUST(i < 8 ? !read : read == -1 && errno == EPROTO);
	}
	for (int i = 0; i < WAYWIRE_SOCKET_DESCRIPTORS; i++)
		close(descriptors[i]);
	has_ended(server, EPROTO);
	end();
}

/* More descriptors at once than there may be. */
static void too_many_descriptors(void)
{
	int descriptors[WAYWIRE_SOCKET_DESCRIPTORS + 1];
	char byte = 1;
	waywire_part parts[2] = { { &byte, 1 }, { NULL, 0 } };
	begin(NULL);
	for (int i = 0; i <= WAYWIRE_SOCKET_DESCRIPTORS; i++)
		descriptors[i] = new_descriptor(1);
	MUST(waywire_socket_send(waywire_connection_fd(client), parts, descriptors,
		WAYWIRE_SOCKET_DESCRIPTORS + 1) == 1);
	for (int i = 0; i <= WAYWIRE_SOCKET_DESCRIPTORS; i++)
		close(descriptors[i]);
	MUST(waywire_connection_dispatch(server, WAIT) == -1 && errno == EOVERFLOW);
	has_ended(server, EOVERFLOW);
	end();
}

/* ---- ends that do not read */

/* The client asks this often, or until its outbox is full. Returns whether it is full. */
static bool ask_much(int count)
{
	for (int i = 0; i < count; i++) {
		waywire_status status = waywire_wl_display_sync(requests, display, NULL);
		MUST(!status || status == WAYWIRE_FULL);
		if (status)
			return true;
	}
	return false;
}

static void make_small(int socket)
{
	int smallest = 1;
	MUST(!setsockopt(socket, SOL_SOCKET, SO_SNDBUF, &smallest, sizeof smallest));
}

/* The client asks and reads nothing, until the server reads no more either. */
static void hold_back(void)
{
	make_small(waywire_connection_fd(client));
	make_small(waywire_connection_fd(server));
	do {
		ask_much(1000);
		MUST(!waywire_connection_flush(client) || errno == EAGAIN);
		MUST(waywire_connection_dispatch(server, 0) >= 0);
	} while (waywire_connection_wants_read(server));
	MUST(waywire_connection_wants_write(server) && !waywire_connection_dispatch(server, 0));
	MUST(!waywire_connection_fill(server) && !waywire_connection_dispatch_pending(server));
}

/* A call that does not wait reads at once, without a poll. */
static void reads_at_once(void)
{
	begin(NULL);
	get_registry();
	MUST(!waywire_connection_flush(client));
	polls = 0;
	MUST(waywire_connection_dispatch(server, 0) == 1 && !waywire_connection_dispatch(server, 0));
	MUST(!polls && !waywire_connection_dispatch(server, 1) && polls);
	end();
}

/* Takes all that comes at a socket until its end. */
static void *take_all(void *socket)
{
	char bytes[4096];
	while (read(*(int *)socket, bytes, sizeof bytes) > 0)
		;
	return NULL;
}

/* The server waits until the client reads on. */
static void reads_on(void)
{
	pthread_t reader;
	begin(NULL);
	hold_back();
	int socket = waywire_connection_fd(client);
	MUST(!pthread_create(&reader, NULL, take_all, &socket));
	MUST(waywire_connection_dispatch(server, WAIT) > 0);
	waywire_connection_close(server);
	server = NULL;
	MUST(!pthread_join(reader, NULL));
	end();
}

/* The client takes a part now and then, and then nothing more. */
static void reads_slowly(void)
{
	static const waywire_sizes large = { 65536, 64, 16384, 256, 0 };
	char bytes[4096];
	begin(&large);
	hold_back();
	waywire_connection_set_limits(server, 0, 1000000);
	for (int i = 0; i < 3; i++) {
		MUST(read(waywire_connection_fd(client), bytes, sizeof bytes) > 0);
		MUST(waywire_connection_flush(server) == -1 && errno == EAGAIN);
		skipped += 900;
		MUST(waywire_connection_flush(server) == -1 && errno == EAGAIN);
	}
	skipped += 200;
	MUST(waywire_connection_flush(server) == -1 && errno == ETIMEDOUT);
	end();
	/* So long a wait ends by itself. */
	begin(NULL);
	hold_back();
	MUST(read(waywire_connection_fd(client), bytes, sizeof bytes) > 0);
	waywire_connection_set_limits(server, 0, 300);
	while (waywire_connection_dispatch(server, -1) > 0)
		;
	has_ended(server, ETIMEDOUT);
	end();
}

static void does_not_read(void)
{
	/* It reads on, and all answers come. */
	begin(NULL);
	hold_back();
	while (waywire_end_object_count(requests.end) > 1) {
		MUST(waywire_connection_dispatch(client, 0) >= 0);
		MUST(waywire_connection_dispatch(server, 0) >= 0);
	}
	MUST(!waywire_connection_wants_write(server) && waywire_connection_wants_read(server));
	end();
	/* The server does not read either: a client has no limit, but that of the call. */
	begin(NULL);
	make_small(waywire_connection_fd(client));
	while (!ask_much(1000) || !waywire_connection_flush(client) || !ask_much(1000))
		;
	MUST(waywire_connection_flush(client) == -1 && errno == EAGAIN);
	MUST(waywire_connection_drain(client, 1) == -1 && errno == EAGAIN);
	MUST(!waywire_connection_dispatch(client, 1) && !waywire_connection_roundtrip(client, 1));
	MUST(!waywire_connection_failure(client));
	end();
}

/* ---- limits */

static void too_many_objects(void)
{
	begin(NULL);
	waywire_connection_set_limits(server, 10, -1);
	for (int i = 0; i < 10; i++)
		get_registry();
	MUST(!waywire_connection_flush(client));
	MUST(waywire_connection_dispatch(server, WAIT) == -1 && errno == EPROTO);
	has_ended(server, EPROTO);
	while (waywire_connection_dispatch(client, WAIT) > 0)
		;
	const waywire_failure *failure = has_ended(client, EPROTO);
	MUST(failure->kind == WAYWIRE_ERROR && failure->code == WAYWIRE_WL_DISPLAY_ERROR_NO_MEMORY);
	MUST(!strcmp(failure->text, "wl_display@1: error 2: too many objects"));
	end();
	/* A client gives up. */
	begin(NULL);
	waywire_connection_set_limits(client, 3, -1);
	get_registry();
	MUST(!waywire_connection_dispatch(client, 0));
	get_registry();
	get_registry();
	MUST(waywire_connection_dispatch(client, 0) == -1 && errno == EPROTO);
	end();
}

/* Sizes that a connection does not take. */
static void bad_sizes(void)
{
	static const waywire_sizes bad[] = { { 4092, 64, 4096, 64, 0 }, { 4096, 19, 4096, 64, 0 },
		{ 4096, 64, 4096, 27, 0 }, { 4096, 64, 4092, 64, 0 },
		{ 8192, 64, 65536, 64, 16384 } };
	for (size_t i = 0; i < sizeof bad / sizeof *bad; i++) {
		MUST(!waywire_connection_of_client(tables, &bad[i], 0) && errno == EINVAL);
		MUST(!waywire_connection_of_server(tables, &bad[i], 0) && errno == EINVAL);
		MUST(!waywire_connection_connect(tables, &bad[i], "none") && errno == EINVAL);
	}
	MUST(!waywire_connection_connect(tables, NULL, "/there/is/none") && errno == ENOENT);
	waywire_connection_close(NULL);
}

/* ---- calls in callbacks: the server is in a child */

static waywire_object maker, head;
static int heads, gone;

/* A child that is a server until its client goes. Returns it. */
static pid_t begin_with_child(void)
{
	int sockets[2];
	before = count_open();
	make_pair(sockets);
	pid_t child = fork();
	MUST(child >= 0);
	if (!child) {
		close(sockets[0]);
		serve(sockets[1], NULL);
		while (waywire_connection_dispatch(server, WAIT) > 0)
			;
		int error = errno;
		waywire_connection_close(server);
		waywire_tables_free(tables);
		_exit(error != EPIPE && error != ECONNRESET && !ends_at_sync);
	}
	close(sockets[1]);
	begin_client(sockets[0], NULL);
	server = NULL;
	return child;
}

static void end_with_child(pid_t child)
{
	int status;
	end();
	MUST(waitpid(child, &status, 0) == child && !status);
}

static void on_gone(void *data)
{
	MUST(*(int *)data == 5);
	gone++;
}

/* Within the callback the object is destroyed, and its delete_id is read; the data stay until it
 * returns. */
static void on_done(void *data, waywire_wl_callback callback, uint32_t serial)
{
	(void)callback, (void)serial;
	MUST(waywire_connection_roundtrip(client, WAIT) > 0 && !gone);
	MUST(waywire_connection_roundtrip(client, WAIT) > 0 && !gone);
	MUST(*(int *)data == 5);
}

static const struct waywire_wl_callback_events callback_events = { .done = on_done };

/* Binds, and goes round before the next global is heard of. */
static void on_global(void *data, waywire_wl_registry registry, uint32_t name,
	const char *interface, uint32_t version)
{
	(void)data;
	MUST(!waywire_client_bind(requests, registry.object, name, interface, version, &maker));
	MUST(waywire_connection_roundtrip(client, WAIT) > 0);
}

static const struct waywire_wl_registry_events registry_events = { .global = on_global };

static void within_callbacks(void)
{
	int five = 5;
	pid_t child = begin_with_child();
	waywire_wl_callback callback;
	gone = 0;
	MUST(!waywire_connection_listen(client, get_registry().object,
		waywire_wl_registry_event_dispatcher, &registry_events, NULL));
	MUST(waywire_connection_roundtrip(client, WAIT) > 0 && maker.id);
	MUST(!waywire_wl_display_sync(requests, display, &callback));
	MUST(!waywire_connection_listen(client, callback.object,
		waywire_wl_callback_event_dispatcher, &callback_events, NULL));
	MUST(!waywire_connection_set_data(client, callback.object, &five, on_gone));
	MUST(waywire_connection_roundtrip(client, WAIT) > 0 && gone == 1);
	end_with_child(child);
	MUST(gone == 1);
}

/* The answer comes, and with it the end. */
static void answers_and_ends(void)
{
	ends_at_sync = true;
	pid_t child = begin_with_child();
	ends_at_sync = false;
	MUST(waywire_connection_roundtrip(client, WAIT) > 0);
	MUST(waywire_connection_dispatch(client, WAIT) == -1 && errno == EPROTO);
	end_with_child(child);
}

/* An event that a head makes a head with, whose id is that of the first: our end never does that.
 * Its data are there until the callback returns. */
static bool on_split(const void *calls, void *data, const waywire_report *report)
{
	(void)calls;
	MUST(*(int *)data == 5 && !gone && waywire_object_equal(report->replaced, head));
	MUST(!waywire_connection_data(client, head));
	MUST(!waywire_connection_set_data(client, report->args[0].object, data, on_gone));
	head = report->args[0].object;
	heads++;
	return true;
}

static bool on_plugged(const void *calls, void *data, const waywire_report *report)
{
	(void)calls;
	head = report->args[0].object;
	MUST(!waywire_connection_listen(client, head, on_split, NULL, NULL));
	MUST(!waywire_connection_set_data(client, head, data, on_gone));
	return true;
}

static void replaces_itself(void)
{
	int five = 5;
	gone = 0;
	begin(NULL);
	maker = bind_maker();
	MUST(!waywire_connection_listen(client, maker, on_plugged, NULL, &five));
	MUST(!waywire_end_send(requests.end, maker, ASK, NULL, 0, NULL, NULL));
	turn();
	MUST(head.id >= WAYWIRE_FIRST_SERVER_ID);
	uint32_t split[] = { head.id, 12 << 16 | SPLIT, head.id };
	MUST(write(waywire_connection_fd(server), split, sizeof split) == sizeof split);
	MUST(waywire_connection_dispatch(client, WAIT) == 1 && heads == 1 && gone == 1);
	MUST(waywire_connection_data(client, head) == &five);
	end();
	MUST(gone == 2);
}

/* Hears of an event a second later. */
static bool on_stray(const void *calls, void *data, const waywire_report *report)
{
	(void)calls, (void)report;
	skipped++;
	++*(int *)data;
	return true;
}

/* A round trip keeps its limit while events come. */
static void many_events(void)
{
	enum { STRAYS = 1000 };
	static const waywire_sizes small = { 4096, 20, 4096, 48, 0 };
	static const uint32_t stray[] = { 1, 12 << 16 | WAYWIRE_WL_DISPLAY_EVENT_DELETE_ID, 9 };
	uint32_t strays[STRAYS][3];
	waywire_part parts[2] = { { strays, sizeof strays }, { NULL, 0 } };
	int heard = 0;
	for (int i = 0; i < STRAYS; i++)
		memcpy(strays[i], stray, sizeof stray);
	begin(&small);
	MUST(!waywire_connection_listen(client, display.object, on_stray, NULL, &heard));
	MUST(waywire_socket_send(waywire_connection_fd(server), parts, NULL, 0) == sizeof strays);
	MUST(!waywire_connection_roundtrip(client, 100000));
	MUST(heard > 0 && heard < STRAYS);
	end();
}

int main(void)
{
	tables = core_and(text);
	error_comes(false);
	error_comes(true);
	fault_at_client();
	fault_at_server();
	other_goes();
	strange_descriptors();
	too_many_descriptors();
	not_sent();
	does_not_read();
	reads_at_once();
	reads_on();
	reads_slowly();
	too_many_objects();
	bad_sizes();
	within_callbacks();
	answers_and_ends();
	replaces_itself();
	many_events();
	waywire_tables_free(tables);
	return 0;
}
