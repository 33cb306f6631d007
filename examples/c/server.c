/* A compositor without a screen: serves the clients at a socket, lets them open windows over
 * xdg-shell and copy and paste, and says what colour each buffer has that is committed to a
 * surface. Once a window has shown a picture, it plays a script.
 *
 *     server [--stay] NAME [SCRIPT]
 *
 * It ends with its last client, or with --stay at SIGINT or SIGTERM only. The exit status is 1 if
 * it has ended a client, say for a request that breaks a rule.
 *
 * The script is a file with an event a line, which may grow while it is played: `key CODE` and
 * `button CODE` press and release what has that number in linux/input-event-codes.h, `modifiers
 * MASK` holds modifiers down (Shift is 1, Ctrl 4), `motion X Y` moves the pointer over the window,
 * and `close` asks the window to close. */
#define _GNU_SOURCE
#include "clipboard.h"
#include "wayland.h"
#ifdef WITH_DATA_CONTROL
#include "data-control.h"
#else
#define WW_WLR_DATA_CONTROL_UNSTABLE_V1_TABLES
#endif

#include <err.h>
#include <errno.h>
#include <poll.h>
#include <signal.h>
#include <stdio.h>
#include <stdlib.h>
#include <sys/signalfd.h>
#include <time.h>
#include <unistd.h>

/* The time between two lines of the script, in milliseconds. */
#define STEP 100

/* How long the loop waits at most, so that a client that reads nothing is given up in time. */
#define IDLE 10000

/* The most clients at a time. Another takes the place of the oldest that has never sent a request; if all have, it
 * waits. */
#define MOST_CLIENTS 64

/* If a client cannot be accepted, the next try comes within this many milliseconds. */
#define PAUSE 1000

struct client *clients;
static size_t client_count;
static waywire_tables *tables;
static bool has_ended_a_client;

void must(waywire_status status)
{
	if (status)
		errx(1, "%s", waywire_strerror(status));
}

void may(struct client *client, waywire_status status)
{
	if (status == WAYWIRE_FULL)
		client->is_stuck = true;
	else if (status != WAYWIRE_STALE && status != WAYWIRE_TOO_OLD && status != WAYWIRE_FAILED)
		must(status);
}

void post_no_descriptor(struct client *client)
{
	waywire_server_post_error(client->server, waywire_end_display(client->server.end),
		WAYWIRE_WL_DISPLAY_ERROR_NO_MEMORY, "no descriptor is left");
}

bool is_live(const struct client *client, waywire_object object)
{
	return object.id && !waywire_end_live(client->server.end, object, NULL, NULL);
}

void *new_data(struct client *client, waywire_object object, size_t size,
	void (*destroy)(void *data))
{
	void *data = calloc(1, size);
	if (!data)
		err(1, "memory");
	must(waywire_connection_set_data(client->connection, object, data, destroy));
	return data;
}

uint32_t next_serial(void)
{
	static uint32_t serial;
	return serial++;
}

uint32_t milliseconds(void)
{
	struct timespec now;
	clock_gettime(CLOCK_MONOTONIC, &now);
	return (uint32_t)(now.tv_sec * 1000 + now.tv_nsec / 1000000);
}

/* ---- globals */

static void send_output(struct client *client, waywire_wl_output output)
{
	waywire_server server = client->server;
	must(waywire_wl_output_send_geometry(server, output, 0, 0, 340, 190,
		WAYWIRE_WL_OUTPUT_SUBPIXEL_UNKNOWN, "", "", WAYWIRE_WL_OUTPUT_TRANSFORM_NORMAL));
	must(waywire_wl_output_send_mode(server, output, WAYWIRE_WL_OUTPUT_MODE_CURRENT, 1280, 720,
		60000));
	may(client, waywire_wl_output_send_done(server, output));
}

static void on_bind(void *data, waywire_wl_registry registry, uint32_t name, const char *interface,
	uint32_t version, waywire_object made)
{
	struct client *client = data;
	if (!strcmp(interface, WAYWIRE_WL_SHM_NAME)) {
		waywire_wl_shm shm = waywire_wl_shm_of(made);
		must(waywire_wl_shm_send_format(client->server, shm,
			WAYWIRE_WL_SHM_FORMAT_XRGB8888));
		must(waywire_wl_shm_send_format(client->server, shm,
			WAYWIRE_WL_SHM_FORMAT_ARGB8888));
	} else if (!strcmp(interface, WAYWIRE_WL_SEAT_NAME)) {
		must(waywire_wl_seat_send_capabilities(client->server, waywire_wl_seat_of(made),
			WAYWIRE_WL_SEAT_CAPABILITY_POINTER
			| WAYWIRE_WL_SEAT_CAPABILITY_KEYBOARD));
	} else if (!strcmp(interface, WAYWIRE_WL_OUTPUT_NAME)) {
		send_output(client, waywire_wl_output_of(made));
	}
}

static const struct waywire_wl_registry_requests registry_requests = { .bind = on_bind };

static const waywire_listener listeners[] = {
	{ WAYWIRE_WL_REGISTRY_NAME, waywire_wl_registry_request_dispatcher, &registry_requests },
};

static const struct global {
	const char *name;
	uint32_t version;
} globals[] = {
	{ WAYWIRE_WL_COMPOSITOR_NAME, 4 }, { WAYWIRE_WL_SUBCOMPOSITOR_NAME, 1 },
	{ WAYWIRE_WL_SHM_NAME, 1 }, { WAYWIRE_WL_SEAT_NAME, 5 },
	{ WAYWIRE_WL_OUTPUT_NAME, 2 }, { WW_XDG_WM_BASE_NAME, 1 },
	{ WW_WL_DATA_DEVICE_MANAGER_NAME, 3 },
#ifdef WITH_DATA_CONTROL
	{ WW_ZWLR_DATA_CONTROL_MANAGER_V1_NAME, 1 },
#endif
};

/* Reads the interfaces of the core, of xdg-shell and of clipboards. */
static void read_tables(void)
{
	static const char text[] = WW_XDG_SHELL_TABLES WW_WAYLAND_TABLES
		WW_WLR_DATA_CONTROL_UNSTABLE_V1_TABLES;
	waywire_tables *core;
	must(waywire_tables_core(&core));
	must(waywire_tables_read(core, text, strlen(text), &tables, NULL, NULL));
	waywire_tables_free(core);
}

/* ---- clients */

/* Serves the client at a socket, with the globals. */
static void add_client(int socket)
{
	struct client *client = calloc(1, sizeof *client);
	if (client)
		client->connection = waywire_connection_of_server(tables, NULL, socket);
	if (!client || !client->connection)
		err(1, "a client");
	client->server = waywire_connection_server(client->connection);
	for (size_t i = 0; i < sizeof globals / sizeof *globals; i++)
		must(waywire_connection_add_global(client->connection, globals[i].name,
			globals[i].version, NULL));
	must(waywire_connection_implement(client->connection, listeners,
		sizeof listeners / sizeof *listeners, client));
	serve_windows(client);
	serve_seat(client);
	serve_clipboard(client);
	client->next = clients;
	clients = client;
	client_count++;
}

/* Says why a client's connection has ended, unless the client has closed it. */
static void report_end(const struct client *client)
{
	const waywire_failure *failure = waywire_connection_failure(client->connection);
	if (failure && (failure->error == EPIPE || failure->error == ECONNRESET))
		return;
	warnx("%s", failure ? failure->text : "a client does not read");
	has_ended_a_client = true;
}

/* Takes a client out of the list, and ends it with all that it has. */
static void end_client(struct client **link)
{
	struct client *client = *link;
	*link = client->next;
	client_count--;
	leave_client(client);
	waywire_connection_close(client->connection);
	free(client);
}

static void end_those_that_failed(void)
{
	struct client **link = &clients;
	while (*link) {
		if (!(*link)->is_stuck && !waywire_connection_failure((*link)->connection)) {
			link = &(*link)->next;
			continue;
		}
		report_end(*link);
		end_client(link);
	}
}

/* The place in the list of the oldest client that has never sent a request; null if all have. */
static struct client **find_idle(void)
{
	struct client **found = NULL;
	for (struct client **link = &clients; *link; link = &(*link)->next)
		if (!(*link)->has_asked)
			found = link;
	return found;
}

/* Whether another client can be served. */
static bool has_place(void)
{
	return client_count < MOST_CLIENTS || find_idle();
}

/* Accepts a client that waits, if there is a place. Returns false if that fails, for example because the process has
 * no descriptor left; then the client still waits. */
static bool accept_client(const waywire_listening_socket *listening)
{
	if (!has_place())
		return true;
	int socket = waywire_listening_socket_accept(listening);
	if (socket < 0)
		return errno == EAGAIN;
	if (client_count == MOST_CLIENTS) {
		warnx("a client that has asked for nothing gives way to another");
		has_ended_a_client = true;
		end_client(find_idle());
	}
	add_client(socket);
	return true;
}

/* ---- the loop */

/* What is to be waited for at a client. Sends first what was written for it. */
static struct pollfd polled_at(struct client *client)
{
	struct pollfd polled = { waywire_connection_fd(client->connection), 0, 0 };
	waywire_connection_flush(client->connection);
	if (waywire_connection_wants_read(client->connection))
		polled.events |= POLLIN;
	if (waywire_connection_wants_write(client->connection))
		polled.events |= POLLOUT;
	return polled;
}

/* Waits for the clients, for so many milliseconds at most, and calls back for what they have
 * sent. Returns false once a signal has come.
 *
 * The listening socket is ready as long as a client waits there. If the client cannot be accepted,
 * poll would return at once every time. So the next poll leaves the listening socket out, and the
 * one after that tries again. */
static bool serve(const waywire_listening_socket *listening, int signals, int timeout)
{
	static bool pauses; /* whether the last client could not be accepted */
	struct pollfd polled[2 + MOST_CLIENTS] = { { signals, POLLIN, 0 },
		{ waywire_listening_socket_fd(listening), POLLIN, 0 } };
	size_t count = 2;
	for (struct client *client = clients; client; client = client->next) {
		polled[count] = polled_at(client);
		if (!polled[count++].events)
			timeout = 0; /* requests wait that had no room for their answers before */
	}
	if (pauses && timeout > PAUSE)
		timeout = PAUSE;
	if (pauses || !has_place())
		polled[1].fd = -1; /* poll ignores it */
	if (poll(polled, count, timeout) < 0 && errno != EINTR)
		err(1, "poll");
	count = 2;
	for (struct client *client = clients; client; client = client->next) {
		if (polled[count++].revents & ~POLLOUT)
			waywire_connection_fill(client->connection);
		if (waywire_connection_dispatch_pending(client->connection) > 0)
			client->has_asked = true;
	}
	end_those_that_failed();
	pauses = polled[1].revents && !accept_client(listening);
	return !polled[0].revents;
}

/* Plays the next line of the script, a while after the one before, if a window has the focus. */
static void play_next(FILE *script)
{
	static uint32_t last;
	char line[64];
	if (!focus || milliseconds() - last < STEP)
		return;
	clearerr(script);
	if (fgets(line, sizeof line, script))
		play(line);
	last = milliseconds();
}

/* A descriptor that can be read once SIGINT or SIGTERM has come, which then do nothing else. */
static int open_signals(void)
{
	sigset_t signals;
	sigemptyset(&signals);
	sigaddset(&signals, SIGINT);
	sigaddset(&signals, SIGTERM);
	sigprocmask(SIG_BLOCK, &signals, NULL);
	int opened = signalfd(-1, &signals, SFD_CLOEXEC);
	if (opened < 0)
		err(1, "signals");
	return opened;
}

/* Serves until a signal comes, or until no client is left of those that came. */
static void run(const char *name, FILE *script, bool stays)
{
	int signals = open_signals();
	waywire_listening_socket *listening = waywire_socket_listen(name);
	if (!listening)
		err(1, "%s", name);
	bool had_clients = false;
	while (serve(listening, signals, script ? STEP : IDLE)
			&& (stays || clients || !had_clients)) {
		had_clients |= clients != NULL;
		find_focus();
		send_selections();
		if (script)
			play_next(script);
	}
	while (clients)
		end_client(&clients);
	waywire_listening_socket_close(listening);
	close(signals);
}

int main(int argc, char **argv)
{
	bool stays = argc > 1 && !strcmp(argv[1], "--stay");
	char **words = argv + 1 + stays;
	if (argc - stays != 2 && argc - stays != 3)
		errx(1, "the name of a socket is wanted, and after it a script if there is one");
	FILE *script = words[1] ? fopen(words[1], "re") : NULL;
	if (words[1] && !script)
		err(1, "%s", words[1]);
	read_tables();
	run(words[0], script, stays);
	waywire_tables_free(tables);
	if (script)
		fclose(script);
	return has_ended_a_client;
}
