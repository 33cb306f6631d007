/* Runs the command, and waits for it and for all sessions. */
#define _GNU_SOURCE
#include "inspect.h"

#include <errno.h>
#include <signal.h>
#include <stdio.h>
#include <stdlib.h>
#include <unistd.h>

/* How long the command may take to end after each signal, in milliseconds. */
#define GRACE 2000
/* How often it is looked whether the tool has the terminal, in milliseconds. */
#define TERMINAL_LOOK 200
/* What is waited for beside the sessions: the listener, and the terminal. */
#define BESIDE 2

struct run {
	struct shared shared;
	struct session *sessions;
	struct pollfd *polled; /* the listener and the terminal, followed by two for each session */
	size_t session_count;
	waywire_listening_socket *listener;
	int connected;      /* to the compositor, for the first client; -1 once it is used */
	struct children children;
	bool has_command;
	bool is_full;       /* no client could be accepted: try again soon */
	bool was_full;      /* that was already reported */
	bool is_later;      /* a way is to be tried again soon, even if nothing is ready */
	int stops;          /* how often it was asked to stop */
	struct timespec stop_again;
};

static struct timespec later(long milliseconds)
{
	struct timespec time;
	clock_gettime(CLOCK_MONOTONIC, &time);
	time.tv_sec += milliseconds / 1000;
	return time;
}

/* How many milliseconds are left until a time, at least 0. */
static int left_until(const struct timespec *time)
{
	struct timespec now;
	clock_gettime(CLOCK_MONOTONIC, &now);
	long left = (time->tv_sec - now.tv_sec) * 1000 + (time->tv_nsec - now.tv_nsec) / 1000000;
	return left > 0 ? (int)left : 0;
}

/* ---- sessions */

/* Makes room for the polling of a further session. */
static bool make_room(struct run *run)
{
	struct pollfd *polled = realloc(run->polled, (BESIDE + 2 * (run->session_count + 1)) * sizeof *polled);
	if (polled)
		run->polled = polled;
	return polled;
}

/* A connection to the compositor: the first one made, if it is unused and still open. */
static int connected(struct run *run)
{
	int made = run->connected;
	run->connected = -1;
	if (made >= 0 && !is_at_end(made))
		return made;
	if (made >= 0)
		close(made);
	return connect_to_compositor();
}

/* Begins the session of a client that was accepted. */
static void begin(struct run *run, int client)
{
	int compositor = connected(run);
	if (compositor < 0) {
		close(client);
		return;
	}
	struct session *made = make_room(run) ? session_new(&run->shared, client, compositor) : NULL;
	if (!made) {
		notice("a client is refused: out of memory");
		close(client);
		close(compositor);
		return;
	}
	struct session **last = &run->sessions;
	while (*last)
		last = &(*last)->next;
	*last = made;
	run->session_count++;
}

static void accept_client(struct run *run)
{
	int client = waywire_listening_socket_accept(run->listener);
	if (client >= 0 && has_room_behind(client)) {
		begin(run, client);
	} else if (client >= 0) {
		close(client);
	} else if (errno != EAGAIN) {
		if (!run->was_full)
			notice("a client has to wait: %s", strerror(errno));
		run->is_full = run->was_full = true;
	}
}

/* Ends the sessions that are over, or all. */
static void end_sessions(struct run *run, bool all)
{
	struct session **at = &run->sessions;
	while (*at) {
		struct session *session = *at;
		if (!all && !session->is_over) {
			at = &session->next;
			continue;
		}
		*at = session->next;
		run->session_count--;
		session_end(session, &run->shared);
	}
}

/* ---- the end */

/* Tells the command to end. The second time the sessions end too, and the third time it is killed. */
static void stop(struct run *run, int number)
{
	run->shared.is_stopping = true;
	print_briefly();
	run->stops++;
	run->stop_again = later(GRACE);
	if (run->children.is_running && (run->stops > 1 || !was_typed))
		kill(run->shared.command, run->stops > 2 ? SIGKILL : run->stops > 1 ? SIGTERM : number);
	if (run->stops > 1)
		end_sessions(run, true);
}

/* Whether the sessions only go on as long as something comes without waiting. */
static bool is_ending(const struct run *run)
{
	return run->stops && !run->children.is_running;
}

/* Whether a process that the command has started and left behind may still connect as the first. */
static bool may_connect(const struct run *run)
{
	return !run->shared.session_count && !run->stops && run->children.has_others && !run->children.status;
}

/* Whether only a client that waits to be accepted can still come. */
static bool is_done(const struct run *run)
{
	return !run->sessions && !run->children.is_running && !may_connect(run) && (run->has_command || run->stops);
}

/* The shorter of two times in milliseconds; -1 is none. */
static int sooner(int one, int other)
{
	return one < 0 || (other >= 0 && other < one) ? other : one;
}

/* Whether a session stands still because of --stop-at. */
static bool is_held(const struct run *run)
{
	const struct session *session = run->sessions;
	while (session && !(session->faults && faults_are_stopped(session->faults)))
		session = session->next;
	return session;
}

/* How long to wait, in milliseconds; -1 for no limit. */
static int patience(const struct run *run)
{
	int waits = sooner(filters_due(run->shared.options), is_held(run) && terminal_is_there() ? TERMINAL_LOOK : -1);
	for (struct session *session = run->sessions; session; session = session->next)
		waits = sooner(waits, session_due(session, &run->shared));
	if (is_done(run) || is_ending(run))
		return 0;
	if (run->is_later)
		return SOON;
	return sooner(run->stops ? left_until(&run->stop_again) : -1, waits);
}

/* Waits until something can be done. Returns what ppoll does: 0 if nothing is ready in time,
 * less where a signal came. */
static int wait_for_any(struct run *run)
{
	bool is_closed = run->is_full || is_ending(run);
	size_t count = BESIDE;
	run->polled[0] = (struct pollfd){ is_closed ? -1 : waywire_listening_socket_fd(run->listener), POLLIN, 0 };
	run->polled[1] = (struct pollfd){ is_held(run) ? terminal_polled() : -1, POLLIN, 0 };
	run->is_later = run->is_full;
	run->is_full = false;
	for (struct session *session = run->sessions; session; session = session->next, count += 2)
		run->is_later |= session_wants(session, run->polled + count);
	int milliseconds = patience(run);
	struct timespec time = { milliseconds / 1000, milliseconds % 1000 * 1000000L };
	int ready = ppoll(run->polled, (nfds_t)count, milliseconds < 0 ? NULL : &time, &run->shared.while_waiting);
	const struct pollfd *polled = run->polled + BESIDE;
	for (struct session *it = ready < 0 ? NULL : run->sessions; it; it = it->next, polled += 2)
		session_waits(it, &run->shared, polled);
	return ready;
}

/* Does everything that can be done without waiting. */
static void step(struct run *run)
{
	bool has_client = run->polled[0].revents;
	is_to_go_on |= run->polled[1].revents && terminal_was_typed();
	const struct pollfd *polled = run->polled + BESIDE;
	for (struct session *session = run->sessions; session; session = session->next, polled += 2)
		session_step(session, &run->shared, polled);
	end_sessions(run, false);
	if (has_client)
		accept_client(run);
}

/* Notes which processes have ended, and reports it if a signal ended the command. */
static void note_ended(struct run *run)
{
	bool was_running = run->children.is_running;
	child_ended = 0;
	reap(&run->children);
	if (was_running && !run->children.is_running && run->children.ended_by && !run->stops)
		notice("%s was ended by signal %d (%s)", run->shared.options->command[0], run->children.ended_by,
			strsignal(run->children.ended_by));
}

/* Lets what --stop-at stopped go on. */
static void go_on(struct run *run)
{
	is_to_go_on = 0;
	for (struct session *it = run->sessions; it; it = it->next)
		if (it->faults)
			faults_go_on(it->faults);
}

static void inspect(struct run *run)
{
	for (;;) {
		bool was_done = is_done(run);
		int ready = wait_for_any(run);
		filters_look(run->shared.options, run->shared.known->tables);
		if (ready >= 0)
			step(run);
		if (child_ended)
			note_ended(run);
		if (is_to_go_on)
			go_on(run);
		if (stopped_by || (run->stops && !left_until(&run->stop_again)))
			stop(run, stopped_by);
		stopped_by = 0;
		if (is_ending(run) && !ready)
			end_sessions(run, true);
		if (was_done && is_done(run))
			return;
	}
}

/* With --strict, what the sessions were comes before the status of the command. */
static int strict_status(const struct run *run)
{
	if (run->shared.any_has_failed)
		return 1;
	if (!run->shared.message_count)
		notice("not strict: no message has passed");
	return run->shared.any_is_refused || !run->shared.message_count ? NOT_STRICT : run->children.status;
}

/* The exit status. If nothing was inspected, a line says so. */
static int ended(struct run *run)
{
	char **command = run->shared.options->command;
	if (!run->shared.session_count && command)
		notice("%s made no connection", command[0]);
	else if (!run->shared.session_count)
		notice("no client has connected");
	if (!run->shared.session_count)
		return NOTHING_INSPECTED;
	return run->shared.options->strict ? strict_status(run)
		: run->children.status ? run->children.status : run->shared.any_has_failed;
}

/* Prints the first line of JSON. */
static void print_head(const struct run *run)
{
	char moment[32];
	write_moment(moment, sizeof moment);
	const struct options *options = run->shared.options;
	struct head head = { options->record, moment, options->command, run->shared.known->names.bytes, true, -1 };
	if (options->json)
		json_head(&head);
}

/* Starts the command, or prints the name for clients that are started by hand. False if that fails. */
static bool begin_clients(struct run *run, const char *display)
{
	char **command = run->shared.options->command;
	/* Standard output has nothing but JSON then. */
	bool is_aside = run->shared.options->json && !run->shared.options->output;
	print_head(run);
	if (!command) {
		print_name(display, is_aside);
		return true;
	}
	int error = start_command(command, display, is_aside, &run->shared.while_waiting, &run->shared.command);
	if (error)
		notice("%s: %s", command[0], strerror(error));
	run->children = (struct children){ run->shared.command, !error, false, 0, 0 };
	return !error;
}

int run(const struct options *options, const struct known *known)
{
	struct run run = { .shared = { .options = options, .known = known }, .connected = -1 };
	find_compositor();
	run.connected = connect_to_compositor();
	if (run.connected < 0 || (options->record && !can_record(options->record)) || !make_room(&run)) {
		picture_end(options, 0);
		return NOTHING_INSPECTED;
	}
	check_descriptors();
	take_signals(&run.shared.while_waiting);
	if (options->stop.count) {
		take_going_on();
		terminal_open();
	}
	run.listener = listen_in_runtime_folder();
	run.has_command = options->command;
	bool is_begun = begin_clients(&run, waywire_listening_socket_name(run.listener));
	if (is_begun) {
		allow_descriptors();
		inspect(&run);
	}
	print_now();
	waywire_listening_socket_close(run.listener);
	free(run.polled);
	picture_end(options, run.shared.session_count);
	return is_begun ? ended(&run) : NOTHING_INSPECTED;
}
