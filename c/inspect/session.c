/* One client's connection. */
#define _GNU_SOURCE
#include "inspect.h"

#include <stdio.h>
#include <stdlib.h>
#include <sys/socket.h>
#include <sys/stat.h>
#include <unistd.h>

/* Seconds since the first client connected. */
static double seconds_since(const struct shared *shared)
{
	struct timespec now;
	clock_gettime(CLOCK_MONOTONIC, &now);
	return (double)(now.tv_sec - shared->start.tv_sec) + (double)(now.tv_nsec - shared->start.tv_nsec) / 1e9;
}

/* Lines have the client's number if a second client has come, or may come at any time. The first such line says
 * who the client is. */
static void number_lines(struct session *session, const struct shared *shared)
{
	struct printer *printer = &session->judging.printer;
	struct text words = { NULL, 0, 0 };
	if (printer->is_numbered || (shared->session_count < 2 && shared->options->command))
		return;
	printer->is_numbered = true;
	if (!*session->who)
		return;
	text_format(&words, "is %s", session->who);
	print_words(printer, seconds_since(shared) - session->connected, &words, false);
	text_free(&words);
}

/* ---- passing on */

/* A side writes nothing more, and all that it wrote was passed on. */
static void source_ended(struct session *session, const struct shared *shared, int from)
{
	struct way *way = &session->ways[from];
	way->is_open = false;
	way->is_ended = true;
	if (from == COMPOSITOR && !session->ways[CLIENT].is_ended && !shared->is_stopping)
		notice("the compositor has closed the connection of client %u", session->client.number);
	if (from == CLIENT && session->client.process != shared->command && !shared->is_stopping)
		notice("client %u (process %ld) has closed its connection", session->client.number,
			(long)session->client.process);
	if (is_hung_up(way->source) || shutdown(way->target, SHUT_WR))
		session->is_over = true;
}

/* The pipes among the descriptors of a piece, which end a transfer when they are closed. */
static void note_pipes(struct session *session, int from)
{
	const struct way *way = &session->ways[from];
	struct stat status;
	for (size_t i = 0; i < way->descriptor_count; i++) {
		session->descriptors[from]++;
		if (!fstat(way->descriptors[i], &status) && S_ISFIFO(status.st_mode))
			judge_pipe(&session->judging, from, session->descriptors[from], status.st_ino);
	}
}

static void write_piece(struct session *session, int from, double seconds)
{
	struct way *way = &session->ways[from];
	struct reader *reader = &session->readers[!from];
	size_t before = way->from;
	reader_before_write(reader, &session->judging.printer, seconds);
	way_write(way);
	reader_after_write(reader, &session->judging.printer, seconds, way->from - before);
}

/* Passes on the piece of a way. */
static void pass_piece(struct session *session, struct shared *shared, int from, double seconds)
{
	struct way *way = &session->ways[from];
	size_t length = way->to, descriptor_count = way->descriptor_count;
	note_pipes(session, from);
	write_piece(session, from, seconds);
	recording_add(&session->recording, followed(&session->judging),
		&(struct recorded){ from, way->bytes, length, descriptor_count, seconds });
	number_lines(session, shared);
	judge_piece(&session->judging, from, way->bytes, length, descriptor_count, seconds);
	print_now();
	shared->any_has_failed |= has_failed(&session->judging);
	if (session->judging.standing == BROKEN && shared->options->stop_when_broken) {
		notice("client %u is closed: a message broke a rule", session->client.number);
		session->is_over = true;
	}
}

/* ---- faults on purpose */

static void tell_fault(struct session *session, const struct shared *shared, struct due *due)
{
	recording_add_fault(&session->recording, &due->done);
	number_lines(session, shared);
	print_fault(&session->judging.printer, &session->judging.faults, &due->done);
	print_now();
	text_free(&due->words);
}

/* Says before which message both sides stop, and who waits. What was typed before does not go on. */
static void tell_stop(struct session *session, const struct shared *shared, struct due *due)
{
	terminal_drop();
	number_lines(session, shared);
	print_stop(&session->judging.printer, &session->judging.questions, &due->done);
	print_now();
	text_free(&due->words);
}

/* Does what is due on a way that has no piece. */
static void pass_due(struct session *session, struct shared *shared, int from)
{
	struct way *way = &session->ways[from];
	struct due due;
	double now = seconds_since(shared) - session->connected;
	while (way->is_open && !session->is_over && !way_waits(way)
		&& faults_give(session->faults, from, way, now, &due)) {
		if (due.kind == DUE_PIECE)
			pass_piece(session, shared, from, now);
		else if (due.kind == DUE_WORDS)
			tell_fault(session, shared, &due);
		else if (due.kind == DUE_STOP)
			tell_stop(session, shared, &due);
		else {
			notice("client %u is closed: --fault kill", session->client.number);
			session->is_over = true;
		}
	}
	if (!way->is_open)
		faults_drop(session->faults, from);
	else if (!session->is_over && !way_waits(way) && faults_are_over(session->faults, from))
		source_ended(session, shared, from);
}

/* ---- what comes */

/* Takes the end of what a side writes. */
static void take_end(struct session *session, const struct shared *shared, int from)
{
	if (session->faults)
		faults_end(session->faults, from);
	else
		source_ended(session, shared, from);
}

/* Takes a piece that was read. */
static void take_piece(struct session *session, struct shared *shared, int from)
{
	double now = seconds_since(shared) - session->connected;
	if (!session->faults)
		pass_piece(session, shared, from, now);
	else if (!faults_take(session->faults, from, &session->ways[from], now)) {
		notice("client %u is closed: memory ran out, or too many descriptors belong to no message",
			session->client.number);
		session->is_over = true;
	}
}

/* Reads from a side and passes on what comes. `events` is what its socket is ready for. */
static void read_piece(struct session *session, struct shared *shared, int from, short events)
{
	if (session->faults && !faults_have_room(session->faults, from)) {
		if (events & (POLLHUP | POLLERR))
			faults_release(session->faults, from);
		return;
	}
	switch (way_read(&session->ways[from])) {
	case CAME_NOTHING:
		return;
	case CAME_END:
		take_end(session, shared, from);
		return;
	case CAME_TOO_MANY:
		notice("client %u is closed: no numbers are left for its descriptors", session->client.number);
		session->is_over = true;
		return;
	case CAME_PIECE:
		take_piece(session, shared, from);
		return;
	}
}

/* In how many milliseconds a time comes, in seconds since the connection. */
static int milliseconds_until(const struct session *session, const struct shared *shared, double time)
{
	double left = time - (seconds_since(shared) - session->connected);
	return left <= 0 ? 0 : (int)(left * 1000) + 1;
}

/* When something is due on its way; -1 if nothing waits. */
static double fault_due(const struct session *session)
{
	double first = -1;
	for (int from = CLIENT; session->faults && from <= COMPOSITOR; from++) {
		const struct way *way = &session->ways[from];
		double due = way->is_open && !way_waits(way) ? faults_due(session->faults, from) : -1;
		if (due >= 0 && (first < 0 || due < first))
			first = due;
	}
	return first;
}

/* In how many milliseconds it is to be looked at; -1 if it is not. */
static int look_due(const struct session *session, const struct shared *shared)
{
	double times[] = { judge_due(&session->judging), session->readers[CLIENT].look,
		session->readers[COMPOSITOR].look };
	double first = -1;
	for (size_t i = 0; i < sizeof times / sizeof *times; i++)
		if (times[i] >= 0 && (first < 0 || times[i] < first))
			first = times[i];
	if (first < 0)
		return -1;
	/* It was due at the last look already, when not all was read. */
	if (first <= session->moment.now)
		return SOON;
	return milliseconds_until(session, shared, first);
}

int session_due(const struct session *session, const struct shared *shared)
{
	int look = look_due(session, shared);
	double due = fault_due(session);
	int passes = due < 0 ? -1 : milliseconds_until(session, shared, due);
	return look < 0 || (passes >= 0 && passes < look) ? passes : look;
}

void session_waits(struct session *session, const struct shared *shared, const struct pollfd *polled)
{
	struct moment *moment = &session->moment;
	const struct printer *printer = &session->judging.printer;
	moment->now = seconds_since(shared) - session->connected;
	for (int side = CLIENT; side <= COMPOSITOR; side++)
		if (polled[side].events & POLLIN && !(polled[side].revents & (POLLIN | POLLHUP | POLLERR)))
			moment->all_read[side] = moment->now;
	judge_waits(&session->judging, moment);
	for (int side = CLIENT; side <= COMPOSITOR; side++)
		reader_look(&session->readers[side], printer, moment->now);
	print_now();
}

bool session_wants(const struct session *session, struct pollfd *polled)
{
	bool is_later = false;
	polled[CLIENT] = polled[COMPOSITOR] = (struct pollfd){ -1, 0, 0 };
	for (int from = CLIENT; from <= COMPOSITOR; from++) {
		const struct way *way = &session->ways[from];
		int at = from;
		short event = POLLIN;
		is_later |= way->is_later;
		if (way->is_later || !(way->is_open || way->is_ended))
			continue;
		if (!way->is_open || (session->faults && !way_waits(way) && !faults_have_room(session->faults, from)))
			event = 0; /* POLLHUP is reported in any case */
		else if (way_waits(way)) {
			at = !from;
			event = POLLOUT;
		}
		polled[at].fd = session->sockets[at];
		polled[at].events |= event;
	}
	return is_later;
}

void session_step(struct session *session, struct shared *shared, const struct pollfd *polled)
{
	for (int from = CLIENT; from <= COMPOSITOR && !session->is_over; from++) {
		struct way *way = &session->ways[from];
		if (way->is_ended)
			session->is_over = polled[from].revents & (POLLHUP | POLLERR);
		else if (!way->is_open)
			continue;
		else if (!way_waits(way) && polled[from].revents)
			read_piece(session, shared, from, polled[from].revents);
		else if (way_waits(way) && (way->is_later || polled[!from].revents))
			write_piece(session, from, seconds_since(shared) - session->connected);
		if (session->faults && !session->is_over && way->is_open)
			pass_due(session, shared, from);
	}
	session->is_over |= !session->ways[CLIENT].is_open && !session->ways[COMPOSITOR].is_open;
}

/* ---- its life */

/* Writes which program the client is, and its process. */
static void write_who(struct session *session)
{
	const struct client *client = &session->client;
	session->who[0] = 0;
	if (client->process)
		snprintf(session->who, sizeof session->who, "%s%sprocess %ld", client->name, *client->name ? ", " : "",
			(long)client->process);
}

struct session *session_new(struct shared *shared, int client, int compositor)
{
	struct session *made = malloc(sizeof *made);
	if (!made)
		return NULL;
	if (!shared->session_count) {
		clock_gettime(CLOCK_MONOTONIC, &shared->start);
		shared->moment = moment_now();
	}
	made->next = NULL;
	made->client = client_at(client, ++shared->session_count);
	write_who(made);
	made->is_over = false;
	made->connected = seconds_since(shared);
	made->moment = (struct moment){ { -1, -1 }, -1 };
	made->sockets[CLIENT] = client;
	made->sockets[COMPOSITOR] = compositor;
	for (int from = CLIENT; from <= COMPOSITOR; from++) {
		struct way *way = &made->ways[from];
		way->source = made->sockets[from];
		way->target = made->sockets[!from];
		way->is_open = true;
		way->is_ended = way->is_later = false;
		way->from = way->to = way->descriptor_count = 0;
		made->descriptors[from] = 0;
		reader_begin(&made->readers[from], from, made->sockets[from]);
	}
	recording_begin(&made->recording, shared->options, shared->known, &made->client);
	judge_begin(&made->judging, shared->options, shared->known, made->client.number);
	made->faults = faults_new(shared->options, shared->known, made->client.number);
	made->judging.printer.start = made->connected;
	made->judging.printer.moment = shared->moment;
	made->judging.printer.who = made->who;
	if (shared->options->json)
		json_client(made->client.number, *made->client.name ? made->client.name : NULL,
			(long)made->client.process);
	if (shared->options->verbose)
		notice("client %u is process %ld", made->client.number, (long)made->client.process);
	number_lines(made, shared);
	print_now();
	return made;
}

void session_end(struct session *session, struct shared *shared)
{
	double seconds = seconds_since(shared) - session->connected;
	for (int from = CLIENT; from <= COMPOSITOR; from++) {
		reader_end(&session->readers[from], &session->judging.printer, seconds);
		session->judging.unread[from] = session->readers[from].longest;
		way_close_descriptors(&session->ways[from]);
		close(session->sockets[from]);
	}
	if (session->faults)
		faults_free(session->faults);
	recording_end(&session->recording, seconds);
	number_lines(session, shared);
	judge_end(&session->judging, seconds);
	shared->any_is_refused |= session->judging.is_refused;
	shared->message_count += session->judging.counts[CLIENT] + session->judging.counts[COMPOSITOR];
	print_now();
	judge_free(&session->judging);
	free(session);
}
