/* Judges a client's messages by the library's inspector, and prints them beside what the tool knows. */
#define _GNU_SOURCE
#include "inspect.h"

#include <inttypes.h>
#include <stdio.h>

/* A pipe that stays open is looked at so many times in a second. */
#define LOOKS_AT_PIPES 4
/* How many bytes of a message that cannot be decoded are printed. */
#define SHOWN_BYTES 64

bool has_failed(const struct judging *judging)
{
	return judging->standing == BROKEN || judging->has_error;
}

/* Reports once that the client is no longer judged. */
static void lose(struct judging *judging, waywire_status status)
{
	if (judging->standing == LOST)
		return;
	if (!judging->is_counting)
		notice("client %u is handed on unjudged from here: %s", judging->printer.number,
			waywire_strerror(status));
	judging->standing = LOST;
}

void judge_begin(struct judging *judging, const struct options *options, const struct known *known, unsigned number)
{
	*judging = (struct judging){ .printer = { .options = options, .number = number, .history = history_new() },
		.known = known, .follower = { .tables = known->tables, .limit = options->limit } };
	judging->printer.room = &judging->room;
	questions_begin(&judging->questions);
	for (size_t i = 0; i < options->faults.count; i++)
		fault_counts_add(&judging->faults, options->faults.lines[i].words);
	waywire_status status = waywire_inspector_new(known->raised, options->limit, &judging->follower.inspector);
	if (status)
		lose(judging, status);
}

void judge_free(struct judging *judging)
{
	waywire_inspector_free(judging->follower.inspector);
	stats_free(&judging->stats);
	questions_free(&judging->questions);
	fault_counts_free(&judging->faults);
	history_free(judging->printer.history);
	text_free(&judging->room.line);
	text_free(&judging->room.whole);
	text_free(&judging->room.named);
	text_free(&judging->room.part);
	text_free(&judging->reason);
	text_free(&judging->newer);
	text_free(&judging->verdict);
}

/* ---- a message */

/* Whether the messages of both directions are still followed. */
static bool sees_all(const struct judging *judging)
{
	return !has_failed(judging) && judging->standing != LOST && !judging->is_lost[CLIENT]
		&& !judging->is_lost[COMPOSITOR];
}

const struct follower *followed(const struct judging *judging)
{
	return sees_all(judging) ? &judging->follower : NULL;
}

/* Prints a message by its line. */
static void print_by_line(struct judging *judging, struct message *message, const struct text *line,
	const struct beside *beside)
{
	struct beside printed = *beside;
	printed.is_outside = !is_within(&judging->printer.options->shown->window, message,
		message->seconds + judging->printer.start);
	printed.is_red |= is_error(message);
	judging->has_error |= is_error(message);
	judging->counts[message->from]++;
	judging->within += !printed.is_outside;
	printed.is_outside |= judging->within <= judging->left_out;
	if (judging->is_counting)
		return;
	if (judging->printer.options->stats) {
		stats_note(&judging->stats, message);
		silences_note(&judging->silences, &judging->questions, message);
	}
	if (sees_all(judging))
		questions_note(&judging->questions, judging->follower.tables, message);
	name_arguments(message);
	if (judging->is_log)
		log_hide_arrays(message);
	print_message(&judging->printer, message, line, &printed);
	print_waited(&judging->printer, message->closed, message->closed_count, message->seconds);
}

/* Puts which id the compositor took back first though nobody had given it up, if it did; `before` comes first. */
static void put_taken_back(const struct judging *judging, struct text *words, const char *before)
{
	uint32_t id;
	uint64_t number = waywire_inspector_undeserved(judging->follower.inspector, &id);
	if (number && number <= judging->last_judged && !judging->is_excused)
		text_format(words, "%sthe compositor took back id %" PRIu32 ", which nobody had given up", before, id);
}

/* ---- what is newer than the tables */

/* Whether the tables have the interface of an object, but not in its version. */
static bool is_newer(const struct judging *judging, uint16_t interface, uint32_t version, uint32_t *known)
{
	return !waywire_tables_version(judging->follower.tables, interface, known) && *known < version;
}

/* Whether that is the case after a bind of a version that the tables lack. Puts what they have instead. */
static bool is_of_newer(const struct judging *judging, const struct object *object, struct text *reason)
{
	uint32_t known;
	if (!judging->newer.length || !is_newer(judging, object->interface, object->version, &known))
		return false;
	text_add(reason, "the tables have ");
	text_put(reason, object->name.bytes, object->name.length);
	text_format(reason, " up to version %" PRIu32 ", and ", known);
	put_object(reason, object);
	text_format(reason, " has version %" PRIu32, object->version);
	return true;
}

/* Notes that a bind is newer than the tables; `note` gets what is printed of that. */
static void note_newer(struct judging *judging, const struct message *message, struct text *note)
{
	uint32_t known;
	if (!is_bind(message) || !is_newer(judging, message->bound, message->args[1].value.u, &known))
		return;
	text_add(note, "the tables have ");
	text_put(note, message->args[1].value.bytes, message->args[1].value.length);
	text_format(note, " up to version %" PRIu32 ", and it is bound at %" PRIu32, known, message->args[1].value.u);
	if (!judging->newer.length)
		text_put(&judging->newer, note->bytes, note->length);
	text_add(note, "; judged until a message comes that they lack");
}

/* Whether the tables have a request that ends an object of this version. */
static bool has_destructor(const struct judging *judging, const struct object *object)
{
	const waywire_tables *tables = judging->follower.tables;
	waywire_message found;
	uint16_t opcode = 0;
	while (!waywire_tables_message(tables, object->interface, WAYWIRE_FROM_CLIENT, opcode++, &found, NULL, NULL))
		if (found.destroys == WAYWIRE_DESTROYS_TARGET && found.since <= object->version)
			return true;
	return false;
}

/* Whether the server makes an object with this message that is newer than the tables, and these have no request that
 * ends it. Newer tables may have one, and then the server may not use the id again while the object is live. */
static bool is_unsettled(const struct judging *judging, const struct message *message, struct text *reason)
{
	return judging->newer.length && message->made.id >= WAYWIRE_FIRST_SERVER_ID
		&& !has_destructor(judging, &message->made) && is_of_newer(judging, &message->made, reason);
}

/* ---- a judged message */

/* Prints a message with the first of the library's lines, and removes that line. */
static void print_judged(struct judging *judging, struct message *message, const char **lines, size_t *length)
{
	struct text note = { NULL, 0, 0 }, words = { NULL, 0, 0 };
	judging->last_judged = message->number;
	if (waywire_inspector_undeserved(judging->follower.inspector, NULL) == message->number) {
		judging->is_excused |= is_ended_unmarked(judging->known, message->freed.name)
			|| is_of_newer(judging, &message->freed, &words);
		put_taken_back(judging, &note, "");
		text_free(&words);
	}
	note_newer(judging, message, &note);
	const struct beside beside = { .note = note.bytes };
	const char *end = *length ? memchr(*lines, '\n', *length) : NULL;
	size_t its = end ? (size_t)(end - *lines) : *length;
	struct text *line = &judging->room.line;
	message->is_judged = true;
	line->length = 0;
	text_put_line(line, *lines, its);
	print_by_line(judging, message, line, &beside);
	text_free(&note);
	*lines += its + (end != NULL);
	*length -= its + (end != NULL);
}

/* ---- after the last judged message */

static void print_unjudged(struct judging *judging, struct message *message, const char *note)
{
	struct beside beside = { .note = note, .is_marked = !note };
	struct text *line = &judging->room.line;
	int from = message->from;
	if (message->is_bad_size) {
		judging->is_lost[from] = true;
		if (!judging->is_counting)
			notice("client %u: its %s have no sizes from here, and are not printed any more",
				judging->printer.number, from == CLIENT ? "requests" : "events");
		return;
	}
	line->length = 0;
	put_message(line, message);
	print_by_line(judging, message, line, &beside);
}

/* Why a bind does not count as broken: the only reason is that the tables lack its interface or its version. */
static bool is_beyond_tables(const struct judging *judging, const struct message *message, struct text *reason)
{
	uint32_t known;
	if (!is_bind(message))
		return false;
	const waywire_arg *bound = &message->args[1].value;
	if (!bound->u || announced_version(&judging->follower, message) < bound->u)
		return false;
	bool is_known = !waywire_tables_version(judging->follower.tables, message->bound, &known);
	if (is_known && bound->u <= known)
		return false;
	text_add(reason, is_known ? "the tables have " : "no table has ");
	text_put(reason, bound->bytes, bound->length);
	if (is_known)
		text_format(reason, " up to version %" PRIu32 ", and it is bound at %" PRIu32, known, bound->u);
	return true;
}

/* Why a message that the tables lack does not count as broken: its interface has it, and no text can hold it. */
static bool is_beyond_texts(const struct judging *judging, const struct message *message, struct text *reason)
{
	struct name name;
	if (!is_unheld(judging->known, message, &name))
		return false;
	text_add(reason, "no table can hold ");
	text_put(reason, message->target.name.bytes, message->target.name.length);
	text_add(reason, ".");
	text_put(reason, name.bytes, name.length);
	return true;
}

/* From this message on nothing is judged. */
static void leave_unjudged(struct judging *judging, struct message *message)
{
	struct text note = { NULL, 0, 0 };
	judging->standing = UNJUDGED;
	judging->unjudged_from = message->number > 1 ? message->index : 0;
	judging->unjudged_side = message->from;
	text_add(&note, "not judged from here: ");
	text_put(&note, judging->reason.bytes, judging->reason.length);
	print_unjudged(judging, message, note.bytes ? note.bytes : "not judged from here");
	text_free(&note);
}

/* ---- a message that breaks a rule */

/* Puts the bytes of a message that cannot be decoded. */
static void put_bytes(struct text *line, const struct message *message)
{
	size_t length = message->length < SHOWN_BYTES ? message->length : SHOWN_BYTES;
	text_add(line, ", bytes ");
	text_hex(line, message->bytes, length);
	text_add(line, length < message->length ? ".." : "");
}

static void print_broken_message(struct judging *judging, struct message *message,
	const waywire_judgement *judgement)
{
	struct text line = { NULL, 0, 0 }, words = { NULL, 0, 0 };
	struct fault fault = { judgement->fault - WAYWIRE_FAULT_BAD_SIZE + 1, judgement->place, judgement->spelling };
	put_message(&line, message);
	if (message->shown)
		put_bytes(&line, message);
	text_format(&words, "F%u: ", fault.number);
	put_fault(&words, &judging->follower, message, &fault);
	name_arguments(message);
	struct breaking breaking = { message, &line, &words, &judging->verdict, fault,
		object_at_fault(&judging->follower, message, &fault) };
	print_broken(&judging->printer, &breaking);
	text_free(&line);
	text_free(&words);
}

/* The library says that this message breaks a rule. */
static void meet_fault(struct judging *judging, struct message *message, const waywire_judgement *judgement)
{
	const char *verdict;
	size_t length;
	struct text *reason = &judging->reason;
	if ((judgement->fault == WAYWIRE_FAULT_BAD_BIND && is_beyond_tables(judging, message, reason))
		|| (judgement->fault == WAYWIRE_FAULT_UNKNOWN_MESSAGE && !message->name.length
			&& is_of_newer(judging, &message->target, reason))
		|| (judgement->fault == WAYWIRE_FAULT_UNKNOWN_MESSAGE && is_beyond_texts(judging, message, reason))) {
		leave_unjudged(judging, message);
		return;
	}
	judging->standing = BROKEN;
	waywire_status status = waywire_inspector_verdict(judging->follower.inspector, &verdict, &length, NULL);
	if (status) {
		lose(judging, status);
		return;
	}
	if (judging->is_log)
		log_put_broken(&judging->verdict, verdict, length - 1);
	else
		text_put(&judging->verdict, verdict, length - 1);
	put_taken_back(judging, &judging->verdict, "; ");
	fault_counts_put(&judging->verdict, &judging->faults, "; after ");
	if (!judging->is_counting)
		print_broken_message(judging, message, judgement);
}

/* ---- a piece */

/* Prints the messages that a piece completes; judged messages with the library's lines. */
static void print_messages(struct judging *judging, int from)
{
	waywire_inspector *inspector = judging->follower.inspector;
	waywire_judgement judgement;
	size_t length;
	const char *lines = waywire_inspector_lines(inspector, &length);
	uint64_t judged = waywire_inspector_judged(inspector);
	struct message message;
	waywire_inspector_judgement(inspector, &judgement);
	while (judging->standing != LOST && !judging->has_error && read_message(&judging->follower, from, &message)) {
		if (judging->standing == JUDGED && is_unsettled(judging, &message, &judging->reason))
			leave_unjudged(judging, &message);
		else if (judging->standing == JUDGED && message.number <= judged)
			print_judged(judging, &message, &lines, &length);
		else if (judging->standing == JUDGED && judging->is_left)
			leave_unjudged(judging, &message);
		else if (judging->standing == JUDGED)
			meet_fault(judging, &message, &judgement);
		else
			print_unjudged(judging, &message, NULL);
		if (!follow_message(&judging->follower, &message))
			lose(judging, WAYWIRE_NO_MEMORY);
	}
}

void judge_piece(struct judging *judging, int from, const unsigned char *bytes, size_t length,
	size_t descriptor_count, double seconds)
{
	waywire_inspector *inspector = judging->follower.inspector;
	waywire_sender sender = (waywire_sender)from;
	if (judging->standing == LOST)
		return;
	waywire_status status = judging->is_part || judging->is_left ? WAYWIRE_OK
		: waywire_inspector_pass(inspector, sender, bytes, length, descriptor_count);
	if (!status && !judging->has_error)
		status = waywire_inspector_follow(inspector, sender, bytes, length);
	judging->follower.piece_count++;
	judging->follower.seconds = seconds;
	if (status)
		lose(judging, status);
	else
		print_messages(judging, from);
}

/* ---- what waits */

void judge_pipe(struct judging *judging, int from, uint64_t descriptor, ino_t pipe)
{
	questions_pipe(&judging->questions, from, descriptor, pipe);
}

/* Looks at the pipes. Those that are open are looked at again this many seconds after `now`. */
static void look_at_pipes(struct judging *judging, double now, double soon)
{
	struct questions *questions = &judging->questions;
	if (questions->look_at_pipes < 0)
		return;
	questions_look_at_pipes(questions, now, now + soon);
	print_waited(&judging->printer, questions->closed, questions->closed_count, now);
}

double judge_due(const struct judging *judging)
{
	const struct questions *questions = &judging->questions;
	double late = judging->printer.options->late, first = questions->look;
	if (first < 0 || (questions->look_at_pipes >= 0 && questions->look_at_pipes < first))
		first = questions->look_at_pipes;
	return first < 0 || late <= 0 || !sees_all(judging) ? -1 : first + late;
}

void judge_waits(struct judging *judging, const struct moment *moment)
{
	double late = judging->printer.options->late, due = judge_due(judging);
	const struct question *question;
	if (due < 0 || moment->now < due)
		return;
	if (moment->now >= judging->questions.look_at_pipes + late)
		look_at_pipes(judging, moment->now, 1.0 / LOOKS_AT_PIPES - late);
	while ((question = questions_waiting(&judging->questions, moment, late)))
		print_waiting(&judging->printer, question, moment->now);
}

/* ---- the end */

/* Puts the first bind that is newer than the tables, if there is one. */
static void put_newer(const struct judging *judging, struct text *words)
{
	if (!judging->newer.length)
		return;
	text_add(words, "; ");
	text_put(words, judging->newer.bytes, judging->newer.length);
}

/* Puts the library's verdict; false if memory runs out. */
static bool put_lawful(struct judging *judging, struct text *words)
{
	static const char lawful[] = "lawful";
	const char *line;
	size_t length, begins = sizeof lawful - 1;
	waywire_status status = waywire_inspector_verdict(judging->follower.inspector, &line, &length, NULL);
	if (status) {
		lose(judging, status);
		return false;
	}
	if (judging->is_log) {
		log_put_lawful(judging, words);
		put_newer(judging, words);
		put_taken_back(judging, words, "; ");
		return true;
	}
	if (judging->has_error && length > begins && !memcmp(line, lawful, begins)) {
		text_add(words, "lawful up to wl_display.error");
		line += begins;
		length -= begins;
	}
	text_put(words, line, length - 1);
	put_newer(judging, words);
	put_taken_back(judging, words, "; ");
	fault_counts_put(words, &judging->faults, "; with ");
	return true;
}

static void put_unjudged(const struct judging *judging, struct text *words)
{
	if (judging->unjudged_from)
		text_format(words, "not judged from %s %" PRIu64 " on: ", judging->unjudged_side == CLIENT ? "request" : "event",
			judging->unjudged_from);
	else
		text_add(words, "not judged: ");
	text_put(words, judging->reason.bytes, judging->reason.length);
	text_format(words, "%s; %" PRIu64 " requests, %" PRIu64 " events",
		judging->unjudged_from ? "; lawful until then" : "", judging->counts[CLIENT], judging->counts[COMPOSITOR]);
	if (judging->has_error)
		text_add(words, "; ended by wl_display.error");
	put_taken_back(judging, words, "; ");
	fault_counts_put(words, &judging->faults, "; with ");
}

void judge_end(struct judging *judging, double seconds)
{
	double until = sees_all(judging) ? seconds : judging->questions.seconds;
	struct text words = { NULL, 0, 0 };
	const struct told told = { &judging->stats, &judging->follower, &judging->questions, &judging->silences };
	struct ending ending = { "unjudged", &words, seconds, judging->counts[CLIENT], judging->counts[COMPOSITOR],
		judging->has_error, judging->standing == BROKEN, judging->was_cut, judging->has_no_end,
		&judging->faults };
	if (judging->standing == JUDGED && put_lawful(judging, &words))
		ending.verdict = judging->has_error ? "error" : "lawful";
	if (judging->standing == JUDGED && judging->is_cut) {
		ending.verdict = "cut";
		ending.is_said = true;
	}
	if (judging->standing == UNJUDGED)
		put_unjudged(judging, &words);
	if (judging->standing == BROKEN) {
		ending.verdict = "broken";
		text_put(&words, judging->verdict.bytes, judging->verdict.length);
	}
	if (judging->standing == LOST)
		text_add(&words, "unjudged: out of memory");
	look_at_pipes(judging, until, 0);
	if (judging->standing != LOST)
		print_unanswered(&judging->printer, &judging->questions, until);
	print_fault_counts(&judging->printer, &judging->faults, seconds);
	print_verdict(&judging->printer, &ending);
	text_free(&words);
	strict_end(judging, until, seconds);
	if (!judging->printer.options->stats || judging->printer.options->json)
		return;
	stats_put(&words, &told, until, seconds);
	print(words.bytes, words.length);
	text_free(&words);
}
