/* Prints a client's messages, as lines (lines.c, printed.c) or JSON (json.c): those that are asked for
 * (filter.c), and counts at the end (stats.c). */
#ifndef INSPECT_SHOW_H
#define INSPECT_SHOW_H

#include "silences.h"

struct options;
struct fault_count;
struct fault_counts;
struct fault_done;

/* ---- which messages (filter.c) */

/* An interface, or one of its messages; WAYWIRE_ANY_INTERFACE for all messages of a side. */
struct asked {
	uint16_t interface;
	int from, opcode; /* whose message; filter.c has values that stand for several messages */
	int side;         /* whose messages at all; it has one that stands for both */
	uint32_t id;      /* of the object; 0 for any */
};

struct filter {
	struct asked *asked;
	size_t count;
};

/* Adds names, separated by commas. False if the tables have no such name, or memory runs out; then `why` says so. */
bool filter_add(struct filter *filter, const waywire_tables *tables, const char *names, struct text *why);

/* Adds the names in an option. Ends the tool in place of false. */
void filter_read(struct filter *filter, const waywire_tables *tables, const char *option, const char *names);

/* Whether a message is for an object that a filter asks for, or is a message that it asks for. */
bool filter_is_for(const struct filter *filter, const struct message *message);

/* The messages from one to another, by their numbers or their times. */
struct window {
	uint64_t from, to;     /* numbers; 0 if there is no such limit */
	double since, until;   /* in seconds after the first client; -1 if there is no such limit */
	uint64_t last;         /* only so many of these, the last ones; 0 for all */
};

/* Takes a limit of a window: a message's number, or a time such as 2.5s. False if it is neither. */
bool window_take(const char *word, uint64_t *number, double *seconds);

/* Whether a message that passed at a time, in seconds after the first client, is in the window. */
bool is_within(const struct window *window, const struct message *message, double seconds);

/* Which messages are printed: those in the window that `only` asks for, but for those of `except`. */
struct shown {
	struct filter only, except;
	struct window window;
};

/* Whether a message is printed if it is in the window. */
bool is_printed(const struct shown *shown, const struct message *message);

/* ---- words (lines.c) */

/* Puts the line of a message as a trace prints it, as far as it could be decoded. */
void put_message(struct text *text, const struct message *message);

/* Puts the line of a message up to its arguments. */
void put_front_of_message(struct text *text, const struct message *message);

/* Puts an argument. */
void put_printed_argument(struct text *text, const struct argument *argument);

/* Puts an object by its interface and id. */
void put_object(struct text *text, const struct object *object);

/* ---- names of values (values.c) */

/* The most names of a value: one for each bit. */
#define MOST_NAMES 32

/* The names of a value: its own, or in a bitfield those of its bits. Returns how many; `rest` gets the bits without a
 * name. */
size_t names_of_value(const struct meaning *meaning, uint32_t value, struct name *names, uint32_t *rest);

/* Whether an argument is an array of 32-bit numbers. */
bool has_numbers(const struct argument *argument);

/* The number at an index of such an array. */
uint32_t number_at(const waywire_arg *array, size_t index);

/* Puts the names of an argument's value, and the contents of a short array. */
void put_meaning(struct text *text, const struct argument *argument);

/* Puts the line of a message, with names after its numbers. If the line is not that of the message, it stays as it is.
 * `part` is room for a part of it. */
void put_line_with_names(struct text *text, const struct message *message, const struct text *line, struct text *part);

/* Which rule a message breaks: F1 is 1. */
struct fault {
	unsigned number;
	size_t index;      /* of an argument */
	uint32_t spelling;
};

/* Puts what is wrong with a message, in words (words.c). */
void put_fault(struct text *text, const struct follower *follower, const struct message *message,
	const struct fault *fault);

/* The object because of which a message breaks a rule: the object of its target, of an argument or of a new id. Its id
 * is 0 if there is none, or if it is wl_display. */
struct object object_at_fault(const struct follower *follower, const struct message *message,
	const struct fault *fault);

/* ---- counts (stats.c) */

struct counted {
	struct name interface, message;
	int from;
	uint64_t count, bytes, descriptors;
};

struct stats {
	struct counted *counted;
	size_t count;
	struct keyed numbers; /* index in `counted` plus 1, by the names */
};

/* Counts a message. If memory runs out, it is not counted. */
void stats_note(struct stats *stats, const struct message *message);

/* What is known of a session for its counts. */
struct told {
	const struct stats *stats;
	const struct follower *follower;
	const struct questions *questions;
	const struct silences *silences;
};

/* Puts the counts, what was not answered by then, the longest silences, and which objects were left. */
void stats_put(struct text *text, const struct told *told, double until, double end);

void stats_free(struct stats *stats);

/* ---- what led to an error (history.c) */

/* The last messages of a client. */
struct history;

/* Null if memory runs out; then nothing is noted. */
struct history *history_new(void);

void history_free(struct history *history);

/* Notes a message with its line. */
void history_note(struct history *history, const struct message *message, const struct text *line);

/* This many messages are printed as having led to an error. */
#define MOST_BEFORE 5

struct before {
	uint64_t number, index; /* among all messages, and among those of its direction, as in a verdict */
	int from;
	const struct text *line;
};

/* The last messages that are for an object, make it or name it, the oldest first; for wl_display, the last requests;
 * for an unknown object, those about its id. Only the last 64 messages are searched. Returns how many there are. */
size_t history_before(const struct history *history, const struct object *object, struct before *before);

/* ---- a client (printed.c, json.c) */

/* Room for what is printed of a message, which is used again for the next one. */
struct room {
	struct text line, whole, named, part;
};

/* Prints the lines of a client. */
struct printer {
	const struct options *options;
	unsigned number;   /* the client's */
	bool is_numbered;  /* whether lines begin with its number */
	const char *who;   /* its program and process; null or empty if they are not known */
	struct history *history;
	struct room *room;
	double start;      /* when it connected, in seconds after the first client */
	double moment;     /* when the first client connected, in seconds since 1970; less than 0 if it is not known */
};

/* What is printed of a message beside its line. */
struct beside {
	const char *note;  /* what the tables lack, for a message from which on nothing is judged; null if there is none */
	bool is_marked;    /* it is not judged */
	bool is_red;       /* it is printed in any case */
	bool is_outside;   /* it is outside the window */
};

/* Prints a message; `line` is its line. */
void print_message(const struct printer *printer, const struct message *message, const struct text *line,
	const struct beside *beside);

/* Prints the message that breaks a rule, what is wrong in words, and the verdict. */
struct breaking {
	const struct message *message;
	const struct text *line, *words, *verdict;
	struct fault fault;
	struct object object; /* the object because of which it does; with id 0 if there is none */
};
void print_broken(const struct printer *printer, const struct breaking *breaking);

/* Prints a sentence. */
void print_words(const struct printer *printer, double seconds, const struct text *words, bool is_red);

/* The verdict at the end. */
struct ending {
	const char *verdict; /* a word */
	const struct text *words;
	double seconds;
	uint64_t requests, events;
	bool is_red;
	bool is_said;        /* in words, already */
	bool was_cut;        /* the session went on when its recording had no room left */
	bool is_unknown;     /* a recording does not say when its session ended */
	const struct fault_counts *faults;
};
void print_verdict(const struct printer *printer, const struct ending *ending);

/* Prints what was asked and not answered by this time, in seconds: in words, what has waited for a second or longer
 * (unanswered.c). */
void print_unanswered(const struct printer *printer, const struct questions *questions, double until);

/* Prints before which message both sides stop, and all questions that wait. */
void print_stop(const struct printer *printer, const struct questions *questions, const struct fault_done *stop);

/* Prints while the session goes on that a question waits. */
void print_waiting(const struct printer *printer, const struct question *question, double now);

/* Prints after how long such questions were answered, or need no answer any more. */
void print_waited(const struct printer *printer, const struct closed *closed, size_t count, double now);

/* Prints that a side reads nothing of what is written to it, since a time; or that it reads again. */
void print_unread(const struct printer *printer, int side, double since, double now, bool is_read_again);

/* JSON (json.c): each prints one line. */
struct head {
	const char *recording, *started; /* null if there is none */
	char **command;
	const char *tables;  /* names with spaces between */
	bool is_timed;
	double from;         /* if it begins in the middle of its session, when that is, in seconds; otherwise -1 */
};
void json_head(const struct head *head);
void json_client(unsigned number, const char *name, long process);
void json_message(const struct printer *printer, const struct message *message, const struct text *line,
	const struct beside *beside);
void json_broken(const struct printer *printer, const struct breaking *breaking);
void json_question(const struct printer *printer, const char *type, const struct question *question, double until);
void json_waited(const struct printer *printer, const struct closed *closed, double now);
void json_unread(const struct printer *printer, int side, double since, double now, bool is_read_again);
void json_verdict(const struct printer *printer, const struct ending *ending);
void json_fault(const struct printer *printer, const struct fault_count *fault, const struct fault_done *done);
void json_stopped(const struct printer *printer, const struct fault_done *stop);
void json_strict(const struct printer *printer, const char *reason, const struct text *words);
void json_bad_line(size_t line, const char *words);

#endif
