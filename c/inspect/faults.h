/* Faults on purpose: what is done to whole messages on their way. */
#ifndef INSPECT_FAULTS_H
#define INSPECT_FAULTS_H

#include "printed.h"

struct known;
struct options;
struct way;

/* ---- what is asked for (fault_lines.c) */

enum fault_verb { FAULT_DROP, FAULT_DUPLICATE, FAULT_DELAY, FAULT_HOLD, FAULT_KILL };

/* A value of --fault, or a line of --faults. */
struct fault_line {
	enum fault_verb verb;
	double seconds;       /* of delay and hold */
	int from;             /* whose messages; COMPOSITOR + 1 for both sides' */
	struct filter which;  /* which of these; if it is empty, all */
	uint64_t first, last; /* which of the messages that match, from 1 */
	char *words;          /* as they were given */
};

struct fault_lines {
	struct fault_line *lines;
	size_t count;
};

/* Adds a value of --fault. Ends the tool if it is none, or if the tables have no such message. */
void fault_lines_add(struct fault_lines *lines, const waywire_tables *tables, const char *words);

/* Adds the lines of a file; those that are empty or begin with `#` are skipped. Ends the tool as above. */
void fault_lines_read(struct fault_lines *lines, const waywire_tables *tables, const char *path);

void fault_lines_free(struct fault_lines *lines);

/* ---- how often they were done (fault_words.c) */

struct fault_count {
	char *words; /* of the line */
	uint64_t count;
};

/* Of each line in a session. */
struct fault_counts {
	struct fault_count *counts;
	size_t count;
};

/* Adds a line. If memory runs out, it is left out. */
void fault_counts_add(struct fault_counts *counts, const char *words);

void fault_counts_free(struct fault_counts *counts);

/* Puts how many faults there were, if any, after `before`. */
void fault_counts_put(struct text *text, const struct fault_counts *counts, const char *before);

/* A fault that was done. */
struct fault_done {
	size_t line;       /* the index of its line */
	double seconds;
	const char *words; /* the message, and what follows from the fault */
};

/* Counts a fault, and prints it. */
void print_fault(const struct printer *printer, struct fault_counts *counts, const struct fault_done *done);

/* Prints how often each fault was done, before the verdict. */
void print_fault_counts(const struct printer *printer, const struct fault_counts *counts, double seconds);

/* Puts what follows from a fault, as far as ids are concerned, after the line of its message. */
void put_consequence(struct text *text, enum fault_verb verb, const struct message *message);

/* ---- what is done (faults.c) */

/* The messages of a session that are on their way, in both directions. */
struct faults;

/* Null if no fault and no stop is asked for, or if memory runs out, which is reported. */
struct faults *faults_new(const struct options *options, const struct known *known, unsigned client);

void faults_free(struct faults *faults);

/* Takes the piece of a way, with its descriptors. False if memory runs out, or if descriptors come that belong to
 * no message; then the session has to end. */
bool faults_take(struct faults *faults, int from, struct way *way, double now);

/* The side wrote its last: all that waits is due. */
void faults_end(struct faults *faults, int from);

/* All that waits on a way is due. */
void faults_release(struct faults *faults, int from);

/* Closes what waits on a way whose target is gone. */
void faults_drop(struct faults *faults, int from);

enum due_kind {
	DUE_PIECE, /* the way has a piece */
	DUE_WORDS, /* a fault was done: it is to be printed */
	DUE_KILL,  /* the connection is to be closed */
	DUE_STOP   /* nothing passes any more until faults_go_on: it is to be printed before which message */
};

struct due {
	enum due_kind kind;
	struct fault_done done;
	struct text words; /* of `done`; to be freed */
};

/* Gives what is due next on a way that has no piece. False if there is nothing. */
bool faults_give(struct faults *faults, int from, struct way *way, double now, struct due *due);

/* When something is due on a way; -1 if nothing waits. */
double faults_due(const struct faults *faults, int from);

/* Whether more may be read; if not, something that waits has to pass first. */
bool faults_have_room(const struct faults *faults, int from);

/* Whether both sides are stopped. */
bool faults_are_stopped(const struct faults *faults);

/* After a stop, passes on what waits. */
void faults_go_on(struct faults *faults);

/* Whether the side wrote its last, and all of it was given. */
bool faults_are_over(const struct faults *faults, int from);

#endif
