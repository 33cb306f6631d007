/* Judges the messages of a client as its pieces pass: lawful, broken, or not judged (judge.c). */
#ifndef INSPECT_JUDGE_H
#define INSPECT_JUDGE_H

#include "faults.h"

struct known;

enum standing {
	JUDGED,   /* the library's inspector judges it */
	UNJUDGED, /* what is not in the tables was bound, or used: printed, not judged */
	BROKEN,   /* a message broke a rule: later ones are printed, not judged */
	LOST      /* memory ran out */
};

struct judging {
	struct printer printer;
	struct room room;             /* of the printer */
	enum standing standing;
	bool has_error;               /* wl_display.error has come: no later message is printed */
	bool is_cut;                  /* a recording could not be read to its end */
	bool was_cut;                 /* a recording had no room for the session's end */
	bool has_no_end;              /* a recording does not say when its session ended */
	bool is_part;                 /* a recording begins in the middle of its session */
	bool is_log;                  /* it was made of a log of WAYLAND_DEBUG */
	bool is_left;                 /* that log lacks something: no later message is judged */
	bool is_lost[2];              /* a direction cannot be cut into messages any more */
	bool is_counting;             /* nothing is printed */
	bool is_excused;              /* the first delete_id that nothing asked for is one that the texts or a log do not know */
	bool is_refused;              /* by --strict */
	const struct known *known;
	struct follower follower;
	struct text reason;           /* if it is not judged: what is not in the tables */
	struct text newer;            /* the first bind of a version that is not in the tables; empty if there is none */
	uint64_t last_judged;         /* the number of the last judged message */
	struct text verdict;          /* if it is broken */
	uint64_t unjudged_from;       /* the number of that message in its direction; 0 if it is the first of all */
	int unjudged_side;            /* whose message that is */
	uint64_t counts[2];           /* how many messages came, but for one that broke a rule */
	double unread[2];             /* for how many seconds each side was seen to read nothing, at most */
	uint64_t within, left_out;    /* how many were in the window, and how many of these are not printed */
	struct stats stats;
	struct questions questions;
	struct silences silences;
	struct fault_counts faults;   /* on purpose */
};

/* Begins to judge a client. If memory runs out, it is not judged, which is reported. */
void judge_begin(struct judging *judging, const struct options *options, const struct known *known, unsigned number);

/* Notes a pipe among the descriptors of the next piece: its number in its direction. */
void judge_pipe(struct judging *judging, int from, uint64_t descriptor, ino_t pipe);

/* Prints the messages that a piece completes. */
void judge_piece(struct judging *judging, int from, const unsigned char *bytes, size_t length,
	size_t descriptor_count, double seconds);

/* Prints what has waited too long for an answer. */
void judge_waits(struct judging *judging, const struct moment *moment);

/* When that may be the case, in seconds; -1 if nothing waits. */
double judge_due(const struct judging *judging);

/* Prints the verdict. */
void judge_end(struct judging *judging, double seconds);

/* With --strict, prints what keeps a build from relying on the session, and notes that there is such a thing (strict.c).
 * `until` is when its questions ended. */
void strict_end(struct judging *judging, double until, double end);

void judge_free(struct judging *judging);

/* What is known after the messages so far; null if not all of them were followed. */
const struct follower *followed(const struct judging *judging);

/* Whether a message broke a rule, or wl_display.error came. */
bool has_failed(const struct judging *judging);

#endif
