/* The questions and answers among a session's messages: what is asked (asking.c, surfaces.c, roles.c), what is still
 * open and for how long it has waited (questions.c), and what pipes say of a transfer (pipes.c). */
#ifndef INSPECT_QUESTIONS_H
#define INSPECT_QUESTIONS_H

#include "follow.h"
#include "keyed.h"
#include "text.h"

#include <sys/types.h>

/* The most events that answer one request. */
#define MOST_ANSWERS 5

/* A request, or the object that it makes, that events of that object answer. */
struct pair {
	const char *interface;
	const char *request; /* null if the message that makes the object is the question */
	const char *answers[MOST_ANSWERS];
	const char *awaited; /* in words; null if any of the answers is meant */
};

/* The questions of one interface and message. */
struct question_kind {
	struct name interface, message;
	const char *awaited;        /* what answers it, such as "configure"; null if that need not be said */
	int from;
	uint64_t answered, open;    /* open: those that need an answer */
	double first;               /* when the first was asked, in seconds; -1 if that is not known */
	double all_waits, longest;  /* how long the answers took, in seconds */
	struct question *oldest, *newest; /* those that need an answer, in the order in which they began to wait */
	struct question *said;      /* of which it was said that it waits; null if there is none */
	double last_said;           /* when the wait of the last such question ended; -1 if there was none */
};

/* What a question waits for. */
enum stage {
	ASKED, /* a commit that takes the request into effect */
	KEPT,  /* the commit of a parent */
	WAITS  /* its answer */
};

/* A question without an answer. */
struct question {
	struct question_kind *kind;
	struct question *older, *newer; /* of its kind, while it needs an answer */
	struct question *before, *next; /* about the same object */
	struct question *again;         /* the next one with the same key */
	const struct pair *pair;        /* null if any event that ends the object answers */
	uint64_t key;
	uint64_t number;    /* of the message that asks */
	uint64_t since;     /* the number of the message from which it waits */
	uint64_t replaced;  /* of a buffer: the number of the commit that put another in its place; 0 if it is shown */
	double seconds;     /* when it began to wait; -1 if that is not known */
	uint64_t birth;     /* of the object that it was put to */
	uint32_t id;
	uint32_t about;     /* if this object ends, no answer is needed; 0 if there is none */
	enum stage stage;
	bool is_due;        /* it needs an answer */
	bool is_pipe;       /* the key is a pipe; its end is the answer */
};

/* A question that ended with the last message. */
struct closed {
	const struct question_kind *kind;
	uint64_t number, since, replaced;
	double waited;      /* in seconds */
	uint32_t id;
	bool is_answered;
	bool is_open;       /* it may still be answered, though it need not be */
	bool was_said;      /* it was said that it waits */
};

/* A pipe that has come with the messages of a direction. */
struct pipe_came {
	uint64_t descriptor; /* its number in its direction */
	ino_t pipe;
};

struct pipes_came {
	struct pipe_came *came;
	size_t count;
};

/* Memory grows with the number of open questions, of surfaces and of interfaces. */
struct questions {
	struct keyed open;        /* by the id of the object that answers, or by an object's id and a serial */
	struct keyed pipes;       /* by the pipe */
	struct keyed about;       /* by an object's id: the questions about it */
	struct keyed kinds;
	struct keyed icons;       /* surfaces of cursors and of drags, which need not be shown */
	struct keyed surfaces;    /* by the id of the surface */
	struct keyed shells;      /* the same, by the id of the object that has its configures */
	struct keyed subsurfaces; /* the same, by the id of the wl_subsurface */
	struct role *roles;       /* by interface */
	size_t role_count;
	struct closed *closed;    /* with the last message */
	size_t closed_count, closed_room;
	struct pipes_came came[2];
	double seconds;           /* of the last message */
	struct closed longest;    /* that needed an answer, and has ended; without a kind if there is none */
	double look;              /* nothing that waits has begun to wait before this time; -1 if nothing waits */
	double look_at_pipes;     /* the same of what waits for the end of a pipe */
};

/* Begins with nothing. */
void questions_begin(struct questions *questions);

/* Notes what a message asks, before its changes are made, and fills in what it answers and closes. If memory runs out
 * a question is left out. */
void questions_note(struct questions *questions, const waywire_tables *tables, struct message *message);

/* Notes the pipe with this number among the descriptors of a direction. */
void questions_pipe(struct questions *questions, int from, uint64_t descriptor, ino_t pipe);

/* The questions that need an answer in the order of their messages, to be freed; null if there is none. */
const struct question **questions_due(const struct questions *questions, size_t *count);

/* The same of those that need none, such as a buffer that is shown. */
const struct question **questions_at_rest(const struct questions *questions, size_t *count);

/* What is known of wl_display.sync; null if there was none. */
const struct question_kind *questions_syncs(const struct questions *questions);

/* When the messages of each side were all read last, and the time. */
struct moment {
	double all_read[2], now;
};

/* A question that has waited for `late` seconds, of whose kind none is said to wait; from then on this one is. Null if
 * there is none. An answer that has come and is not read yet counts as one. */
const struct question *questions_waiting(struct questions *questions, const struct moment *moment, double late);

/* Closes the questions whose pipe has been closed. If one is still open, it is looked at again `soon`. */
void questions_look_at_pipes(struct questions *questions, double now, double soon);

void questions_free(struct questions *questions);

/* Puts who asked, and what (unanswered.c). */
void put_question(struct text *text, const struct question_kind *kind, uint32_t id, uint64_t number);

/* Puts a line for each group of questions that are open at the time `until`, and have waited for at least `least`
 * seconds, the longest first: no more than `most`. */
void unanswered_put(struct text *text, const struct questions *questions, double until, double least, size_t most);

#endif
