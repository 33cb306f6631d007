/* How long nothing passed, and how long pastes took (silences.c). */
#ifndef INSPECT_SILENCES_H
#define INSPECT_SILENCES_H

#include "questions.h"

/* How many of the longest silences are kept. */
#define MOST_SILENCES 3

/* What is kept of a message. */
struct brief {
	uint64_t number, piece; /* number 0 if there is none */
	double seconds;
	int from;
	uint32_t id;            /* of its object */
	struct name interface, message;
};

struct silence {
	double seconds;
	struct brief before; /* the last message before it */
	struct brief asked;  /* what was asked by then: the newest question that was open, or the last request */
};

struct silences {
	struct silence longest[MOST_SILENCES]; /* the longest first */
	size_t count;
	struct brief last, last_request;
	struct brief paste;     /* the first `receive` of those behind which the client has sent nothing yet */
	uint64_t receive_count; /* how many these are */
	uint64_t paste_count;
	double all_pastes, longest_paste; /* in seconds */
};

/* Notes a message, before its questions are noted. */
void silences_note(struct silences *silences, const struct questions *questions, const struct message *message);

/* Puts lines for pastes and for the longest silences up to the time `until`. */
void silences_put(struct text *text, const struct silences *silences, const struct questions *questions,
	double until);

#endif
