/* The pieces of a recording of any length: a file, a pipe or a file that grows (pieces.c). */
#ifndef INSPECT_PIECES_H
#define INSPECT_PIECES_H

#include "text.h"

#include <sys/types.h>
#include <time.h>
#include <waywire.h>

/* How far the reading is (progress.c). */
struct progress {
	bool is_shown;        /* at all: on a terminal */
	bool is_there;        /* it is to be removed from its line */
	const char *name;
	off_t size;           /* of the file; 0 if it has none */
	struct timespec start, last;
};

void progress_begin(struct progress *progress, const char *name, off_t size);

/* Shows how much was read, if it has lasted for a while. */
void progress_show(struct progress *progress, uint64_t length);

/* Removes what is shown. */
void progress_end(struct progress *progress);

struct pieces {
	const char *path;       /* `-` is standard input */
	int file;
	bool is_followed;       /* at the end of the file, more is waited for */
	bool is_over;           /* nothing more is read */
	struct text text;       /* what was read and not gone past, and what was gone past last */
	size_t from;            /* how much of it was gone past */
	size_t whole;           /* how much of it is whole lines */
	size_t line;            /* the number of lines that were gone past */
	uint64_t length;        /* of all that was read */
	char front[9];          /* the first characters of the recording */
	size_t front_length;
	char last;              /* the last character that was read */
	unsigned char *bytes;   /* of the piece */
	size_t room;
	waywire_piece piece;
	struct progress progress;
};

/* Opens a recording; if it is to be read twice, what comes through a pipe is kept in a file. Ends the tool if that
 * fails. */
void pieces_open(struct pieces *pieces, const char *path, bool is_followed, bool is_read_twice);

/* Begins again. Ends the tool if that fails. */
void pieces_again(struct pieces *pieces);

/* The next piece. `note` gets each comment before it, or before the end, and `head` is a text to which these lines are
 * added; it may be null. */
waywire_status pieces_next(struct pieces *pieces, void (*note)(void *to, const char *comment), void *to,
	struct text *head);

/* Nothing more is waited for, since the session has ended. */
void pieces_stop(struct pieces *pieces);

void pieces_close(struct pieces *pieces);

#endif
