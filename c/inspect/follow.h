/* A message as the tool prints it: what the library's inspector knows of it, and its arguments by name and value. */
#ifndef INSPECT_FOLLOW_H
#define INSPECT_FOLLOW_H

#include "text.h"

#include <stdlib.h>
#include <waywire.h>

/* The indices of a session's two sockets, and of the way that begins at each. */
enum { CLIENT = WAYWIRE_FROM_CLIENT, COMPOSITOR = WAYWIRE_FROM_SERVER };

#define DISPLAY_ID 1

/* ---- objects */

enum state { UNKNOWN, LIVE, ENDING };

/* The object that an id means. */
struct object {
	uint32_t id;
	uint32_t version;
	uint64_t birth;      /* the number of the message that made it; 0 for wl_display, and if it is not known */
	uint16_t interface;  /* its index in the tables; WAYWIRE_ANY_INTERFACE if they lack it */
	uint8_t state;       /* ending: it was destroyed, and its id is not free yet */
	struct name name;    /* its interface's */
};

/* ---- messages */

struct closed;

/* What the values of an argument mean (names.c). */
struct meaning {
	struct name enumeration; /* such as wl_shm.format; none if it has none */
	const char *entries;     /* values and names, with spaces between; null if they are not known */
	bool is_bitfield;
	bool is_numbers;         /* an array of 32-bit numbers */
	bool is_unknown;         /* an array whose bytes are not known */
};

struct argument {
	waywire_arg value;
	struct object object; /* the object that it names, as before the message, or that it makes */
	uint64_t descriptor;  /* the number of a descriptor in its direction; 0 if that is not known */
	struct name name;
	bool is_plain;        /* the name stands in JSON as it is */
	struct meaning meaning;
};

struct message {
	int from;
	uint64_t number;   /* among all messages of the client, from 1 */
	uint64_t index;    /* among those of its direction, from 1 */
	uint64_t offset;   /* where it begins, in its direction */
	uint64_t piece;    /* which piece completes it, from 1 */
	double seconds;    /* since the connection */
	size_t size;       /* as its header says */
	bool is_bad_size;  /* no message has that size */
	const unsigned char *bytes;
	size_t length;     /* how many of its bytes are there */
	uint16_t opcode;
	struct object target;     /* as before the message */
	struct name name;         /* none if the tables have no such message */
	waywire_message signature;
	waywire_status status;    /* of decoding it */
	waywire_status shown;     /* the same, but a message that is newer than its object is decoded too */
	uint16_t bound;           /* of wl_registry.bind: the index of the interface */
	struct object made, destroyed, freed; /* with id 0 if there is none */
	size_t descriptor_count;
	uint64_t answers;          /* the number of the message that it answers; 0 if there is none */
	const struct closed *closed; /* the questions that end with it */
	size_t closed_count;
	bool is_kept;              /* a commit that waits for the one of a parent */
	bool is_judged;
	size_t arg_count;
	struct argument args[WAYWIRE_MAX_ARGS]; /* so many of them are there */
};

/* What the library's inspector was given before the first message of the session (reopen.c). */
struct given {
	uint64_t count, counts[2]; /* of messages, in all and in each direction */
	uint64_t bytes[2];
};

/* What the tool counts itself, beside the library's inspector. */
struct follower {
	const waywire_tables *tables;
	waywire_inspector *inspector;
	uint32_t limit;
	uint64_t piece_count;
	double seconds;           /* of the last piece */
	uint64_t descriptors[2];  /* that the messages of each direction took */
	bool is_unnumbered[2];    /* an unknown message may have had some */
	uint64_t behind[2];       /* where the last message of each direction ends */
	struct given before;
};

/* What is known of an id. */
struct object object_of(const struct follower *follower, uint32_t id);

/* Reads the next message of a direction; false if there is none. Nothing changes. */
bool read_message(const struct follower *follower, int from, struct message *message);

/* Goes past that message. False if memory runs out. */
bool follow_message(struct follower *follower, const struct message *message);

/* The newest version in which the global of a bind was announced; 0 if it was not announced. */
uint32_t announced_version(const struct follower *follower, const struct message *bind);

/* Whether it is this message of wl_display or wl_registry. */
bool is_message(const struct message *message, const char *interface, int from, uint16_t opcode);

/* Whether it is wl_display.error. */
bool is_error(const struct message *message);

/* Whether it is wl_registry.bind, decoded. */
bool is_bind(const struct message *message);

#endif
