/* waywire-replay: plays the requests of a recorded client to a compositor.
 *
 * The recording is read message by message, with both sides (script.c). Each object of the recording has a twin in this
 * session (twins.c). A recorded request is sent to the twin of its target, with the twins of its arguments, and with
 * what this session's compositor gave in place of serials and names (arguments.c, globals.c), once it has sent what the
 * recorded client had waited for (play.c). The client's end is the library's (live.c): it refuses every request that
 * would break a rule. At the end it is said where the sessions part, and which other events came (outcome.c).
 *
 * The tool shares with waywire-inspect how recordings, tables and names are read, and the lines of messages: all of
 * c/inspect but its main. */
#ifndef REPLAY_H
#define REPLAY_H

#include "inspect.h"

/* The exit statuses beside 0 and NOTHING_INSPECTED. */
#define PARTED 1
#define BAD_USAGE 2

/* ---- the recording (script.c) */

struct script {
	struct pieces *pieces;
	bool is_part;               /* it begins in the middle of its session */
	struct follower follower;
	struct questions questions; /* of the recorded client, which say what an event answers */
	bool has_front;             /* a message was read that is not gone past yet */
	struct message message;
};

/* Begins at the front of the recording. */
void script_begin(struct script *script, struct pieces *pieces, const struct options *options,
	const struct known *known);

/* The next message, valid until the next call; null after the last. Ends the tool at a line that no recording has, and
 * if the recording begins in the middle of its session. */
const struct message *script_next(struct script *script);

void script_end(struct script *script);

/* ---- twins (twins.c) */

/* The two sessions. */
enum { RECORDED, HERE };

struct twin;

/* What an event brought that later requests use. */
struct carried {
	struct twin *made;
	char *handle; /* a string that requests repeat, to be freed; null if it has none */
	uint32_t serial;
	bool has_serial;
};

/* The events of one opcode at an object. */
struct kind {
	uint64_t count[2];
	struct carried *carried[2]; /* of each event, if such events bring something; else null */
};

/* An object of the recording, and the one that has its place in this session. */
struct twin {
	struct twin *next, *before;
	struct object recorded; /* with id 0 if the recording has no such object, or not yet */
	waywire_object here;
	bool is_here;           /* it was made */
	bool is_ours;           /* a callback that the recorded client did not make */
	bool is_left_out;       /* it will not be made: the sessions have parted there */
	bool is_ended[2];       /* by an event */
	bool is_gone[2];        /* its id is free again: no later message is about it */
	uint16_t interface;
	int file;               /* of a wl_shm_pool; else -1 */
	struct kind *kinds;
	size_t kind_count;
};

/* A recorded event whose serial or string later requests repeat. */
struct origin {
	const struct twin *twin;
	uint16_t opcode;
	uint64_t index; /* among the events of its kind at its object, from 0 */
};

/* Where the arguments of an event stand that bring something; -1 if it has none of the kind. */
struct places {
	int serial, handle;
	bool makes, ends; /* whether it makes an object, and whether it ends its target */
};

/* So many interfaces, and kinds of events of each, are counted. */
#define MOST_INTERFACES 1024
#define MOST_EVENTS 256

/* Those that are kept: of objects that there still are in either session, or whose events brought something. */
struct twins {
	const waywire_tables *tables;
	struct twin *all;
	struct keyed by_birth; /* those that the recording has made, by the numbers of the messages that made them */
	struct origin *origins;
	size_t origin_count;
	uint64_t (*sums[MOST_INTERFACES])[2]; /* how many events of each kind have come at twins that are not kept */
};

/* An event of one of the sessions, as it is noted. */
struct noted {
	int session;
	uint16_t opcode;
	struct places places;
	struct carried carried; /* its `made` is set by the call */
	struct object made; /* what it makes: its interface, and in the recording its name */
};

/* A new twin. Ends the tool if memory runs out. */
struct twin *twins_add(struct twins *twins, uint16_t interface);

/* From now on a twin stands for this object of the recording. */
void twins_name(struct twins *twins, struct twin *twin, const struct object *recorded);

/* The twin of an object of the recording; null if it has none. */
struct twin *twins_find(const struct twins *twins, const struct object *recorded);

/* Notes an event at an object. Returns the twin that it makes: that of the event with the same place in the other
 * session. Null if it makes none. */
struct twin *twins_note(struct twins *twins, struct twin *target, const struct noted *event);

/* The last recorded event with this serial, or this string if that is not null; one at `target` if there is one. */
bool twins_origin(const struct twins *twins, const struct twin *target, uint32_t serial, const struct name *handle,
	struct origin *found);

/* How many events of a kind have come at an object. */
uint64_t twin_count(const struct twin *twin, int session, uint16_t opcode);

/* What this session's event brought in place of a recorded one, once it has come. */
const struct carried *twin_carried(const struct origin *origin);

/* An object is gone in one of the sessions. If it is in both, its twin is not kept, unless a later request may repeat
 * what its events brought. */
void twins_gone(struct twins *twins, struct twin *twin, int session);

/* Adds the events at all twins to the sums. */
void twins_sum(struct twins *twins);

void twins_free(struct twins *twins);

/* ---- names of arguments (places.c) */

/* The places of an event's arguments. */
struct places places_of(const waywire_tables *tables, uint16_t interface, uint16_t opcode);

/* The opcode of the message of this name; -1 if the interface has none. */
int opcode_called(const waywire_tables *tables, uint16_t interface, int from, const char *name);

/* ---- globals (globals.c) */

struct global {
	uint32_t name, version;
	char *interface;
};

struct globals {
	struct global *of[2];
	size_t count[2];
};

/* Notes the arguments of a wl_registry.global. A name that a session has announced before is not noted again. */
void globals_note(struct globals *globals, int session, const waywire_arg *args);

/* The global of this session in place of the recorded one of this name: it has as many of its interface before it. Null
 * if it was not announced yet. */
const struct global *global_here(const struct globals *globals, uint32_t recorded_name);

void globals_free(struct globals *globals);

/* ---- this session (live.c) */

struct live {
	int socket;
	waywire_client client;
	uint64_t sent, came;
	bool is_over;
	bool has_error; /* it was ended by wl_display.error, of this code, about this object */
	uint32_t code;
	const struct twin *about; /* null if the error names no known object */
	struct text why; /* once it is over, in words */
};

/* How a replay is wished. */
struct wishes {
	double wait; /* for an answer, in seconds */
	uint64_t to; /* the number of the last message that is played; 0 for the whole session */
	int strict, step, go_on;
};

struct replay {
	const struct options *options;
	const struct known *known;
	struct wishes wishes;
	struct pieces pieces; /* of the recording, which is read twice */
	struct script script;
	uint64_t last;        /* the number of the last message that is played */
	bool answers_pings;
	bool ends_in_error;   /* the recorded session was ended by wl_display.error */
	bool has_same_error;  /* the error that ended the recorded session has come */
	unsigned partings;    /* more than one with --go-on alone */
	struct twins twins;
	struct globals globals;
	struct live live;
	uint64_t recorded_requests, recorded_events; /* that were reached */
	uint64_t pongs;       /* recorded ones, in whose place pings of this session are answered */
	uint64_t left_out;    /* requests that need what was not made */
	uint64_t files, empty_files; /* that stand for descriptors */
	struct text outcome;
};

/* Connects to the compositor. Ends the tool if that fails. */
void live_begin(struct replay *replay);

/* Sends what waits, and reads what has come within this time. */
void live_step(struct replay *replay, int milliseconds);

/* What is waited for. */
struct await {
	const struct replay *replay;
	const struct twin *twin;
	uint16_t opcode;
	uint64_t count;
	uint32_t name; /* of a global */
};

/* Waits until something has come. False if it has not come within the time of --wait, or the session is over. */
bool live_wait(struct replay *replay, bool (*has_come)(const struct await *await), const struct await *await);

/* Waits until the compositor has read all requests. False as above. */
bool live_roundtrip(struct replay *replay);

/* Sends a request, and makes its new object that of a twin, which is null if there is none. */
waywire_status live_send(struct replay *replay, const struct twin *target, uint16_t opcode, const waywire_arg *args,
	size_t count, struct twin *made);

/* Binds a global of this session. */
waywire_status live_bind(struct replay *replay, const struct twin *registry, const struct global *global,
	uint32_t version, struct twin *made);

void live_end(struct replay *replay);

/* ---- conditions (awaits.c) */

bool is_here(const struct await *await);
bool has_come_so_often(const struct await *await);
bool is_ended(const struct await *await);
bool is_announced(const struct await *await);

/* ---- arguments and descriptors (arguments.c, descriptors.c) */

/* Makes the arguments of this session from those of a recorded request; waits for what they need. False if the
 * sessions part there, which is then said. */
bool make_arguments(struct replay *replay, const struct twin *target, const struct message *request, waywire_arg *args);

/* Closes the descriptors of arguments that were not sent. */
void drop_arguments(const waywire_arg *args, size_t count);

/* A file in place of the descriptor of a request, of the size that the request names; else empty. Ends the tool if
 * there can be none. */
int descriptor_for(struct replay *replay, const struct message *request);

/* Whether no file can stand for a descriptor of this request: a dmabuf, a timeline, a listening socket. */
bool has_no_stand_in(const struct message *request);

/* Gives the file of a pool the size of a wl_shm_pool.resize. */
void resize_pool(const struct twin *pool, const struct message *request);

/* ---- what is played (check.c, play.c) */

/* Reads the whole recording before anything is sent. Ends the tool if no client can send its requests. */
void check_recording(struct replay *replay);

/* Plays the recording. Returns the exit status. */
int play(struct replay *replay);

/* ---- how it ends (outcome.c) */

/* The sessions part at a recorded message: says so, and how. If this session is over, that is how. They do not part yet
 * if both end in an error, which is compared at that of the recording. */
void part(struct replay *replay, const struct message *message, const char *format, ...)
	__attribute__((format(printf, 3, 4)));

/* Puts the line of a recorded message, with the names of values. */
void put_recorded(struct text *text, const struct message *message);

/* Prints the outcome. Returns the exit status. */
int print_outcome(struct replay *replay);

#endif
