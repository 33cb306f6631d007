/* waywire: the message layer of Wayland for both ends, without the socket.
 *
 * A client and a server write and read the messages of the Wayland protocol, and know which objects
 * each end has. Nothing here opens a socket, waits or starts a thread: a call turns arguments into
 * bytes, or bytes into a report, and the caller moves the bytes, with waywire-socket.h or by other means.
 *
 *  1. Send.   waywire_end_send writes a request at a client and an event at a server. A client's requests
 *             are also written by waywire_client_bind and _bind_unannounced, a server's events by
 *             waywire_server_announce, _drop_object, _end_object and _post_error. They wait in the end's outbox.
 *  2. Take.   `take` moves what waits into the caller's memory: write it to the socket. Or write to the socket
 *             from where `peek` points, and call `sent` with the number of bytes written.
 *  3. Feed.   `feed` moves what came from the socket, split anywhere, into the end's inbox. Or read from the
 *             socket to where `space` points, and call `received` with the number of bytes read.
 *  4. Next.   `next` reads one message and writes its report, which stays valid while you write the answer.
 *             Repeat it until the report says WAYWIRE_NOTHING.
 *
 * Ends.  waywire_client_new makes a waywire_client, and waywire_server_new a waywire_server. Both are structs with
 * one member, `end`: a call waywire_end_.. takes that pointer and serves both, so a program writes its loop once.
 *
 * Tokens.  File descriptors are not among the bytes. A token is a number, chosen by the caller, that
 * represents a descriptor, for example the descriptor itself. `take` returns it with the first byte of its
 * message, and the caller sends the descriptor along with these bytes. For each descriptor that comes
 * with some bytes, the caller feeds a token with them. No descriptor is ever closed here: the caller closes
 * those of each report, and those that `take_waiting_tokens` returns when a connection ends.
 *
 * Inspectors.  A tool between two ends has no end of its own. It passes what it sees to an
 * inspector, which writes a line for each message and says whether the session breaks a rule.
 *
 * Objects.  The client makes objects with ids from 1 on. If the tables have events by which the server makes
 * objects, these have ids from WAYWIRE_FIRST_SERVER_ID on. Births are numbered from 0 in the client's range and
 * from 1 in the server's. Only id and birth together identify an object. An object of one connection may equal
 * one of another, and no call can distinguish them: keep an object with its end.
 *
 * Memory.  Tables, an end and an inspector belong to the caller, who frees each once. Tables may be freed before
 * the ends and inspectors made with them, which keep them as long as they need them. The calls of this header
 * use `malloc`, `realloc` and `free`, and nothing else of the system. After `new` an end allocates only when it
 * opens an object (`send`, `bind`, `next`), in `set_user`, `more_tables` and `add_global`; an inspector
 * allocates in `pass`, `verdict`, `follow` and `go_past`. A client's `next` does so only for an event that
 * makes an object whose id the server has never used before, so never if the tables have no such event. If an
 * allocation fails, nothing is lost.
 *
 * Threads.  Nothing is bound to the thread that made it. Tables never change: any threads may use them at
 * once, and make and free ends and inspectors with them. Only one call at a time may use an end, on any
 * thread: the caller orders these calls, for example by a lock, or by joining the thread that made the last
 * one. Any thread may read what a report points to, as long as the report is valid.
 * Different ends may be used at once. All of this holds for inspectors too. No call may be made from a signal
 * handler, nor from the child of a `fork` in a process with threads.
 *
 * Statuses.  Each call that can refuse returns a waywire_status. Unless its own text says otherwise,
 * with a status other than WAYWIRE_OK nothing has changed and nothing was written to what the caller
 * passed. A null pointer where one is needed is WAYWIRE_NULL, and a length above PTRDIFF_MAX is
 * WAYWIRE_TOO_LARGE. A call that is never refused returns its value; it treats a null end as one that has
 * failed, with no objects (waywire_end_display returns id 0) and with empty queues without room. Passing an
 * invalid pointer, or an end or an inspector that was freed, is undefined behaviour.
 *
 * Processors.  The library is for x86-64, little-endian, with the instructions of x86-64-v2 (SSE4.2, from
 * 2009 on).
 */
#ifndef WAYWIRE_H
#define WAYWIRE_H

#include <stdbool.h>
#include <stddef.h>
#include <stdint.h>
#include <string.h>

#ifdef __cplusplus
extern "C" {
#endif

/* The version of this header: WAYWIRE_VERSION as a string, WAYWIRE_VERSION_MAJOR, _MINOR and _PATCH as
 * numbers. Versions of one major number are compatible; below 1, those of one minor number. `make` writes
 * the file. */
#include "waywire-version.h"

/* ---- what a call returns */

typedef enum waywire_status {
	WAYWIRE_OK = 0,

	/* Why a message is not written. They are tested in this order, except that WAYWIRE_NOT_DROPPABLE is
	 * tested before WAYWIRE_FULL. The numbers are those of the refusals S1 to S12 in docs/FORMATS.md. The
	 * statuses for globals have 20 more than G1 to G5, and those of faults 30 more than F1 to F10. */
	WAYWIRE_FAILED = 1,          /* the end has failed, and reads and writes nothing more */
	WAYWIRE_STALE = 2,           /* the target, or the object, is not live */
	WAYWIRE_NO_SUCH_MESSAGE = 3, /* its interface has no such message, or another call writes it */
	WAYWIRE_TOO_OLD = 4,         /* the message is newer than its target */
	WAYWIRE_WRONG_ARGS = 5,      /* the argument at `index` does not fit the signature */
	WAYWIRE_BAD_OBJECT = 6,      /* the object at `index` is not live, or has another interface */
	WAYWIRE_BAD_BIND = 7,        /* no global of this name, interface and version was announced */
	WAYWIRE_TOO_LONG = 8,        /* the message is longer than the end's limit */
	WAYWIRE_FULL = 9,            /* the outbox has no room for it: take, and send again */
	WAYWIRE_NO_IDS = 10,         /* no more objects can be opened */
	WAYWIRE_NO_MEMORY = 11,      /* out of memory */
	WAYWIRE_NOT_DROPPABLE = 12,  /* its interface has no event that destroys an object */

	/* Why a global is not added or not withdrawn. */
	WAYWIRE_BAD_GLOBAL = 22,     /* no interface and version that can be advertised */
	WAYWIRE_TOO_MANY_GLOBALS = 23, /* as many globals were added in the server's lifetime as it may add */
	WAYWIRE_NO_SUCH_GLOBAL = 25, /* no global was added under this name, or it is withdrawn */

	/* What is wrong with a message that came. The end has failed for good. */
	WAYWIRE_FAULT_BAD_SIZE = 31,
	WAYWIRE_FAULT_UNKNOWN_OBJECT = 32,
	WAYWIRE_FAULT_UNKNOWN_MESSAGE = 33,
	WAYWIRE_FAULT_BAD_ARGUMENT = 34, /* the argument at `place` is malformed: `spelling` says how */
	WAYWIRE_FAULT_BAD_OBJECT = 35,   /* the object at `place` is unknown or has another interface */
	WAYWIRE_FAULT_BAD_NEW_ID = 36,   /* the new id at `place` is not free */
	WAYWIRE_FAULT_TRAILING_BYTES = 37,
	WAYWIRE_FAULT_MISSING_DESCRIPTOR = 38,
	WAYWIRE_FAULT_BAD_BIND = 39,
	WAYWIRE_FAULT_TOO_MANY_OBJECTS = 40,

	/* A request that destroys an object cannot be read: the outbox has no room for its delete_id.
	 * Take, and read again. */
	WAYWIRE_OUT_FULL = 51,

	/* Values that a call does not accept. */
	WAYWIRE_NULL = 61,           /* null where a pointer is needed */
	WAYWIRE_BAD_VALUE = 62,      /* an argument of a kind that no call accepts, or an invalid sender */
	WAYWIRE_BAD_SIZES = 63,      /* sizes that no end can have, or an invalid limit */
	WAYWIRE_NOT_FOUND = 64,      /* no such interface, or the object is not live */
	WAYWIRE_TOO_LARGE = 65,      /* a length above PTRDIFF_MAX */
	WAYWIRE_OTHER_END = 66,      /* a client whose `end` is a server's, or the other way round */

	/* Why no tables are read from a text. */
	WAYWIRE_BAD_LINE = 71,       /* a line has none of the forms of such a text */
	WAYWIRE_BAD_TABLE = 72,      /* a line breaks a rule of tables */
	WAYWIRE_FIRST_SERVER_OBJECT = 73 /* waywire_end_more_tables: the text has an event by which the
	                              * server makes an object, and the end's tables have none */
} waywire_status;

/* Whether a status says that a message which came was at fault. */
static inline bool waywire_is_fault(waywire_status status)
{
	return status >= WAYWIRE_FAULT_BAD_SIZE && status <= WAYWIRE_FAULT_TOO_MANY_OBJECTS;
}

/* What a status means, in English: a static string, even for an unknown number. */
const char *waywire_strerror(waywire_status status);

/* How an argument is malformed, in English: a static string for the `spelling` of a report, 1 to 4. */
const char *waywire_strspelling(uint32_t spelling);

/* The version of the library, as WAYWIRE_VERSION is that of the header. After the number it says ` (not proved)` if the
 * library was compiled without a proof. */
const char *waywire_version(void);

/* ---- values */

/* An object: its id, and its birth, which distinguishes it from every other object that ever had this id. It is a
 * plain value, to be copied and compared. Every call refuses an object that is gone. */
typedef struct waywire_object {
	uint64_t birth;
	uint32_t id;
} waywire_object;

/* The first id of the range from which the server makes objects; the client makes objects with ids from 1 on
 * (Wayland's documentation, "Creating Objects"). */
#define WAYWIRE_FIRST_SERVER_ID 0xff000000u

static inline bool waywire_object_equal(waywire_object one, waywire_object other)
{
	return one.id == other.id && one.birth == other.birth;
}

/* The kinds of arguments, and the fields that each uses. A call accepts those up to WAYWIRE_FD. */
typedef enum waywire_arg_kind {
	WAYWIRE_INT = 1,         /* i */
	WAYWIRE_UINT = 2,        /* u */
	WAYWIRE_FIXED = 3,       /* i, in 256ths: see waywire_fixed_to_double */
	WAYWIRE_STRING = 4,      /* bytes, length: a text without a NUL */
	WAYWIRE_NULL_STRING = 5,
	WAYWIRE_OBJECT = 6,      /* object */
	WAYWIRE_NULL_OBJECT = 7,
	WAYWIRE_NEW = 8,         /* a new id; in a call it uses no field, in a report object */
	WAYWIRE_ARRAY = 9,       /* bytes, length */
	WAYWIRE_FD = 10,         /* u: the token that represents a file descriptor */
	WAYWIRE_DEAD_OBJECT = 11, /* in reports: object, which this end has destroyed already */
	WAYWIRE_BOUND = 12,      /* in reports of wl_registry.bind: object, bytes and length (its interface),
	                          * u (its version) */
	WAYWIRE_NEW_BY_SERVER = 13 /* only in what tables say: a new object that the server makes. In a call and
	                            * in a report the argument is WAYWIRE_NEW */
} waywire_arg_kind;

/* One argument, of a call or of a report. Fields that its kind does not use are ignored in a call, and
 * 0 in a report. In a report, `bytes` of an empty array may be null; `bytes` of a string never is. */
typedef struct waywire_arg {
	uint32_t kind; /* a waywire_arg_kind */
	int32_t i;
	uint32_t u;
	waywire_object object;
	const void *bytes;
	size_t length;
} waywire_arg;

/* Arguments of calls. What `bytes` points to is read by the call and not kept. If a kind has no bytes, it points
 * to an empty string, so that the call need not copy the argument. */
static inline waywire_arg waywire_int(int32_t number)
{
	waywire_arg arg = { WAYWIRE_INT, number, 0, { 0, 0 }, "", 0 };
	return arg;
}

static inline waywire_arg waywire_uint(uint32_t number)
{
	waywire_arg arg = { WAYWIRE_UINT, 0, number, { 0, 0 }, "", 0 };
	return arg;
}

/* A fixed number, in 256ths. */
static inline waywire_arg waywire_fixed(int32_t parts)
{
	waywire_arg arg = { WAYWIRE_FIXED, parts, 0, { 0, 0 }, "", 0 };
	return arg;
}

/* A number in 256ths, rounded to the nearest. A number that is too large or too small becomes the largest or
 * the smallest that fits, and NaN becomes 0. */
static inline int32_t waywire_fixed_from_double(double number)
{
	double parts = number * 256.0;
	if (parts >= 2147483647.0)
		return INT32_MAX;
	if (parts <= -2147483648.0)
		return INT32_MIN;
	if (parts != parts)
		return 0;
	return (int32_t)(parts < 0 ? parts - 0.5 : parts + 0.5);
}

/* The exact number for this many 256ths. */
static inline double waywire_fixed_to_double(int32_t parts)
{
	return parts / 256.0;
}

/* A string that ends with a NUL; NULL is the null string. */
static inline waywire_arg waywire_string(const char *text)
{
	waywire_arg arg = { WAYWIRE_NULL_STRING, 0, 0, { 0, 0 }, "", 0 };
	if (text) {
		arg.kind = WAYWIRE_STRING;
		arg.bytes = text;
		arg.length = strlen(text);
	}
	return arg;
}

static inline waywire_arg waywire_array(const void *bytes, size_t length)
{
	waywire_arg arg = { WAYWIRE_ARRAY, 0, 0, { 0, 0 }, "", 0 };
	arg.bytes = bytes;
	arg.length = length;
	return arg;
}

static inline waywire_arg waywire_of(waywire_object object)
{
	waywire_arg arg = { WAYWIRE_OBJECT, 0, 0, { 0, 0 }, "", 0 };
	arg.object = object;
	return arg;
}

static inline waywire_arg waywire_no_object(void)
{
	waywire_arg arg = { WAYWIRE_NULL_OBJECT, 0, 0, { 0, 0 }, "", 0 };
	return arg;
}

static inline waywire_arg waywire_new(void)
{
	waywire_arg arg = { WAYWIRE_NEW, 0, 0, { 0, 0 }, "", 0 };
	return arg;
}

static inline waywire_arg waywire_fd(uint32_t token)
{
	waywire_arg arg = { WAYWIRE_FD, 0, token, { 0, 0 }, "", 0 };
	return arg;
}

/* Numbers of bytes and of tokens. */
typedef struct waywire_amounts {
	size_t bytes;
	size_t tokens;
} waywire_amounts;

/* One of the two parts in which bytes lie; the first comes before the second. A length may be 0. On systems whose
 * struct iovec (<sys/uio.h>) has the pointer first, as on Linux, it has that layout. */
typedef struct waywire_part {
	void *bytes;
	size_t length;
} waywire_part;

/* The limit in bytes, unless the two ends have agreed on another. */
#define WAYWIRE_USUAL_LIMIT 4096

/* How large the outbox and the inbox of an end are; they never grow. An outbox has at most 16,777,216 bytes and
 * 65,536 tokens; an inbox has `limit` to 16,777,216 bytes and 20 to 65,536 tokens. libwayland sends up to 28
 * descriptors at once, and those of a message may come before all of its bytes: an inbox of 64 tokens has room
 * for both. A newer libwayland, whose buffers grow, can send 28 several times before it sends the bytes: give an
 * inbox a few hundred. `limit` is the length of the longest message in bytes, header included: a multiple of 4
 * from 4,096 to 65,532, or 0 for WAYWIRE_USUAL_LIMIT. Both ends of a connection must be given the same limit: it
 * is not negotiated. libwayland has the usual one. */
typedef struct waywire_sizes {
	size_t out_bytes;
	size_t out_tokens;
	size_t in_bytes;
	size_t in_tokens;
	uint32_t limit;
} waywire_sizes;

/* ---- reports */

/* The most arguments that a message can have, and therefore the most tokens. */
#define WAYWIRE_MAX_ARGS 20

/* The most bytes of a text that waywire_server_post_error writes, without the ending NUL. */
#define WAYWIRE_MAX_ERROR_TEXT 127

/* The most globals that any server adds in its lifetime: see waywire_server_allow_globals. */
#define WAYWIRE_MOST_GLOBALS 4096

/* The kinds of reports, and the fields that each uses; the others are 0. */
typedef enum waywire_report_kind {
	WAYWIRE_NOTHING = 0,   /* no whole message waits */
	WAYWIRE_MESSAGE = 1,   /* a request or an event: target, opcode, args, tokens, forgotten, replaced */
	WAYWIRE_DISCARDED = 2, /* an event for an object that the client has destroyed: target, opcode, tokens,
	                        * replaced. If it makes an object, that is open: waywire_client_made */
	WAYWIRE_DELETED = 3,   /* wl_display.delete_id of an object: target. Its id is free again */
	WAYWIRE_STRAY = 4,     /* wl_display.delete_id of an id that has no object, of id 1, or of an id in
	                        * the server's range: id. Nothing changed */
	WAYWIRE_ERROR = 5,     /* wl_display.error: id, code, text, and `named`: WAYWIRE_OBJECT or
	                        * WAYWIRE_DEAD_OBJECT if target is the object with this id, and
	                        * WAYWIRE_NULL_OBJECT if the id is 0 or unknown. The client has failed */
	WAYWIRE_FAULT = 6      /* the status says which: place, spelling, and `offset`, the byte of the
	                        * stream at which the message begins. The end has failed, except after
	                        * waywire_server_next_unanswered, which also gives id, opcode and text */
} waywire_report_kind;

/* What `next` read. It points into the end, and is valid until the end is freed, and until its next call of `next`,
 * `feed`, `received`, `take_waiting_tokens`, waywire_server_next_unanswered or waywire_client_more_tables; those of
 * waywire-socket.h that receive or dispatch make such calls. Every other call leaves what it points to as it is: so
 * a callback may send while it reads a string, and pass its pointers on, for example the interface of a `global` to
 * `bind`. Strings end with a NUL that their length does not
 * count. Only the first `arg_count` of `args` are written. `tokens` has the tokens of all descriptors of the
 * message in order, whatever the report's kind: the caller closes or keeps the descriptors. The tokens of a
 * WAYWIRE_MESSAGE are in its `args` too; close each descriptor only once. */
typedef struct waywire_report {
	uint32_t kind; /* a waywire_report_kind */
	uint32_t opcode;
	waywire_object target;
	size_t arg_count;
	const uint32_t *tokens;
	size_t token_count;
	uint32_t id;
	uint32_t code;
	uint32_t named;
	uint32_t spelling;
	const char *text;
	size_t text_length;
	size_t place; /* the index of the argument at fault, from 0 */
	uint64_t offset;
	/* The live object whose id the event's new object has taken over; id 0 if there is none, and always in a
	 * server's report. That object is gone, and no later report names it: free what `replaced_user` points
	 * to. It can be the event's target; then `user` is the same pointer. waywire_client_made says which
	 * objects can be replaced. */
	waywire_object replaced;
	/* The index of the target's interface in the tables and, below, the target's version, as they were before
	 * the message, even if it ended the target; version 0 if there is no target. */
	uint16_t interface;
	bool forgotten; /* whether it is wl_registry.global, and the client does not remember the global */
	uint32_t version;
	void *user; /* what the caller has set for the target, as by waywire_end_set_user; else null */
	void *replaced_user; /* what the caller has set for `replaced`; else null */
	waywire_arg args[WAYWIRE_MAX_ARGS];
} waywire_report;

/* ---- tables */

/* The interfaces, each at its index, with the signatures of their messages. */
typedef struct waywire_tables waywire_tables;

/* Makes the tables of the core protocol (wayland.xml without data transfer). They take some 19 KB: make
 * them once, for all ends of all threads. The caller frees them. WAYWIRE_NO_MEMORY. */
waywire_status waywire_tables_core(waywire_tables **tables);

/* Makes the same tables for a server whose caller ends objects itself, with waywire_server_end_object, and judges
 * which events an object's version has: no request destroys an object, except those of wl_fixes, and every event is
 * there from version 1 on. WAYWIRE_NO_MEMORY. */
waywire_status waywire_tables_core_unended(waywire_tables **tables);

/* Frees tables: their memory is freed now, or with the last end or inspector made with them. The caller must not
 * use them afterwards, nor names that came from them. Null is allowed. */
void waywire_tables_free(waywire_tables *tables);

/* Makes new tables: these, and the interfaces that a text declares. FORMATS.md, installed in share/doc/waywire,
 * has its grammar; waywire-tables-from-xml writes such texts, and some are in share/waywire/protocols. The caller
 * frees the new ones; the first stay as they are, and may be freed. WAYWIRE_BAD_LINE if a line has none of the
 * forms; else WAYWIRE_BAD_TABLE if a line breaks a rule. Both write the number of the first such line to `line`,
 * counted from 1. WAYWIRE_BAD_TABLE also writes to `rule` the lowest rule that the line breaks, 1 to 9 or 11.
 * WAYWIRE_NO_MEMORY. `line` and `rule` may be null. */
waywire_status waywire_tables_read(const waywire_tables *tables, const void *text, size_t length,
	waywire_tables **more, size_t *line, uint32_t *rule);

/* The index of the interface of this name, which ends with a NUL. WAYWIRE_NOT_FOUND. */
waywire_status waywire_tables_interface(const waywire_tables *tables, const char *name,
	uint16_t *interface);

/* The name of the interface at an index, valid until the tables are freed. It does not end with a NUL.
 * WAYWIRE_NOT_FOUND past the tables. */
waywire_status waywire_tables_name(const waywire_tables *tables, uint16_t interface,
	const char **name, size_t *length);

/* The newest version of the interface at an index. WAYWIRE_NOT_FOUND past the tables. */
waywire_status waywire_tables_version(const waywire_tables *tables, uint16_t interface,
	uint32_t *version);

/* Who sent a piece, or writes a message. */
typedef enum waywire_sender {
	WAYWIRE_FROM_CLIENT = 0, /* requests */
	WAYWIRE_FROM_SERVER = 1  /* events */
} waywire_sender;

/* What a message destroys. */
typedef enum waywire_destroys {
	WAYWIRE_DESTROYS_NOTHING = 0,
	WAYWIRE_DESTROYS_TARGET = 1,
	WAYWIRE_DESTROYS_ARG = 2 /* the object that its argument at `destroyed` names */
} waywire_destroys;

/* What tables say about a message. */
typedef struct waywire_message {
	uint32_t since;    /* the version of its interface that introduced it */
	uint32_t destroys; /* a waywire_destroys */
	size_t destroyed;  /* with WAYWIRE_DESTROYS_ARG: the index of that argument; else 0 */
	size_t arg_count;
} waywire_message;

/* The interface of an object argument that takes any interface, or whose interface only the bytes give. */
#define WAYWIRE_ANY_INTERFACE 65535

/* What tables say about an argument. `kind` is WAYWIRE_INT, _UINT, _FIXED, _STRING, _OBJECT, _NEW, _ARRAY, _FD or
 * _NEW_BY_SERVER. Only wl_registry.bind makes an object whose interface only the bytes give. */
typedef struct waywire_kind {
	uint32_t kind; /* a waywire_arg_kind */
	bool nullable; /* whether the null string or the null object is allowed */
	uint16_t interface; /* for an object: the index of its interface, or WAYWIRE_ANY_INTERFACE */
} waywire_kind;

/* The message of an interface with this opcode: a request or an event, depending on the sender. Its name is
 * written to `name` and `length`, as with waywire_tables_name; both may be null. WAYWIRE_NOT_FOUND past the
 * tables, past the interface's messages, or if `sender` is no waywire_sender. */
waywire_status waywire_tables_message(const waywire_tables *tables, uint16_t interface,
	waywire_sender sender, uint16_t opcode, waywire_message *message, const char **name, size_t *length);

/* The kind of the argument at an index of a message, counted from 0. WAYWIRE_NOT_FOUND as above, or past its
 * arguments. */
waywire_status waywire_tables_kind(const waywire_tables *tables, uint16_t interface,
	waywire_sender sender, uint16_t opcode, size_t index, waywire_kind *kind);

/* One message, decoded by its signature. */
typedef struct waywire_decoded {
	uint32_t target; /* the id of the message's target */
	uint16_t opcode;
	uint16_t size;     /* the length of the whole message in bytes, header included, as the header says */
	const char *name;  /* the message's name, which does not end with a NUL, valid until the tables are freed */
	size_t name_length;
	size_t arg_count;  /* how many arguments `args` has: all, or those before the one at fault */
	size_t place;      /* with WAYWIRE_FAULT_BAD_ARGUMENT: the index of the argument at fault, from 0 */
	uint32_t spelling; /* with the same: how it is malformed, as in a report */
	/* For each argument that is an object or a new one, the index in the tables of the interface that the
	 * signature names; for the new object of wl_registry.bind, that of the interface that the bytes name.
	 * WAYWIRE_ANY_INTERFACE if none is named or the tables lack it, and for every other argument. */
	uint16_t interfaces[WAYWIRE_MAX_ARGS];
	waywire_arg args[WAYWIRE_MAX_ARGS];
} waywire_decoded;

/* Decodes the message at the front of `length` bytes, in the wire's byte order (little-endian), as a message of
 * one interface: a request or an event, depending on the sender, of an object of this version; UINT32_MAX accepts
 * messages of every version. What follows the message is not looked at. Nothing is judged: no object is looked
 * up, and a message that breaks a rule of its session is decoded like any other. The call allocates nothing. In
 * `args` an object has its id, and 0 for a birth: WAYWIRE_OBJECT, or WAYWIRE_NULL_OBJECT if the id is 0. A new
 * object is WAYWIRE_NEW, or WAYWIRE_NEW_BY_SERVER if the server makes it, or WAYWIRE_BOUND if the bytes give its
 * interface. A descriptor is WAYWIRE_FD with `u` 0, because its token is not among the bytes. Strings and arrays
 * point into `bytes`; a string ends with a NUL that its length does not count. Only the first `arg_count` of
 * `args` and `interfaces` are written.
 * Statuses, in the order in which they are tested: WAYWIRE_BAD_VALUE if `sender` is no waywire_sender;
 * WAYWIRE_NOT_FOUND past the tables; WAYWIRE_FAULT_BAD_SIZE if there are fewer than 8 bytes, or the header's size
 * is below 8, no multiple of 4 or above `length`; WAYWIRE_FAULT_UNKNOWN_MESSAGE if the interface has no such
 * message, or it is newer than the version; WAYWIRE_FAULT_BAD_ARGUMENT for the first argument that the bytes do
 * not spell; WAYWIRE_FAULT_TRAILING_BYTES if bytes are left after the last. With these four faults, `decoded` is
 * written as far as it is known, and is 0 otherwise: target, opcode and size if there are 8 bytes, the name if there
 * is such a message, and the arguments before the one at fault. */
waywire_status waywire_tables_decode(const waywire_tables *tables, uint16_t interface, uint32_t version,
	waywire_sender sender, const void *bytes, size_t length, waywire_decoded *decoded);

/* Writes the line of a report as `waywire trace` prints its message, for example `<-
 * wl_surface@4.enter(wl_output@7)`, ended by a NUL and not by a line feed. `sender` is WAYWIRE_FROM_SERVER for
 * what a client read. Returns the length of the whole line, and writes as much of it as `room` bytes hold, as
 * snprintf does; 0 if the report has no message. It knows less than a trace: it writes `unknown@id` for an object
 * whose interface the signature leaves open, the token for a descriptor, and two dots for the arguments of
 * WAYWIRE_DISCARDED. */
size_t waywire_report_line(const waywire_tables *tables, waywire_sender sender,
	const waywire_report *report, char *line, size_t room);

/* What is called for the messages of one interface: a `.._event_dispatcher` or `.._request_dispatcher` of
 * waywire-core.h or of a header that waywire-stubs-from-xml wrote, and its callbacks. */
typedef struct waywire_listener {
	const char *interface; /* its name, such as WAYWIRE_WL_SURFACE_NAME */
	bool (*dispatch)(const void *calls, void *data, const waywire_report *report);
	const void *calls;
} waywire_listener;

/* Calls the callback for a report of any protocol, through the first listener for the target's interface; for
 * WAYWIRE_DELETED, _STRAY and _ERROR through the one for wl_display. Returns whether there was a callback: if
 * not, the caller still has to close the report's descriptors. It compares names one after the other, so list
 * frequent ones first. */
static inline bool waywire_dispatch(const waywire_tables *tables, const waywire_listener *listeners, size_t count,
	void *data, const waywire_report *report)
{
	const char *name = "wl_display";
	size_t length = strlen(name);
	if (report->kind == WAYWIRE_MESSAGE) {
		if (waywire_tables_name(tables, report->interface, &name, &length))
			return false;
	} else if (report->kind < WAYWIRE_DELETED || report->kind > WAYWIRE_ERROR) {
		return false;
	}
	for (size_t i = 0; i < count; i++)
		if (strlen(listeners[i].interface) == length && !memcmp(listeners[i].interface, name, length))
			return listeners[i].dispatch(listeners[i].calls, data, report);
	return false;
}

/* ---- an end, client or server: the calls that both have */

/* An end of one connection: its objects, its inbox and its outbox. */
typedef struct waywire_end waywire_end;

/* A client's end, and a server's. The calls that both have take the member `end`. These are two types, so that a
 * program that passes one in place of the other does not compile. They are passed by value, which costs as much
 * as a pointer. A call that takes a waywire_client returns WAYWIRE_OTHER_END if its `end` is a server's, and a
 * call that takes a waywire_server if its `end` is a client's. */
typedef struct waywire_client { waywire_end *end; } waywire_client;
typedef struct waywire_server { waywire_end *end; } waywire_server;

/* Frees an end, and everything that its pointers point to. Null is allowed. */
void waywire_end_free(waywire_end *end);

/* wl_display, which every connection has: id 1, birth 0. */
waywire_object waywire_end_display(const waywire_end *end);

/* The interface and version of a live object, also at a failed end. WAYWIRE_NOT_FOUND if it is not live.
 * `interface` and `version` may be null. */
waywire_status waywire_end_live(const waywire_end *end, waywire_object object, uint16_t *interface,
	uint32_t *version);

/* Sets the caller's own pointer for a live object, and replaces the one set before; null means none. Each report
 * whose target is the object has the pointer, also after a client has destroyed the object (WAYWIRE_DISCARDED)
 * and when the object ends (WAYWIRE_DELETED). The library never follows it. The caller frees what it points to:
 * with the object's last report, and for the objects that are left (`object_after`) before the end is freed.
 * There is no WAYWIRE_DELETED for an object that the server made: free its data before you destroy the object, or
 * when an event says that it is finished, and set null. If a new object replaces it while it is live, the report
 * has the pointer as `replaced_user`: free that. The call may allocate at most 32 bytes for each id from the
 * first of its maker's range (1 or WAYWIRE_FIRST_SERVER_ID) up to the object's. WAYWIRE_STALE if the object is
 * not live, WAYWIRE_NO_MEMORY. */
waywire_status waywire_end_set_user(waywire_end *end, waywire_object object, void *user);

/* The pointer that was set for an object, even after it has ended, unless one was set for a later object with its
 * id; else null. */
void *waywire_end_user(const waywire_end *end, waywire_object object);

/* How many objects the end has, in constant time: wl_display, those that are live, and at a client those that it
 * destroyed and that have not ended yet. WAYWIRE_DELETED ends an object that the client made; one that the server
 * made ends when its id is used again. */
size_t waywire_end_object_count(const waywire_end *end);

/* The object with the least id above `id`, of those that `object_count` counts, also at a failed end. From 0 on
 * this goes through all of them, even if objects are made and destroyed on the way:
 *     for (waywire_object it = { 0, 0 }; !waywire_end_object_after(end, it.id, &it);)
 *             free(waywire_end_user(end, it));
 * All of it takes time linear in the number of ids that were ever used. WAYWIRE_NOT_FOUND if there is none. */
waywire_status waywire_end_object_after(const waywire_end *end, uint32_t id, waywire_object *object);

/* The tables of an end: those with which it was made, or those of waywire_end_more_tables. They are valid until
 * that call, or until the end is freed; the caller does not free them. Null for a null end. */
const waywire_tables *waywire_end_tables(const waywire_end *end);

/* Reads a text and appends it to the end's own tables, as waywire_tables_read does and with its statuses, and gives
 * the end the resulting tables. Interfaces keep their indices and messages their opcodes, so objects and globals do
 * not change. WAYWIRE_FIRST_SERVER_OBJECT if the text has an event by which the server makes an object (`N`), and
 * the end's tables have none: such an end has no table for those objects. Reports become invalid, as with any call
 * that may change an end. The end's old tables are freed when nothing else uses them; names that came from them are
 * then invalid.
 * A client does not remember a global that was announced before its interface was in the tables:
 * waywire_client_bind_unannounced binds it. A server can add globals of the new interfaces.
 * What is proved about two ends together does not cover this call: it holds for ends that keep their tables. */
waywire_status waywire_end_more_tables(waywire_end *end, const void *text, size_t length, size_t *line,
	uint32_t *rule);

/* Whether the end has failed. It fails for good when `next` reads a message at fault, and in
 * `take_waiting_tokens`; a client also when `next` reads wl_display.error, and a server in `post_error`. A
 * refused call never makes it fail. A failed end reads and writes nothing more, but what waits in its outbox can
 * still be taken. */
bool waywire_end_has_failed(const waywire_end *end);

/* The free bytes and tokens of the inbox; zero at a failed end. */
waywire_amounts waywire_end_in_room(const waywire_end *end);

/* The free bytes and tokens of the outbox, which has waywire_sizes.out_bytes and out_tokens; also at a failed end.
 * A wl_display.error takes no room: it has its own. This takes constant time, however much waits. */
waywire_amounts waywire_end_out_room(const waywire_end *end);

/* Calls `make_room` with `data` when the outbox has no room for what a call writes, before the call returns
 * WAYWIRE_FULL. It may peek at what waits and say that it was `sent`, take it, or ask for the room. If it returns
 * true, there is more room than before, and the call tries again. Null, with which an end begins, calls nothing. */
void waywire_end_on_full(waywire_end *end, bool (*make_room)(void *data), void *data);

/* How often calls have written to the outbox, or have changed a server's globals or announced them; refused calls
 * may be counted. `next` is not counted: it writes a delete_id of 12 bytes at most. A program that reads many
 * messages asks for room, and announces, only when this has changed, and after a request that makes an object,
 * which can be a registry. */
uint64_t waywire_end_writes(const waywire_end *end);

/* Whether nothing waits in the inbox or the outbox. */
bool waywire_end_is_drained(const waywire_end *end);

/* Copies what arrived into the inbox: as many tokens as fit and, if all of them fit, as many bytes as fit. `fed`
 * says how much that was; feed the rest later, after `next`. A failed end takes nothing in: WAYWIRE_FAILED, and
 * `fed` gets zeros. `bytes` and `tokens` may be null if their length is 0. */
waywire_status waywire_end_feed(waywire_end *end, const void *bytes, size_t length,
	const uint32_t *tokens, size_t token_count, waywire_amounts *fed);

/* How much `take` would move into memory of these lengths. */
waywire_amounts waywire_end_goes(const waywire_end *end, size_t bytes, size_t tokens);

/* Moves what waits in the outbox into the caller's memory, as much as fits, also at a failed end. The tokens of a
 * message go with its first byte: send their descriptors with these bytes. What was taken is gone from the
 * outbox. */
waywire_status waywire_end_take(waywire_end *end, void *bytes, size_t length, uint32_t *tokens,
	size_t token_count, waywire_amounts *taken);

/* Writes to `parts` where the bytes lie that can be sent at one time, for sendmsg. Writes to `tokens` the first
 * `room` of the tokens that go with the first of these bytes, and to `token_count` how many go with it, at most
 * WAYWIRE_MAX_ARGS. Nothing is taken out: after sendmsg has sent n bytes, call `sent` with n; if it sent none, do
 * not. No message with tokens begins after the first byte, so all these tokens have gone, however few bytes went.
 * The parts are valid until the end's next call of any kind. */
waywire_status waywire_end_peek(const waywire_end *end, waywire_part parts[2], uint32_t *tokens,
	size_t room, size_t *token_count);

/* Removes this many bytes from the outbox, or all that wait if these are fewer, with the tokens of the messages
 * that begin in them, as `take` does. Returns how much that was. */
waywire_amounts waywire_end_sent(waywire_end *end, size_t bytes);

/* Writes to `parts` where the free bytes of the inbox lie, for recvmsg; none at a failed end. The caller may
 * write to the parts until the end's next call of any kind. The second may be empty. If `parts` is null, nothing
 * is written. */
void waywire_end_space(waywire_end *end, waywire_part parts[2]);

/* Takes in tokens, and this many of the bytes that were written to `space`, as `feed` does and with its statuses.
 * If not all tokens fit, no byte is taken in, and what was written stays there: call `next` until the other
 * tokens fit, and then call this again with them and the same number of bytes. After bytes were taken in, what
 * was written after them is lost: call `space` again. */
waywire_status waywire_end_received(waywire_end *end, size_t bytes, const uint32_t *tokens,
	size_t token_count, waywire_amounts *fed);

/* Gives up the end, for example when its connection is closed, and moves the tokens that wait in its inbox and
 * its outbox into the caller's memory, so that their descriptors can be closed. Each token that was fed comes out
 * either in a report or in this call, and each that was sent either in `take` or in this call. The tokens of the
 * inbox come first (those of a message at fault before the others), then those of the outbox, all of a message at
 * once. `taken` gets their number: repeat the call until that is 0, with room for at least WAYWIRE_MAX_ARGS
 * tokens. The end has failed afterwards, and what waited in its outbox is dropped with its tokens: first `take`
 * what is still to be sent. After the first of these calls, discard anything `take` returns: the stream already
 * has a gap. */
waywire_status waywire_end_take_waiting_tokens(waywire_end *end, uint32_t *tokens,
	size_t token_count, size_t *taken);

/* Writes a message: a client a request, a server an event. If one of its arguments is WAYWIRE_NEW, the message
 * makes an object, which is written to `made`; else `made` gets id 0.
 * An object that a request destroys is dead afterwards: events for it may still come (WAYWIRE_DISCARDED), until
 * WAYWIRE_DELETED ends it. There is no WAYWIRE_DELETED for an object that the server made: it stays dead until an
 * event makes one with its id. An event that destroys its target is followed by its delete_id: both are written,
 * or nothing. WAYWIRE_NO_SUCH_MESSAGE for what other calls write: wl_registry.bind (waywire_client_bind), and the
 * events of wl_display and wl_registry (the calls of a server below).
 * Statuses, in the order in which they are tested: WAYWIRE_BAD_VALUE, WAYWIRE_FAILED, WAYWIRE_STALE,
 * WAYWIRE_NO_SUCH_MESSAGE, WAYWIRE_TOO_OLD, WAYWIRE_WRONG_ARGS, WAYWIRE_BAD_OBJECT, WAYWIRE_TOO_LONG,
 * WAYWIRE_FULL, WAYWIRE_NO_IDS, WAYWIRE_NO_MEMORY. `made` and `index` may be null; `index` is written with
 * WAYWIRE_WRONG_ARGS and WAYWIRE_BAD_OBJECT, counted from 0. */
waywire_status waywire_end_send(waywire_end *end, waywire_object target, uint16_t opcode,
	const waywire_arg *args, size_t arg_count, waywire_object *made, size_t *index);

/* Writes a message whose arguments are numbers alone (int, uint, fixed), or that has none, as waywire_end_send
 * writes the same numbers, in fewer steps. Each number is a word: an int or a fixed number in 256ths is cast to
 * uint32_t. The other arguments, the statuses and their order are those of waywire_end_send. Any other message is
 * refused with WAYWIRE_WRONG_ARGS at its first argument that is no number. `words` may be null if there are none. */
waywire_status waywire_end_send_words(waywire_end *end, waywire_object target, uint16_t opcode,
	const uint32_t *words, size_t word_count, size_t *index);

/* Reads the next message if it is whole: a client an event, a server a request. If it is not, `report` says
 * WAYWIRE_NOTHING. waywire_report says how long the report is valid.
 * An event by which the server makes an object opens it. If a live object had its id, that object is gone: the
 * report has it as `replaced`, and the caller frees what `replaced_user` points to. A request that destroys an
 * object closes it and, if the client made it, writes its delete_id at once.
 * With a status of WAYWIRE_FAULT_.. the report is written too (kind WAYWIRE_FAULT) and the end has failed for
 * good. A client writes nothing to the server about that; at a server, wl_display.error is then the last message
 * to be taken. After a report WAYWIRE_ERROR a client has failed as well.
 * WAYWIRE_OUT_FULL if a server's outbox has no room for a delete_id, and WAYWIRE_NO_MEMORY if there is no memory
 * for the object that the message opens: the message stays, and can be read again. At a client this can happen
 * only if the object's id is the next that the server has never used; nothing else allocates. WAYWIRE_FAILED if
 * the end had failed before. With these three statuses the report says WAYWIRE_NOTHING. */
waywire_status waywire_end_next(waywire_end *end, waywire_report *report);

/* ---- a client: the calls that only it has */

/* Makes a client with wl_display alone, an empty inbox and an empty outbox. The caller frees its end. It
 * remembers 1,024 of the announced globals at a time. A global beyond these, or one whose interface is not in the
 * tables, is not remembered: its report says so (`forgotten`), and waywire_client_bind does not bind it.
 * WAYWIRE_BAD_SIZES, WAYWIRE_NO_MEMORY. */
waywire_status waywire_client_new(const waywire_tables *tables, const waywire_sizes *sizes,
	waywire_client *client);

/* Binds a global that was announced to the client with this name and interface (which ends with a NUL), and
 * writes the new object to `bound`, which may be null. WAYWIRE_FAILED, WAYWIRE_STALE,
 * WAYWIRE_NO_SUCH_MESSAGE if `registry` is no wl_registry, WAYWIRE_BAD_BIND, WAYWIRE_FULL,
 * WAYWIRE_NO_IDS, WAYWIRE_NO_MEMORY. */
waywire_status waywire_client_bind(waywire_client client, waywire_object registry, uint32_t name,
	const char *interface, uint32_t version, waywire_object *bound);

/* Binds a global that need not have been announced: the server judges the bind. What was announced is neither
 * consulted nor changed, so a global that the client did not remember, or that was withdrawn, can be bound. The
 * message has this version. At this end the object has the version that the tables have now, so none of their
 * messages is too new for it here; the server refuses what is too new for its object. Objects that it makes have
 * its version too. The statuses are those of waywire_client_bind, but WAYWIRE_BAD_BIND only if the tables have no
 * such interface, or the version is 0 or above theirs. What is proved about two ends together does not cover this
 * call: the server may find the bind or a later request at fault, and the two ends may have different versions of
 * the object. */
waywire_status waywire_client_bind_unannounced(waywire_client client, waywire_object registry, uint32_t name,
	const char *interface, uint32_t version, waywire_object *bound);

/* The older name of waywire_end_more_tables, for a client alone. */
waywire_status waywire_client_more_tables(waywire_client client, const void *text, size_t length,
	size_t *line, uint32_t *rule);

/* The object of the server that was made by the message read last. If that message was WAYWIRE_DISCARDED, its object
 * is open all the same, and can be destroyed. `made` gets id 0 if that message made none, and before the first
 * message. A call that reads no message does not change this.
 * The object can replace a live object of the server that no request can end at its version (for example a
 * version-2 zwlr_output_head_v1): the server destroys such an object on its own, and uses its id again. The
 * report of the message then has the old object as `replaced`. That one is no longer live, and `object_after`
 * skips it. */
waywire_status waywire_client_made(waywire_client client, waywire_object *made);

/* ---- a server: the calls that only it has */

/* Makes a server with wl_display alone, an empty inbox, an empty outbox and no globals. The caller frees its end.
 * WAYWIRE_BAD_SIZES, WAYWIRE_NO_MEMORY. */
waywire_status waywire_server_new(const waywire_tables *tables, const waywire_sizes *sizes,
	waywire_server *server);

/* Adds a global of an interface, given by its index in the tables, and writes the global's name to `name`, which
 * may be null. waywire_server_announce writes it to the registries. WAYWIRE_FAILED, WAYWIRE_BAD_GLOBAL,
 * WAYWIRE_TOO_MANY_GLOBALS, WAYWIRE_NO_MEMORY. */
waywire_status waywire_server_add_global(waywire_server server, uint16_t interface,
	uint32_t version, uint32_t *name);

/* Sets how many globals the server may add in its lifetime, including those that it has added: 1,024 unless this is
 * called. A number above WAYWIRE_MOST_GLOBALS counts as WAYWIRE_MOST_GLOBALS. A client that is made with this library
 * remembers 1,024 at a time. */
waywire_status waywire_server_allow_globals(waywire_server server, size_t number);

/* Withdraws a global. It can still be bound; waywire_server_announce sends global_remove to the registries to
 * which it was announced. WAYWIRE_FAILED, WAYWIRE_NO_SUCH_GLOBAL. */
waywire_status waywire_server_withdraw(waywire_server server, uint32_t name);

/* Writes wl_registry.global and global_remove to each open registry for the globals that were added and withdrawn
 * since it was last informed, and stops when an event does not fit. `count` gets the number of events written, and
 * `all` whether these were all; both may be null. Call it after a request has made a registry, after a change of the
 * globals, and after a `take` if not all had fitted. If events do not fit, the next call continues at the registry
 * where this one stopped. It skips registries that are known to need no event, and takes constant time if these are
 * all. The others are those made since it last wrote everything or, after a change of the globals, all registries.
 * Then its time is linear in the events that it writes, in the globals that were ever added, and in these
 * registries. For each of these it looks at the globals 64 at a time, and one by one only if the registry needs an
 * event for one of the 64. WAYWIRE_FAILED. */
waywire_status waywire_server_announce(waywire_server server, size_t *count, bool *all);

/* Ends an object without the event that would destroy it, for example a callback that nobody waits for, and
 * writes its delete_id.
 * WAYWIRE_FAILED, WAYWIRE_STALE, WAYWIRE_NOT_DROPPABLE, WAYWIRE_FULL. */
waywire_status waywire_server_drop_object(waywire_server server, waywire_object object);

/* Ends an object when the caller says so, whatever its interface, and writes its delete_id if the client made it.
 * WAYWIRE_NOT_DROPPABLE if it is wl_display or a registry. What is proved about two ends together does not cover this call: only the caller knows that the
 * client sends no more requests that name the object.
 * WAYWIRE_FAILED, WAYWIRE_STALE, WAYWIRE_NOT_DROPPABLE, WAYWIRE_FULL. */
waywire_status waywire_server_end_object(waywire_server server, waywire_object object);

/* Reads the next request as waywire_end_next does, but answers no fault: nothing changes, and the caller ends the
 * connection with waywire_server_post_error, in its own words and about an object of its choice. Until then the same
 * fault is returned again, except WAYWIRE_FAULT_MISSING_DESCRIPTOR, which ends if the descriptor comes. The report of
 * a fault also has the id of the message's target as `id`, its opcode, and as `text` the bytes of the message, header
 * included, which waywire_tables_decode reads; with WAYWIRE_FAULT_BAD_SIZE, those of the header. What is proved about
 * two ends together does not cover this call. The statuses are those of waywire_end_next. */
waywire_status waywire_server_next_unanswered(waywire_server server, waywire_report *report);

/* Ends the connection with wl_display.error about an object. The text ends with a NUL. Its first
 * WAYWIRE_MAX_ERROR_TEXT bytes are written, or up to 3 fewer so that no UTF-8 character is cut. The outbox always
 * has room for it. The server has failed afterwards: take what waits, write it and close the socket.
 * WAYWIRE_FAILED, WAYWIRE_STALE. */
waywire_status waywire_server_post_error(waywire_server server, waywire_object object,
	uint32_t code, const char *text);

/* ---- an inspector */

/* Judges a session between a client and a server while it goes on, from all that passes between them, piece by
 * piece. It says about the pieces so far what the commands `waywire trace` and `waywire check` say about a
 * recording of them. Its memory grows with the objects that are open and the bytes of messages that are not whole
 * yet, not with the length of the session. */
typedef struct waywire_inspector waywire_inspector;

/* Makes an inspector that has seen nothing. `limit` is the length of the longest message in bytes, header
 * included: a multiple of 4 from 4,096 to 65,532. The caller frees it. WAYWIRE_BAD_SIZES, WAYWIRE_NO_MEMORY. */
waywire_status waywire_inspector_new(const waywire_tables *tables, uint32_t limit,
	waywire_inspector **inspector);

/* Frees an inspector. What it pointed to is gone with it. Null is allowed. */
void waywire_inspector_free(waywire_inspector *inspector);

/* Judges the messages that a piece completes: bytes as they came from a sender, split anywhere, and the number of
 * descriptors that came with them. `bytes` may be null if their length is 0. After a message that breaks a rule,
 * and after a wl_display.error, nothing more is judged and no line is written.
 * WAYWIRE_BAD_VALUE if `sender` is no waywire_sender. WAYWIRE_NO_MEMORY: the piece can be passed again. */
waywire_status waywire_inspector_pass(waywire_inspector *inspector, waywire_sender sender,
	const void *bytes, size_t length, size_t token_count);

/* The lines of the messages that the last piece completed, each ended by a line feed; none before the first
 * piece. A message that breaks a rule has no line. `length` gets how many bytes they have: they do not end with a
 * NUL. They are valid until the inspector's next `pass` or `verdict`. Returns null, with length 0, for a null
 * inspector, and null if `length` is null. */
const char *waywire_inspector_lines(const waywire_inspector *inspector, size_t *length);

/* The verdict on all pieces so far, as the line that `waywire check` prints, ended by a line feed and not by a
 * NUL. It is valid until the inspector's next `pass` or `verdict`. `broken`, which may be null, gets whether a
 * message breaks a rule, which the line then names. WAYWIRE_NO_MEMORY: what was valid before is gone. */
waywire_status waywire_inspector_verdict(waywire_inspector *inspector, const char **line,
	size_t *length, bool *broken);

/* The parts of a verdict. If no message breaks a rule, `fault` is WAYWIRE_OK, and the counts are those of the
 * verdict's line. Otherwise the members from `index` on say which message breaks which rule. */
typedef struct waywire_judgement {
	size_t requests, events;               /* how many were judged */
	size_t left_to_server, left_to_client; /* bytes that belong to no judged message */
	size_t index;      /* the number of the broken message among those of its sender, from 1 */
	size_t offset;     /* where it begins in the bytes of its sender */
	size_t place;      /* the index of the argument at fault, from 0 */
	uint32_t fault;    /* the rule: one of WAYWIRE_FAULT_.. */
	uint32_t spelling; /* with WAYWIRE_FAULT_BAD_ARGUMENT: how it is malformed, as in a report */
	uint32_t sender;   /* a waywire_sender */
} waywire_judgement;

/* Writes the verdict on all pieces so far, in parts. It allocates nothing. */
waywire_status waywire_inspector_judgement(const waywire_inspector *inspector,
	waywire_judgement *judgement);

/* The number of messages that were judged, of both directions together. They are the first ones that passed, and
 * all of them are lawful. 0 for a null inspector. */
uint64_t waywire_inspector_judged(const waywire_inspector *inspector);

/* The first judged wl_display.delete_id that nothing asked for: the object of its id was not ending, no event of
 * its interface ends it, or the id had no object. The rules allow such a message. But a client may write a request
 * before it reads the message, and that request can then break a rule through no fault of the client's. Returns
 * the message's number among those of both directions, from 1, and writes the id that it takes back to `id`, which
 * may be null. Both are 0 if there is no such message, and for a null inspector. */
uint64_t waywire_inspector_undeserved(const waywire_inspector *inspector, uint32_t *id);

/* ---- the messages that an inspector follows
 *
 * An inspector also follows the messages one by one, judged or not. It even follows those after a message that
 * breaks a rule, and those of interfaces that the tables lack. It guesses nothing about them: if a message that
 * could not be read may have given an id to another object, nothing is known of that id. For each piece call `pass`
 * and `follow`, and then `ahead` and `go_past` until no message is in front:
 *
 *     waywire_inspector_follow(inspector, sender, bytes, length);
 *     while (!waywire_inspector_ahead(inspector, sender, &message)) {
 *         waywire_status status = waywire_inspector_decode(inspector, sender, &message, &decoded);
 *         print(&message, status, &decoded);
 *         waywire_inspector_go_past(inspector, sender);
 *     }
 *
 * The inspector keeps bytes until the first `follow` of their sender after their message was gone past, and an
 * object's place until its id is used again. With these calls, the messages are numbered in the order of the
 * pieces, and a message with a number of at most waywire_inspector_judged was judged. */

/* What is known of an id. */
typedef struct waywire_known {
	uint64_t birth;     /* the number of the message that made the object; 0 for wl_display */
	uint32_t version;
	uint16_t interface; /* its index in the tables; WAYWIRE_ANY_INTERFACE if nothing is known of the id */
	bool is_known;
	bool is_ending;     /* it was destroyed, and its id is not free yet */
} waywire_known;

/* A message. */
typedef struct waywire_followed {
	uint64_t number;           /* among the messages of both senders, from 1 */
	size_t index;              /* among those of its sender, from 1 */
	size_t offset;             /* where it begins in the bytes of its sender */
	const unsigned char *bytes; /* valid until the inspector's next `follow` */
	size_t length;             /* how many bytes it has; if its size is bad, how many came */
	size_t descriptor_count;   /* only of a message that was read */
	waywire_known object;      /* its target, as known before the message */
	uint32_t target;           /* the id of its target */
	uint16_t opcode;
	uint16_t size;             /* as its header says */
	uint32_t made;             /* the id of the object that it makes; 0 if it makes none */
	uint32_t made_version;
	uint32_t destroyed;        /* the id of the object that it destroys or may destroy; 0 if there is none */
	uint32_t deleted;          /* the id in a wl_display.delete_id; 0 for any other message */
	uint16_t made_interface;
	bool is_read; /* its target and all objects that it names are known, and the tables have the message */
} waywire_followed;

/* Appends the bytes of a piece to those of the same sender that are not gone past yet. WAYWIRE_BAD_VALUE if
 * `sender` is no waywire_sender; WAYWIRE_NO_MEMORY. */
waywire_status waywire_inspector_follow(waywire_inspector *inspector, waywire_sender sender,
	const void *bytes, size_t length);

/* Writes the message at the front of a sender's bytes, as soon as it is whole or its header has a bad size.
 * WAYWIRE_NOT_FOUND if there is none yet, and WAYWIRE_BAD_VALUE as above; with these nothing is written. The call
 * allocates nothing, and does not change the inspector. */
waywire_status waywire_inspector_ahead(const waywire_inspector *inspector, waywire_sender sender,
	waywire_followed *message);

/* Decodes a message that waywire_inspector_ahead has written, as waywire_tables_decode does: with the inspector's
 * tables, and with the interface and version of the message's target. `sender` is the sender of the message. The
 * call can be made until the inspector's next `follow`, also after `go_past`, and what `decoded` points to is valid
 * until then.
 * The statuses are those of waywire_tables_decode; WAYWIRE_NOT_FOUND if nothing is known of the target. The call
 * allocates nothing. */
waywire_status waywire_inspector_decode(const waywire_inspector *inspector, waywire_sender sender,
	const waywire_followed *message, waywire_decoded *decoded);

/* Goes past the message at the front, if there is one: what it makes, destroys and frees is known from then on.
 * After a message of a bad size, no more messages of its sender are found. WAYWIRE_BAD_VALUE; WAYWIRE_NO_MEMORY. */
waywire_status waywire_inspector_go_past(waywire_inspector *inspector, waywire_sender sender);

/* Writes what is known of an id, after the messages that were gone past. */
waywire_status waywire_inspector_object(const waywire_inspector *inspector, uint32_t id,
	waywire_known *known);

/* How many ids can be known. For the client, these are the ids below the returned number; for the server, this many
 * ids from WAYWIRE_FIRST_SERVER_ID on. Nothing is known of any other id. 0 for a null inspector. */
size_t waywire_inspector_id_count(const waywire_inspector *inspector, waywire_sender maker);

/* The newest version in which a global of this name was announced with this interface, or 0 if none was.
 * WAYWIRE_ANY_INTERFACE means any interface that the tables lack. 0 for a null inspector. */
uint32_t waywire_inspector_announced(const waywire_inspector *inspector, uint32_t name,
	uint16_t interface);

/* ---- a recording */

/* A piece of a recording, the text of docs/FORMATS.md. */
typedef struct waywire_piece {
	uint32_t sender;    /* a waywire_sender */
	uint32_t token_count;
	size_t length;      /* of its bytes */
	size_t begin;       /* where its line begins in the text; only comments and empty lines were skipped before it */
	size_t behind;      /* where the text continues after its line */
	size_t line;        /* the number of its line, counted from 1 */
} waywire_piece;

/* Reads the next piece of a text, and writes its bytes to `bytes`, which has room for `room` bytes; half the length
 * of the rest of the text is always enough. Reading starts at `from`, which must be the beginning of a line, and
 * `line` is the number of lines before it. The call allocates memory for the piece.
 * WAYWIRE_NOT_FOUND if no piece is left. WAYWIRE_BAD_LINE if the first line that is neither skipped nor a piece
 * comes before the next piece: `line` of `piece` is written. WAYWIRE_FULL if the piece has more than `room` bytes.
 * WAYWIRE_NO_MEMORY. WAYWIRE_BAD_VALUE if `from` is after the end of the text, or `line` is above PTRDIFF_MAX. */
waywire_status waywire_recording_next(const void *text, size_t length, size_t from, size_t line, void *bytes,
	size_t room, waywire_piece *piece);

#ifdef __cplusplus
}
#endif

#endif
