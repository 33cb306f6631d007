/* What the files of c/socket share. They use only the calls of waywire.h. `make` makes local what is global here:
 * only the calls of include/waywire-socket.h are visible to others. */
#ifndef WAYWIRE_SOCKET_PARTS_H
#define WAYWIRE_SOCKET_PARTS_H

#include "waywire-socket.h"

#include <sys/un.h>

/* So the compiler may put a function into its callers, although the code can be moved in memory. */
#define HIDDEN __attribute__((visibility("hidden")))

/* ---- addresses (connect.c) */

/* Writes the address of a name: a path, if it begins with a slash, else a name in XDG_RUNTIME_DIR.
 * False with errno: ENOENT without such a folder, ENAMETOOLONG. */
HIDDEN bool socket_address(struct sockaddr_un *address, const char *name);

/* ---- an end and its socket (transfer.c) */

/* Whether bytes wait to be sent. */
HIDDEN bool socket_has_waiting(const waywire_end *end);

/* Writes what waits, as waywire_socket_flush; `went` gets whether some of it went. */
HIDDEN int socket_flush_end(int socket, waywire_end *end, bool *went);

/* Drops what waits in the outbox, and closes its descriptors. */
HIDDEN void connection_drop_outbox(waywire_end *end);

/* Closes descriptors that are tokens. */
HIDDEN void report_close_tokens(const uint32_t *tokens, size_t count);

/* ---- a connection */

/* What is kept for one object, in a ring of all of a connection. */
struct entry {
	struct entry *before, *after;
	waywire_object object;
	waywire_dispatcher *dispatch; /* null: that of the interface serves */
	const void *calls;
	void *data;
	void (*destroy)(void *data);
	unsigned held; /* how many calls of its dispatcher run: it is freed after they return */
	bool is_ended; /* it is out of the ring, and freed once it is no longer held */
};

/* What is called for the objects of an interface. */
struct implemented {
	waywire_dispatcher *dispatch;
	const void *calls;
	void *data;
};

struct waywire_connection {
	int socket;
	waywire_end *end;
	waywire_client client; /* one of these two has the end, the other null */
	waywire_server server;
	waywire_amounts half;   /* of what the outbox holds */
	waywire_amounts unsent; /* while messages are read, what waits is sent if the outbox has less room than this */
	uint64_t writes; /* of the end, when there was room for `ready` messages and all globals were announced */
	size_t ready;
	uint32_t serial; /* how many syncs it has answered */

	struct entry entries; /* the head of the ring */
	size_t entry_count;
	size_t sweep_at; /* so many entries are looked through for those of objects that are gone */
	struct implemented *implemented; /* each at the index of its interface */
	size_t implemented_count;

	bool is_unread;  /* messages may wait in the inbox */
	bool is_blocked; /* the socket took no more */
	int gone;        /* the errno of a client's flush after the compositor had closed the connection; else 0 */
	size_t most_objects; /* 0: no limit */
	size_t uncounted;    /* so many messages more are read before they are counted */
	int64_t patience;    /* in milliseconds; below 0: no limit */
	int64_t stuck_since; /* when the other end last took something; below 0: nothing is stuck */
	waywire_failure failure; /* its error is 0 while the connection goes on */
	char text[512];
};

/* Milliseconds of a clock that only goes on (connection.c). */
HIDDEN int64_t connection_moment(void);

/* Ends a connection for good with an errno and a text; a server still sends what waits. Returns -1, with errno
 * set (connection.c). */
HIDDEN int connection_fail(waywire_connection *connection, int error, const char *text);

/* The same if a message that came broke a rule, and if wl_display.error came. */
HIDDEN int connection_fail_by_fault(waywire_connection *connection, waywire_status status,
	const waywire_report *report);
HIDDEN int connection_fail_by_error(waywire_connection *connection, const waywire_report *report);

/* Sends what waits, for a call that finds the outbox full; `data` is the connection. Returns whether some of it went
 * (dispatch.c). */
HIDDEN bool connection_make_room(void *data);

/* ---- the objects of a connection (objects.c) */

/* The least number of entries at which those of ended objects are looked for. */
#define FIRST_SWEEP 16

/* Takes an entry out of the ring. It is freed, and its data are destroyed, once nothing holds
 * it. */
HIDDEN void entry_end(waywire_connection *connection, struct entry *entry);

/* Keeps an entry while its dispatcher runs. Null is allowed. */
HIDDEN void entry_hold(struct entry *entry);
HIDDEN void entry_release(struct entry *entry);

/* Ends all entries. */
HIDDEN void entries_end(waywire_connection *connection);

/* Whether there is a callback for messages to an object. */
HIDDEN bool connection_is_heard(const waywire_connection *connection, waywire_object object,
	uint16_t interface);

#endif
