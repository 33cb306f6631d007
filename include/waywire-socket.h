/* waywire-socket: a Unix socket for the ends of waywire.h, and a connection that calls callbacks.
 *
 * The ends of waywire.h turn calls into bytes, and bytes into reports. This header moves the bytes and the file
 * descriptors, and calls back for each report. It has two parts, and the first can be used alone:
 *
 *  1. Sockets.      Connect and listen as libwayland does, and pass bytes with descriptors. `flush`
 *                   and `fill` pass those of an end.
 *  2. Connections.  An end, its socket, and for each object a dispatcher and the caller's data.
 *                   `dispatch` does what wl_display_dispatch does.
 *
 * Descriptors. Here a token is a descriptor of this process. Once the call that sends a descriptor has returned
 * WAYWIRE_OK, the descriptor belongs to the end, which closes it when the socket has taken it: to keep a
 * descriptor, send a duplicate. A descriptor that came belongs to the callback that gets it. Every descriptor
 * that is made here is close-on-exec. No call tests a descriptor's number. If it is not open when it is sent, the
 * connection ends with EBADF; if it was closed and opened again, the other file is sent and closed.
 *
 * Waiting.  waywire_connection_dispatch, _roundtrip and _drain wait, each with a limit. waywire_socket_connect,
 * _connect_to and waywire_connection_connect wait if the compositor has too many clients that it has not
 * accepted; only _connect_to has a limit. No other call waits, whether or not its socket is non-blocking. A
 * signal ends none of these waits. To be woken, a program polls waywire_connection_fd in a loop of its own, beside
 * a signalfd or a pipe.
 *
 * Errors.  A call that returns -1 or a null pointer says why in errno. A call that returns a waywire_status with
 * another status than WAYWIRE_OK has changed nothing. Each refused allocation is an error of the call: ENOMEM or
 * WAYWIRE_NO_MEMORY. Nothing is written to standard error, and a closed socket makes no signal.
 *
 * Threads.  There is no global state but the environment: waywire_socket_connect, _connect_to and _listen read
 * it, and waywire_socket_connect removes WAYLAND_SOCKET. Only one call at a time may use a connection or its end,
 * on any thread.
 *
 * Null.  A pointer may be null only where the text of the call says so. */
#ifndef WAYWIRE_SOCKET_H
#define WAYWIRE_SOCKET_H

#include <waywire.h>

#include <sys/types.h>

#ifdef __cplusplus
extern "C" {
#endif

/* ---- 1. sockets */

/* The most descriptors that an end passes at once. libwayland has the same limit. */
#define WAYWIRE_SOCKET_DESCRIPTORS 28

/* Connects to a compositor, as wl_display_connect does. Returns the descriptor of the socket.
 *
 * If WAYLAND_SOCKET is set, it is the number of a socket that is already connected. The call
 * returns that number, removes the variable, and does not look at `name`. Otherwise it connects to
 * `name`; if that is null, to WAYLAND_DISPLAY; if that is not set, to wayland-0. A name that begins
 * with a slash is a path, and any other name is one in the folder XDG_RUNTIME_DIR.
 *
 * Returns -1 with the errno of wl_display_connect: ENOENT if XDG_RUNTIME_DIR is not set to an
 * absolute path; ENAMETOOLONG if the path has more than 107 bytes; EBADF if WAYLAND_SOCKET is not
 * an open descriptor; else as socket and connect. If WAYLAND_SOCKET is not a number, libwayland
 * leaves errno 0, and this call sets EINVAL or ERANGE. */
int waywire_socket_connect(const char *name);

/* Connects as waywire_socket_connect does if WAYLAND_SOCKET is not set; it leaves that variable
 * alone. This is for a proxy, which connects once for each of its clients.
 * Returns -1 with errno: EAGAIN if the compositor has no room for another client within this many
 * milliseconds (-1 is no limit; the kernel rounds up to its next tick); else as
 * waywire_socket_connect. */
int waywire_socket_connect_to(const char *name, int milliseconds);

/* A socket at which clients connect, and the lock of its name. */
typedef struct waywire_listening_socket waywire_listening_socket;

/* Listens under a name, as wl_display_add_socket does: a path if it begins with a slash, else a
 * name in XDG_RUNTIME_DIR. If `name` is null, the call takes the first of wayland-1 to wayland-32
 * that is free. As long as the socket is open, the file NAME.lock is locked, also against servers
 * of libwayland. A socket that a server has left behind is removed first. The caller closes what is
 * returned.
 *
 * Returns null with errno: EADDRINUSE if another server has the name (or all names), or if there is
 * a file of this name that is no socket; EINVAL if the name is empty; ENOENT and ENAMETOOLONG as
 * waywire_socket_connect; ENOMEM; else as open, socket, bind and listen. */
waywire_listening_socket *waywire_socket_listen(const char *name);

/* The name, to be set as WAYLAND_DISPLAY. It is valid until the socket is closed. */
const char *waywire_listening_socket_name(const waywire_listening_socket *listening);

/* The descriptor, which is non-blocking: poll it for POLLIN, and accept. */
int waywire_listening_socket_fd(const waywire_listening_socket *listening);

/* Accepts a client. Returns the descriptor of its socket, for waywire_connection_of_server; -1 with
 * errno: EAGAIN if no client waits, else as accept. */
int waywire_listening_socket_accept(const waywire_listening_socket *listening);

/* Closes the socket, and removes its file and its lock file. Accepted clients stay connected. Null
 * is allowed. */
void waywire_listening_socket_close(waywire_listening_socket *listening);

/* Sends bytes, and descriptors with the first of them. Returns how many bytes were sent, at least 1. The
 * descriptors were sent with these, and stay open here. `descriptors` may be null if `count` is 0. Returns -1
 * with errno: EAGAIN if the socket takes nothing now; EINVAL if both parts are empty, or if there are more than
 * 253 descriptors, the limit of the kernel; else as sendmsg. An end at the other side receives no more than
 * WAYWIRE_SOCKET_DESCRIPTORS at once. */
ssize_t waywire_socket_send(int socket, const waywire_part parts[2], const int *descriptors,
	size_t count);

/* Receives bytes into `parts`, and the descriptors that came with them, which the caller closes.
 * Returns how many bytes came, and 0 at the end of the stream.
 * Returns -1 with errno: EAGAIN if nothing is there yet; ENOBUFS if `parts` have no room; EMFILE if
 * the process may open no more descriptors; EOVERFLOW if more than WAYWIRE_SOCKET_DESCRIPTORS came
 * at once; else as recvmsg. After EMFILE and EOVERFLOW bytes and descriptors are lost: close the
 * socket. With the option SO_PASSCRED there is room for fewer descriptors. */
ssize_t waywire_socket_receive(int socket, const waywire_part parts[2],
	int descriptors[WAYWIRE_SOCKET_DESCRIPTORS], size_t *count);

/* Receives as waywire_socket_receive, but up to `room` descriptors; EOVERFLOW if more came at once. This is for a
 * proxy: with room for 253 it can pass on whatever a client sends. `descriptors` may be null if `room` is 0. */
ssize_t waywire_socket_receive_up_to(int socket, const waywire_part parts[2], int *descriptors,
	size_t room, size_t *count);

/* Sends what waits in an end's outbox, also at a failed end, and closes the descriptors that were sent. Returns 0
 * when everything has been sent.
 * Returns -1 with errno, and the rest still waits: EAGAIN if the socket takes no more now, so poll for POLLOUT
 * and call again; else as waywire_socket_send. */
int waywire_socket_flush(int socket, waywire_end *end);

/* Receives once into an end's inbox; read all its messages before. Returns as waywire_socket_receive. ENOBUFS if
 * the inbox has no room for WAYWIRE_SOCKET_DESCRIPTORS tokens and a byte. Then it is full of the descriptors of a
 * message that is not whole yet (waywire_sizes says how many to allow for), or of some that belong to no message,
 * or this end has failed. */
ssize_t waywire_socket_fill(int socket, waywire_end *end);

/* Closes a socket, and every descriptor that was not sent, or that came and was not reported. The
 * end has failed afterwards (waywire_end_take_waiting_tokens); the caller frees it. The end may be
 * null. errno is kept. */
void waywire_socket_close(int socket, waywire_end *end);

/* ---- 2. connections: making and closing */

/* An end, its socket, and the callbacks for its objects. */
typedef struct waywire_connection waywire_connection;

/* Connects a client to a compositor, as waywire_socket_connect. The tables may be freed afterwards.
 * `sizes` may be null. Then a client's outbox holds 65,536 bytes and its inbox 16,384, for which a connection
 * allocates about 150 KB. Those of a server hold 4,096 bytes each: 33 KB. Both have 64 tokens for the outbox and
 * 256 for the inbox. A call that finds the outbox full sends what waits, so the outbox bounds what can be written
 * only while the socket takes no more. The caller closes the connection.
 * Returns null with errno: as waywire_socket_connect; ENOMEM; EINVAL if no end has these sizes, if
 * the outbox cannot hold every message, or if the inbox has fewer tokens than
 * WAYWIRE_SOCKET_DESCRIPTORS and those of a message (48). */
waywire_connection *waywire_connection_connect(const waywire_tables *tables,
	const waywire_sizes *sizes, const char *name);

/* A client's connection, and that of a server with one client, over a socket that is connected. The
 * connection closes the socket. Returns null with errno, ENOMEM or EINVAL as above; then the socket
 * is still the caller's.
 * A server's connection announces its globals, and answers each wl_display.sync that no callback gets: done with
 * the number of those that it has answered, and the end of the callback. To answer them itself, a program has a
 * callback for the request `sync` of wl_display (waywire_connection_listen, _implement). */
waywire_connection *waywire_connection_of_client(const waywire_tables *tables,
	const waywire_sizes *sizes, int socket);
waywire_connection *waywire_connection_of_server(const waywire_tables *tables,
	const waywire_sizes *sizes, int socket);

/* Sends what waits, as far as the socket takes it, and closes the socket. Closes the descriptors
 * that wait, destroys the data of all objects, and frees the end. To be sure that everything is
 * sent, call waywire_connection_drain before. Not to be called from a callback. Null is allowed.
 * errno is kept. */
void waywire_connection_close(waywire_connection *connection);

/* The end of a connection. The second and third call return it with its type, or with a null `end`
 * if it has the other type. The caller may make any call of waywire.h with it, except `next`, those
 * that move bytes and tokens, `free`, `set_user` and `user`. The connection makes these, and keeps
 * pointers of its own in the end: waywire_connection_data has the caller's. */
waywire_end *waywire_connection_end(const waywire_connection *connection);
waywire_client waywire_connection_client(const waywire_connection *connection);
waywire_server waywire_connection_server(const waywire_connection *connection);

/* Adds a global to a server, as waywire_server_add_global, by the name of its interface. `name` may
 * be null. The next `dispatch` announces it; waywire_server_withdraw takes it back.
 * WAYWIRE_NOT_FOUND if the tables lack the interface, WAYWIRE_NULL at a client; else as
 * waywire_server_add_global. */
waywire_status waywire_connection_add_global(waywire_connection *connection, const char *interface,
	uint32_t version, uint32_t *name);

/* Limits what the other end can cost. A connection ends with EPROTO when it has more objects than this (a server
 * sends wl_display.error, no_memory), and with ETIMEDOUT when the other end has read nothing for this many
 * milliseconds while bytes wait for it. Objects that callbacks make may be counted 31 messages later. 0 objects
 * and -1 milliseconds mean no limit. A server begins with 50,000 and 120,000, a client with no limits. The time
 * is checked in flush and dispatch: while a connection wants_write, a loop of one's own must not poll for
 * longer. */
void waywire_connection_set_limits(waywire_connection *connection, size_t objects,
	int milliseconds);

/* ---- what is called */

/* A `.._event_dispatcher` or `.._request_dispatcher` of waywire-core.h or of another header of
 * stubs. It returns whether there was a callback for the report. If there was none, the descriptors
 * of the report are closed, and an object that the event made is destroyed: if nothing listens to
 * that object, and its interface has a destructor without arguments. If the event itself was for an
 * object that the client has destroyed, no callback gets what it made, which is then destroyed even
 * if something listens to its interface.
 * A callback may send, dispatch, and make any call below. What its pointers point to is valid until it
 * dispatches, as waywire_report says. In the report, `user` is the object's data
 * (null for WAYWIRE_ERROR), and `replaced_user` is null. */
typedef bool waywire_dispatcher(const void *calls, void *data, const waywire_report *report);

/* Calls `dispatch` for each message to an object, with `calls` and `data`, as wl_proxy_add_listener
 * does. They replace what the object had; waywire_connection_set_data says when data are destroyed.
 * If `data` is the pointer that the object had, the function that destroys it stays.
 * A null `dispatch` leaves the messages to the listener of the interface. The events error and
 * delete_id are those of wl_display. WAYWIRE_STALE if the object is not live, WAYWIRE_NO_MEMORY. */
waywire_status waywire_connection_listen(waywire_connection *connection, waywire_object object,
	waywire_dispatcher *dispatch, const void *calls, void *data);

/* Calls each listener for the messages to all objects of its interface that have no dispatcher of
 * their own. A callback gets the data of the object, or `data` if that has none. A listener
 * replaces an earlier one for its interface, and one whose `dispatch` is null removes it. The list
 * is copied; what it points to is not. WAYWIRE_NOT_FOUND if the tables lack an interface,
 * WAYWIRE_NO_MEMORY. */
waywire_status waywire_connection_implement(waywire_connection *connection,
	const waywire_listener *listeners, size_t count, void *data);

/* Gives an object data, and a function that destroys them; null means that nothing destroys them. They replace
 * what the object had, which is destroyed unless it is the same pointer. WAYWIRE_STALE if the object is not live,
 * WAYWIRE_NO_MEMORY.
 *
 * Data are destroyed after the last message of their object: at a client delete_id, or the event whose new object
 * replaces it (`replaced` of waywire_report); at a server the request that destroys it. Some objects have no last
 * message: at a client those that the server made, and at a server those that an event destroys, or a request as
 * its argument. Their data are destroyed later, when other objects get data, or with the connection.
 * waywire_connection_forget destroys them at once. */
waywire_status waywire_connection_set_data(waywire_connection *connection, waywire_object object,
	void *data, void (*destroy)(void *data));

/* The data of a live object, from `listen` or `set_data`; else null. */
void *waywire_connection_data(const waywire_connection *connection, waywire_object object);

/* Destroys the data of a live object, and removes its dispatcher. For an object without a last message, call it
 * before you send what destroys the object. */
void waywire_connection_forget(waywire_connection *connection, waywire_object object);

/* ---- reading and writing */

/* Sends what waits, and calls the callbacks for all messages that were read. If there were none, it waits until
 * some come. A server announces its globals. Returns how many messages there were, or 0 after this many
 * milliseconds: -1 means no limit, and 0 means not to wait.
 *
 * Returns -1 with errno. The connection continues after ENOMEM (there was no memory for a message, or in the
 * kernel), ENOBUFS and ETOOMANYREFS (the kernel had no room to send): nothing is lost, and the next call tries
 * again. With any other errno it has ended: waywire_connection_failure says why.
 *
 * What callbacks write is sent by the next call, or at once if the outbox is full. A callback gets WAYWIRE_FULL if
 * the socket, too, takes no more. At a server, half of the outbox is free before each message, and nothing is read
 * from a client that does not read. */
int waywire_connection_dispatch(waywire_connection *connection, int milliseconds);

/* Dispatches until the compositor has read all that the client has written, by wl_display.sync.
 * Returns how many messages there were, or 0 after this many milliseconds. Returns -1 with errno as
 * waywire_connection_dispatch, and EINVAL at a server. */
int waywire_connection_roundtrip(waywire_connection *connection, int milliseconds);

/* Sends what waits until all of it has gone, for example after WAYWIRE_FULL. It reads nothing. Returns 0, or
 * -1 with errno: EAGAIN after this many milliseconds (-1: no limit), else as waywire_connection_flush. */
int waywire_connection_drain(waywire_connection *connection, int milliseconds);

/* A loop of one's own polls this descriptor, for POLLIN if the connection wants_read, and for POLLOUT if it
 * wants_write. Before that it flushes, and afterwards it fills and dispatches what is pending; or it makes one
 * call for all of this, which does not wait: waywire_connection_dispatch(it, 0). If the connection wants neither,
 * some messages still wait, because there was no memory, or no room for their answers before the flush: dispatch
 * without waiting. */
int waywire_connection_fd(const waywire_connection *connection);

/* Whether bytes wait to be sent. If the last flush ended with ENOBUFS, ENOMEM or ETOOMANYREFS, the socket may be
 * ready to be written all the same: then do not poll for POLLOUT, and flush again some milliseconds later. */
bool waywire_connection_wants_write(const waywire_connection *connection);

/* Whether `fill` would read. It does not while messages that were read are not dispatched. */
bool waywire_connection_wants_read(const waywire_connection *connection);

/* Sends what waits, as wl_display_flush does. Returns 0 when everything has been sent. Returns -1 with errno:
 * EAGAIN if the socket takes no more now; at a client EPIPE or ECONNRESET, from then on, if the compositor has
 * closed the connection, which can still be read and may say why; else as waywire_connection_dispatch. */
int waywire_connection_flush(waywire_connection *connection);

/* Receives once. Returns 1, or 0 if nothing is there yet, or if messages are still to be
 * dispatched. Returns -1 with errno, and the connection has ended: EPIPE if the other end has closed it;
 * EPROTO if descriptors came that belong to no message; else as waywire_socket_receive. After ENOMEM
 * the connection goes on. */
int waywire_connection_fill(waywire_connection *connection);

/* Calls the callbacks for all messages that were read, and announces globals. Returns how many messages there
 * were; -1 with errno as waywire_connection_dispatch. */
int waywire_connection_dispatch_pending(waywire_connection *connection);

/* Why a connection has ended. */
typedef struct waywire_failure {
	int error;    /* the errno of each call since then: EPROTO, EPIPE, .. */
	uint32_t kind; /* WAYWIRE_FAULT if a message that came broke a rule, WAYWIRE_ERROR if
	                * wl_display.error came, else WAYWIRE_NOTHING */
	waywire_status status; /* of WAYWIRE_FAULT: the rule */
	uint32_t id;   /* of WAYWIRE_ERROR: the id of the object that the error is about */
	uint32_t code; /* of WAYWIRE_ERROR */
	const char *text; /* in English, as `wl_surface@4: error 2: bad scale` */
} waywire_failure;

/* Why a connection has ended, valid until it is closed; null if it has not. */
const waywire_failure *waywire_connection_failure(const waywire_connection *connection);

#ifdef __cplusplus
}
#endif

#endif
