/* What the files of c/libwayland share: a libwayland-client built on the client of waywire.h.
 *
 * A display has a client, which reads and writes its messages, and a lock, which every call takes before it uses
 * the client. Each object of the client has a proxy, which is what the client keeps as the user's pointer of the
 * object. What the client reports is copied into events, which wait in queues and are dispatched without the
 * lock. */
#ifndef WAYWIRE_WAYLAND_CLIENT_H
#define WAYWIRE_WAYLAND_CLIENT_H

#include "arguments.h"
#include "backlog.h"
#include "log.h"
#include "structs.h"
#include "wayland-client-abi.h"

#include <pthread.h>
#include <waywire-socket.h>

/* ---- what the types of libwayland-client are here */

/* The fields up to `queue_link` are laid out as in libwayland. A library that is preloaded, such as that of
 * gtk4-layer-shell, reads them, and passes in proxies of its own that have no others: the calls that such a proxy can
 * come to, those that listen and those that get or set a value, use only these fields. */
struct wl_proxy {
	struct wl_object object; /* Mesa looks for the interface here */
	struct wl_display *display;
	struct wl_event_queue *queue;   /* null once that is destroyed */
	uint32_t is_deleted : 1;        /* a flag of libwayland that is not used here */
	uint32_t is_destroyed : 1;      /* by the program */
	uint32_t is_wrapper : 1;        /* read without the lock */
	int references;                 /* the program's, the client's, and one of each event that has it */
	void *user_data;
	wl_dispatcher_func_t dispatcher;
	uint32_t version;
	const char *const *tag;
	struct wl_list queue_link;      /* in the queue's `proxies`; null if it is not attached */

	waywire_object handle; /* its object at the client; id 0 if there is none */
	const struct known_interface *known; /* its interface; null if it never had an object. Read without the lock */
	bool is_shown;         /* a listener had it as an argument */
	bool gets_descriptors; /* if messages are printed: whether its events can have any. Known once it is destroyed */
	bool is_held;          /* the client has it as the user's pointer of its object */
	bool is_registry;      /* read without the lock */
};

struct wl_event_queue {
	struct wl_list events;
	struct wl_list proxies; /* those whose events go into it */
	struct wl_display *display;
	char *name; /* null if it has none */
};

struct wl_display {
	struct wl_proxy proxy; /* first, since a display is a proxy, too */
	waywire_client client;
	int fd;
	struct backlog backlog;
	size_t most_waiting; /* how many bytes may wait behind the socket; 0 is no limit */
	int last_error; /* an errno; 0 while the connection goes on */
	struct {
		const struct wl_interface *interface;
		uint32_t id, code;
	} protocol_error;
	struct wl_event_queue display_queue, default_queue;
	pthread_mutex_t mutex;
	pthread_cond_t has_read;
	int reader_count;     /* threads that have prepared to read */
	uint32_t read_serial; /* goes on whenever those that wait for a reader are woken */
	int deleted_count;    /* delete_id that were read, and that no dispatch has counted */
	struct known_interfaces known;
};

/* ---- tables (tables.c) */

/* Makes the client of a display, with the tables that every display begins with. False with errno. */
bool tables_make_client(struct wl_display *display, const waywire_sizes *sizes);

/* Whether the client's tables agree with an interface: they have all its messages, with the same
 * arguments. Then it is known. Otherwise sets errno, and says why on stderr unless memory is lacking. */
bool tables_agree(struct wl_display *display, const struct wl_interface *interface);

/* Adds to the client's tables what they lack of an interface, and of all interfaces that its messages name. False
 * with errno if that cannot be, or if the interface contradicts the tables; then it has said why on stderr.
 * Reports become invalid. */
bool tables_learn(struct wl_display *display, const struct wl_interface *interface);

/* ---- proxies (proxy.c) */

/* Attaches a proxy to a queue, or to none, and detaches it from the one that it had. */
void proxy_attach(struct wl_proxy *proxy, struct wl_event_queue *queue);

/* Makes a proxy without an object, for one that `factory` makes. Null with errno. */
struct wl_proxy *proxy_create(struct wl_proxy *factory, const struct wl_interface *interface,
	uint32_t version);

/* Gives a proxy of a known interface an object of the client. The display fails if there is no memory for that. */
void proxy_give_object(struct wl_proxy *proxy, waywire_object object);

/* Ends the client's reference to a proxy, if it has one: the object is gone. */
void proxy_let_go(struct wl_proxy *proxy);

void proxy_release(struct wl_proxy *proxy);

/* What wl_proxy_destroy does. The lock is taken. */
void proxy_destroy(struct wl_proxy *proxy);

/* The proxy of an object that a report names; null if it has none, or if the program has destroyed
 * it. */
struct wl_proxy *proxy_of(const struct wl_display *display, waywire_object object);

/* ---- the connection (display.c) */

/* Ends the connection for good with an errno, unless it has ended already, and wakes all
 * readers. */
void display_fail(struct wl_display *display, int error);

/* Wakes the threads that wait for another to read. */
void reading_wake(struct wl_display *display);

/* Sends what waits. Returns 0, or -1 with errno. The lock is taken. */
int display_flush(struct wl_display *display);

/* Makes room in a full outbox: the socket takes some of it, or it becomes part of the backlog. False with errno:
 * EAGAIN if the socket takes nothing and no more may wait. The lock is taken. */
bool display_make_room(struct wl_display *display);

/* How many bytes wait in the outbox. The lock is taken. */
size_t display_waiting_bytes(const struct wl_display *display);

/* Closes the descriptors of a report. */
void report_close_descriptors(const waywire_report *report);

/* ---- events (event.c) */

struct event {
	struct wl_list link;
	struct wl_proxy *proxy; /* its target */
	const struct wl_message *message;
	uint32_t opcode;
	bool was_delivered; /* its descriptors are the program's */
	bool is_stray;      /* a delete_id of no object */
	const struct signature *signature; /* of a known interface, or static */
	union wl_argument args[]; /* behind them lie the arrays, and then the bytes */
};

/* Puts what a report says into a queue. `length` is how many bytes the message had, if messages are
 * printed. Its descriptors are the event's then, or closed. -1 with errno if the connection has to
 * end. */
int event_take(struct wl_display *display, const waywire_report *report, size_t length);

/* Takes the first event out of a queue, and calls its listener. The lock is taken, and given up during the call. */
void queue_dispatch_first(struct wl_display *display, struct wl_event_queue *queue);

/* Drops all events of a queue. */
void queue_drain(struct wl_event_queue *queue);

void queue_init(struct wl_event_queue *queue, struct wl_display *display);

/* Detaches the proxies of a queue. */
void queue_detach_all(struct wl_event_queue *queue);

/* ---- what is printed (log.c) */

/* Prints the line of an event whose object has no proxy any more, so its message is not known:
 *
 *     [1234567.890] discarded [zombie]@3.[event 1](0 fd, 12 byte)
 *
 * `is_known` says whether libwayland would know the id as a zombie. If not, the line has
 * [unknown]. */
void log_discarded(bool is_known, uint32_t id, uint32_t opcode, size_t descriptors,
	size_t bytes);

#endif
