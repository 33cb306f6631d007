/* What the files of c/libwayland/server share: a libwayland-server built on the server of waywire.h.
 *
 * A display has the tables for all of its clients. A client has a server, its end, which reads its requests and
 * writes its events. Each object of the end has at most one resource, which leads to it by its `handle`; the id of
 * an object leads to its resource. No request destroys an object at the end: wl_resource_destroy ends it. */
#ifndef WAYWIRE_WAYLAND_SERVER_H
#define WAYWIRE_WAYLAND_SERVER_H

#include "arguments.h"
#include "backlog.h"
#include "log.h"
#include "structs.h"
#include "wayland-server-abi.h"

#include <sys/types.h>
#include <waywire-socket.h>

/* The opcodes, codes and indices of the core that the library uses itself. */
enum { DISPLAY_ERROR, DISPLAY_DELETE_ID };
enum { INVALID_OBJECT, INVALID_METHOD, NO_MEMORY, IMPLEMENTATION };
enum { REGISTRY_GLOBAL, REGISTRY_GLOBAL_REMOVE };
#define REGISTRY_BIND 0
#define REGISTRY_INDEX 1

/* ---- what the types of libwayland-server are here */

/* The fields up to `data` are those of a struct that old headers show, and Mesa looks at. */
struct wl_resource {
	struct wl_object object;
	wl_resource_destroy_func_t destroy;
	struct wl_list link; /* the compositor's */
	struct wl_signal destroy_signal;
	struct wl_client *client;
	void *data;

	int version;
	wl_dispatcher_func_t dispatcher;
	waywire_object handle; /* its object at the end; id 0 until the event that makes it is written */
	const struct known_interface *known; /* its interface; null if tables cannot have it */
};

/* What is known of an id. */
struct slot {
	struct wl_resource *resource;
	uint64_t birth; /* of the object */
	bool is_fresh;  /* a request made the object, and no resource was made for it yet */
};

/* The objects of one of the two ranges of ids. */
struct slots {
	struct slot *at;
	uint32_t count, room;
};

struct wl_client {
	struct wl_display *display;
	struct wl_list link;
	int fd;
	pid_t pid;
	uid_t uid;
	gid_t gid;
	struct wl_event_source *source;
	waywire_server server; /* its end is null until it is needed */
	struct backlog backlog;
	size_t most_waiting;   /* how many bytes may wait behind the socket; 0 is no limit */
	struct slots of_client, of_server;
	struct wl_resource *display_resource; /* null once the client is being destroyed */
	struct wl_signal destroy, destroy_late, resource_created;
	struct wl_global **globals; /* by their names at the end; null for one that is destroyed */
	uint32_t global_count;
	bool has_registry; /* the globals are added to the end */
	bool has_failed;   /* nothing more is read and written, and the connection ends with the next dispatch */
	bool wants_flush;  /* an event was posted, and not only queued */
	void *data;
	wl_user_data_destroy_func_t destroy_data;
};

struct wl_display {
	struct wl_event_loop *loop;
	bool is_running;
	int wake_fd; /* ends the wait of wl_display_run */
	struct wl_event_source *wake;
	uint32_t serial, last_global;
	struct wl_list globals, sockets, clients, loggers;
	struct wl_signal destroy, client_created;
	struct wl_array shm_formats;
	wl_display_global_filter_func_t filter;
	void *filter_data;
	size_t most_waiting;
	waywire_tables *tables; /* of all known interfaces; the end of each client has the same */
	struct known_interfaces known;
	bool has_new_globals; /* whose interfaces may be unknown */
};

struct wl_global {
	struct wl_display *display;
	const struct wl_interface *interface;
	uint32_t name; /* in the library's own lines; each client's end has a name of its own */
	int version;
	void *data;
	wl_global_bind_func_t bind;
	struct wl_list link;
	bool is_removed;
	bool is_refused; /* tables cannot have its interface */
};

/* ---- signals (signal.c) */

void signal_init(struct wl_signal *signal);
void signal_add(struct wl_signal *signal, struct wl_listener *listener);
struct wl_listener *signal_get(struct wl_signal *signal, wl_notify_func_t notify);

/* Calls each listener once, after taking it out of the list. */
void signal_emit_last(struct wl_signal *signal, void *data);

/* ---- what is printed (log.c) */

/* Whether messages are printed, or a logger wants them. Each request and each event asks, so it is no call. */
static inline bool log_is_watching(const struct wl_display *display)
{
	return is_debugging() || display->loggers.next != &display->loggers;
}

/* Prints a message and calls the loggers with it. The `n` of a message is an id, in both directions. */
void log_tell(struct wl_resource *resource, const struct wl_message *message, uint32_t opcode,
	const union wl_argument *args, bool is_event);

/* ---- tables (tables.c) */

/* Makes the tables that a display begins with. False with errno. */
bool tables_init(struct wl_display *display);

void tables_end(struct wl_display *display);

/* Finds an interface; the tables and the ends of all clients get it if they lack it. Null with errno if that cannot
 * be; then it has said why unless memory is lacking. */
const struct known_interface *tables_learn(struct wl_display *display,
	const struct wl_interface *interface);

/* Gives the tables, and the ends of all clients, the interfaces of all globals, as far as tables can have them. False
 * without memory. */
bool tables_learn_globals(struct wl_display *display);

/* ---- sockets (sockets.c) */

void sockets_close(struct wl_display *display);

/* ---- globals (globals.c) */

/* wl_display.get_registry. */
void globals_get_registry(struct wl_client *client, struct wl_resource *display, uint32_t id);

/* Whether a bind is refused. Then the client was told why. */
bool globals_refuse(struct wl_resource *registry, uint32_t name, const char *interface,
	uint32_t version);

void globals_free(struct wl_display *display);

/* ---- clients (client.c) */

/* The end of a client, which is made when it is first needed. Null without memory. */
waywire_end *client_end(struct wl_client *client);

/* Ends the connection with the next dispatch. */
void client_fail(struct wl_client *client);

/* Sends what waits. Returns 0, or -1 with errno. */
int client_send_waiting(struct wl_client *client);

/* Makes room in a full outbox of a wl_client: the socket takes some of it, or it becomes part of the backlog. False
 * with errno: EAGAIN if the socket takes nothing and no more may wait. */
bool client_make_room(void *client);

/* What is known of an id; null if nothing ever was. `slot_make` makes the slot: null without memory. */
struct slot *slot_find(struct wl_client *client, uint32_t id);
struct slot *slot_make(struct wl_client *client, uint32_t id);

/* The resource with an id; null if there is none. */
struct wl_resource *client_resource(struct wl_client *client, uint32_t id);

/* ---- resources (resource.c) */

/* Calls what listens to the end of a resource, takes the resource from its id, and frees it. */
void resource_end(struct wl_resource *resource);

/* Gives a resource the object that an event has made for it. False without memory. */
bool resource_adopt(struct wl_resource *resource, waywire_object made);

/* ---- requests (request.c) */

/* Reads what came from a client, and calls the handlers of all requests that are whole. Returns as recvmsg does. */
ssize_t requests_read(struct wl_client *client);

#endif
