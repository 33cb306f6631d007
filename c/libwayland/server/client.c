/* Clients: their ends, their sockets, and how they go. See server.h. */
#define _GNU_SOURCE
#include "server.h"

#include <errno.h>
#include <stdlib.h>
#include <string.h>
#include <sys/socket.h>

#define OUTBOX 4096

/* libwayland sends at most 28 descriptors at once; one whose buffers grow may do so several times before it sends
 * the bytes of their messages. */
static const waywire_sizes client_sizes = { OUTBOX, 64, 4096, 256, WAYWIRE_USUAL_LIMIT };

/* ---- the end */

/* The end is made late, so that its tables have the interfaces of all globals that a compositor makes as it starts. */
waywire_end *client_end(struct wl_client *client)
{
	if (client->server.end)
		return client->server.end;
	if (!tables_learn_globals(client->display)
		|| waywire_server_new(client->display->tables, &client_sizes, &client->server))
		return NULL;
	waywire_server_allow_globals(client->server, WAYWIRE_MOST_GLOBALS);
	waywire_end_on_full(client->server.end, client_make_room, client);
	if (client->display_resource)
		client->display_resource->handle = waywire_end_display(client->server.end);
	return client->server.end;
}

void client_fail(struct wl_client *client)
{
	client->has_failed = true;
	client->wants_flush = true; /* once its socket takes what waits, the client goes */
}

/* ---- sending */

int client_send_waiting(struct wl_client *client)
{
	if (backlog_send(&client->backlog, client->fd))
		return -1;
	return waywire_socket_flush(client->fd, client->server.end);
}

static size_t waiting_bytes(const struct wl_client *client)
{
	return OUTBOX - waywire_end_out_room(client->server.end).bytes;
}

bool client_make_room(void *data)
{
	struct wl_client *client = data;
	size_t before = waiting_bytes(client);
	if (!client_send_waiting(client))
		return true;
	if (errno != EAGAIN)
		return false;
	if (waiting_bytes(client) < before)
		return true;
	if (client->most_waiting && client->backlog.bytes + before + OUTBOX > client->most_waiting)
		return false;
	client->wants_flush = true; /* the backlog waits for its socket */
	return backlog_take(&client->backlog, client->server.end);
}

/* As libwayland, it does not wake a client for delete_ids and queued events alone. */
static int flush(struct wl_client *client)
{
	if (!client->wants_flush || !client->server.end)
		return 0;
	if (client_send_waiting(client))
		return -1;
	client->wants_flush = false;
	return 0;
}

EXPORT void wl_client_flush(struct wl_client *client)
{
	flush(client);
}

EXPORT void wl_display_flush_clients(struct wl_display *display)
{
	struct wl_client *client, *next;
	wl_list_for_each_safe(client, next, &display->clients, link) {
		if (!flush(client))
			continue;
		if (errno == EAGAIN)
			wl_event_source_fd_update(client->source,
				WL_EVENT_WRITABLE | WL_EVENT_READABLE);
		else
			wl_client_destroy(client);
	}
}

EXPORT void wl_client_set_max_buffer_size(struct wl_client *client, size_t most)
{
	client->most_waiting = most;
}

EXPORT void wl_display_set_default_max_buffer_size(struct wl_display *display, size_t most)
{
	display->most_waiting = most;
}

/* ---- the socket */

/* Destroys a client, and says why. Returns 1, for its socket's function. */
static int destroy_for(struct wl_client *client, const char *why)
{
	log_line("%s (pid %u)\n", why, (unsigned)client->pid);
	wl_client_destroy(client);
	return 1;
}

static int on_socket(int fd, uint32_t mask, void *data)
{
	struct wl_client *client = data;
	(void)fd;
	if (mask & WL_EVENT_HANGUP) {
		wl_client_destroy(client);
		return 1;
	}
	if (mask & WL_EVENT_ERROR)
		return destroy_for(client, "socket error");
	if (mask & WL_EVENT_WRITABLE) {
		if (!flush(client))
			wl_event_source_fd_update(client->source, WL_EVENT_READABLE);
		else if (errno != EAGAIN)
			return destroy_for(client, "failed to flush client connection");
	}
	if (mask & WL_EVENT_READABLE) {
		ssize_t came = requests_read(client);
		if (!came || (came < 0 && errno != EAGAIN))
			return destroy_for(client, "failed to read client connection");
	}
	if (client->has_failed)
		return destroy_for(client, "error in client communication");
	return 1;
}

/* ---- wl_display */

static void sync_display(struct wl_client *client, struct wl_resource *display, uint32_t id)
{
	union wl_argument arg;
	struct wl_resource *callback = wl_resource_create(client, &wl_callback_interface, 1, id);
	if (!callback) {
		wl_resource_post_no_memory(display);
		return;
	}
	arg.u = wl_display_get_serial(client->display);
	wl_resource_post_event_array(callback, 0, &arg);
	wl_resource_destroy(callback);
}

static void get_registry(struct wl_client *client, struct wl_resource *display, uint32_t id)
{
	globals_get_registry(client, display, id);
}

/* The functions for the requests of wl_display. */
static const struct {
	void (*sync)(struct wl_client *, struct wl_resource *, uint32_t);
	void (*get_registry)(struct wl_client *, struct wl_resource *, uint32_t);
} display_requests = { sync_display, get_registry };

static void forget_display(struct wl_resource *resource)
{
	resource->client->display_resource = NULL;
}

/* Makes the resource of wl_display, which every client has. False without memory. */
static bool make_display(struct wl_client *client)
{
	struct slot *slot = slot_make(client, 1);
	if (!slot)
		return false;
	slot->is_fresh = true;
	client->display_resource = wl_resource_create(client, &wl_display_interface, 1, 1);
	if (client->display_resource)
		wl_resource_set_implementation(client->display_resource, &display_requests, client,
			forget_display);
	return client->display_resource;
}

/* ---- making and destroying */

/* Asks who is at the other side. False with errno. */
static bool read_credentials(struct wl_client *client)
{
	struct ucred credentials;
	socklen_t length = sizeof credentials;
	if (getsockopt(client->fd, SOL_SOCKET, SO_PEERCRED, &credentials, &length) < 0)
		return false;
	client->pid = credentials.pid;
	client->uid = credentials.uid;
	client->gid = credentials.gid;
	return true;
}

/* Frees what a client has besides its resources and its socket. */
static void free_client(struct wl_client *client)
{
	free(client->of_client.at);
	free(client->of_server.at);
	free(client->globals);
	free(client);
}

EXPORT struct wl_client *wl_client_create(struct wl_display *display, int fd)
{
	struct wl_client *client = calloc(1, sizeof *client);
	if (!client)
		return NULL;
	client->display = display;
	client->fd = fd;
	client->most_waiting = display->most_waiting;
	wl_list_init(&client->backlog.parcels);
	signal_init(&client->destroy);
	signal_init(&client->destroy_late);
	signal_init(&client->resource_created);
	client->source = wl_event_loop_add_fd(display->loop, fd, WL_EVENT_READABLE, on_socket, client);
	if (!client->source || !read_credentials(client) || !make_display(client)) {
		int error = errno;
		if (client->source)
			wl_event_source_remove(client->source);
		free_client(client);
		errno = error;
		return NULL;
	}
	wl_list_insert(display->clients.prev, &client->link);
	wl_signal_emit_mutable(&display->client_created, client);
	return client;
}

/* What listens to a resource may destroy others, and make new ones. */
static void end_resources(struct slots *slots)
{
	for (uint32_t i = 0; i < slots->count; i++)
		if (slots->at[i].resource)
			resource_end(slots->at[i].resource);
}

/* The resources go in the order of their ids, that of wl_display first: so nothing is written from then on. */
EXPORT void wl_client_destroy(struct wl_client *client)
{
	signal_emit_last(&client->destroy, client);
	flush(client);
	end_resources(&client->of_client);
	end_resources(&client->of_server);
	wl_event_source_remove(client->source);
	backlog_drop(&client->backlog);
	waywire_socket_close(client->fd, client->server.end);
	waywire_end_free(client->server.end);
	client->server.end = NULL;
	signal_emit_last(&client->destroy_late, client);
	wl_list_remove(&client->link);
	if (client->destroy_data)
		client->destroy_data(client->data);
	free_client(client);
}

/* As in libwayland, clients that are made meanwhile stay. */
EXPORT void wl_display_destroy_clients(struct wl_display *display)
{
	struct wl_list before;
	wl_list_init(&before);
	wl_list_insert_list(&before, &display->clients);
	wl_list_init(&display->clients);
	while (!wl_list_empty(&before)) {
		struct wl_client *client = wl_container_of(before.next, client, link);
		wl_client_destroy(client);
	}
	if (!wl_list_empty(&display->clients))
		log_line("wl_display_destroy_clients: cannot destroy all clients because new ones were "
			"created by destroy callbacks\n");
}

/* ---- what compositors ask */

EXPORT struct wl_display *wl_client_get_display(struct wl_client *client)
{
	return client->display;
}

EXPORT int wl_client_get_fd(struct wl_client *client)
{
	return client->fd;
}

EXPORT struct wl_list *wl_client_get_link(struct wl_client *client)
{
	return &client->link;
}

EXPORT struct wl_client *wl_client_from_link(struct wl_list *link)
{
	struct wl_client *client = wl_container_of(link, client, link);
	return client;
}

EXPORT struct wl_list *wl_display_get_client_list(struct wl_display *display)
{
	return &display->clients;
}

EXPORT void wl_client_get_credentials(struct wl_client *client, pid_t *pid, uid_t *uid, gid_t *gid)
{
	if (pid)
		*pid = client->pid;
	if (uid)
		*uid = client->uid;
	if (gid)
		*gid = client->gid;
}

EXPORT void wl_client_add_destroy_listener(struct wl_client *client, struct wl_listener *listener)
{
	signal_add(&client->destroy, listener);
}

EXPORT struct wl_listener *wl_client_get_destroy_listener(struct wl_client *client,
	wl_notify_func_t notify)
{
	return signal_get(&client->destroy, notify);
}

EXPORT void wl_client_add_destroy_late_listener(struct wl_client *client,
	struct wl_listener *listener)
{
	signal_add(&client->destroy_late, listener);
}

EXPORT struct wl_listener *wl_client_get_destroy_late_listener(struct wl_client *client,
	wl_notify_func_t notify)
{
	return signal_get(&client->destroy_late, notify);
}

EXPORT void wl_client_add_resource_created_listener(struct wl_client *client,
	struct wl_listener *listener)
{
	signal_add(&client->resource_created, listener);
}

EXPORT void wl_client_set_user_data(struct wl_client *client, void *data,
	wl_user_data_destroy_func_t destroy)
{
	if (client->destroy_data)
		client->destroy_data(client->data);
	client->data = data;
	client->destroy_data = destroy;
}

EXPORT void *wl_client_get_user_data(struct wl_client *client)
{
	return client->data;
}
