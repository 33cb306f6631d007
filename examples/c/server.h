/* What the files of the compositor share. */
#ifndef SERVER_H
#define SERVER_H

#include "xdg-shell.h"

#include <waywire-core.h>
#include <waywire-socket.h>

/* The most keyboards, and the most pointers, that a client has at a time. */
#define MOST_DEVICES 8

/* A surface that is shown as a window; none if the ids are 0. */
struct window {
	waywire_wl_surface surface;
	waywire_xdg_toplevel toplevel;
};

/* A client, by its connection. A callback gets it as `data`, unless the object has data of its
 * own. */
struct client {
	struct client *next;
	waywire_connection *connection;
	waywire_server server;
	waywire_object keyboards[MOST_DEVICES], pointers[MOST_DEVICES];
	struct window window; /* the last one that has shown a picture */
	bool is_stuck;        /* it has no room for an event, since it does not read */
	bool has_asked;       /* it has sent a request */
};

/* ---- server.c */

/* The clients, the newest first. */
extern struct client *clients;

/* Exits unless a status is WAYWIRE_OK: for an event that answers a request. It has room, since half
 * of the outbox is free before each request. */
void must(waywire_status status);

/* The same for every other event, and for an answer that a callback sends after such events, which
 * may have filled the outbox. It is no failure if the event's object is gone, or older than the
 * event. A client without room for the event is ended later. */
void may(struct client *client, waywire_status status);

/* Ends the client by wl_display.error: no descriptor is left for what it asks for. */
void post_no_descriptor(struct client *client);

bool is_live(const struct client *client, waywire_object object);

/* Memory of zeros for data of an object, which are destroyed with it. */
void *new_data(struct client *client, waywire_object object, size_t size,
	void (*destroy)(void *data));

uint32_t next_serial(void);
uint32_t milliseconds(void);

/* ---- window.c */

/* Serves the client's surfaces, buffers and windows. */
void serve_windows(struct client *client);

/* ---- seat.c */

/* The client that has the keyboard and the pointer, over its window; null if none has. */
extern struct client *focus;

/* Serves the client's keyboards and pointers. */
void serve_seat(struct client *client);

/* Gives the keyboard and the pointer to the client's window. */
void focus_on(struct client *client);

/* Gives them to another window if the one that had them is gone. */
void find_focus(void);

/* Takes them from a client that ends, and is no longer in the list. */
void leave_client(const struct client *client);

/* Plays one line of a script at the window that has the focus. */
void play(const char *line);

#endif
