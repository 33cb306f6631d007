/* A clipboard, whichever protocol a client speaks: what clipboard.c and data-device.c share. */
#ifndef CLIPBOARD_H
#define CLIPBOARD_H

#include "server.h"

/* The most types of one source, and the longest name of a type: others are not offered. So all that
 * an offer says fits an outbox. */
#define MOST_TYPES 64
#define LONGEST_TYPE 255

/* What differs between the two protocols: rules, and the numbers of their messages. */
struct clipboard_protocol {
	bool needs_focus; /* a device gets the selection while its client has the focus */
	bool sets_once;   /* a source that was the selection cannot be set again */
	uint16_t data_offer, selection;               /* events of a device */
	uint16_t offer;                               /* an event of an offer */
	uint16_t send, cancelled;                     /* events of a source */
	uint16_t create_data_source, get_data_device; /* requests of a manager */
	uint16_t offers;                              /* a request of a source */
	uint16_t start_drag, set_selection;           /* requests of a device */
	uint16_t receive;                             /* a request of an offer */
};

/* What a client has to offer, in so many types: data of its source. */
struct source {
	struct client *client;
	const struct clipboard_protocol *protocol;
	waywire_object object;
	uint64_t number; /* of all sources, from 1 on */
	bool was_set;    /* as the selection */
	size_t count;
	char *types[MOST_TYPES];
};

/* Who gets the selection: data of a device. */
struct device {
	struct device *next;
	struct client *client;
	const struct clipboard_protocol *protocol;
	waywire_object object;
	uint64_t sent; /* the last change of the selection that it knows */
};

/* An offer of a source, which may be gone: data of the offer's object. */
struct offer {
	uint64_t source; /* its number */
};

/* Sends an event that makes no object. */
waywire_status send_event(const struct client *client, waywire_object object, uint16_t event,
	const waywire_arg *args, size_t count);

/* Gives a new object its data. */
void new_source(struct client *client, waywire_object object,
	const struct clipboard_protocol *protocol);
void new_device(struct client *client, waywire_object object,
	const struct clipboard_protocol *protocol);

/* What the requests do. */
void add_type(struct source *source, const char *type);
void set_selection(struct device *device, waywire_object source);
void receive(const struct offer *offer, const char *type, int fd);

/* Sends the selection to devices that do not know it: to all of them, and to those of a client that
 * is about to get the focus. */
void send_selections(void);
void send_selection_at_focus(struct client *client);

/* Serves the client's objects of both protocols. */
void serve_clipboard(struct client *client);

#endif
