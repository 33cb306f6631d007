/* What the tests of connections share: both ends of one, in this process. */
#ifndef CONNECTED_H
#define CONNECTED_H

#include "descriptors.h"

static waywire_tables *tables;
static waywire_connection *client, *server;
static waywire_client requests;
static waywire_server events;
static waywire_wl_display display;

static inline void begin_client(int socket, const waywire_sizes *sizes)
{
	client = waywire_connection_of_client(tables, sizes, socket);
	MUST(client && waywire_connection_fd(client) == socket);
	requests = waywire_connection_client(client);
	display = waywire_wl_display_of(waywire_end_display(requests.end));
}

static inline void begin_server(int socket, const waywire_sizes *sizes)
{
	server = waywire_connection_of_server(tables, sizes, socket);
	MUST(server);
	events = waywire_connection_server(server);
}

static inline void begin_both(const waywire_sizes *of_client, const waywire_sizes *of_server)
{
	int sockets[2];
	make_pair(sockets);
	begin_client(sockets[0], of_client);
	begin_server(sockets[1], of_server);
}

static inline void end_both(void)
{
	waywire_connection_close(client);
	waywire_connection_close(server);
}

static inline waywire_wl_registry get_registry(void)
{
	waywire_wl_registry made;
	MUST(!waywire_wl_display_get_registry(requests, display, &made));
	return made;
}

#endif
