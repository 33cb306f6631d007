/* Connections that are broken or closed while descriptors wait: each descriptor is closed, and none twice. */
#define _GNU_SOURCE
#include "descriptors.h"

#include <errno.h>

#define MOST WAYWIRE_SOCKET_DESCRIPTORS

struct link {
	int socket;
	waywire_end *end;
};

static const waywire_sizes sizes = { 4096, 64, 4096, 64 };
static waywire_tables *tables;

/* A server at one end of a new pair of sockets; returns the other. */
static int serve(struct link *link, waywire_server *server)
{
	int sockets[2];
	make_pair(sockets);
	link->socket = sockets[0];
	MUST(!waywire_server_new(tables, &sizes, server));
	link->end = server->end;
	return sockets[1];
}

static void end(struct link *link)
{
	waywire_socket_close(link->socket, link->end);
	waywire_end_free(link->end);
}

/* Sends bytes with as many descriptors as go at once. */
static void send_with_descriptors(int socket, const void *bytes, size_t length)
{
	waywire_part parts[2] = { { (void *)bytes, length }, { NULL, 0 } };
	int descriptors[MOST];
	for (int i = 0; i < MOST; i++)
		descriptors[i] = new_descriptor(i);
	MUST(waywire_socket_send(socket, parts, descriptors, MOST) == (ssize_t)length);
	for (int i = 0; i < MOST; i++)
		close(descriptors[i]);
}

/* A client that breaks a rule gets an error; its descriptors are closed. */
static void broken(const void *bytes, size_t length)
{
	struct link link;
	waywire_server server;
	waywire_report report;
	unsigned char error[256];
	int client = serve(&link, &server);
	int before = count_open();
	send_with_descriptors(client, bytes, length);
	MUST(waywire_socket_fill(link.socket, link.end) == (ssize_t)length && count_open() == before + MOST);
	MUST(waywire_is_fault(waywire_end_next(server.end, &report)));
	MUST(!waywire_socket_flush(link.socket, link.end));
	MUST(recv(client, error, sizeof error, MSG_DONTWAIT) >= 20);
	end(&link);
	MUST(count_open() == before - 1);
	close(client);
}

/* A client goes before its message is whole. */
static void cut_off(void)
{
	static const unsigned char half[] = { 1, 0, 0, 0 };
	struct link link;
	waywire_server server;
	waywire_report report;
	int client = serve(&link, &server);
	send_with_descriptors(client, half, sizeof half);
	close(client);
	MUST(waywire_socket_fill(link.socket, link.end) == sizeof half);
	MUST(!waywire_end_next(server.end, &report) && report.kind == WAYWIRE_NOTHING);
	MUST(!waywire_socket_fill(link.socket, link.end));
	end(&link);
	MUST(waywire_socket_fill(client, NULL) == -1 && errno == ENOBUFS);
	MUST(waywire_socket_flush(client, NULL) == -1 && errno == EINVAL);
}

int main(void)
{
	static const unsigned char bad_size[] = { 1, 0, 0, 0, 0, 0, 4, 0 };
	static const unsigned char unknown[] = { 9, 0, 0, 0, 0, 0, 8, 0 };
	MUST(!waywire_tables_core(&tables));
	int before = count_open();
	for (int i = 0; i < 20; i++) {
		broken(bad_size, sizeof bad_size);
		broken(unknown, sizeof unknown);
		cut_off();
		MUST(count_open() == before);
	}
	waywire_tables_free(tables);
	return 0;
}
