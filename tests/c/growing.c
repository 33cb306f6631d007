/* What the growth of tables costs.
 *
 *     growing END COUNT   the tables of a client or a server grow COUNT times, all of it in `measured`, and prints how
 *                         often. The instructions are counted from outside
 *
 * END is `client`, `server` or `extended`: a client that also gets a message for the interface that came before. */
#include "must.h"

#include <string.h>

#define TEXT 1024

static const waywire_sizes sizes = { 4096, 64, 4096, 64, 0 };

/* An interface with ten requests and ten events; `extends` adds a request to the one before it. */
static size_t write_text(char *text, unsigned number, bool extends)
{
	size_t length = 0;
	if (extends && number)
		length += (size_t)sprintf(text, "extend interface_%u 2\nrequest more u\n", number - 1);
	length += (size_t)sprintf(text + length, "interface interface_%u 1\n", number);
	for (int i = 0; i < 20; i++)
		length += (size_t)sprintf(text + length, "%s message_%d u u u\n", i < 10 ? "request" : "event", i);
	MUST(length < TEXT);
	return length;
}

__attribute__((noinline)) void measured(waywire_end *end, unsigned count, bool extends);

void measured(waywire_end *end, unsigned count, bool extends)
{
	char text[TEXT];
	for (unsigned i = 0; i < count; i++)
		MUST(!waywire_end_more_tables(end, text, write_text(text, i, extends), NULL, NULL));
}

static waywire_end *made(const waywire_tables *tables, bool is_server)
{
	waywire_client client;
	waywire_server server;
	if (is_server) {
		MUST(!waywire_server_new(tables, &sizes, &server));
		return server.end;
	}
	MUST(!waywire_client_new(tables, &sizes, &client));
	return client.end;
}

int main(int argc, char **argv)
{
	waywire_tables *tables;
	uint16_t index;
	MUST(argc == 3 && !waywire_tables_core(&tables));
	unsigned count = (unsigned)atoi(argv[2]);
	waywire_end *end = made(tables, !strcmp(argv[1], "server"));
	waywire_tables_free(tables);
	measured(end, count, !strcmp(argv[1], "extended"));
	MUST(!waywire_tables_interface(waywire_end_tables(end), "interface_0", &index));
	waywire_end_free(end);
	printf("%u\n", count);
	return 0;
}
