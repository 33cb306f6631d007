/* Makes ends with queues of 4 KB and 28 tokens, so that the memory of one can be counted.
 *
 *     memory client|server COUNT */
#include "../../tests/c/must.h"
#include <string.h>

int main(int argc, char **argv)
{
	const waywire_sizes sizes = { 4096, 28, 4096, 28, 0 };
	waywire_tables *tables;
	MUST(argc == 3);
	MUST(!waywire_tables_core(&tables));
	for (long left = atol(argv[2]); left > 0; left--) {
		waywire_client client = { NULL };
		waywire_server server = { NULL };
		if (!strcmp(argv[1], "client"))
			MUST(!waywire_client_new(tables, &sizes, &client));
		else
			MUST(!waywire_server_new(tables, &sizes, &server));
		waywire_end_free(client.end);
		waywire_end_free(server.end);
	}
	return 0;
}
