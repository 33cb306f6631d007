/* How many bytes one more client allocates at a compositor, over whichever libwayland-server the loader finds.
 *
 *     clients connected | idle | surfaces
 *
 * connected: the client has sent nothing; idle: it has a registry and wl_compositor; surfaces: ten surfaces, too. It is
 * the mean of the second hundred of clients. */
#define _GNU_SOURCE
#include "../../tests/libwayland/server/served.h"
#include <malloc.h>
#include <sys/resource.h>

#define CLIENTS 100
#define SURFACES 10

static struct peer peers[2 * CLIENTS];

static void open_client(struct peer *peer, int stage)
{
	struct wire wire = { 0 };
	if (stage == 0) {
		open_peer(peer);
		serve(peer);
		return;
	}
	open_with_compositor(peer, 4);
	for (uint32_t at = 0; stage == 2 && at < SURFACES; at++)
		put_message(&wire, COMPOSITOR, 0, 1, FIRST_FREE + at);
	asks(peer, &wire);
}

static size_t in_use(void)
{
	struct mallinfo2 now = mallinfo2();
	return now.uordblks + now.hblkhd;
}

int main(int argc, char **argv)
{
	static const char *const stages[] = { "connected", "idle", "surfaces" };
	struct rlimit most = { 4096, 4096 };
	int stage = 0;
	MUST(argc == 2);
	while (strcmp(stages[stage], argv[1]))
		MUST(++stage < 3);
	setrlimit(RLIMIT_NOFILE, &most);
	display = wl_display_create();
	MUST(display);
	add_compositor();
	for (int at = 0; at < CLIENTS; at++)
		open_client(&peers[at], stage);
	size_t before = in_use();
	for (int at = CLIENTS; at < 2 * CLIENTS; at++)
		open_client(&peers[at], stage);
	printf("%zu\n", (in_use() - before) / CLIENTS);
	close_display();
	return 0;
}
