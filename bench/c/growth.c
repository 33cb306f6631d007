/* What a libwayland-client takes to connect, and to bind interfaces that it does not know, one after another.
 *
 *     growth COUNT
 *
 * Prints the nanoseconds of processor time for the connection with its first round trip, and for COUNT binds, each of
 * another interface with ten requests and ten events. */
#define _GNU_SOURCE
#include "../../tests/libwayland/compositor.h"

#include <time.h>

#define MESSAGES 10

static uint64_t nanoseconds(void)
{
	struct timespec now;
	clock_gettime(CLOCK_PROCESS_CPUTIME_ID, &now);
	return (uint64_t)now.tv_sec * 1000000000 + (uint64_t)now.tv_nsec;
}

static uint64_t connect_once(const char *program)
{
	int socket = start_compositor(program, 0);
	uint64_t before = nanoseconds();
	display = wl_display_connect_to_fd(socket);
	MUST(display);
	registry = wl_display_get_registry(display);
	wl_registry_add_listener(registry, &of_registry, NULL);
	MUST(wl_display_roundtrip(display) >= 0 && compositor);
	return nanoseconds() - before;
}

int main(int argc, char **argv)
{
	if (is_compositor(argc, argv))
		return 0;
	MUST(argc == 2);
	int count = atoi(argv[1]);
	static const struct wl_interface *no_types[3];
	struct wl_message messages[MESSAGES];
	struct wl_interface *interfaces = calloc((size_t)count + 1, sizeof *interfaces);
	struct wl_proxy **proxies = calloc((size_t)count + 1, sizeof *proxies);
	char (*names)[24] = calloc((size_t)count + 1, sizeof *names);
	MUST(interfaces && proxies && names);
	for (int i = 0; i < MESSAGES; i++)
		messages[i] = (struct wl_message){ "message", "uuu", no_types };
	for (int i = 0; i < count; i++) {
		snprintf(names[i], sizeof names[i], "interface_%d", i);
		interfaces[i] = (struct wl_interface){ names[i], 1, MESSAGES, messages, MESSAGES, messages };
	}
	uint64_t connection = connect_once(argv[0]), before = nanoseconds();
	for (int i = 0; i < count; i++)
		MUST(proxies[i] = wl_registry_bind(registry, (uint32_t)i + 2, &interfaces[i], 1));
	printf("%lu %lu\n", (unsigned long)connection, (unsigned long)(nanoseconds() - before));
	MUST(wl_display_roundtrip(display) >= 0);
	for (int i = 0; i < count; i++)
		wl_proxy_destroy(proxies[i]);
	disconnect();
	free(interfaces);
	free(proxies);
	free(names);
	return 0;
}
