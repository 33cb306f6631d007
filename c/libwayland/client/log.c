/* What a client prints besides its messages: see client.h. */
#include "client.h"

#include <errno.h>
#include <stdio.h>

EXPORT void wl_log_set_handler_client(wl_log_func_t handler)
{
	log_set_handler(handler);
}

/* The id is printed as a signed number, as libwayland does. */
void log_discarded(bool is_known, uint32_t id, uint32_t opcode, size_t descriptors, size_t bytes)
{
	int error = errno;
	uint32_t time = log_time();
	fprintf(stderr, "[%7u.%03u] discarded [%s]@%d.[event %d](%d fd, %d byte)\n", time / 1000,
		time % 1000, is_known ? "zombie" : "unknown", (int)id, (int)opcode, (int)descriptors,
		(int)bytes);
	errno = error;
}
