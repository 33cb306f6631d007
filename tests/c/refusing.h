/* Allocations that are refused. A program that has this is linked with `--wrap` for each function of memory. */
#ifndef REFUSING_H
#define REFUSING_H

#include "must.h"

#include <errno.h>

void *__real_malloc(size_t size);
void *__real_calloc(size_t count, size_t size);
void *__real_realloc(void *at, size_t size);
void __real_free(void *at);

static long used;      /* blocks that are not freed */
static long left = -1; /* allocations before one is refused; below 0 none is */
static long refused;

static bool refuses(void)
{
	if (left < 0 || left-- > 0)
		return false;
	refused++;
	errno = ENOMEM;
	return true;
}

void *__wrap_malloc(size_t size)
{
	void *at = refuses() ? NULL : __real_malloc(size);
	used += at != NULL;
	return at;
}

void *__wrap_calloc(size_t count, size_t size)
{
	void *at = refuses() ? NULL : __real_calloc(count, size);
	used += at != NULL;
	return at;
}

void *__wrap_realloc(void *at, size_t size)
{
	void *moved = refuses() ? NULL : __real_realloc(at, size);
	used += !at && moved;
	return moved;
}

void __wrap_free(void *at)
{
	used -= at != NULL;
	__real_free(at);
}

/* Refuses the first allocation of a call, then its second, and so on until it has all that it asks for. The call
 * returns whether it was made. `keeps`: what a refused call has written or kept is still in use. */
static inline void each_refused(const char *name, bool (*call)(void), bool keeps)
{
	long before = used, number = 0;
	bool is_made;
	do {
		left = number++;
		refused = 0;
		is_made = call();
		left = -1;
		MUST(is_made == !refused && (is_made || keeps || used == before));
	} while (refused);
	MUST(number > 1);
	printf("%s: %ld allocations\n", name, number - 1);
}

#endif
