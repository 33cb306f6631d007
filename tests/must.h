/* What all tests in C share. */
#ifndef TESTS_MUST_H
#define TESTS_MUST_H

#include <dirent.h>
#include <stdio.h>
#include <stdlib.h>
#include <sys/socket.h>

/* Ends the program with a line about what did not hold. */
#define MUST(holds) \
	do { \
		if (!(holds)) { \
			fprintf(stderr, "%s:%d: %s\n", __FILE__, __LINE__, #holds); \
			exit(1); \
		} \
	} while (0)

/* How many descriptors this process has. */
static inline int count_open(void)
{
	int count = 0;
	DIR *folder = opendir("/proc/self/fd");
	MUST(folder);
	while (readdir(folder))
		count++;
	closedir(folder);
	return count;
}

static inline void make_pair(int sockets[2])
{
	MUST(!socketpair(AF_UNIX, SOCK_STREAM | SOCK_CLOEXEC, 0, sockets));
}

#endif
