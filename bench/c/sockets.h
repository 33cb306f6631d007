/* What the programs over sockets share: two processes, their clock, and clients that only write. Each program defines
 * what is declared here. The words of a program:
 *
 *     PROGRAM CASE COUNT TIMES
 *
 * damage: COUNT times wl_surface.damage, and a round trip; motion: wl_surface.commit, which the server answers by COUNT
 * times wl_pointer.motion; frame: wl_surface.frame, damage and commit, answered by COUNT motions and by done; sync: a
 * round trip (COUNT is 1). TIMES says how often. latency: as sync; prints the median and the 99th percentile in
 * nanoseconds. clients: COUNT clients write two damages each, TIMES times, at one server; prints the nanoseconds of its
 * processor time for one message, and how many bytes of a connection are resident and allocated. */
#ifndef SOCKETS_H
#define SOCKETS_H

#define _GNU_SOURCE
#include <errno.h>
#include <malloc.h>
#include <stdbool.h>
#include <stdint.h>
#include <stdio.h>
#include <stdlib.h>
#include <string.h>
#include <sys/resource.h>
#include <sys/socket.h>
#include <sys/wait.h>
#include <time.h>
#include <unistd.h>

#define MUST(holds) \
	do { \
		if (!(holds)) { \
			fprintf(stderr, "%s:%d: %s (errno %d)\n", __FILE__, __LINE__, #holds, errno); \
			exit(1); \
		} \
	} while (0)

/* How many motions a server sends for each commit, and how many damages it has read. */
static uint64_t burst, damages;

/* Called before the processes part. */
static void begin(void);
/* Serves one client until it is gone. */
static void serve(int socket);
/* A client that does TIMES what a case says. */
static void open_client(int socket);
static void damage(uint64_t count);
static void motion(uint64_t count);
static void frame(uint64_t count);
static void sync_once(uint64_t count);
static void end_client(void);
/* Opens a server's connections, and reads what their clients write, at most once each. */
static void open_connections(const int *sockets, size_t count);
static void read_connections(void);

static uint64_t nanoseconds(clockid_t clock)
{
	struct timespec now;
	clock_gettime(clock, &now);
	return (uint64_t)now.tv_sec * 1000000000 + (uint64_t)now.tv_nsec;
}

static const struct {
	const char *name;
	void (*once)(uint64_t count);
} cases[] = { { "damage", damage }, { "motion", motion }, { "frame", frame }, { "sync", sync_once } };

static int by_size(const void *one, const void *other)
{
	uint64_t a = *(const uint64_t *)one, b = *(const uint64_t *)other;
	return a < b ? -1 : a > b;
}

static void print_latency(size_t times)
{
	uint64_t *taken = malloc(times * sizeof *taken);
	MUST(taken && times);
	for (size_t i = 0; i < times; i++) {
		uint64_t before = nanoseconds(CLOCK_MONOTONIC);
		sync_once(1);
		taken[i] = nanoseconds(CLOCK_MONOTONIC) - before;
	}
	qsort(taken, times, sizeof *taken, by_size);
	printf("%lu %lu\n", (unsigned long)taken[times / 2], (unsigned long)taken[times * 99 / 100]);
	free(taken);
}

static void run_both(const char *name, uint64_t count, size_t times)
{
	int sockets[2], status;
	size_t at = 0;
	MUST(!socketpair(AF_UNIX, SOCK_STREAM | SOCK_CLOEXEC, 0, sockets));
	burst = !strcmp(name, "motion") || !strcmp(name, "frame") ? count : 0;
	pid_t server = fork();
	MUST(server >= 0);
	close(sockets[server != 0]);
	if (!server) {
		serve(sockets[1]);
		exit(0);
	}
	open_client(sockets[0]);
	if (!strcmp(name, "latency")) {
		print_latency(times);
	} else {
		while (strcmp(cases[at].name, name))
			MUST(++at < sizeof cases / sizeof *cases);
		for (size_t i = 0; i < times; i++)
			cases[at].once(count);
		sync_once(1);
	}
	end_client();
	MUST(waitpid(server, &status, 0) == server && !status);
}

/* ---- many clients at one server */

/* wl_display.get_registry, a bind of the first global, wl_compositor, and its create_surface. */
static const uint32_t beginning[] = { 1, 12 << 16 | 1, 2, 2, 40 << 16, 1, 14, 0x635f6c77, 0x6f706d6f, 0x6f746973,
	0x72, 4, 3, 3, 12 << 16, 4 };
/* Two of wl_surface.damage. */
static const uint32_t two_damages[] = { 4, 24 << 16 | 2, 1, 2, 3, 4, 4, 24 << 16 | 2, 1, 2, 3, 4 };

static size_t resident(void)
{
	unsigned long all, pages;
	FILE *file = fopen("/proc/self/statm", "r");
	MUST(file && fscanf(file, "%lu %lu", &all, &pages) == 2);
	fclose(file);
	return pages * (size_t)sysconf(_SC_PAGESIZE);
}

/* Answers by a byte when each client's messages have been read. */
static void serve_clients(const int *sockets, size_t count, size_t times, int answers)
{
	size_t memory = resident(), allocated = mallinfo2().uordblks;
	open_connections(sockets, count);
	uint64_t begin = 0;
	for (size_t round = 0; round <= times; round++) {
		if (round == 1) {
			memory = resident() - memory;
			allocated = mallinfo2().uordblks - allocated;
			begin = nanoseconds(CLOCK_PROCESS_CPUTIME_ID);
		}
		while (damages < (round + 1) * 2 * count)
			read_connections();
		MUST(write(answers, "", 1) == 1);
	}
	printf("%lu %zu %zu\n",
		(unsigned long)((nanoseconds(CLOCK_PROCESS_CPUTIME_ID) - begin) / (times * 2 * count)),
		memory / count, allocated / count);
	fflush(stdout);
	_exit(0);
}

static void run_clients(size_t count, size_t times)
{
	int (*pairs)[2] = calloc(count, sizeof *pairs), *ours = calloc(count, sizeof *ours), answers[2], status;
	char answer;
	struct rlimit most = { 4 * count + 64, 4 * count + 64 }; /* libwayland duplicates them */
	MUST(pairs && ours && times && !setrlimit(RLIMIT_NOFILE, &most) && !pipe(answers));
	for (size_t i = 0; i < count; i++) {
		MUST(!socketpair(AF_UNIX, SOCK_STREAM | SOCK_CLOEXEC, 0, pairs[i]));
		ours[i] = pairs[i][1];
	}
	pid_t server = fork();
	MUST(server >= 0);
	if (!server)
		serve_clients(ours, count, times, answers[1]);
	close(answers[1]);
	for (size_t i = 0; i < count; i++)
		MUST(write(pairs[i][0], beginning, sizeof beginning) == sizeof beginning);
	for (size_t round = 0; round <= times; round++) {
		for (size_t i = 0; i < count; i++)
			MUST(write(pairs[i][0], two_damages, sizeof two_damages) == sizeof two_damages);
		MUST(read(answers[0], &answer, 1) == 1);
	}
	MUST(waitpid(server, &status, 0) == server && !status);
	free(pairs);
	free(ours);
}

int main(int argc, char **argv)
{
	MUST(argc == 4);
	uint64_t count = strtoull(argv[2], NULL, 10), times = strtoull(argv[3], NULL, 10);
	begin();
	if (!strcmp(argv[1], "clients"))
		run_clients(count, times);
	else
		run_both(argv[1], count, times);
	return 0;
}

#endif
