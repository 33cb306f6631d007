/* Plays a session in which one allocation of the compositor fails, for each in turn: that one alone, or with all later
 * ones. Prints a line for each after which a signal ended the process or a descriptor stayed open, and how many there
 * are. */
#define _GNU_SOURCE
#define COUNT_CLOSES
#include "session.h"

extern void *__libc_malloc(size_t), *__libc_calloc(size_t, size_t), *__libc_realloc(void *, size_t);

/* How many allocations succeed yet; below 0, all. */
static long left = -1;
static int for_ever, failed;

static int fails(void)
{
	if (left < 0)
		return 0;
	if (left > 0) {
		left--;
		return 0;
	}
	failed = 1;
	if (!for_ever)
		left = -1;
	errno = ENOMEM;
	return 1;
}

/* The library's allocations come here, too. */
void *malloc(size_t size)
{
	return fails() ? NULL : __libc_malloc(size);
}

void *calloc(size_t count, size_t size)
{
	return fails() ? NULL : __libc_calloc(count, size);
}

void *realloc(void *block, size_t size)
{
	return fails() ? NULL : __libc_realloc(block, size);
}

/* How a session ends: nothing failed; the client was ended; all was done that was asked; something was lost and the
 * client goes on; a descriptor stays open. */
enum { WHOLE, ENDED, UNNOTICED, LOST, OPEN };

/* Sends the session to a new client of the display. */
static struct heard play_client(struct peer *peer, struct wire *wire)
{
	int sockets[2];
	make_pair(sockets);
	memset(peer, 0, sizeof *peer);
	peer->socket = sockets[1];
	peer->client = wl_client_create(display, sockets[0]);
	if (!peer->client) {
		close(sockets[0]);
		peer->has_ended = true;
	}
	asks(peer, wire);
	return parse(NULL, peer);
}

static int play(const void *successes)
{
	static struct peer peer;
	static struct wire wire;
	struct heard heard = { 0 };
	int before = count_open();
	write_session(&wire);
	left = *(const long *)successes;
	display = wl_display_create();
	bool has_global = display && wl_global_create(display, &thing_interface, 1, NULL, binds_thing);
	if (has_global)
		heard = play_client(&peer, &wire);
	clear_wire(&wire);
	if (display)
		close_display();
	left = -1;
	if (has_global)
		close(peer.socket);
	if (count_open() != before || closed_twice || not_open)
		return OPEN;
	if (!failed)
		return WHOLE;
	if (peer.has_ended || !has_global || heard.errors)
		return ENDED;
	return calls == 9 && sum == 844 && heard.others == 3 ? UNNOTICED : LOST;
}

/* Plays until nothing fails. Returns how many went wrong. */
static int play_all(void)
{
	static const char *const said[] = {
		[LOST] = ": something is lost",
		[OPEN] = ": a descriptor is open, or was closed twice",
	};
	int wrong = 0, ended[UNNOTICED + 1] = { 0 };
	for (long successes = 0;; successes++) {
		int status = play_apart(play, &successes);
		if (WIFSIGNALED(status) || WEXITSTATUS(status) > UNNOTICED) {
			wrong++;
			printf("allocation %ld: signal %d, status %d%s\n", successes, WTERMSIG(status), WEXITSTATUS(status),
				WEXITSTATUS(status) == LOST || WEXITSTATUS(status) == OPEN ? said[WEXITSTATUS(status)] : "");
			fflush(stdout);
			MUST(successes < 20000);
			continue;
		}
		ended[WEXITSTATUS(status)]++;
		if (WEXITSTATUS(status) == WHOLE)
			break;
	}
	printf("%s: %d allocations, %d ended the client, %d unnoticed, %d wrong\n",
		for_ever ? "from one on" : "one alone", ended[ENDED] + ended[UNNOTICED] + wrong, ended[ENDED],
		ended[UNNOTICED], wrong);
	fflush(stdout);
	return wrong;
}

int main(void)
{
	wl_log_set_handler_server(quiet);
	int wrong = play_all();
	for_ever = 1;
	wrong += play_all();
	return wrong != 0;
}
