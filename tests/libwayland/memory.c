/* Runs a session in which one allocation fails, for each allocation in turn: that one alone, or with all
 * later ones; and one that has no memory for what the socket does not take. Prints a line for each after which a signal ended the process or a descriptor stayed open, and how
 * many there are. */
#define _GNU_SOURCE
#define COUNT_CLOSES
#include "session.h"

extern void *__libc_malloc(size_t), *__libc_calloc(size_t, size_t), *__libc_realloc(void *, size_t);

/* How many allocations succeed yet; below 0, all. */
static long left = -1;
static int for_ever, failed;
/* Whether no allocation succeeds that is as large as an outbox. */
static int no_large;

static int fails(void)
{
	if (left < 0)
		return 0;
	if (left > 0) {
		left--;
		return 0;
	}
	failed = 1;
	if (!for_ever)
		left = -1;
	errno = ENOMEM;
	return 1;
}

/* The library's allocations come here, too. */
void *malloc(size_t size)
{
	if (no_large && size > 60000) {
		errno = ENOMEM;
		return NULL;
	}
	return fails() ? NULL : __libc_malloc(size);
}

void *calloc(size_t count, size_t size)
{
	return fails() ? NULL : __libc_calloc(count, size);
}

void *realloc(void *block, size_t size)
{
	return fails() ? NULL : __libc_realloc(block, size);
}

/* How a process ends. */
enum { LAWFUL, WITH_ERROR, UNNOTICED, OPEN };

/* Whether all came that the compositor said. */
static int is_whole(const struct session *session)
{
	return session->child && session->events == 11 && session->sum == 2039;
}

static int play(const void *successes)
{
	static struct wire wire;
	static struct session session;
	int before = count_open(), sockets[2], error = 0, status = 0;
	make_pair(sockets);
	write_session(&wire);
	left = *(const long *)successes;
	open_session(&session, sockets[0]);
	if (session.display) {
		send_wire(&wire, sockets[1]);
		for (int turn = 0; turn < 5 && session.events < 11 && status >= 0; turn++) {
			if (!wl_display_dispatch_pending(session.display))
				shutdown(sockets[1], SHUT_WR);
			status = wl_display_dispatch(session.display);
		}
		error = wl_display_get_error(session.display);
	}
	/* The library closes the socket even if connecting fails. */
	clear_wire(&wire);
	close_session(&session);
	left = -1;
	close(sockets[1]);
	if (count_open() != before || closed_twice || session.not_open)
		return OPEN;
	if (!failed)
		return LAWFUL;
	return error || status < 0 || !is_whole(&session) ? WITH_ERROR : UNNOTICED;
}

/* Plays until nothing fails. Returns how many went wrong. */
static int play_all(void)
{
	int wrong = 0, ended[4] = { 0 };
	for (long successes = 0;; successes++) {
		int status = play_apart(play, &successes);
		if (WIFSIGNALED(status) || WEXITSTATUS(status) > UNNOTICED) {
			wrong++;
			printf("allocation %ld: signal %d, status %d%s\n", successes, WTERMSIG(status),
				WEXITSTATUS(status), WIFEXITED(status) && WEXITSTATUS(status) == OPEN
				? ": a descriptor is open, or was closed twice" : "");
			fflush(stdout);
			MUST(successes < 20000);
			continue;
		}
		ended[WEXITSTATUS(status)]++;
		if (WEXITSTATUS(status) == LAWFUL)
			break;
	}
	printf("%s: %d allocations, %d with an error, %d unnoticed, %d wrong\n",
		for_ever ? "from one on" : "one alone", ended[WITH_ERROR] + ended[UNNOTICED] + wrong,
		ended[WITH_ERROR], ended[UNNOTICED], wrong);
	return wrong;
}

/* The compositor reads nothing, and there is no memory for what waits. */
static void play_full(void)
{
	int before = count_open(), sockets[2];
	make_pair(sockets);
	struct wl_display *display = wl_display_connect_to_fd(sockets[0]);
	MUST(display);
	no_large = 1;
	for (int count = 0; count < 1000000 && !wl_display_get_error(display); count++) {
		struct wl_callback *callback = wl_display_sync(display);
		if (callback)
			wl_callback_destroy(callback);
	}
	no_large = 0;
	MUST(wl_display_get_error(display) == ENOMEM);
	wl_display_disconnect(display);
	close(sockets[1]);
	MUST(count_open() == before && !closed_twice);
}

int main(void)
{
	wl_log_set_handler_client(quiet);
	play_full();
	int wrong = play_all();
	for_ever = 1;
	wrong += play_all();
	return wrong != 0;
}
