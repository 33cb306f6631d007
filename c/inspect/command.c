/* The command: how it is started, how it ends, and the signals that stop the tool. */
#define _GNU_SOURCE
#include "inspect.h"

#include <signal.h>
#include <spawn.h>
#include <stdlib.h>
#include <sys/prctl.h>
#include <sys/resource.h>
#include <sys/wait.h>
#include <unistd.h>

/* This many descriptor numbers are kept free for the descriptors that pass. */
#define KEPT_FREE (2 * PIECE_DESCRIPTORS)
/* How many the tool and one client have open besides. */
#define ALWAYS_OPEN 16

volatile sig_atomic_t stopped_by, was_typed, child_ended, is_to_go_on;

/* ---- signals */

static void on_stop(int number, siginfo_t *info, void *context)
{
	(void)context;
	stopped_by = number;
	was_typed = info->si_code == SI_KERNEL; /* then the terminal has sent it to the command too */
}

static void on_child(int number)
{
	(void)number;
	child_ended = 1;
}

void take_signals(sigset_t *before)
{
	static const int stopping[] = { SIGINT, SIGTERM, SIGHUP };
	struct sigaction action = { .sa_flags = SA_SIGINFO };
	sigset_t blocked;
	sigemptyset(&blocked);
	sigaddset(&blocked, SIGCHLD);
	action.sa_sigaction = on_stop;
	for (size_t i = 0; i < sizeof stopping / sizeof *stopping; i++) {
		sigaction(stopping[i], &action, NULL);
		sigaddset(&blocked, stopping[i]);
	}
	sigprocmask(SIG_BLOCK, &blocked, before);
	sigset_t while_printing = *before;
	sigaddset(&while_printing, SIGCHLD);
	print_waits_with(&while_printing);
	signal(SIGCHLD, on_child);
	signal(SIGPIPE, SIG_IGN);
}

static void on_going_on(int number)
{
	(void)number;
	is_to_go_on = 1;
}

void take_going_on(void)
{
	sigset_t blocked;
	sigemptyset(&blocked);
	sigaddset(&blocked, SIGUSR1);
	signal(SIGUSR1, on_going_on);
	sigprocmask(SIG_BLOCK, &blocked, NULL);
}

/* ---- the command */

int start_command(char **command, const char *display, bool is_aside, const sigset_t *before, pid_t *process)
{
	posix_spawn_file_actions_t actions;
	posix_spawnattr_t attributes;
	sigset_t usual;
	sigemptyset(&usual);
	sigaddset(&usual, SIGPIPE);
	setenv("WAYLAND_DISPLAY", display, 1);
	unsetenv("WAYLAND_SOCKET");
	/* Processes that the command leaves behind become children of the tool, so it learns of their end. */
	prctl(PR_SET_CHILD_SUBREAPER, 1);
	posix_spawnattr_init(&attributes);
	posix_spawnattr_setflags(&attributes, POSIX_SPAWN_SETSIGDEF | POSIX_SPAWN_SETSIGMASK);
	posix_spawnattr_setsigdefault(&attributes, &usual);
	posix_spawnattr_setsigmask(&attributes, before);
	posix_spawn_file_actions_init(&actions);
	if (is_aside)
		posix_spawn_file_actions_adddup2(&actions, STDERR_FILENO, STDOUT_FILENO);
	int error = posix_spawnp(process, command[0], &actions, &attributes, command, environ);
	posix_spawn_file_actions_destroy(&actions);
	posix_spawnattr_destroy(&attributes);
	return error;
}

void reap(struct children *children)
{
	int status;
	pid_t ended;
	while ((ended = waitpid(-1, &status, WNOHANG)) > 0) {
		if (ended != children->command || !children->is_running)
			continue;
		children->is_running = false;
		children->ended_by = WIFSIGNALED(status) ? WTERMSIG(status) : 0;
		children->status = WIFSIGNALED(status) ? 128 + WTERMSIG(status) : WEXITSTATUS(status);
	}
	children->has_others = !ended; /* some child has not ended */
}

/* ---- descriptors */

void check_descriptors(void)
{
	struct rlimit limit;
	if (getrlimit(RLIMIT_NOFILE, &limit) || limit.rlim_max == RLIM_INFINITY
		|| limit.rlim_max >= KEPT_FREE + ALWAYS_OPEN)
		return;
	fail("at most %llu descriptors may be open here (ulimit -Hn), and a client may need %d",
		(unsigned long long)limit.rlim_max, KEPT_FREE + ALWAYS_OPEN);
}

void allow_descriptors(void)
{
	struct rlimit limit;
	if (getrlimit(RLIMIT_NOFILE, &limit))
		return;
	limit.rlim_cur = limit.rlim_max;
	setrlimit(RLIMIT_NOFILE, &limit);
}

bool has_room_behind(int descriptor)
{
	struct rlimit limit;
	if (getrlimit(RLIMIT_NOFILE, &limit) || limit.rlim_cur == RLIM_INFINITY
		|| (rlim_t)descriptor + KEPT_FREE < limit.rlim_cur)
		return true;
	notice("a client is refused: %d descriptors are open, at most %llu may be (ulimit -Hn), and %d are kept free",
		descriptor, (unsigned long long)limit.rlim_cur, KEPT_FREE);
	return false;
}
