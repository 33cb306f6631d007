/* Enter at the terminal at which the tool was started, which lets go on what --stop-at stopped. Standard input belongs
 * to COMMAND, and the modes of the terminal stay as they are: a tool that is killed could not put them back. */
#define _GNU_SOURCE
#include "inspect.h"

#include <fcntl.h>
#include <termios.h>
#include <unistd.h>

static int terminal = -1;

void terminal_open(void)
{
	sigset_t blocked;
	terminal = open("/dev/tty", O_RDONLY | O_NOCTTY | O_NONBLOCK | O_CLOEXEC);
	if (terminal < 0)
		return;
	/* If the tool is put into the background meanwhile, a call fails and does not stop the tool. */
	sigemptyset(&blocked);
	sigaddset(&blocked, SIGTTIN);
	sigaddset(&blocked, SIGTTOU);
	sigprocmask(SIG_BLOCK, &blocked, NULL);
}

bool terminal_is_there(void)
{
	return terminal >= 0;
}

/* A program that reads single keys, such as a pager, has the terminal for itself. */
int terminal_polled(void)
{
	struct termios modes;
	bool is_ours = terminal >= 0 && tcgetpgrp(terminal) == getpgrp() && !tcgetattr(terminal, &modes)
		&& modes.c_lflag & ICANON;
	return is_ours ? terminal : -1;
}

void terminal_drop(void)
{
	if (terminal_polled() >= 0)
		tcflush(terminal, TCIFLUSH);
}

bool terminal_was_typed(void)
{
	char line[256];
	bool was_typed = false;
	while (terminal_polled() >= 0 && read(terminal, line, sizeof line) > 0)
		was_typed = true;
	return was_typed;
}
