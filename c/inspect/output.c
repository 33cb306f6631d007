/* Prints messages and verdicts to standard output or to a file, and everything else to standard error. */
#define _GNU_SOURCE
#include "inspect.h"

#include <errno.h>
#include <fcntl.h>
#include <signal.h>
#include <stdarg.h>
#include <stdio.h>
#include <stdlib.h>
#include <sys/stat.h>
#include <unistd.h>

/* A pipe that accepts anything accepts this much at once. */
#define MOST_AT_ONCE 4096
#define SECOND 1000

static char waiting[MOST_AT_ONCE];
static size_t waiting_length;
static bool is_closed, is_brief;
static bool is_old; /* the output still has what was in the file before */
static int output = STDOUT_FILENO;
static struct replacement replacement = { .file = -1 };
static const char *output_name = "standard output";
static sigset_t signals_while_waiting;

static void notice_with(const char *format, va_list words)
{
	char line[1024];
	size_t length = (size_t)snprintf(line, sizeof line, "%s: ", tool_name);
	vsnprintf(line + length, sizeof line - length - 1, format, words);
	length = strlen(line);
	line[length++] = '\n';
	if (write(STDERR_FILENO, line, length) < 0)
		errno = 0; /* nobody is left to report it to */
}

void notice(const char *format, ...)
{
	va_list words;
	va_start(words, format);
	notice_with(format, words);
	va_end(words);
}

void fail(const char *format, ...)
{
	va_list words;
	va_start(words, format);
	notice_with(format, words);
	va_end(words);
	exit(NOTHING_INSPECTED);
}

/* Waits until the output accepts something; once the tool was asked to stop, for at most one second. */
static bool wait_for_output(void)
{
	struct pollfd polled = { output, POLLOUT, 0 };
	int ready = is_brief ? 0 : ppoll(&polled, 1, NULL, &signals_while_waiting);
	if (ready < 1)
		ready = poll(&polled, 1, SECOND);
	errno = ETIMEDOUT;
	return ready > 0;
}

/* Empties a file, if it is one. */
static void empty_output(void)
{
	struct stat of;
	if (!fstat(output, &of) && S_ISREG(of.st_mode) && ftruncate(output, 0))
		notice("cannot empty %s: %s", output_name, strerror(errno));
	is_old = false;
}

static void write_waiting(void)
{
	const char *from = waiting;
	if (waiting_length && is_old)
		empty_output();
	while (waiting_length && !is_closed) {
		ssize_t written = wait_for_output() ? write(output, from, waiting_length) : -1;
		if (written < 0 && errno != EINTR && errno != EAGAIN) {
			is_closed = true;
			notice("cannot write to %s: %s; messages are judged and not printed", output_name,
				strerror(errno));
		} else if (written > 0) {
			from += written;
			waiting_length -= (size_t)written;
		}
	}
	waiting_length = 0;
}

void print_to(const char *path)
{
	output = open(path, O_WRONLY | O_CREAT | O_CLOEXEC, 0666);
	output_name = path;
	is_old = true;
	if (output < 0)
		fail("cannot write %s: %s", path, strerror(errno));
}

/* Ends the tool by a signal, without the file that is not whole. */
static void on_end(int number)
{
	if (replacement.path)
		unlink(replacement.path);
	raise(number); /* it has its usual effect again */
}

static void drop_replacement(void)
{
	replacement_drop(&replacement);
}

void print_whole_to(const char *path)
{
	static const int ending[] = { SIGINT, SIGTERM, SIGHUP };
	struct sigaction action = { .sa_handler = on_end, .sa_flags = (int)SA_RESETHAND };
	sigset_t blocked, before;
	sigemptyset(&blocked);
	for (size_t i = 0; i < sizeof ending / sizeof *ending; i++)
		sigaddset(&blocked, ending[i]);
	output_name = path;
	/* A signal that comes while the file is made removes it afterwards. */
	sigprocmask(SIG_BLOCK, &blocked, &before);
	if (!replacement_open(&replacement, path))
		fail("cannot write %s: %s", path, strerror(errno));
	output = replacement.file;
	atexit(drop_replacement);
	for (size_t i = 0; i < sizeof ending / sizeof *ending; i++)
		sigaction(ending[i], &action, NULL);
	sigprocmask(SIG_SETMASK, &before, NULL);
}

void print_end(void)
{
	print_now();
	if (replacement.file >= 0 && !is_closed && !replacement_end(&replacement))
		notice("cannot write %s: %s", output_name, strerror(errno));
}

bool prints_to_terminal(void)
{
	return isatty(output);
}

void print(const char *text, size_t length)
{
	while (length && !is_closed) {
		size_t most = sizeof waiting - waiting_length;
		size_t part = length < most ? length : most;
		memcpy(waiting + waiting_length, text, part);
		waiting_length += part;
		text += part;
		length -= part;
		if (waiting_length == sizeof waiting)
			write_waiting();
	}
}

void print_now(void)
{
	write_waiting();
}

void print_waits_with(const sigset_t *signals)
{
	signals_while_waiting = *signals;
}

void print_briefly(void)
{
	is_brief = true;
}

void print_name(const char *display, bool is_aside)
{
	char line[128];
	int length = snprintf(line, sizeof line, "WAYLAND_DISPLAY=%s\n", display);
	int file = is_aside ? STDERR_FILENO : STDOUT_FILENO;
	if (file == output)
		print(line, (size_t)length);
	else if (write(file, line, (size_t)length) < 0)
		errno = 0; /* nobody is left to report it to */
	print_now();
}
