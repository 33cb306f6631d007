/* Transfers of data: a pipe passes with a request or an event, and its end is the answer. The tool keeps no end of the
 * pipe, since that would keep it open: it looks which processes have one. */
#define _GNU_SOURCE
#include "asking.h"

#include <dirent.h>
#include <fcntl.h>
#include <limits.h>
#include <poll.h>
#include <stdio.h>
#include <string.h>
#include <sys/stat.h>
#include <unistd.h>

/* ---- who has a pipe open */

enum ends { NO_END, READ_END, OPEN_PIPE };

/* Whether the pipe of this read end has a writer. It is opened for that, for a moment. */
static bool has_writer(int folder, const char *name)
{
	int opened = openat(folder, name, O_RDONLY | O_NONBLOCK | O_CLOEXEC);
	struct pollfd polled = { opened, POLLIN, 0 };
	bool is_hung_up = opened < 0 || (poll(&polled, 1, 0) > 0 && polled.revents & POLLHUP);
	if (opened >= 0)
		close(opened);
	return !is_hung_up;
}

static enum ends ends_of(int folder, const char *name, const char *pipe)
{
	char target[64];
	struct stat status;
	ssize_t length = readlinkat(folder, name, target, sizeof target - 1);
	if (length < 0)
		return NO_END;
	target[length] = 0;
	if (strcmp(target, pipe) || fstatat(folder, name, &status, AT_SYMLINK_NOFOLLOW))
		return NO_END;
	if (status.st_mode & S_IWUSR)
		return OPEN_PIPE;
	return has_writer(folder, name) ? OPEN_PIPE : READ_END;
}

/* What a process has of a pipe. */
static enum ends ends_in(const char *process, const char *pipe)
{
	char path[PATH_MAX];
	enum ends found = NO_END;
	snprintf(path, sizeof path, "/proc/%s/fd", process);
	DIR *folder = opendir(path);
	for (struct dirent *it; folder && found == NO_END && (it = readdir(folder));)
		if (*it->d_name != '.')
			found = ends_of(dirfd(folder), it->d_name, pipe);
	if (folder)
		closedir(folder);
	return found;
}

bool pipe_is_open(ino_t number)
{
	char pipe[64];
	enum ends found = NO_END;
	DIR *processes = opendir("/proc");
	snprintf(pipe, sizeof pipe, "pipe:[%llu]", (unsigned long long)number);
	for (struct dirent *it; processes && found == NO_END && (it = readdir(processes));)
		if (*it->d_name >= '1' && *it->d_name <= '9')
			found = ends_in(it->d_name, pipe);
	if (processes)
		closedir(processes);
	return found == OPEN_PIPE;
}

/* ---- what asks */

/* So many pipes are kept in mind that no message has taken yet. */
#define MOST_PIPES 512

void questions_pipe(struct questions *questions, int from, uint64_t descriptor, ino_t pipe)
{
	struct pipes_came *came = &questions->came[from];
	if (came->count == MOST_PIPES)
		came->count = 0;
	struct pipe_came *more = room_for_one(came->came, came->count, sizeof *more);
	if (!more)
		return;
	came->came = more;
	more[came->count++] = (struct pipe_came){ descriptor, pipe };
}

/* Takes the pipe with a descriptor's number, and those before it, out of those that have come; 0 if there is none. */
static ino_t take(struct pipes_came *came, uint64_t descriptor)
{
	ino_t pipe = 0;
	size_t count = 0;
	for (; count < came->count && came->came[count].descriptor <= descriptor; count++)
		if (came->came[count].descriptor == descriptor)
			pipe = came->came[count].pipe;
	came->count -= count;
	memmove(came->came, came->came + count, came->count * sizeof *came->came);
	return pipe;
}

void pipes_note(struct questions *questions, const struct message *message)
{
	const char *name = message->from == CLIENT ? "receive" : "send";
	struct pipes_came *came = &questions->came[message->from];
	if (!is_name(message->name, name) || message->arg_count != 2 || !came->count)
		return;
	ino_t pipe = take(came, message->args[1].descriptor);
	if (!pipe || keyed_find(&questions->pipes, pipe))
		return;
	if (questions->look_at_pipes < 0)
		questions->look_at_pipes = message->seconds;
	ask(questions, message, &(struct asking){ kind_of(questions, message, "end of its pipe"), pipe,
		message->number, message->target, 0, NULL, WAITS, true, true });
}
