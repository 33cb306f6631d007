/* Sockets: how they are found, locked and left, by each variable and each error, and descriptors
 * through them. The program's word is an empty folder. It is linked with `--wrap` for flock. */
#define _GNU_SOURCE
#include "descriptors.h"

#include <errno.h>
#include <fcntl.h>
#include <signal.h>
#include <sys/file.h>
#include <sys/resource.h>
#include <sys/time.h>
#include <sys/un.h>
#include <time.h>

#define MOST WAYWIRE_SOCKET_DESCRIPTORS
/* What the kernel passes at once. */
#define MOST_OF_KERNEL 253

static const char *folder;

/* A path in the folder, valid until the next but three. */
static const char *path_of(const char *name)
{
	static char paths[4][256];
	static int last;
	char *path = paths[++last % 4];
	MUST(snprintf(path, sizeof paths[0], "%s/%s", folder, name) < (int)sizeof paths[0]);
	return path;
}

static bool is_there(const char *name)
{
	struct stat file;
	return !lstat(path_of(name), &file);
}

static bool is_closed_at_exec(int fd)
{
	int flags = fcntl(fd, F_GETFD);
	MUST(flags >= 0);
	return flags & FD_CLOEXEC;
}

static void set(const char *variable, const char *value)
{
	MUST(!(value ? setenv(variable, value, 1) : unsetenv(variable)));
}

/* Lets the process open only this many more descriptors. Returns the old limit. */
static struct rlimit allow(int more)
{
	struct rlimit before, few;
	int next = dup(0);
	MUST(next >= 0 && !close(next) && !getrlimit(RLIMIT_NOFILE, &before));
	few = before;
	few.rlim_cur = (rlim_t)(next + more);
	MUST(!setrlimit(RLIMIT_NOFILE, &few));
	return before;
}

/* How often the server that had a lock removes its file before the lock is taken. */
static int removals;

int __real_flock(int fd, int operation);

int __wrap_flock(int fd, int operation)
{
	if (removals) {
		removals--;
		MUST(!unlink(path_of("wayland-1.lock")));
	}
	return __real_flock(fd, operation);
}

/* ---- connecting */

/* Connecting is refused, with this error and nothing left open. */
static void not_connected(const char *name, int error)
{
	int before = count_open();
	errno = 0;
	MUST(waywire_socket_connect(name) == -1 && errno == error && count_open() == before);
}

/* Connecting by a name alone, while WAYLAND_SOCKET names something else. */
static void beside_number(void)
{
	set("WAYLAND_SOCKET", "four");
	set("WAYLAND_DISPLAY", NULL);
	waywire_listening_socket *first = waywire_socket_listen("wayland-0");
	waywire_listening_socket *other = waywire_socket_listen("other");
	MUST(first && other);
	for (int i = 0; i < 2; i++) {
		int client = waywire_socket_connect_to(i ? "other" : NULL, i ? -1 : WAIT);
		int server = waywire_listening_socket_accept(i ? other : first);
		MUST(client >= 0 && is_closed_at_exec(client) && server >= 0);
		close(client);
		close(server);
	}
	MUST(!strcmp(getenv("WAYLAND_SOCKET"), "four"));
	set("WAYLAND_SOCKET", NULL);
	waywire_listening_socket_close(first);
	waywire_listening_socket_close(other);
}

static int64_t now(void)
{
	struct timespec time;
	MUST(!clock_gettime(CLOCK_MONOTONIC, &time));
	return time.tv_sec * (int64_t)1000 + time.tv_nsec / 1000000;
}

static void on_alarm(int signal)
{
	(void)signal;
}

/* A signal every so many milliseconds, which restarts no system call; with 0, none any more. */
static void alarms(int milliseconds)
{
	struct sigaction action = { .sa_handler = on_alarm };
	struct itimerval timer = { { 0, milliseconds * 1000 }, { 0, milliseconds * 1000 } };
	MUST(!sigaction(SIGALRM, &action, NULL) && !setitimer(ITIMER_REAL, &timer, NULL));
}

/* A compositor that accepts nobody: it has room for one client, and connecting waits only as long as its
 * limit says, also while signals come. */
static void without_room(void)
{
	struct timeval left = { 1, 1 };
	socklen_t size = sizeof left;
	waywire_listening_socket *full = waywire_socket_listen("full");
	MUST(full && !listen(waywire_listening_socket_fd(full), 0));
	int client = waywire_socket_connect_to("full", 0);
	MUST(client >= 0 && !getsockopt(client, SOL_SOCKET, SO_SNDTIMEO, &left, &size));
	MUST(!left.tv_sec && !left.tv_usec);
	int before = count_open();
	for (int limit = 0; limit <= 1200; limit += 1200) {
		int64_t began = now();
		alarms(limit / 20);
		MUST(waywire_socket_connect_to("full", limit) == -1 && errno == EAGAIN);
		alarms(0);
		MUST(now() - began >= limit && now() - began < WAIT && count_open() == before);
	}
	int server = waywire_listening_socket_accept(full);
	int next = waywire_socket_connect_to("full", WAIT);
	MUST(server >= 0 && next >= 0);
	close(client);
	close(server);
	close(next);
	waywire_listening_socket_close(full);
	MUST(waywire_socket_connect_to("full", WAIT) == -1 && errno == ENOENT);
}

static void by_number(void)
{
	static const struct {
		const char *text;
		int error;
	} refused[] = { { "", EINVAL }, { "four", EINVAL }, { "4 ", EINVAL }, { "-1", EBADF },
		{ "1023", EBADF }, { "4294967299", ERANGE }, { "99999999999999999999", ERANGE } };
	char text[16];
	int sockets[2];
	for (size_t i = 0; i < sizeof refused / sizeof *refused; i++) {
		set("WAYLAND_SOCKET", refused[i].text);
		not_connected(NULL, refused[i].error);
		MUST(getenv("WAYLAND_SOCKET"));
	}
	MUST(!socketpair(AF_UNIX, SOCK_STREAM, 0, sockets) && !is_closed_at_exec(sockets[0]));
	snprintf(text, sizeof text, "%d", sockets[0]);
	set("WAYLAND_SOCKET", text);
	MUST(waywire_socket_connect("no such name") == sockets[0]);
	MUST(is_closed_at_exec(sockets[0]) && !getenv("WAYLAND_SOCKET"));
	close(sockets[0]);
	close(sockets[1]);
}

/* Connects to the listening socket, and passes a byte. */
static void connected(const waywire_listening_socket *listening, const char *name)
{
	char byte = 0;
	int client = waywire_socket_connect(name);
	MUST(client >= 0 && is_closed_at_exec(client));
	int server = waywire_listening_socket_accept(listening);
	MUST(server >= 0 && is_closed_at_exec(server));
	MUST(waywire_listening_socket_accept(listening) == -1 && errno == EAGAIN);
	MUST(write(client, "x", 1) == 1 && read(server, &byte, 1) == 1 && byte == 'x');
	close(client);
	close(server);
}

static void by_name(void)
{
	char long_name[200];
	memset(long_name, 'x', sizeof long_name - 1);
	long_name[sizeof long_name - 1] = 0;
	waywire_listening_socket *first = waywire_socket_listen("wayland-0");
	waywire_listening_socket *other = waywire_socket_listen(path_of("other"));
	MUST(first && other);
	MUST(!strcmp(waywire_listening_socket_name(first), "wayland-0"));
	MUST(!strcmp(waywire_listening_socket_name(other), path_of("other")));
	MUST(is_closed_at_exec(waywire_listening_socket_fd(first)));
	set("WAYLAND_DISPLAY", NULL);
	connected(first, NULL);
	set("WAYLAND_DISPLAY", "other");
	connected(other, NULL);
	connected(first, "wayland-0");
	connected(first, path_of("wayland-0"));
	set("WAYLAND_DISPLAY", path_of("other"));
	connected(other, NULL);
	not_connected("none", ENOENT);
	not_connected(long_name, ENAMETOOLONG);
	set("XDG_RUNTIME_DIR", NULL);
	not_connected("other", ENOENT);
	connected(other, NULL);
	long_name[0] = '/';
	not_connected(long_name, ENAMETOOLONG);
	MUST(!chdir(folder));
	set("XDG_RUNTIME_DIR", ".");
	not_connected("other", ENOENT);
	set("XDG_RUNTIME_DIR", folder);
	waywire_listening_socket_close(first);
	waywire_listening_socket_close(other);
	not_connected("other", ENOENT);
}

/* ---- listening */

static void not_listening(const char *name, int error)
{
	int before = count_open();
	errno = 0;
	MUST(!waywire_socket_listen(name) && errno == error && count_open() == before);
}

static void by_number_of_name(void)
{
	waywire_listening_socket *taken[32];
	char name[32];
	for (int i = 0; i < 32; i++) {
		taken[i] = waywire_socket_listen(NULL);
		snprintf(name, sizeof name, "wayland-%d", i + 1);
		MUST(taken[i] && !strcmp(waywire_listening_socket_name(taken[i]), name));
	}
	not_listening(NULL, EADDRINUSE);
	waywire_listening_socket_close(taken[6]);
	MUST(!is_there("wayland-7") && !is_there("wayland-7.lock") && is_there("wayland-8.lock"));
	taken[6] = waywire_socket_listen(NULL);
	MUST(taken[6] && !strcmp(waywire_listening_socket_name(taken[6]), "wayland-7"));
	not_listening("wayland-7", EADDRINUSE);
	for (int i = 0; i < 32; i++)
		waywire_listening_socket_close(taken[i]);
	MUST(!is_there("wayland-1") && !is_there("wayland-32.lock"));
}

/* A server that is gone leaves its socket and its lock file, which nobody has locked. */
static void is_left(void)
{
	struct sockaddr_un address = { .sun_family = AF_UNIX };
	int fd = socket(AF_UNIX, SOCK_STREAM | SOCK_CLOEXEC, 0);
	strcpy(address.sun_path, path_of("wayland-1"));
	MUST(fd >= 0 && !bind(fd, (struct sockaddr *)&address, sizeof address) && !listen(fd, 1));
	close(fd);
	int lock = open(path_of("wayland-1.lock"), O_CREAT | O_RDWR | O_CLOEXEC, 0600);
	MUST(lock >= 0);
	not_connected("wayland-1", ECONNREFUSED);
	MUST(!flock(lock, LOCK_EX | LOCK_NB));
	not_listening("wayland-1", EADDRINUSE);
	MUST(is_there("wayland-1"));
	close(lock);
	waywire_listening_socket *listening = waywire_socket_listen(NULL);
	MUST(listening && !strcmp(waywire_listening_socket_name(listening), "wayland-1"));
	connected(listening, "wayland-1");
	waywire_listening_socket_close(listening);
}

/* A socket that was accepted stays when the one that listens is closed. */
static void stays_connected(void)
{
	char byte;
	waywire_listening_socket *listening = waywire_socket_listen("brief");
	int client = waywire_socket_connect("brief");
	MUST(listening && client >= 0);
	int server = waywire_listening_socket_accept(listening);
	waywire_listening_socket_close(listening);
	MUST(server >= 0 && write(server, "x", 1) == 1 && read(client, &byte, 1) == 1);
	close(client);
	close(server);
	waywire_listening_socket_close(NULL);
}

/* The lock file goes while it is opened. */
static void lock_goes(void)
{
	removals = 3;
	waywire_listening_socket *listening = waywire_socket_listen("wayland-1");
	MUST(listening && !removals && is_there("wayland-1.lock"));
	not_listening("wayland-1", EADDRINUSE);
	waywire_listening_socket_close(listening);
	removals = 1000000;
	not_listening("wayland-1", EADDRINUSE);
	MUST(removals < 1000000 && !is_there("wayland-1"));
	removals = 0;
}

/* The lock file is opened, and then no descriptor is left for the socket. */
static void no_number_for_socket(void)
{
	struct rlimit before = allow(1);
	MUST(!waywire_socket_listen("wayland-1") && errno == EMFILE);
	MUST(!setrlimit(RLIMIT_NOFILE, &before));
	MUST(!is_there("wayland-1.lock") && !is_there("wayland-1"));
}

static void is_refused(void)
{
	char long_name[200];
	memset(long_name, 'x', sizeof long_name - 1);
	long_name[sizeof long_name - 1] = 0;
	int file = open(path_of("file"), O_CREAT | O_RDWR | O_CLOEXEC, 0600);
	MUST(file >= 0 && !close(file));
	not_listening("file", EADDRINUSE);
	MUST(is_there("file") && !is_there("file.lock") && !unlink(path_of("file")));
	not_listening("", EINVAL);
	not_listening(long_name, ENAMETOOLONG);
	not_listening("no/folder", ENOENT);
	set("XDG_RUNTIME_DIR", path_of("none"));
	not_listening(NULL, ENOENT);
	set("XDG_RUNTIME_DIR", NULL);
	not_listening(NULL, ENOENT);
	set("XDG_RUNTIME_DIR", folder);
}

/* ---- passing */

/* Nothing is received, with this error. */
static void not_received(int socket, const waywire_part parts[2], int error)
{
	int found[MOST];
	size_t count;
	MUST(waywire_socket_receive(socket, parts, found, &count) == -1);
	MUST(errno == error && !count);
}

static void make_descriptors(int *descriptors, int count)
{
	for (int i = 0; i < count; i++)
		descriptors[i] = new_descriptor(i);
}

static void close_descriptors(const int *descriptors, int count)
{
	for (int i = 0; i < count; i++)
		MUST(!close(descriptors[i]));
}

/* As many descriptors as there may be, with bytes in two parts, one way. */
static void pass(int from, int to)
{
	char sent[] = "out and home", came[2][32];
	int made[MOST], found[MOST];
	size_t count, length = sizeof sent;
	waywire_part parts[2] = { { sent, 5 }, { sent + 5, length - 5 } };
	waywire_part room[2] = { { came[0], 3 }, { came[1], sizeof came[1] } };
	make_descriptors(made, MOST);
	MUST(waywire_socket_send(from, parts, made, MOST) == (ssize_t)length);
	close_descriptors(made, MOST);
	MUST(waywire_socket_receive(to, room, found, &count) == (ssize_t)length && count == MOST);
	MUST(!memcmp(came[0], "out", 3) && !strcmp(came[1], " and home"));
	for (int i = 0; i < MOST; i++) {
		MUST(is_closed_at_exec(found[i]));
		MUST(length_of(found[i]) == i);
	}
	not_received(to, room, EAGAIN);
}

/* More descriptors than an end passes, which libwayland never sends: as many as there is room for, and
 * one more. */
static void too_many(const int sockets[2])
{
	static const size_t rooms[] = { 0, 1, 2, MOST, MOST + 1, MOST_OF_KERNEL };
	int made[MOST_OF_KERNEL + 1], found[MOST_OF_KERNEL];
	char byte = 'x';
	waywire_part parts[2] = { { &byte, 1 }, { NULL, 0 } };
	size_t count;
	int before = count_open();
	make_descriptors(made, MOST_OF_KERNEL + 1);
	MUST(waywire_socket_send(sockets[0], parts, made, MOST_OF_KERNEL + 1) == -1 && errno == EINVAL);
	for (size_t i = 0; i < sizeof rooms / sizeof *rooms; i++) {
		size_t room = rooms[i];
		MUST(waywire_socket_send(sockets[0], parts, made, room) == 1);
		MUST(waywire_socket_receive_up_to(sockets[1], parts, room ? found : NULL, room, &count) == 1);
		MUST(count == room);
		for (size_t j = 0; j < room; j++)
			MUST(is_closed_at_exec(found[j]) && length_of(found[j]) == (int)j);
		if (room == MOST_OF_KERNEL)
			break;
		MUST(waywire_socket_send(sockets[0], parts, made, room + 1) == 1);
		MUST(waywire_socket_receive_up_to(sockets[1], parts, found, room, &count) == -1);
		MUST(errno == EOVERFLOW && !count);
	}
	MUST(waywire_socket_send(sockets[0], parts, made, MOST + 1) == 1);
	not_received(sockets[1], parts, EOVERFLOW);
	close_descriptors(made, MOST_OF_KERNEL + 1);
	MUST(count_open() == before);
}

/* The process may open no more. */
static void no_numbers(const int sockets[2])
{
	int made[MOST];
	char byte = 'x';
	waywire_part parts[2] = { { NULL, 0 }, { &byte, 1 } };
	make_descriptors(made, MOST);
	MUST(waywire_socket_send(sockets[0], parts, made, MOST) == 1);
	close_descriptors(made, MOST);
	struct rlimit before = allow(3);
	not_received(sockets[1], parts, EMFILE);
	MUST(!setrlimit(RLIMIT_NOFILE, &before));
}

/* Descriptors beside another control message. */
static void with_credentials(void)
{
	int sockets[2], made[3], found[MOST], yes = 1;
	size_t count;
	char byte = 'x';
	waywire_part parts[2] = { { &byte, 1 }, { NULL, 0 } };
	make_pair(sockets);
	MUST(!setsockopt(sockets[1], SOL_SOCKET, SO_PASSCRED, &yes, sizeof yes));
	make_descriptors(made, 3);
	MUST(waywire_socket_send(sockets[0], parts, made, 3) == 1);
	close_descriptors(made, 3);
	MUST(waywire_socket_receive(sockets[1], parts, found, &count) == 1 && count == 3);
	for (int i = 0; i < 3; i++)
		MUST(length_of(found[i]) == i);
	close(sockets[0]);
	close(sockets[1]);
}

static void passes(void)
{
	int sockets[2], found[MOST];
	size_t count;
	int before = count_open();
	char byte = 'x';
	waywire_part parts[2] = { { &byte, 1 }, { NULL, 0 } };
	waywire_part none[2] = { { NULL, 0 }, { NULL, 0 } };
	make_pair(sockets);
	pass(sockets[0], sockets[1]);
	pass(sockets[1], sockets[0]);
	too_many(sockets);
	no_numbers(sockets);
	MUST(count_open() == before + 2);
	MUST(waywire_socket_send(sockets[0], parts, NULL, 0) == 1);
	not_received(sockets[1], none, ENOBUFS);
	MUST(waywire_socket_send(sockets[0], none, &sockets[1], 1) == -1 && errno == EINVAL);
	close(sockets[0]);
	MUST(waywire_socket_receive(sockets[1], parts, found, &count) == 1 && !count);
	MUST(!waywire_socket_receive(sockets[1], parts, found, &count) && !count);
	MUST(waywire_socket_send(sockets[1], parts, NULL, 0) == -1 && errno == EPIPE);
	close(sockets[1]);
	MUST(waywire_socket_send(sockets[1], parts, NULL, 0) == -1 && errno == EBADF);
	not_received(sockets[1], parts, EBADF);
}

int main(int count, char **words)
{
	MUST(count == 2);
	folder = words[1];
	set("WAYLAND_SOCKET", NULL);
	set("XDG_RUNTIME_DIR", folder);
	int before = count_open();
	by_number();
	by_name();
	beside_number();
	without_room();
	by_number_of_name();
	is_left();
	stays_connected();
	lock_goes();
	no_number_for_socket();
	is_refused();
	passes();
	with_credentials();
	MUST(count_open() == before && !rmdir(folder)); /* nothing is left in it */
	return 0;
}
