/* The sockets of a display: names, locks, files that are left over, long paths; and the clients that come by them. What
 * happens is printed, so that two libraries can be compared.
 *
 *     sockets FOLDER
 *
 * The folder is empty, and becomes XDG_RUNTIME_DIR. */
#define _GNU_SOURCE
#include "served.h"
#include <fcntl.h>
#include <sys/file.h>
#include <sys/stat.h>
#include <sys/un.h>

static const char *folder;

/* Which errno says that a name is in use is not promised. */
static void say(const char *what, int status)
{
	bool is_promised = status && (errno == ENAMETOOLONG || errno == ENOENT);
	printf("%s: %d %s\n", what, status, is_promised ? name_of(errno) : "");
	errno = 0;
}

static void say_file(const char *name)
{
	char path[4096];
	struct stat found;
	snprintf(path, sizeof path, "%s/%s", folder, name);
	int is_there = !stat(path, &found);
	printf("%s: %s\n", name, !is_there ? "none" : S_ISSOCK(found.st_mode) ? "a socket" : "a file");
}

static int connects(const char *name)
{
	struct sockaddr_un address = { .sun_family = AF_UNIX };
	int made = socket(AF_UNIX, SOCK_STREAM | SOCK_CLOEXEC, 0);
	snprintf(address.sun_path, sizeof address.sun_path, "%s/%s", folder, name);
	if (made < 0 || connect(made, (struct sockaddr *)&address, sizeof address))
		return -1;
	return made;
}

static void names(void)
{
	struct wl_display *other = wl_display_create();
	display = wl_display_create();
	unsetenv("WAYLAND_DISPLAY");
	say("the usual name", wl_display_add_socket(display, NULL));
	say_file("wayland-0");
	say_file("wayland-0.lock");
	setenv("WAYLAND_DISPLAY", "named", 1);
	say("that of the environment", wl_display_add_socket(display, NULL));
	say_file("named");
	say("a name", wl_display_add_socket(display, "other"));
	say("a name that is in use", wl_display_add_socket(other, "other"));
	say("an empty name", wl_display_add_socket(other, ""));
	const char *found = wl_display_add_socket_auto(other);
	printf("the first free one: %s\n", found ? found : "none");
	wl_display_destroy(other);
	wl_display_destroy(display);
	say_file("wayland-0");
	say_file("wayland-0.lock");
	say_file("named");
	say_file("wayland-1");
}

static void write_file(const char *name)
{
	char path[4096];
	snprintf(path, sizeof path, "%s/%s", folder, name);
	int made = open(path, O_CREAT | O_CLOEXEC | O_RDWR, 0600);
	MUST(made >= 0);
	close(made);
}

/* A socket that a compositor has left, which has died. */
static void leave_socket(const char *name)
{
	struct sockaddr_un address = { .sun_family = AF_UNIX };
	int made = socket(AF_UNIX, SOCK_STREAM | SOCK_CLOEXEC, 0);
	snprintf(address.sun_path, sizeof address.sun_path, "%s/%s", folder, name);
	MUST(!bind(made, (struct sockaddr *)&address, sizeof address) && !listen(made, 8));
	close(made);
}

static void files_that_are_left_over(void)
{
	char path[4096];
	display = wl_display_create();
	leave_socket("left");
	say("a socket of that name, without a lock", wl_display_add_socket(display, "left"));
	MUST(connects("left") >= 0);
	write_file("locked.lock");
	snprintf(path, sizeof path, "%s/locked.lock", folder);
	int lock = open(path, O_RDWR | O_CLOEXEC);
	MUST(lock >= 0 && !flock(lock, LOCK_EX | LOCK_NB));
	say("a lock of another", wl_display_add_socket(display, "locked"));
	close(lock);
	say("a lock that is given back", wl_display_add_socket(display, "locked"));
	wl_display_destroy(display);
	say_file("left");
	say_file("locked.lock");
}

static void a_file_that_is_no_socket(void)
{
	display = wl_display_create();
	write_file("stale");
	say("a file of that name, without a lock", wl_display_add_socket(display, "stale"));
	say_file("stale");
	wl_display_destroy(display);
}

static void paths(void)
{
	char name[200], path[4096];
	display = wl_display_create();
	memset(name, 'a', sizeof name - 1);
	name[sizeof name - 1] = '\0';
	say("a long name", wl_display_add_socket(display, name));
	say_file(name);
	setenv("XDG_RUNTIME_DIR", "/nowhere/at/all", 1);
	say("a folder that is not there", wl_display_add_socket(display, "it"));
	unsetenv("XDG_RUNTIME_DIR");
	say("no folder", wl_display_add_socket(display, "it"));
	printf("the first free one: %s\n", wl_display_add_socket_auto(display) ? "some" : "none");
	snprintf(path, sizeof path, "%s/whole", folder);
	say("a whole path, without a folder", wl_display_add_socket(display, path));
	wl_display_destroy(display);
}

static void clients_that_come(void)
{
	pid_t process;
	uid_t user;
	gid_t group;
	display = wl_display_create();
	MUST(!wl_display_add_socket(display, "it"));
	int one = connects("it"), other = connects("it");
	MUST(one >= 0 && other >= 0);
	MUST(!wl_event_loop_dispatch(loop_of_display(), 0) && !wl_event_loop_dispatch(loop_of_display(), 0));
	struct wl_list *clients = wl_display_get_client_list(display);
	printf("clients: %d\n", wl_list_length(clients));
	struct wl_client *client = wl_client_from_link(clients->next);
	wl_client_get_credentials(client, &process, &user, &group);
	printf("its process %d, user %d, group %d, descriptor %d\n", process == getpid(), user == getuid(),
		group == getgid(), fcntl(wl_client_get_fd(client), F_GETFD));
	close(one);
	MUST(!wl_event_loop_dispatch(loop_of_display(), 0));
	printf("clients: %d\n", wl_list_length(clients));
	close_display();
	char byte;
	printf("the other reads %d\n", (int)recv(other, &byte, 1, 0));
}

static void a_socket_that_is_given(void)
{
	struct sockaddr_un address = { .sun_family = AF_UNIX };
	int made = socket(AF_UNIX, SOCK_STREAM | SOCK_CLOEXEC, 0);
	display = wl_display_create();
	snprintf(address.sun_path, sizeof address.sun_path, "%s/given", folder);
	MUST(!bind(made, (struct sockaddr *)&address, sizeof address) && !listen(made, 8));
	say("a socket", wl_display_add_socket_fd(display, made));
	say("no descriptor", wl_display_add_socket_fd(display, 9999));
	MUST(connects("given") >= 0);
	MUST(!wl_event_loop_dispatch(loop_of_display(), 0));
	printf("clients: %d\n", wl_list_length(wl_display_get_client_list(display)));
	close_display();
	printf("it is closed: %d\n", fcntl(made, F_GETFD));
	say_file("given");
}

#define PLAYED(name) { #name, name }
static const struct {
	const char *name;
	void (*play)(void);
} played[] = {
	PLAYED(names), PLAYED(files_that_are_left_over), PLAYED(a_file_that_is_no_socket), PLAYED(paths),
	PLAYED(clients_that_come), PLAYED(a_socket_that_is_given),
};

static int play(const void *place)
{
	played[*(const size_t *)place].play();
	return 0;
}

int main(int argc, char **argv)
{
	MUST(argc == 2);
	folder = argv[1];
	setenv("XDG_RUNTIME_DIR", folder, 1);
	wl_log_set_handler_server(quiet);
	for (size_t at = 0; at < sizeof played / sizeof *played; at++) {
		printf("== %s\n", played[at].name);
		fflush(stdout);
		int status = play_apart(play, &at);
		if (status)
			printf("CRASHED by signal %d, status %d\n", WTERMSIG(status), WEXITSTATUS(status));
	}
	return 0;
}
