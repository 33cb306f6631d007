/* Sockets beside those of libwayland: the same errors of a connect, the same places, and locks that
 * each sees of the other. The program's word is an empty folder. */
#define _GNU_SOURCE
#include "descriptors.h"

#include <errno.h>
#include <fcntl.h>
#include <string.h>
#include <wayland-client.h>
#include <wayland-server.h>

static void say_nothing(const char *format, va_list args)
{
	(void)format, (void)args;
}

static void set(const char *variable, const char *value)
{
	MUST(!(value ? setenv(variable, value, 1) : unsetenv(variable)));
}

/* Both refuse to connect, with one error, and leave WAYLAND_SOCKET. */
static void same_error(const char *name)
{
	const char *before = getenv("WAYLAND_SOCKET");
	errno = 0;
	MUST(!wl_display_connect(name));
	int error = errno;
	MUST(error && waywire_socket_connect(name) == -1 && errno == error);
	MUST(getenv("WAYLAND_SOCKET") == before);
}

static void same_errors(const char *folder)
{
	char long_name[200], path[256];
	memset(long_name, 'x', sizeof long_name - 1);
	long_name[sizeof long_name - 1] = 0;
	snprintf(path, sizeof path, "%s/file", folder);
	int file = open(path, O_CREAT | O_RDWR | O_CLOEXEC, 0600);
	MUST(file >= 0 && !close(file));
	same_error("none");
	same_error("file");
	same_error(path);
	same_error(long_name);
	same_error("");
	same_error(NULL);
	set("WAYLAND_DISPLAY", "none");
	same_error(NULL);
	set("XDG_RUNTIME_DIR", NULL);
	same_error(NULL);
	long_name[0] = '/';
	same_error(long_name);
	set("XDG_RUNTIME_DIR", folder);
	set("WAYLAND_SOCKET", "1023");
	same_error("none");
	set("WAYLAND_SOCKET", "-1");
	same_error("none");
	set("WAYLAND_SOCKET", NULL);
	set("WAYLAND_DISPLAY", NULL);
	MUST(!unlink(path));
}

/* A name that one has the other does not get. */
static void same_locks(void)
{
	struct wl_display *display = wl_display_create(), *other = wl_display_create();
	waywire_listening_socket *listening = waywire_socket_listen("wayland-1");
	MUST(display && other && listening);
	MUST(wl_display_add_socket(display, "wayland-1") == -1);
	MUST(!wl_display_add_socket(display, "wayland-2"));
	MUST(!waywire_socket_listen("wayland-2") && errno == EADDRINUSE);
	waywire_listening_socket *next = waywire_socket_listen(NULL);
	MUST(next && !strcmp(waywire_listening_socket_name(next), "wayland-3"));
	int client = waywire_socket_connect("wayland-2");
	struct wl_display *of_client = wl_display_connect("wayland-3");
	MUST(client >= 0 && of_client);
	wl_display_disconnect(of_client);
	close(client);
	waywire_listening_socket_close(listening);
	waywire_listening_socket_close(next);
	MUST(!wl_display_add_socket(other, "wayland-1"));
	wl_display_destroy(display);
	wl_display_destroy(other);
	listening = waywire_socket_listen(NULL);
	MUST(listening && !strcmp(waywire_listening_socket_name(listening), "wayland-1"));
	waywire_listening_socket_close(listening);
}

int main(int count, char **words)
{
	MUST(count == 2);
	set("WAYLAND_SOCKET", NULL);
	set("WAYLAND_DISPLAY", NULL);
	set("XDG_RUNTIME_DIR", words[1]);
	wl_log_set_handler_client(say_nothing);
	wl_log_set_handler_server(say_nothing);
	int before = count_open();
	same_errors(words[1]);
	same_locks();
	MUST(count_open() == before && !rmdir(words[1]));
	return 0;
}
