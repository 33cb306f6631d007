/* A program that dispatches only if its own queue has events, at a compositor that ends the connection by
 * wl_display.error. The program must hear that it has ended, although it never dispatches the display's queue. */
#define _GNU_SOURCE
#include "wire.h"
#include <poll.h>
#include <wayland-client.h>

#define MOST_TURNS 20

static struct wl_display *display;
static int peer;

static void send_error(void)
{
	struct wire wire = { .length = 0 };
	begin_message(&wire, 1, 0);
	put_word(&wire, 1);
	put_word(&wire, 3);
	put_text(&wire, "enough");
	end_message(&wire);
	send_wire(&wire, peer);
}

/* Reads until that fails. There is nothing to dispatch. */
static void read_on(struct wl_event_queue *queue)
{
	int turn = 0;
	do {
		MUST(turn++ < MOST_TURNS && !wl_display_prepare_read_queue(display, queue));
		struct pollfd polled = { wl_display_get_fd(display), POLLIN, 0 };
		MUST(poll(&polled, 1, -1) == 1);
	} while (!wl_display_read_events(display));
}

int main(void)
{
	int sockets[2], before = count_open();
	alarm(HANGS);
	wl_log_set_handler_client(quiet);
	make_pair(sockets);
	peer = sockets[1];
	display = wl_display_connect_to_fd(sockets[0]);
	MUST(display);
	struct wl_event_queue *queue = wl_display_create_queue(display);
	MUST(queue);
	send_error();
	close(peer);
	read_on(queue);
	MUST(wl_display_get_error(display) && wl_display_flush(display) < 0);
	wl_event_queue_destroy(queue);
	wl_display_disconnect(display);
	MUST(count_open() == before);
	return 0;
}
