/* The keyboard and the pointer: which window has them, and what a script does with them. */
#include "clipboard.h"

#include <err.h>
#include <fcntl.h>
#include <stdio.h>

struct client *focus;
static waywire_wl_surface focused_surface; /* that of the window which was entered last */
static uint32_t modifiers;

/* ---- which window has them */

static bool has_window(const struct client *client)
{
	return is_live(client, client->window.surface.object)
		&& is_live(client, client->window.toplevel.object);
}

static void enter_keyboard(struct client *client, waywire_object object)
{
	waywire_wl_keyboard keyboard = waywire_wl_keyboard_of(object);
	may(client, waywire_wl_keyboard_send_enter(client->server, keyboard, next_serial(),
		focused_surface, NULL, 0));
	may(client, waywire_wl_keyboard_send_modifiers(client->server, keyboard, next_serial(),
		modifiers, 0, 0, 0));
}

static void enter_pointer(struct client *client, waywire_object object)
{
	waywire_wl_pointer pointer = waywire_wl_pointer_of(object);
	may(client, waywire_wl_pointer_send_enter(client->server, pointer, next_serial(),
		focused_surface, 256, 256));
	may(client, waywire_wl_pointer_send_frame(client->server, pointer));
}

/* Tells the client that has the focus that its window is left, if that is still there. */
static void leave(void)
{
	struct client *client = focus;
	if (!client || !is_live(client, focused_surface.object))
		return;
	for (size_t i = 0; i < MOST_DEVICES; i++) {
		waywire_wl_keyboard keyboard = waywire_wl_keyboard_of(client->keyboards[i]);
		waywire_wl_pointer pointer = waywire_wl_pointer_of(client->pointers[i]);
		may(client, waywire_wl_keyboard_send_leave(client->server, keyboard, next_serial(),
			focused_surface));
		may(client, waywire_wl_pointer_send_leave(client->server, pointer, next_serial(),
			focused_surface));
		may(client, waywire_wl_pointer_send_frame(client->server, pointer));
	}
}

void focus_on(struct client *client)
{
	leave();
	focus = client;
	focused_surface = client->window.surface;
	send_selection_at_focus(client);
	for (size_t i = 0; i < MOST_DEVICES; i++) {
		if (is_live(client, client->keyboards[i]))
			enter_keyboard(client, client->keyboards[i]);
		if (is_live(client, client->pointers[i]))
			enter_pointer(client, client->pointers[i]);
	}
}

void find_focus(void)
{
	if (focus && has_window(focus))
		return;
	for (struct client *client = clients; client; client = client->next) {
		if (has_window(client)) {
			focus_on(client);
			return;
		}
	}
	focus = NULL;
}

void leave_client(const struct client *client)
{
	if (focus == client)
		focus = NULL;
}

/* ---- the devices */

/* Keeps a device in the place of one that is gone. */
static void keep(const struct client *client, waywire_object devices[MOST_DEVICES],
	waywire_object object)
{
	for (size_t i = 0; i < MOST_DEVICES; i++) {
		if (!is_live(client, devices[i])) {
			devices[i] = object;
			return;
		}
	}
}

static void on_get_keyboard(void *data, waywire_wl_seat seat, waywire_wl_keyboard keyboard)
{
	struct client *client = data;
	int nothing = open("/dev/null", O_RDONLY | O_CLOEXEC);
	if (nothing < 0) {
		post_no_descriptor(client);
		return;
	}
	must(waywire_wl_keyboard_send_keymap(client->server, keyboard,
		WAYWIRE_WL_KEYBOARD_KEYMAP_FORMAT_NO_KEYMAP, nothing, 0));
	may(client, waywire_wl_keyboard_send_repeat_info(client->server, keyboard, 0, 0));
	keep(client, client->keyboards, keyboard.object);
	if (focus == client && has_window(client))
		enter_keyboard(client, keyboard.object);
}

static void on_get_pointer(void *data, waywire_wl_seat seat, waywire_wl_pointer pointer)
{
	struct client *client = data;
	keep(client, client->pointers, pointer.object);
	if (focus == client && has_window(client))
		enter_pointer(client, pointer.object);
}

static const struct waywire_wl_seat_requests seat_requests = {
	.get_keyboard = on_get_keyboard, .get_pointer = on_get_pointer };

static void on_set_cursor(void *data, waywire_wl_pointer pointer, uint32_t of,
	waywire_wl_surface surface, int32_t x, int32_t y)
{
	printf("server: a cursor\n");
}

static const struct waywire_wl_pointer_requests pointer_requests = { .set_cursor = on_set_cursor };

static const waywire_listener listeners[] = {
	{ WAYWIRE_WL_SEAT_NAME, waywire_wl_seat_request_dispatcher, &seat_requests },
	{ WAYWIRE_WL_POINTER_NAME, waywire_wl_pointer_request_dispatcher, &pointer_requests },
};

void serve_seat(struct client *client)
{
	must(waywire_connection_implement(client->connection, listeners,
		sizeof listeners / sizeof *listeners, client));
}

/* ---- the script */

static void press_key(struct client *client, uint32_t code)
{
	for (size_t i = 0; i < MOST_DEVICES; i++) {
		waywire_wl_keyboard keyboard = waywire_wl_keyboard_of(client->keyboards[i]);
		uint32_t time = milliseconds();
		may(client, waywire_wl_keyboard_send_key(client->server, keyboard, next_serial(), time,
			code, WAYWIRE_WL_KEYBOARD_KEY_STATE_PRESSED));
		may(client, waywire_wl_keyboard_send_key(client->server, keyboard, next_serial(), time,
			code, WAYWIRE_WL_KEYBOARD_KEY_STATE_RELEASED));
	}
}

static void hold(struct client *client, uint32_t mask)
{
	modifiers = mask;
	for (size_t i = 0; i < MOST_DEVICES; i++)
		may(client, waywire_wl_keyboard_send_modifiers(client->server,
			waywire_wl_keyboard_of(client->keyboards[i]), next_serial(), mask, 0,
			0, 0));
}

static void press_button(struct client *client, uint32_t code)
{
	for (size_t i = 0; i < MOST_DEVICES; i++) {
		waywire_wl_pointer pointer = waywire_wl_pointer_of(client->pointers[i]);
		uint32_t time = milliseconds();
		may(client, waywire_wl_pointer_send_button(client->server, pointer, next_serial(), time,
			code, WAYWIRE_WL_POINTER_BUTTON_STATE_PRESSED));
		may(client, waywire_wl_pointer_send_frame(client->server, pointer));
		may(client, waywire_wl_pointer_send_button(client->server, pointer, next_serial(), time,
			code, WAYWIRE_WL_POINTER_BUTTON_STATE_RELEASED));
		may(client, waywire_wl_pointer_send_frame(client->server, pointer));
	}
}

static void move_to(struct client *client, int32_t x, int32_t y)
{
	for (size_t i = 0; i < MOST_DEVICES; i++) {
		waywire_wl_pointer pointer = waywire_wl_pointer_of(client->pointers[i]);
		may(client, waywire_wl_pointer_send_motion(client->server, pointer, milliseconds(),
			x * 256, y * 256));
		may(client, waywire_wl_pointer_send_frame(client->server, pointer));
	}
}

void play(const char *line)
{
	uint32_t code;
	int32_t x, y;
	if (sscanf(line, "key %u", &code) == 1)
		press_key(focus, code);
	else if (sscanf(line, "modifiers %u", &code) == 1)
		hold(focus, code);
	else if (sscanf(line, "button %u", &code) == 1)
		press_button(focus, code);
	else if (sscanf(line, "motion %d %d", &x, &y) == 2)
		move_to(focus, x, y);
	else if (!strcmp(line, "close\n"))
		may(focus, ww_xdg_toplevel_send_close(focus->server, focus->window.toplevel));
	else
		errx(1, "the script has %s", line);
}
