/* Sends messages between a client and a server in one process, and reads them, so that the
 * instructions of a message can be counted.
 *
 *     calls CASE BATCH TIMES
 *
 * BATCH times what the case sends is written by typed calls, then carried, then read. damage: wl_surface.damage;
 * motion: wl_pointer.motion; surface: wl_compositor.create_surface, wl_surface.destroy and
 * wl_display.delete_id; title: wl_shell_surface.set_title of 1,000 bytes. */
#include "../../tests/c/must.h"
#include <string.h>

static waywire_client client;
static waywire_server server;
static waywire_tables *tables;
static unsigned char bytes[131072];
static waywire_report report;

static void carry(waywire_end *from, waywire_end *to)
{
	waywire_amounts taken, fed;
	MUST(!waywire_end_take(from, bytes, sizeof bytes, NULL, 0, &taken));
	MUST(!waywire_end_feed(to, bytes, taken.bytes, NULL, 0, &fed));
}

static void up(void)
{
	carry(client.end, server.end);
}

static void down(void)
{
	carry(server.end, client.end);
}

static waywire_object make(waywire_object target, uint16_t opcode)
{
	waywire_arg arg = waywire_new();
	waywire_object made;
	MUST(!waywire_end_send(client.end, target, opcode, &arg, 1, &made, NULL));
	return made;
}

static void request(void)
{
	MUST(!waywire_end_next(server.end, &report) && report.kind == WAYWIRE_MESSAGE);
}

static void event(void)
{
	MUST(!waywire_end_next(client.end, &report) && report.kind != WAYWIRE_NOTHING);
}

static void add(const char *name, uint32_t version)
{
	uint16_t interface;
	MUST(!waywire_tables_interface(tables, name, &interface));
	MUST(!waywire_server_add_global(server, interface, version, NULL));
}

/* The objects to which the messages are sent. */
static waywire_object compositor, surface, shell_surface, pointer;

static void open_ends(void)
{
	/* Room for 100 of any of the messages. */
	waywire_sizes sizes = { 131072, 64, 131072, 64 };
	waywire_object display = { 0, 1 }, seat, shell;
	MUST(!waywire_tables_core(&tables));
	MUST(!waywire_client_new(tables, &sizes, &client));
	MUST(!waywire_server_new(tables, &sizes, &server));
	add("wl_compositor", 6);
	add("wl_seat", 9);
	add("wl_shell", 1);
	waywire_object registry = make(display, WAYWIRE_WL_DISPLAY_REQUEST_GET_REGISTRY);
	up();
	request();
	MUST(!waywire_server_announce(server, NULL, NULL));
	down();
	for (int i = 0; i < 3; i++)
		event();
	MUST(!waywire_client_bind(client, registry, 1, "wl_compositor", 6, &compositor));
	MUST(!waywire_client_bind(client, registry, 2, "wl_seat", 9, &seat));
	MUST(!waywire_client_bind(client, registry, 3, "wl_shell", 1, &shell));
	surface = make(compositor, WAYWIRE_WL_COMPOSITOR_REQUEST_CREATE_SURFACE);
	pointer = make(seat, WAYWIRE_WL_SEAT_REQUEST_GET_POINTER);
	waywire_arg args[] = { waywire_new(), waywire_of(surface) };
	MUST(!waywire_end_send(client.end, shell, WAYWIRE_WL_SHELL_REQUEST_GET_SHELL_SURFACE, args, 2,
		&shell_surface, NULL));
	up();
	for (int i = 0; i < 6; i++)
		request();
}

static void send_damage(void)
{
	MUST(!waywire_wl_surface_damage(client, waywire_wl_surface_of(surface), 1, 2, 3, 4));
}

static void send_motion(void)
{
	MUST(!waywire_wl_pointer_send_motion(server, waywire_wl_pointer_of(pointer), 1, 256, 77));
}

static void send_surface(void)
{
	waywire_wl_surface made;
	MUST(!waywire_wl_compositor_create_surface(client, waywire_wl_compositor_of(compositor), &made));
	MUST(!waywire_wl_surface_destroy(client, made));
}

static void send_title(void)
{
	static char title[1001];
	if (!title[0])
		memset(title, 'a', 1000);
	MUST(!waywire_wl_shell_surface_set_title(client, waywire_wl_shell_surface_of(shell_surface), title));
}

/* What a case sends, and how many requests and events are read for it. */
static const struct {
	const char *name;
	void (*send)(void);
	int requests, events;
} cases[] = {
	{ "damage", send_damage, 1, 0 },
	{ "motion", send_motion, 0, 1 },
	{ "surface", send_surface, 2, 1 },
	{ "title", send_title, 1, 0 },
};

int main(int argc, char **argv)
{
	size_t at = 0;
	MUST(argc == 4);
	while (strcmp(cases[at].name, argv[1]))
		MUST(++at < sizeof cases / sizeof cases[0]);
	long batch = atol(argv[2]), times = atol(argv[3]);
	open_ends();
	for (long round = 0; round < times; round++) {
		for (long i = 0; i < batch; i++)
			cases[at].send();
		if (cases[at].requests)
			up();
		for (long i = 0; i < batch * cases[at].requests; i++)
			request();
		if (cases[at].events)
			down();
		for (long i = 0; i < batch * cases[at].events; i++)
			event();
	}
	waywire_end_free(client.end);
	waywire_end_free(server.end);
	return 0;
}
