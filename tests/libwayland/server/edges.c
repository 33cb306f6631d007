/* What a client reads at the edges of what a compositor does: globals that come late or go, objects that end without a
 * request or outlive it, binds and requests that libwayland refuses, long errors, destroy listeners that send. Each is
 * played in a process of its own; what the client reads is printed, so that two libraries can be compared.
 *
 *     edges [NAME]
 */
#define _GNU_SOURCE
#include "served.h"

static struct peer peer;
static struct wire wire;

static void begin(uint32_t version)
{
	display = wl_display_create();
	MUST(display);
	add_compositor();
	open_with_compositor(&peer, version);
}

static struct heard hear(const char *what)
{
	return hears(what, &peer, &wire);
}

static void make_surface(uint32_t id)
{
	put_message(&wire, COMPOSITOR, 0, 1, id);
}

/* ---- globals */

static struct wl_resource *bound;

static void binds(struct wl_client *client, void *data, uint32_t version, uint32_t id)
{
	bound = wl_resource_create(client, data, (int)version, id);
}

static const struct wl_interface *no_types[] = { NULL };
static const struct wl_message late_requests[] = { { "fooBar", "u", no_types } };
static const struct wl_message late_events[] = { { "one", "u", no_types }, { "two", "3u", no_types } };
static const struct wl_interface late_interface = { "late_thing", 3, 1, late_requests, 2, late_events };

/* An interface that no global had when the client came. The second event is newer than the object. */
static void late_interfaces(void)
{
	begin(4);
	wl_global_create(display, &late_interface, 3, (void *)(uintptr_t)&late_interface, binds);
	struct heard heard = hear("a late global");
	if (!heard.globals) {
		printf("not told\n");
		return;
	}
	put_bind(&wire, heard.last_name, "late_thing", 1, FIRST_FREE);
	hear("its bind");
	wl_resource_post_event(bound, 0, 7);
	wl_resource_post_event(bound, 1, 8);
	hear("its events");
}

static void many_globals(void)
{
	struct heard sum = { 0 };
	begin(4);
	for (int count = 0; count < 1500; count++) {
		struct wl_global *global = add_compositor();
		sum.globals += hears(NULL, &peer, &wire).globals;
		wl_global_destroy(global);
		sum.removals += hears(NULL, &peer, &wire).removals;
	}
	printf("told of %u globals, and that %u are gone\n", sum.globals, sum.removals);
	sum = (struct heard){ 0 };
	for (int count = 0; count < 1500; count++)
		add_compositor();
	for (int turn = 0; turn < 10; turn++)
		sum.globals += hears(NULL, &peer, &wire).globals;
	printf("told of %u globals that stay\n", sum.globals);
}

static bool hides(const struct wl_client *client, const struct wl_global *global, void *hidden)
{
	(void)client;
	return global != hidden;
}

static void filtered_globals(void)
{
	begin(4);
	struct wl_global *hidden = wl_global_create(display, &late_interface, 3, NULL, binds);
	wl_display_set_global_filter(display, hides, hidden);
	struct peer other;
	open_peer(&other);
	put_message(&wire, 1, GET_REGISTRY, 1, REGISTRY);
	hears("a filter", &other, &wire);
	put_bind(&wire, 2, "late_thing", 1, COMPOSITOR);
	hears("a bind of what it hides", &other, &wire);
}

/* Which registry hears first is not promised. */
static void say_both(const char *what)
{
	struct heard heard = hears(NULL, &peer, &wire);
	printf("%s: %u and %u by the first, %u by the other\n", what, heard.globals, heard.removals, heard.others);
}

static void two_registries(void)
{
	begin(4);
	put_message(&wire, 1, GET_REGISTRY, 1, FIRST_FREE);
	hear("another registry");
	struct wl_global *global = wl_global_create(display, &wl_output_interface, 1, NULL, binds);
	say_both("a global");
	wl_global_remove(global);
	say_both("is removed");
	wl_global_destroy(global);
	say_both("and destroyed");
}

static void refused_bind(const char *what, uint32_t name, const char *interface, uint32_t version)
{
	begin(4);
	put_bind(&wire, name, interface, version, FIRST_FREE);
	hear(what);
}

static void bind_of_no_global(void)
{
	refused_bind("no global", 77, "wl_compositor", 1);
}

static void bind_of_another_interface(void)
{
	refused_bind("another interface", 1, "wl_shm", 1);
}

static void bind_of_version_0(void)
{
	refused_bind("version 0", 1, "wl_compositor", 0);
}

static void bind_of_a_newer_version(void)
{
	refused_bind("a newer version", 1, "wl_compositor", 5);
}

/* A bind that was on its way when the global was removed is still served. */
static void bind_of_a_removed_global(void)
{
	begin(4);
	struct wl_global *global = wl_global_create(display, &wl_output_interface, 1, (void *)(uintptr_t)&wl_output_interface,
		binds);
	uint32_t name = hear("a global").last_name;
	wl_global_remove(global);
	put_bind(&wire, name, "wl_output", 1, FIRST_FREE);
	hear("a bind of a removed one");
	printf("bound: %d\n", bound != NULL);
	wl_global_destroy(global);
	put_bind(&wire, name, "wl_output", 1, FIRST_FREE + 1);
	hear("a bind of a destroyed one");
}

/* ---- objects that end */

static void destroy_that_is_ignored(void)
{
	begin(4);
	of_surface.destroy = ignores;
	make_surface(4);
	put_message(&wire, 4, SURFACE_DESTROY, 0);
	hear("a destroy that its handler ignores");
	printf("the object is there: %d\n", wl_client_get_object(peer.client, 4) == last_surface);
	put_message(&wire, 4, SURFACE_COMMIT, 0);
	hear("a request on it");
	wl_resource_destroy(last_surface);
	put_message(&wire, 1, SYNC, 1, 5);
	hear("destroyed later");
	make_surface(4);
	put_message(&wire, 4, SURFACE_COMMIT, 0);
	hear("its id again");
}

static void end_without_a_request(void)
{
	begin(4);
	make_surface(4);
	hear("a surface");
	wl_resource_destroy(last_surface);
	put_message(&wire, 1, SYNC, 1, 5);
	hear("destroyed by the compositor");
	make_surface(4);
	hear("its id again");
	wl_resource_destroy(last_surface);
	put_message(&wire, 4, SURFACE_COMMIT, 0);
	hear("a request that was on its way");
}

/* wl_compositor has no request that destroys it. */
static void end_that_has_no_request(void)
{
	begin(4);
	wl_resource_destroy(compositor_resource);
	put_message(&wire, 1, SYNC, 1, 4);
	hear("wl_compositor is destroyed");
	make_surface(5);
	hear("a request on it");
}

static void queued_events_wait(void)
{
	begin(4);
	make_surface(4);
	put_message(&wire, 4, SURFACE_FRAME, 1, 5);
	hear("a callback");
	wl_resource_queue_event(last_frame, WL_CALLBACK_DONE, 7);
	hear("a queued event");
	wl_resource_destroy(last_frame);
	hear("a delete_id");
	put_message(&wire, 1, SYNC, 1, 6);
	hear("an event that is posted");
}

/* ---- requests that are refused */

static void newer_request(void)
{
	begin(1);
	make_surface(4);
	put_message(&wire, 4, SURFACE_SCALE, 1, 2);
	hear("set_buffer_scale, since 3, at version 1");
}

static void unknown_opcodes(void)
{
	static const struct { const char *what; uint32_t object; uint16_t opcode; } tried[] = {
		{ "wl_registry", REGISTRY, 9 }, { "wl_display", 1, 2 }, { "wl_compositor", COMPOSITOR, 2 },
		{ "wl_compositor, the last one", COMPOSITOR, 65535 },
	};
	for (size_t at = 0; at < sizeof tried / sizeof *tried; at++) {
		begin(4);
		put_message(&wire, tried[at].object, tried[at].opcode, 0);
		hear(tried[at].what);
	}
}

static void unknown_objects(void)
{
	static const uint32_t ids[] = { 99, 0, 0xff000000, 0xffffffff };
	for (size_t at = 0; at < sizeof ids / sizeof *ids; at++) {
		begin(4);
		put_message(&wire, ids[at], 0, 0);
		hear("no object");
	}
	begin(4);
	make_surface(4);
	put_message(&wire, 4, SURFACE_DESTROY, 0);
	put_message(&wire, 4, SURFACE_COMMIT, 0);
	hear("a destroyed object");
}

static void new_ids_that_are_wrong(void)
{
	static const uint32_t ids[] = { COMPOSITOR, 0, 900, 0xff000000 };
	for (size_t at = 0; at < sizeof ids / sizeof *ids; at++) {
		begin(4);
		make_surface(ids[at]);
		struct heard heard = hears(NULL, &peer, &wire);
		printf("new id %x: %s\n", ids[at], heard.errors ? "an error" : "none");
	}
}

static void wrong_arguments(void)
{
	begin(4);
	make_surface(4);
	put_message(&wire, 4, SURFACE_ATTACH, 3, COMPOSITOR, 0, 0);
	printf("an object of another interface: %u errors\n", hears(NULL, &peer, &wire).errors);
	begin(4);
	make_surface(4);
	put_message(&wire, 4, SURFACE_ATTACH, 3, 99, 0, 0);
	printf("no object: %u errors\n", hears(NULL, &peer, &wire).errors);
	begin(4);
	make_surface(4);
	put_message(&wire, 4, SURFACE_ATTACH, 3, 0, 0, 0);
	hear("null where it is allowed");
	printf("attached: %p\n", wl_resource_get_user_data(last_surface));
	put_message(&wire, 4, SURFACE_ATTACH, 1, 0);
	printf("too few bytes: %u errors\n", hears(NULL, &peer, &wire).errors);
}

/* ---- errors of the compositor */

static void long_errors(void)
{
	static const char text[] = "a text as the compositors write them: it says what was wrong, with which object, in "
		"which state that object was, what should have been done instead of it, and in which order";
	for (size_t length = 30; length < sizeof text; length += 30) {
		begin(4);
		wl_resource_post_error(compositor_resource, 3, "%.*s", (int)length, text);
		hear("posted");
	}
}

static void errors_of_the_client(void)
{
	begin(4);
	wl_client_post_no_memory(peer.client);
	hear("no memory");
	begin(4);
	wl_resource_post_no_memory(compositor_resource);
	hear("no memory, of a resource");
	begin(4);
	wl_client_post_implementation_error(peer.client, "it has %d bugs", 3);
	hear("a bug");
	begin(4);
	wl_resource_post_error(compositor_resource, 1, "first");
	wl_resource_post_error(compositor_resource, 2, "second");
	hear("two errors");
}

static void destroys_client(void *client)
{
	wl_client_destroy(client);
}

static void ends_later(struct wl_client *client, struct wl_resource *resource)
{
	(void)resource;
	wl_event_loop_add_idle(loop_of_display(), destroys_client, client);
}

static void a_client_that_the_compositor_destroys(void)
{
	begin(4);
	of_surface.commit = ends_later;
	make_surface(4);
	put_message(&wire, 4, SURFACE_COMMIT, 0);
	make_surface(5);
	hear("wl_client_destroy");
}

static void requests_behind_an_error(void)
{
	begin(4);
	make_surface(4);
	put_message(&wire, 4, 99, 0);
	make_surface(5);
	hear("a request behind an error");
}

/* ---- events out of destroy listeners */

static struct wl_resource *keyboard;

static void binds_keyboard(struct wl_client *client, void *data, uint32_t version, uint32_t id)
{
	(void)data;
	keyboard = wl_resource_create(client, &wl_keyboard_interface, (int)version, id);
}

static void leaves(struct wl_listener *listener, void *data)
{
	(void)listener;
	wl_keyboard_send_leave(keyboard, 5, data);
}

/* A keyboard's leave, from the destroy listener of its surface, names the surface: it comes before delete_id. */
static void a_leave_before_delete_id(void)
{
	static struct wl_listener listener = { .notify = leaves };
	begin(4);
	wl_global_create(display, &wl_keyboard_interface, 1, NULL, binds_keyboard);
	put_bind(&wire, hear("a keyboard").last_name, "wl_keyboard", 1, 4);
	make_surface(5);
	hear("a surface");
	wl_resource_add_destroy_listener(last_surface, &listener);
	put_message(&wire, 5, SURFACE_DESTROY, 0);
	hear("destroyed by the client");
	make_surface(5);
	hear("another");
	wl_resource_add_destroy_listener(last_surface, &listener);
	wl_resource_destroy(last_surface);
	put_message(&wire, 1, SYNC, 1, 6);
	hear("destroyed by the compositor");
}

/* ---- objects that the compositor makes */

static struct wl_resource *device;

static void binds_device(struct wl_client *client, void *data, uint32_t version, uint32_t id)
{
	(void)data;
	device = wl_resource_create(client, &wl_data_device_interface, (int)version, id);
}

static struct wl_data_offer_interface of_offer = { .destroy = destroys };

static struct wl_resource *offer(void)
{
	struct wl_resource *made = wl_resource_create(wl_resource_get_client(device), &wl_data_offer_interface, 1, 0);
	wl_resource_set_implementation(made, &of_offer, NULL, NULL);
	wl_data_device_send_data_offer(device, made);
	wl_data_offer_send_offer(made, "text/plain");
	wl_data_device_send_selection(device, made);
	return made;
}

static void objects_of_the_compositor(void)
{
	begin(4);
	wl_global_create(display, &wl_data_device_interface, 1, NULL, binds_device);
	put_bind(&wire, hear("a device").last_name, "wl_data_device", 1, 4);
	hear("its bind");
	struct wl_resource *first = offer();
	struct wl_resource *second = offer();
	hear("two offers");
	printf("ids %x %x\n", wl_resource_get_id(first), wl_resource_get_id(second));
	put_message(&wire, wl_resource_get_id(first), 2, 0);
	hear("the first is destroyed");
	struct wl_resource *third = offer();
	hear("another");
	printf("id %x\n", wl_resource_get_id(third));
	put_message(&wire, wl_resource_get_id(second), 2, 0);
	put_message(&wire, wl_resource_get_id(third), 2, 0);
	put_message(&wire, wl_resource_get_id(third), 2, 0);
	hear("destroyed twice");
}

#define PLAYED(name) { #name, name }
static const struct {
	const char *name;
	void (*play)(void);
} played[] = {
	PLAYED(late_interfaces), PLAYED(many_globals), PLAYED(filtered_globals), PLAYED(two_registries),
	PLAYED(bind_of_no_global), PLAYED(bind_of_another_interface), PLAYED(bind_of_version_0),
	PLAYED(bind_of_a_newer_version), PLAYED(bind_of_a_removed_global), PLAYED(destroy_that_is_ignored),
	PLAYED(end_without_a_request), PLAYED(end_that_has_no_request), PLAYED(queued_events_wait),
	PLAYED(newer_request), PLAYED(unknown_opcodes), PLAYED(unknown_objects), PLAYED(new_ids_that_are_wrong),
	PLAYED(wrong_arguments), PLAYED(long_errors), PLAYED(errors_of_the_client),
	PLAYED(a_client_that_the_compositor_destroys), PLAYED(requests_behind_an_error),
	PLAYED(a_leave_before_delete_id), PLAYED(objects_of_the_compositor),
};

static int play(const void *place)
{
	played[*(const size_t *)place].play();
	return 0;
}

int main(int argc, char **argv)
{
	wl_log_set_handler_server(quiet);
	for (size_t at = 0; at < sizeof played / sizeof *played; at++) {
		if (argc > 1 && strcmp(argv[1], played[at].name))
			continue;
		printf("== %s\n", played[at].name);
		fflush(stdout);
		int status = play_apart(play, &at);
		if (status)
			printf("CRASHED by signal %d, status %d\n", WTERMSIG(status), WEXITSTATUS(status));
	}
	return 0;
}
