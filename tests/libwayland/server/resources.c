/* In which order resources end, and what listeners of their ends may do: destroy others, also those whose turn would
 * come, in loops and in reverse. And what a compositor asks of resources, clients and signals. What happens is printed,
 * so that two libraries can be compared. */
#define _GNU_SOURCE
#include "served.h"

#define SURFACES 8
#define NEXT_ID (FIRST_FREE + SURFACES)

static struct peer peer;
static struct wire wire;
static struct wl_resource *surfaces[SURFACES];
static struct wl_listener listeners[SURFACES];

static void has_ended(struct wl_resource *resource)
{
	printf(" %u", wl_resource_get_id(resource));
	for (int at = 0; at < SURFACES; at++)
		if (surfaces[at] == resource)
			surfaces[at] = NULL;
}

/* A client with surfaces of the ids from 4 on. */
static void begin(void)
{
	display = wl_display_create();
	MUST(display);
	add_compositor();
	open_with_compositor(&peer, 4);
	for (uint32_t at = 0; at < SURFACES; at++) {
		put_message(&wire, COMPOSITOR, 0, 1, FIRST_FREE + at);
		asks(&peer, &wire);
		surfaces[at] = last_surface;
		wl_resource_set_destructor(last_surface, has_ended);
	}
}

static void add_listener(int at, wl_notify_func_t notify)
{
	listeners[at].notify = notify;
	wl_resource_add_destroy_listener(surfaces[at], &listeners[at]);
}

static int place_of(const struct wl_listener *listener)
{
	return (int)(listener - listeners);
}

static void end_client(const char *what)
{
	printf("%s:", what);
	wl_client_destroy(peer.client);
	printf("\n");
	receive(&peer);
	parse("the client", &peer);
}

static void ends_of_a_client(void)
{
	begin();
	end_client("a client ends");
}

static void destroys_next(struct wl_listener *listener, void *data)
{
	int next = place_of(listener) + 1;
	(void)data;
	if (next < SURFACES && surfaces[next])
		wl_resource_destroy(surfaces[next]);
}

static void destroys_previous(struct wl_listener *listener, void *data)
{
	int previous = place_of(listener) - 1;
	(void)data;
	if (previous >= 0 && surfaces[previous])
		wl_resource_destroy(surfaces[previous]);
}

static void listeners_that_destroy_others(void)
{
	static const wl_notify_func_t tried[] = { destroys_next, destroys_previous };
	for (int it = 0; it < 2; it++) {
		begin();
		for (int at = 0; at < SURFACES; at += it + 1)
			add_listener(at, tried[it]);
		printf("one is destroyed:");
		wl_resource_destroy(surfaces[4]);
		printf("\n");
		put_message(&wire, 1, SYNC, 1, NEXT_ID);
		hears("the client", &peer, &wire);
		end_client("its client ends");
	}
}

static void loops_that_destroy(void)
{
	begin();
	printf("in reverse:");
	for (int at = SURFACES - 1; at >= 0; at--)
		wl_resource_destroy(surfaces[at]);
	put_message(&wire, 1, SYNC, 1, NEXT_ID);
	printf("\n");
	hears("the client", &peer, &wire);
	end_client("its client ends");
}

static enum wl_iterator_result counts(struct wl_resource *resource, void *data)
{
	printf(" %s@%u", wl_resource_get_class(resource), wl_resource_get_id(resource));
	return --*(int *)data ? WL_ITERATOR_CONTINUE : WL_ITERATOR_STOP;
}

static enum wl_iterator_result destroys_surface(struct wl_resource *resource, void *data)
{
	(void)data;
	if (!strcmp(wl_resource_get_class(resource), "wl_surface"))
		wl_resource_destroy(resource);
	return WL_ITERATOR_CONTINUE;
}

static void loops_over_the_resources_of_a_client(void)
{
	int most = 5, all = 100;
	begin();
	wl_client_for_each_resource(peer.client, counts, &most);
	printf("\n");
	wl_client_for_each_resource(peer.client, counts, &all);
	printf("\n");
	wl_client_for_each_resource(peer.client, destroys_surface, NULL);
	printf("\n");
	end_client("its client ends");
}

/* ---- lists and links */

static void links_of_resources(void)
{
	struct wl_list list;
	struct wl_resource *it, *next;
	begin();
	wl_list_init(&list);
	for (int at = 0; at < SURFACES; at++)
		wl_list_insert(&list, wl_resource_get_link(surfaces[at]));
	printf("in a list:");
	wl_resource_for_each(it, &list)
		printf(" %u", wl_resource_get_id(it));
	printf("\nfound: %d\n", wl_resource_find_for_client(&list, peer.client) == surfaces[SURFACES - 1]);
	wl_resource_for_each_safe(it, next, &list) {
		wl_list_remove(wl_resource_get_link(it));
		wl_list_init(wl_resource_get_link(it));
		wl_resource_destroy(it);
	}
	printf("\n");
	end_client("its client ends");
}

static void notes(struct wl_listener *listener, void *data)
{
	(void)data;
	printf(" listener %d", place_of(listener));
}

static void removes_itself_and_the_next(struct wl_listener *listener, void *data)
{
	notes(listener, data);
	for (struct wl_listener *it = listener; it < listener + 2; it++) {
		wl_list_remove(&it->link);
		wl_list_init(&it->link);
	}
}

static void listeners_that_remove_listeners(void)
{
	begin();
	for (int at = 0; at < 5; at++) {
		listeners[at].notify = at == 2 ? removes_itself_and_the_next : notes;
		wl_resource_add_destroy_listener(surfaces[0], &listeners[at]);
	}
	printf("found: %d %d\n", wl_resource_get_destroy_listener(surfaces[0], notes) == &listeners[0],
		wl_resource_get_destroy_listener(surfaces[1], notes) == NULL);
	printf("destroyed:");
	wl_resource_destroy(surfaces[0]);
	struct wl_signal signal;
	wl_signal_init(&signal);
	for (int at = 0; at < 5; at++)
		wl_signal_add(&signal, &listeners[at]);
	printf("\nemitted:");
	wl_signal_emit_mutable(&signal, NULL);
	printf("\nagain:");
	wl_signal_emit(&signal, NULL);
	printf("\n");
}

/* ---- the listeners of clients and displays */

static void is_made(struct wl_listener *listener, void *data)
{
	(void)listener;
	printf(" made %s", wl_resource_get_class(data));
}

static void client_came(struct wl_listener *listener, void *data)
{
	static struct wl_listener of_resources = { .notify = is_made };
	(void)listener;
	printf(" came");
	wl_client_add_resource_created_listener(data, &of_resources);
}

static void ends_before_resources(struct wl_listener *listener, void *data)
{
	(void)listener;
	printf(" ends, with wl_display %d", wl_client_get_object(data, 1) != NULL);
}

static void display_ends(struct wl_listener *listener, void *data)
{
	(void)listener;
	printf(" display %d", data == display);
}

static void listeners_of_clients_and_displays(void)
{
	static struct wl_listener coming = { .notify = client_came }, ending = { .notify = ends_before_resources },
		of_display = { .notify = display_ends };
	display = wl_display_create();
	wl_display_add_client_created_listener(display, &coming);
	wl_display_add_destroy_listener(display, &of_display);
	printf("found: %d\n", wl_display_get_destroy_listener(display, display_ends) == &of_display);
	add_compositor();
	open_with_compositor(&peer, 4);
	wl_client_add_destroy_listener(peer.client, &ending);
	printf("\nfound: %d\n", wl_client_get_destroy_listener(peer.client, ends_before_resources) == &ending);
	put_message(&wire, COMPOSITOR, 0, 1, 4);
	hears("the client", &peer, &wire);
	struct wl_list *list = wl_display_get_client_list(display);
	printf("\nclients: %d, this one %d\n", wl_list_length(list),
		wl_client_from_link(list->next) == peer.client && wl_client_get_link(peer.client) == list->next);
	close_display();
	printf("\n");
}

/* ---- what is asked of a resource */

static int dispatches(const void *implementation, void *target, uint32_t opcode, const struct wl_message *message,
	union wl_argument *arguments)
{
	printf("dispatched: %s.%s %u, number %d, %s\n", wl_resource_get_class(target), message->name, opcode,
		opcode == SURFACE_SCALE ? arguments[0].i : -1, (const char *)implementation);
	return 0;
}

static void facts_of_resources(void)
{
	static int data;
	begin();
	struct wl_resource *it = surfaces[0];
	wl_resource_set_user_data(it, &data);
	printf("user data %d, version %d, class %s, client %d, display %d\n", wl_resource_get_user_data(it) == &data,
		wl_resource_get_version(it), wl_resource_get_class(it), wl_resource_get_client(it) == peer.client,
		wl_client_get_display(peer.client) == display);
	printf("instance of: %d %d %d\n", wl_resource_instance_of(it, &wl_surface_interface, &of_surface),
		wl_resource_instance_of(it, &wl_surface_interface, NULL),
		wl_resource_instance_of(it, &wl_region_interface, &of_surface));
	printf("by id: %d %d\n", wl_client_get_object(peer.client, 4) == it, wl_client_get_object(peer.client, 40) != NULL);
	wl_resource_set_dispatcher(it, dispatches, "its words", &data, NULL);
	put_message(&wire, 4, SURFACE_SCALE, 1, 3);
	put_message(&wire, 4, SURFACE_COMMIT, 0);
	hears("the client", &peer, &wire);
	for (int turn = 0; turn < 3; turn++)
		printf("serial %u\n", wl_display_next_serial(display));
	printf("serial %u\n", wl_display_get_serial(display));
}

static void logs(void *data, enum wl_protocol_logger_type type, const struct wl_protocol_logger_message *message)
{
	printf("%s %s %s@%u.%s of %d\n", (const char *)data, type == WL_PROTOCOL_LOGGER_REQUEST ? "request" : "event",
		wl_resource_get_class(message->resource), wl_resource_get_id(message->resource), message->message->name,
		message->arguments_count);
}

static void loggers(void)
{
	begin();
	struct wl_protocol_logger *one = wl_display_add_protocol_logger(display, logs, "one");
	struct wl_protocol_logger *other = wl_display_add_protocol_logger(display, logs, "other");
	put_message(&wire, 1, SYNC, 1, NEXT_ID);
	hears("the client", &peer, &wire);
	wl_protocol_logger_destroy(one);
	put_message(&wire, 4, SURFACE_FRAME, 1, NEXT_ID);
	hears("the client", &peer, &wire);
	wl_protocol_logger_destroy(other);
	put_message(&wire, 4, SURFACE_DESTROY, 0);
	hears("the client", &peer, &wire);
}

#define PLAYED(name) { #name, name }
static const struct {
	const char *name;
	void (*play)(void);
} played[] = {
	PLAYED(ends_of_a_client), PLAYED(listeners_that_destroy_others), PLAYED(loops_that_destroy),
	PLAYED(loops_over_the_resources_of_a_client), PLAYED(links_of_resources),
	PLAYED(listeners_that_remove_listeners), PLAYED(listeners_of_clients_and_displays),
	PLAYED(facts_of_resources), PLAYED(loggers),
};

static int play(const void *place)
{
	played[*(const size_t *)place].play();
	return 0;
}

int main(void)
{
	wl_log_set_handler_server(quiet);
	for (size_t at = 0; at < sizeof played / sizeof *played; at++) {
		printf("== %s\n", played[at].name);
		fflush(stdout);
		int status = play_apart(play, &at);
		if (status)
			printf("CRASHED by signal %d, status %d\n", WTERMSIG(status), WEXITSTATUS(status));
	}
	return 0;
}
