/* Interfaces that are wrong: each must end in an error and a line of the log, and not crash. Those
 * in which libwayland finds nothing wrong must end in an error or be used.
 *
 *     malformed [NUMBER]
 *
 * Prints a line for each, which is a process of its own. libwayland itself reads beyond its structs
 * with some. With NUMBER only that one is tried, in this process. */
#define _GNU_SOURCE
#define COUNT_CLOSES
#include "thing.h"
#include "wire.h"

static const struct wl_interface *const untyped[32];
/* `untyped`, in the form of a wl_message. */
#define NO_TYPES ((const struct wl_interface **)(uintptr_t)untyped)

static struct wl_message requests[300], events[300], nested_message;
static struct wl_interface wrong, nested;
static const struct wl_interface *nested_types[1];
static char long_name[70001];
static int lines;

static void count_lines(const char *format, va_list list)
{
	char text[512];
	vsnprintf(text, sizeof text, format, list);
	lines++;
}

/* ---- what is wrong: `wrong` has a good request and a good event before */

static void set_request(const char *signature)
{
	requests[0].signature = signature;
}

static void set_event(const char *signature)
{
	events[0].signature = signature;
}

#define SIGNATURE(name, text) \
	static void request_##name(void) \
	{ \
		set_request(text); \
	} \
	static void event_##name(void) \
	{ \
		set_event(text); \
	}

SIGNATURE(letter, "x")
SIGNATURE(letter_behind_others, "iux")
SIGNATURE(many, "iiiiiiiiiiiiiiiiiiiii")
SIGNATURE(many_nullable, "?s?s?s?s?s?s?s?s?s?s?s?s?s?s?s?s?s?s?s?s?s")
SIGNATURE(question_at_end, "i?")
SIGNATURE(question_alone, "?")
SIGNATURE(two_questions, "??s")
SIGNATURE(digit_behind, "s3")
SIGNATURE(great_version, "99999999999999999999999i")
SIGNATURE(null, NULL)
SIGNATURE(blank, "i u")
SIGNATURE(newline, "i\nu")
SIGNATURE(question_at_number, "?i")
SIGNATURE(version_alone, "3")

#define WITHOUT_TYPES(name, text) \
	static void request_##name##_without_types(void) \
	{ \
		set_request(text); \
		requests[0].types = NULL; \
	} \
	static void event_##name##_without_types(void) \
	{ \
		set_event(text); \
		events[0].types = NULL; \
	}

WITHOUT_TYPES(new, "n")
WITHOUT_TYPES(object, "o")
WITHOUT_TYPES(number, "u")

static void no_name(void)
{
	wrong.name = NULL;
}

static void empty_name(void)
{
	wrong.name = "";
}

static void name_with_newline(void)
{
	wrong.name = "wrong 1\nrequest more u\ninterface other";
}

static void name_with_blank(void)
{
	wrong.name = "two words";
}

static void name_of_300(void)
{
	wrong.name = long_name + sizeof long_name - 301;
}

static void name_of_70000(void)
{
	wrong.name = long_name;
}

static void message_without_name(void)
{
	requests[0].name = events[0].name = NULL;
}

static void no_requests(void)
{
	wrong.methods = NULL;
}

static void no_events(void)
{
	wrong.events = NULL;
}

static void fewer_than_no_requests(void)
{
	wrong.method_count = -1;
}

static void fewer_than_no_events(void)
{
	wrong.event_count = -1;
}

static void no_version(void)
{
	wrong.version = 0;
}

static void negative_version(void)
{
	wrong.version = -7;
}

static void many_requests(void)
{
	for (int at = 1; at < 300; at++)
		requests[at] = requests[0];
	wrong.method_count = 300;
}

static void many_events(void)
{
	for (int at = 1; at < 300; at++)
		events[at] = events[0];
	wrong.event_count = 300;
}

static void type_that_is_wrong(void)
{
	nested_message = (struct wl_message){ "nested", "x", NO_TYPES };
	nested = (struct wl_interface){ "nested", 1, 1, &nested_message, 1, &nested_message };
	nested_types[0] = &nested;
	set_request("n");
	requests[0].types = nested_types;
}

static void type_of_itself(void)
{
	nested_types[0] = &wrong;
	set_request("o");
	set_event("o");
	requests[0].types = events[0].types = nested_types;
}

static void type_that_contradicts(void)
{
	nested_message = (struct wl_message){ "nested", "u", NO_TYPES };
	nested = (struct wl_interface){ "wl_compositor", 1, 1, &nested_message, 0, NULL };
	nested_types[0] = &nested;
	set_request("n");
	requests[0].types = nested_types;
}

static void name_of_the_core(void)
{
	wrong.name = "wl_surface";
}

static void name_of_the_display(void)
{
	wrong.name = "wl_display";
}

enum { REFUSED, ANY };
static const struct {
	const char *name;
	void (*spoil)(void);
	int wanted;
} cases[] = {
#define BOTH(name, wanted) \
	{ "request " #name, request_##name, wanted }, { "event " #name, event_##name, wanted }
	BOTH(letter, REFUSED), BOTH(letter_behind_others, REFUSED), BOTH(many, REFUSED),
	BOTH(many_nullable, REFUSED), BOTH(question_at_end, REFUSED), BOTH(question_alone, REFUSED),
	BOTH(two_questions, ANY), BOTH(digit_behind, ANY), BOTH(great_version, REFUSED),
	BOTH(null, REFUSED), BOTH(blank, REFUSED), BOTH(newline, REFUSED),
	BOTH(question_at_number, ANY), BOTH(version_alone, ANY), BOTH(new_without_types, REFUSED), BOTH(object_without_types, REFUSED),
	BOTH(number_without_types, ANY),
#define ONE(name, wanted) { #name, name, wanted }
	ONE(no_name, REFUSED), ONE(empty_name, ANY), ONE(name_with_newline, ANY),
	ONE(name_with_blank, ANY), ONE(name_of_300, ANY), ONE(name_of_70000, ANY),
	ONE(message_without_name, ANY), ONE(no_requests, REFUSED), ONE(no_events, REFUSED),
	ONE(fewer_than_no_requests, ANY), ONE(fewer_than_no_events, ANY), ONE(no_version, ANY),
	ONE(negative_version, ANY), ONE(many_requests, ANY), ONE(many_events, ANY),
	ONE(type_that_is_wrong, REFUSED), ONE(type_of_itself, ANY), ONE(type_that_contradicts, ANY),
	ONE(name_of_the_core, ANY), ONE(name_of_the_display, ANY),
};
#define CASES (sizeof cases / sizeof cases[0])

static void begin_good(void)
{
	requests[0] = (struct wl_message){ "request", "u", NO_TYPES };
	events[0] = (struct wl_message){ "event", "u", NO_TYPES };
	wrong = (struct wl_interface){ "wrong", 1, 1, requests, 1, events };
}

static int ignore(const void *data, void *proxy, uint32_t opcode, const struct wl_message *message,
	union wl_argument *args)
{
	(void)data, (void)proxy, (void)opcode, (void)message, (void)args;
	return 0;
}

/* Uses the interface until something ends that. Returns 0 if all went well. */
static int use(struct wl_display *display, struct wl_registry *registry, int peer)
{
	static struct wire wire;
	union wl_argument args[32] = { { 0 } };
	struct wl_proxy *proxy = wl_proxy_marshal_flags((struct wl_proxy *)registry, WL_REGISTRY_BIND,
		&wrong, 1, 0, 1, "wrong", 1, NULL);
	if (!proxy)
		return 1;
	wl_proxy_add_dispatcher(proxy, ignore, NULL, NULL);
	int has_new = requests[0].signature && strchr(requests[0].signature, 'n');
	struct wl_proxy *made = wl_proxy_marshal_array_flags(proxy, 0,
		has_new ? &thing_interface : NULL, 1, 0, args);
	int status = wl_display_flush(display) < 0 || (has_new && !made);
	status |= wl_display_get_error(display) != 0;
	put_message(&wire, wl_proxy_get_id(proxy), 0, 1,
		events[0].signature && *events[0].signature == 'n' ? FIRST_SERVER_ID : 0);
	send_wire(&wire, peer);
	shutdown(peer, SHUT_WR);
	status |= wl_display_dispatch(display) < 0;
	if (made)
		wl_proxy_destroy(made);
	wl_proxy_destroy(proxy);
	return status;
}

/* How a process ends, beside what valgrind says. */
enum { RIGHT, FAILED, NOT_REFUSED, LEFT_OPEN };
static const char *const statuses[] = { "", "failed", "not refused with a line",
	"a descriptor is open, or was closed twice" };

static int play(const void *its)
{
	size_t number = *(const size_t *)its;
	int sockets[2], before = count_open();
	begin_good();
	cases[number].spoil();
	make_pair(sockets);
	struct wl_display *display = wl_display_connect_to_fd(sockets[0]);
	struct wl_registry *registry = wl_display_get_registry(display);
	lines = 0;
	int is_refused = use(display, registry, sockets[1]);
	int error = wl_display_get_error(display);
	printf("%s: %s, error %s, %d lines\n", cases[number].name, is_refused ? "refused" : "used",
		name_of(error), lines);
	fflush(stdout);
	wl_registry_destroy(registry);
	wl_display_disconnect(display);
	close(sockets[1]);
	if (count_open() != before || closed_twice)
		return LEFT_OPEN;
	return cases[number].wanted == REFUSED && (!is_refused || !lines) ? NOT_REFUSED : RIGHT;
}

static int is_wrong(size_t number)
{
	int status = play_apart(play, &number);
	if (WIFSIGNALED(status))
		printf("WRONG: %s: signal %d\n", cases[number].name, WTERMSIG(status));
	else if (WEXITSTATUS(status))
		printf("WRONG: %s: %s, status %d\n", cases[number].name,
			WEXITSTATUS(status) <= LEFT_OPEN ? statuses[WEXITSTATUS(status)] : "an error of memory",
			WEXITSTATUS(status));
	fflush(stdout);
	return status != 0;
}

int main(int argc, char **argv)
{
	int wrongs = 0;
	memset(long_name, 'a', sizeof long_name - 1);
	wl_log_set_handler_client(count_lines);
	if (argc > 1)
		return play(&(size_t){ (size_t)atoi(argv[1]) % CASES });
	for (size_t number = 0; number < CASES; number++)
		wrongs += is_wrong(number);
	printf("%zu interfaces, %d wrong\n", CASES, wrongs);
	return wrongs != 0;
}
