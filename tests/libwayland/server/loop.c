/* What an event loop does: descriptors, timers, signals, idle calls, checks, and sources that callbacks change or
 * remove. What happens is printed, so that two libraries can be compared. */
#define _GNU_SOURCE
#include "served.h"
#include <fcntl.h>
#include <pthread.h>
#include <signal.h>
#include <time.h>

#define MOST 8

static struct wl_event_loop *loop;
static struct wl_event_source *sources[MOST];
static int numbers[MOST] = { 0, 1, 2, 3, 4, 5, 6, 7 };
/* What a callback removes: the place of a source, and the place of its victim; -1 if it removes none. */
static int remover = -1, victim = -1;
static int calls;

static void dispatch(const char *what, int timeout)
{
	printf("%s:", what);
	int status = wl_event_loop_dispatch(loop, timeout);
	printf(" = %d\n", status);
}

/* Dispatches until so many callbacks have been called. */
static void dispatch_until(const char *what, int most)
{
	printf("%s:", what);
	for (calls = 0; calls < most;)
		MUST(!wl_event_loop_dispatch(loop, -1));
	printf("\n");
}

static void called(int number)
{
	calls++;
	printf(" %d", number);
	if (number == remover && sources[victim]) {
		MUST(!wl_event_source_remove(sources[victim]));
		sources[victim] = NULL;
	}
}

static int on_descriptor(int descriptor, uint32_t mask, void *data)
{
	char bytes[64];
	called(*(int *)data);
	printf("%s%s%s", mask & WL_EVENT_READABLE ? "r" : "", mask & WL_EVENT_WRITABLE ? "w" : "",
		mask & WL_EVENT_HANGUP ? "h" : "");
	if (mask & WL_EVENT_READABLE)
		printf("(%d)", (int)read(descriptor, bytes, sizeof bytes));
	return 0;
}

static int on_timer(void *data)
{
	called(*(int *)data);
	return 0;
}

static int on_signal(int number, void *data)
{
	called(*(int *)data);
	printf("(%s)", number == SIGUSR1 ? "SIGUSR1" : "SIGUSR2");
	return 0;
}

static void on_idle(void *data)
{
	called(*(int *)data);
	sources[*(int *)data] = NULL;
}

static void begin(void)
{
	loop = wl_event_loop_create();
	MUST(loop);
	remover = victim = -1;
}

static void end(void)
{
	for (int at = 0; at < MOST; at++) {
		if (sources[at])
			wl_event_source_remove(sources[at]);
		sources[at] = NULL;
	}
	wl_event_loop_destroy(loop);
}

static void descriptors(void)
{
	int ends[2];
	begin();
	MUST(!pipe2(ends, O_CLOEXEC | O_NONBLOCK));
	sources[0] = wl_event_loop_add_fd(loop, ends[0], WL_EVENT_READABLE, on_descriptor, &numbers[0]);
	sources[1] = wl_event_loop_add_fd(loop, ends[1], WL_EVENT_WRITABLE, on_descriptor, &numbers[1]);
	dispatch("writable", 0);
	wl_event_source_fd_update(sources[1], 0);
	dispatch("neither", 0);
	MUST(write(ends[1], "abc", 3) == 3);
	dispatch("readable", 0);
	dispatch("read", 0);
	wl_event_source_fd_update(sources[0], 0);
	MUST(write(ends[1], "abc", 3) == 3);
	dispatch("not asked for", 0);
	wl_event_source_fd_update(sources[0], WL_EVENT_READABLE);
	dispatch("asked for", 0);
	wl_event_source_remove(sources[1]);
	sources[1] = NULL;
	close(ends[1]);
	dispatch("hung up", 0);
	close(ends[0]);
	dispatch("closed by the caller, and watched yet", 0);
	wl_event_source_remove(sources[0]);
	sources[0] = NULL;
	printf("no descriptor: %d\n", wl_event_loop_add_fd(loop, -1, WL_EVENT_READABLE, on_descriptor, NULL) == NULL);
	end();
}

/* Each of two sources removes itself or the other. */
static void sources_that_are_removed_in_callbacks(void)
{
	static const int tried[][2] = { { 0, 0 }, { 0, 1 }, { 1, 1 }, { 1, 0 } };
	for (size_t it = 0; it < sizeof tried / sizeof *tried; it++) {
		int ends[2][2];
		begin();
		remover = tried[it][0], victim = tried[it][1];
		for (int at = 0; at < 2; at++) {
			MUST(!pipe2(ends[at], O_CLOEXEC | O_NONBLOCK));
			MUST(write(ends[at][1], "a", 1) == 1);
			sources[at] = wl_event_loop_add_fd(loop, ends[at][0], WL_EVENT_READABLE, on_descriptor, &numbers[at]);
		}
		dispatch("removed", 0);
		dispatch("again", 0);
		end();
	}
}

static int asks_again(int descriptor, uint32_t mask, void *data)
{
	(void)descriptor;
	called(*(int *)data);
	printf("(%u)", mask);
	return calls < 4;
}

/* A callback that returns a positive number is called again in the same dispatch, if its source is checked. */
static void checked_sources(void)
{
	int ends[2];
	begin();
	MUST(!pipe2(ends, O_CLOEXEC));
	sources[0] = wl_event_loop_add_fd(loop, ends[0], WL_EVENT_READABLE, asks_again, &numbers[0]);
	wl_event_source_check(sources[0]);
	calls = 0;
	dispatch("nothing to read", 0);
	MUST(write(ends[1], "a", 1) == 1);
	calls = 2;
	dispatch("something", 0);
	end();
}

static int64_t milliseconds(void)
{
	struct timespec now;
	MUST(!clock_gettime(CLOCK_MONOTONIC, &now));
	return now.tv_sec * INT64_C(1000) + now.tv_nsec / 1000000;
}

/* Sets timers to times that are at least 99 ms apart. If that takes so long on a busy machine, sets
 * them again: none has been dispatched. */
static void set_timers(const int *after, int count)
{
	int64_t began;
	do {
		began = milliseconds();
		for (int at = 0; at < count; at++)
			MUST(!wl_event_source_timer_update(sources[at], after[at]));
	} while (milliseconds() - began > 90);
}

static void timers_in_order(void)
{
	static const int hours[] = { 3600000, 3600000, 3600000, 3600000 }, after[] = { 300, 100, 200, 1 };
	begin();
	for (int at = 0; at < 4; at++)
		MUST((sources[at] = wl_event_loop_add_timer(loop, on_timer, &numbers[at])) != NULL);
	set_timers(hours, 4);
	dispatch("none is due", 0);
	set_timers(after, 4);
	dispatch_until("all", 4);
	dispatch("no more", 0);
	wl_event_source_timer_update(sources[0], 1);
	wl_event_source_timer_update(sources[1], 1);
	wl_event_source_timer_update(sources[0], 0);
	dispatch_until("the one that is not taken back", 1);
	dispatch("no more", 0);
	end();
}

static void wait_until_due(void)
{
	struct timespec while_due = { 0, 60000000 };
	while (nanosleep(&while_due, &while_due))
		;
}

/* Timers that are due together: what one of them removes is not called. */
static void timers_that_are_due_together(void)
{
	static const int tried[][2] = { { -1, -1 }, { 0, 2 }, { 2, 0 }, { 1, 1 } };
	for (size_t it = 0; it < sizeof tried / sizeof *tried; it++) {
		begin();
		remover = tried[it][0], victim = tried[it][1];
		for (int at = 0; at < 3; at++) {
			sources[at] = wl_event_loop_add_timer(loop, on_timer, &numbers[at]);
			wl_event_source_timer_update(sources[at], 1 + 20 * at);
		}
		wait_until_due();
		dispatch("due", 0);
		dispatch("again", 0);
		end();
	}
}

static int sets_again(void *data)
{
	called(*(int *)data);
	wl_event_source_timer_update(sources[*(int *)data], 1);
	wl_event_source_timer_update(sources[1], 0);
	return 0;
}

/* A timer that is due is called once, even if another one of the same dispatch stops it. */
static void timers_that_set_timers(void)
{
	begin();
	sources[0] = wl_event_loop_add_timer(loop, sets_again, &numbers[0]);
	sources[1] = wl_event_loop_add_timer(loop, on_timer, &numbers[1]);
	wl_event_source_timer_update(sources[0], 1);
	wl_event_source_timer_update(sources[1], 20);
	wait_until_due();
	dispatch("due", 0);
	dispatch_until("the first one again", 3);
	end();
}

static void signals(void)
{
	begin();
	sources[0] = wl_event_loop_add_signal(loop, SIGUSR1, on_signal, &numbers[0]);
	sources[1] = wl_event_loop_add_signal(loop, SIGUSR2, on_signal, &numbers[1]);
	dispatch("none", 0);
	kill(getpid(), SIGUSR1);
	dispatch("one", 0);
	kill(getpid(), SIGUSR2);
	kill(getpid(), SIGUSR2);
	dispatch("the other, twice", 0);
	dispatch("again", 0);
	sources[2] = wl_event_loop_add_signal(loop, SIGUSR2, on_signal, &numbers[2]);
	kill(getpid(), SIGUSR2);
	dispatch("with two sources", 0);
	remover = 1, victim = 2;
	kill(getpid(), SIGUSR2);
	dispatch("of which one removes the other", 0);
	end();
}

static void adds_idle(void *data)
{
	on_idle(data);
	int next = *(int *)data + 1;
	if (next < MOST)
		sources[next] = wl_event_loop_add_idle(loop, adds_idle, &numbers[next]);
}

static void idle_calls(void)
{
	begin();
	for (int at = 0; at < 4; at++)
		sources[at] = wl_event_loop_add_idle(loop, on_idle, &numbers[at]);
	wl_event_source_remove(sources[2]);
	sources[2] = NULL;
	dispatch("in order, without one", 0);
	dispatch("no more", 0);
	sources[0] = wl_event_loop_add_idle(loop, on_idle, &numbers[0]);
	sources[1] = wl_event_loop_add_idle(loop, on_idle, &numbers[1]);
	remover = 0, victim = 1;
	printf("one removes another:");
	wl_event_loop_dispatch_idle(loop);
	printf("\n");
	sources[0] = wl_event_loop_add_idle(loop, adds_idle, &numbers[0]);
	dispatch("each adds one", 0);
	end();
}

static void loop_ends(struct wl_listener *listener, void *data)
{
	(void)listener;
	printf("it ends: %d\n", data == loop);
}

static void a_loop_in_another_one(void)
{
	static struct wl_listener listener = { .notify = loop_ends };
	struct pollfd waits;
	begin();
	waits = (struct pollfd){ wl_event_loop_get_fd(loop), POLLIN, 0 };
	sources[0] = wl_event_loop_add_timer(loop, on_timer, &numbers[0]);
	printf("nothing to do: %d\n", poll(&waits, 1, 0));
	wl_event_source_timer_update(sources[0], 1);
	printf("something to do: %d\n", poll(&waits, 1, 60000));
	dispatch("done", 0);
	printf("nothing to do: %d\n", poll(&waits, 1, 0));
	wl_event_loop_add_destroy_listener(loop, &listener);
	printf("found: %d\n", wl_event_loop_get_destroy_listener(loop, loop_ends) == &listener);
	end();
}

static void *terminates(void *display_that_runs)
{
	wl_display_terminate(display_that_runs);
	return NULL;
}

static void starts_a_thread(void *thread)
{
	MUST(!pthread_create(thread, NULL, terminates, display));
}

/* Another thread ends wl_display_run while nothing else happens. */
static void a_display_that_a_thread_terminates(void)
{
	pthread_t thread;
	display = wl_display_create();
	wl_event_loop_add_idle(loop_of_display(), starts_a_thread, &thread);
	wl_display_run(display);
	pthread_join(thread, NULL);
	printf("it has ended\n");
	wl_display_destroy(display);
}

#define PLAYED(name) { #name, name }
static const struct {
	const char *name;
	void (*play)(void);
} played[] = {
	PLAYED(descriptors), PLAYED(sources_that_are_removed_in_callbacks), PLAYED(checked_sources),
	PLAYED(timers_in_order), PLAYED(timers_that_are_due_together), PLAYED(timers_that_set_timers),
	PLAYED(signals), PLAYED(idle_calls), PLAYED(a_loop_in_another_one),
	PLAYED(a_display_that_a_thread_terminates),
};

static int play(const void *place)
{
	int before = count_open();
	played[*(const size_t *)place].play();
	printf("descriptors left: %d\n", count_open() - before);
	return 0;
}

int main(void)
{
	wl_log_set_handler_server(quiet);
	for (size_t at = 0; at < sizeof played / sizeof *played; at++) {
		printf("== %s\n", played[at].name);
		fflush(stdout);
		int status = play_apart(play, &at);
		if (status)
			printf("CRASHED by signal %d, status %d\n", WTERMSIG(status), WEXITSTATUS(status));
	}
	return 0;
}
