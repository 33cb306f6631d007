/* The event loop: descriptors, timers, signals and idle calls, over epoll. See server.h. */
#define _GNU_SOURCE
#include "server.h"

#include <errno.h>
#include <fcntl.h>
#include <signal.h>
#include <stdlib.h>
#include <string.h>
#include <sys/epoll.h>
#include <sys/signalfd.h>
#include <sys/timerfd.h>
#include <time.h>
#include <unistd.h>

/* How many descriptors one dispatch asks epoll for. */
#define AT_ONCE 32
#define NANOSECONDS INT64_C(1000000000)

enum source_kind { OF_DESCRIPTOR, OF_TIMER, OF_SIGNAL, OF_IDLE };

struct wl_event_loop {
	int epoll_fd;
	int timer_fd; /* -1 until there is a timer */
	struct wl_list checked, idle, removed;
	struct wl_list timers; /* those that run, by deadline */
	uint32_t removals;     /* how many sources were removed */
	uint32_t depth;        /* how many dispatches are going on, one within the other */
	struct wl_signal destroy;
};

struct wl_event_source {
	enum source_kind kind;
	bool is_removed;
	struct wl_event_loop *loop;
	struct wl_list link;  /* among the checked, the idle or the removed */
	struct wl_list timer; /* among the timers */
	struct wl_list due;   /* among the timers that are called now */
	int fd;               /* the loop's own, or -1 */
	int number;           /* the caller's descriptor, or the number of the signal */
	int64_t deadline;
	void *data;
	union {
		wl_event_loop_fd_func_t descriptor;
		wl_event_loop_timer_func_t timer;
		wl_event_loop_signal_func_t signal;
		wl_event_loop_idle_func_t idle;
	} call;
};

/* ---- making and destroying */

EXPORT struct wl_event_loop *wl_event_loop_create(void)
{
	struct wl_event_loop *loop = calloc(1, sizeof *loop);
	if (!loop)
		return NULL;
	loop->timer_fd = -1;
	loop->epoll_fd = epoll_create1(EPOLL_CLOEXEC);
	if (loop->epoll_fd < 0) {
		free(loop);
		return NULL;
	}
	wl_list_init(&loop->checked);
	wl_list_init(&loop->idle);
	wl_list_init(&loop->removed);
	wl_list_init(&loop->timers);
	signal_init(&loop->destroy);
	return loop;
}

static void free_removed(struct wl_event_loop *loop)
{
	struct wl_event_source *source, *next;
	wl_list_for_each_safe(source, next, &loop->removed, link)
		free(source);
	wl_list_init(&loop->removed);
}

/* As in libwayland, the caller removes its sources before. */
EXPORT void wl_event_loop_destroy(struct wl_event_loop *loop)
{
	signal_emit_last(&loop->destroy, loop);
	free_removed(loop);
	if (loop->timer_fd >= 0)
		close(loop->timer_fd);
	close(loop->epoll_fd);
	free(loop);
}

EXPORT int wl_event_loop_get_fd(struct wl_event_loop *loop)
{
	return loop->epoll_fd;
}

EXPORT void wl_event_loop_add_destroy_listener(struct wl_event_loop *loop,
	struct wl_listener *listener)
{
	signal_add(&loop->destroy, listener);
}

EXPORT struct wl_listener *wl_event_loop_get_destroy_listener(struct wl_event_loop *loop,
	wl_notify_func_t notify)
{
	return signal_get(&loop->destroy, notify);
}

static struct wl_event_source *new_source(struct wl_event_loop *loop, enum source_kind kind,
	void *data)
{
	struct wl_event_source *source = calloc(1, sizeof *source);
	if (!source)
		return NULL;
	source->kind = kind;
	source->loop = loop;
	source->fd = -1;
	source->data = data;
	wl_list_init(&source->link);
	wl_list_init(&source->timer);
	wl_list_init(&source->due);
	return source;
}

/* ---- descriptors */

static uint32_t to_epoll(uint32_t mask)
{
	return (mask & WL_EVENT_READABLE ? EPOLLIN : 0) | (mask & WL_EVENT_WRITABLE ? EPOLLOUT : 0);
}

static uint32_t from_epoll(uint32_t events)
{
	return (events & EPOLLIN ? WL_EVENT_READABLE : 0)
		| (events & EPOLLOUT ? WL_EVENT_WRITABLE : 0)
		| (events & EPOLLHUP ? WL_EVENT_HANGUP : 0)
		| (events & EPOLLERR ? WL_EVENT_ERROR : 0);
}

/* Watches the descriptor of a source, which is freed with it if that fails. Null with errno. */
static struct wl_event_source *watch(struct wl_event_source *source, uint32_t events)
{
	struct epoll_event event = { .events = events, .data = { .ptr = source } };
	if (source->fd >= 0
		&& !epoll_ctl(source->loop->epoll_fd, EPOLL_CTL_ADD, source->fd, &event))
		return source;
	int error = errno;
	if (source->fd >= 0)
		close(source->fd);
	free(source);
	errno = error;
	return NULL;
}

/* The loop watches a duplicate, so the caller may close its descriptor before it removes the source. */
EXPORT struct wl_event_source *wl_event_loop_add_fd(struct wl_event_loop *loop, int fd,
	uint32_t mask, wl_event_loop_fd_func_t func, void *data)
{
	struct wl_event_source *source = new_source(loop, OF_DESCRIPTOR, data);
	if (!source)
		return NULL;
	source->fd = fcntl(fd, F_DUPFD_CLOEXEC, 0);
	source->number = fd;
	source->call.descriptor = func;
	return watch(source, to_epoll(mask));
}

EXPORT int wl_event_source_fd_update(struct wl_event_source *source, uint32_t mask)
{
	struct epoll_event event = { .events = to_epoll(mask), .data = { .ptr = source } };
	return epoll_ctl(source->loop->epoll_fd, EPOLL_CTL_MOD, source->fd, &event);
}

/* ---- timers: one descriptor for all of them, and a list by deadline */

static int64_t now(void)
{
	struct timespec time;
	clock_gettime(CLOCK_MONOTONIC, &time);
	return time.tv_sec * NANOSECONDS + time.tv_nsec;
}

/* Makes the loop's descriptor for timers. False with errno. */
static bool make_timer_fd(struct wl_event_loop *loop)
{
	struct epoll_event event = { .events = EPOLLIN, .data = { .ptr = loop } };
	int fd = timerfd_create(CLOCK_MONOTONIC, TFD_CLOEXEC | TFD_NONBLOCK);
	if (fd < 0)
		return false;
	if (epoll_ctl(loop->epoll_fd, EPOLL_CTL_ADD, fd, &event)) {
		int error = errno;
		close(fd);
		errno = error;
		return false;
	}
	loop->timer_fd = fd;
	return true;
}

EXPORT struct wl_event_source *wl_event_loop_add_timer(struct wl_event_loop *loop,
	wl_event_loop_timer_func_t func, void *data)
{
	if (loop->timer_fd < 0 && !make_timer_fd(loop))
		return NULL;
	struct wl_event_source *source = new_source(loop, OF_TIMER, data);
	if (source)
		source->call.timer = func;
	return source;
}

/* Sets the descriptor to the first deadline. */
static int arm(struct wl_event_loop *loop)
{
	struct itimerspec at = { { 0, 0 }, { 0, 0 } };
	if (!wl_list_empty(&loop->timers)) {
		struct wl_event_source *first = wl_container_of(loop->timers.next, first, timer);
		at.it_value.tv_sec = first->deadline / NANOSECONDS;
		at.it_value.tv_nsec = first->deadline % NANOSECONDS;
	}
	return timerfd_settime(loop->timer_fd, TFD_TIMER_ABSTIME, &at, NULL);
}

/* Takes an element out of its list, if it is in one. */
static void take_out(struct wl_list *link)
{
	wl_list_remove(link);
	wl_list_init(link);
}

EXPORT int wl_event_source_timer_update(struct wl_event_source *source, int milliseconds)
{
	struct wl_event_loop *loop = source->loop;
	take_out(&source->timer);
	if (milliseconds > 0) {
		struct wl_list *before = loop->timers.prev;
		source->deadline = now() + milliseconds * INT64_C(1000000);
		for (; before != &loop->timers; before = before->prev) {
			struct wl_event_source *other = wl_container_of(before, other, timer);
			if (other->deadline <= source->deadline)
				break;
		}
		wl_list_insert(before, &source->timer);
	}
	return arm(loop);
}

/* Calls the timers that are due, each once: also one that another call stops or sets anew, but none that one
 * removes. */
static void run_timers(struct wl_event_loop *loop)
{
	struct wl_list due;
	int64_t time = now();
	wl_list_init(&due);
	while (!wl_list_empty(&loop->timers)) {
		struct wl_event_source *first = wl_container_of(loop->timers.next, first, timer);
		if (first->deadline > time)
			break;
		take_out(&first->timer);
		wl_list_insert(due.prev, &first->due);
	}
	arm(loop);
	while (!wl_list_empty(&due)) {
		struct wl_event_source *first = wl_container_of(due.next, first, due);
		take_out(&first->due);
		first->call.timer(first->data);
	}
}

/* ---- signals and idle calls */

EXPORT struct wl_event_source *wl_event_loop_add_signal(struct wl_event_loop *loop,
	int signal_number, wl_event_loop_signal_func_t func, void *data)
{
	struct wl_event_source *source = new_source(loop, OF_SIGNAL, data);
	sigset_t set;
	if (!source)
		return NULL;
	sigemptyset(&set);
	sigaddset(&set, signal_number);
	source->fd = signalfd(-1, &set, SFD_CLOEXEC | SFD_NONBLOCK);
	sigprocmask(SIG_BLOCK, &set, NULL);
	source->number = signal_number;
	source->call.signal = func;
	return watch(source, EPOLLIN);
}

EXPORT struct wl_event_source *wl_event_loop_add_idle(struct wl_event_loop *loop,
	wl_event_loop_idle_func_t func, void *data)
{
	struct wl_event_source *source = new_source(loop, OF_IDLE, data);
	if (!source)
		return NULL;
	source->call.idle = func;
	wl_list_insert(loop->idle.prev, &source->link);
	return source;
}

EXPORT void wl_event_source_check(struct wl_event_source *source)
{
	wl_list_insert(source->loop->checked.prev, &source->link);
}

/* Events for a removed source may wait in a dispatch, so the outermost one frees it at its end. */
EXPORT int wl_event_source_remove(struct wl_event_source *source)
{
	struct wl_event_loop *loop = source->loop;
	if (source->fd >= 0) {
		epoll_ctl(loop->epoll_fd, EPOLL_CTL_DEL, source->fd, NULL);
		close(source->fd);
		source->fd = -1;
	}
	if (source->kind == OF_TIMER) {
		bool is_set = !wl_list_empty(&source->timer);
		take_out(&source->timer);
		take_out(&source->due);
		if (is_set)
			arm(loop);
	}
	source->is_removed = true;
	loop->removals++;
	wl_list_remove(&source->link);
	wl_list_insert(&loop->removed, &source->link);
	return 0;
}

/* ---- dispatching */

static int call_source(struct wl_event_source *source, uint32_t events)
{
	struct signalfd_siginfo info;
	switch (source->kind) {
	case OF_DESCRIPTOR:
		return source->call.descriptor(source->number, from_epoll(events), source->data);
	case OF_TIMER:
		return source->call.timer(source->data);
	case OF_SIGNAL: /* of two sources of one signal, the first reads it, and both are called */
		if (read(source->fd, &info, sizeof info) < 0 && errno != EAGAIN)
			log_line("signalfd read error: %s\n", strerror(errno));
		return source->call.signal(source->number, source->data);
	case OF_IDLE:
		break;
	}
	return 0;
}

EXPORT void wl_event_loop_dispatch_idle(struct wl_event_loop *loop)
{
	while (!wl_list_empty(&loop->idle)) {
		struct wl_event_source *first = wl_container_of(loop->idle.next, first, link);
		first->call.idle(first->data);
		wl_event_source_remove(first);
	}
}

/* Calls the sources that asked to be checked. Whether one has something left, or has removed a source: then not all
 * were called. */
static bool check_all(struct wl_event_loop *loop)
{
	struct wl_event_source *source;
	uint32_t removals = loop->removals;
	bool has_more = false;
	wl_list_for_each(source, &loop->checked, link) {
		int left = call_source(source, 0);
		if (left < 0)
			log_line("the function of a source that is checked returned %d\n", left);
		if (loop->removals != removals)
			return true;
		has_more |= left > 0;
	}
	return has_more;
}

/* Calls the timers, if the events have their descriptor. */
static void dispatch_timers(struct wl_event_loop *loop, const struct epoll_event *events, int count)
{
	uint64_t expired;
	for (int i = 0; i < count; i++) {
		if (events[i].data.ptr != loop)
			continue;
		if (read(loop->timer_fd, &expired, sizeof expired) < 0 && errno != EAGAIN)
			log_line("timerfd read error: %s\n", strerror(errno));
		run_timers(loop);
	}
}

EXPORT int wl_event_loop_dispatch(struct wl_event_loop *loop, int milliseconds)
{
	struct epoll_event events[AT_ONCE];
	wl_event_loop_dispatch_idle(loop);
	int count = epoll_wait(loop->epoll_fd, events, AT_ONCE, milliseconds);
	if (count < 0)
		return -1;
	loop->depth++;
	dispatch_timers(loop, events, count);
	for (int i = 0; i < count; i++) {
		struct wl_event_source *source = events[i].data.ptr;
		if (events[i].data.ptr != loop && !source->is_removed)
			call_source(source, events[i].events);
	}
	if (!--loop->depth)
		free_removed(loop);
	wl_event_loop_dispatch_idle(loop);
	while (check_all(loop))
		;
	return 0;
}
