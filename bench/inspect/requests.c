/* A client of libwayland that sends small requests to its compositor, by a hundred as fast as they go, and
 * prints the seconds until the compositor has read them all:
 *
 *     requests COUNT
 *
 * Or it makes round trips, one after another, and prints how many microseconds half of them took at most:
 *
 *     requests COUNT round-trips
 */
#include <errno.h>
#include <poll.h>
#include <stdio.h>
#include <stdlib.h>
#include <string.h>
#include <time.h>
#include <wayland-client.h>

static struct wl_compositor *compositor;

static void found(void *data, struct wl_registry *registry, uint32_t name, const char *interface,
	uint32_t version)
{
	(void)data, (void)version;
	if (!strcmp(interface, "wl_compositor"))
		compositor = wl_registry_bind(registry, name, &wl_compositor_interface, 1);
}

static void gone(void *data, struct wl_registry *registry, uint32_t name)
{
	(void)data, (void)registry, (void)name;
}

/* Writes what waits, once the socket takes it. */
static void flush(struct wl_display *display)
{
	struct pollfd polled = { wl_display_get_fd(display), POLLOUT, 0 };
	while (wl_display_flush(display) < 0 && errno == EAGAIN)
		poll(&polled, 1, -1);
}

static double now(void)
{
	struct timespec time;
	clock_gettime(CLOCK_MONOTONIC, &time);
	return (double)time.tv_sec + (double)time.tv_nsec / 1e9;
}

static int compare(const void *one, const void *other)
{
	double a = *(const double *)one, b = *(const double *)other;
	return (a > b) - (a < b);
}

/* Makes so many round trips. */
static int round_trips(struct wl_display *display, long count)
{
	double *took = calloc((size_t)count, sizeof *took);
	if (!took)
		return 6;
	for (long i = 0; i < count; i++) {
		double begin = now();
		if (wl_display_roundtrip(display) < 0)
			return 5;
		took[i] = (now() - begin) * 1e6;
	}
	qsort(took, (size_t)count, sizeof *took, compare);
	fprintf(stderr, "%.3f\n", took[count / 2]);
	free(took);
	return 0;
}

int main(int words, char **word)
{
	static const struct wl_registry_listener listener = { found, gone };
	long count = words > 1 ? atol(word[1]) : 0;
	struct wl_display *display = wl_display_connect(NULL);
	if (!display)
		return 2;
	struct wl_registry *registry = wl_display_get_registry(display);
	wl_registry_add_listener(registry, &listener, NULL);
	if (wl_display_roundtrip(display) < 0 || !compositor)
		return 3;
	struct wl_surface *surface = wl_compositor_create_surface(compositor);
	if (wl_display_roundtrip(display) < 0)
		return 4;
	if (words > 2 && !strcmp(word[2], "round-trips")) {
		int status = round_trips(display, count);
		wl_display_disconnect(display);
		return status;
	}
	double begin = now();
	for (long i = 1; i <= count; i++) {
		wl_surface_damage(surface, 0, 0, 1, 1);
		if (i % 100 == 0)
			flush(display);
	}
	if (wl_display_roundtrip(display) < 0)
		return 5;
	fprintf(stderr, "%.6f\n", now() - begin);
	wl_display_disconnect(display);
	return 0;
}
