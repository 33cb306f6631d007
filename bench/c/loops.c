/* The four loops by which a libwayland-client is measured, over whichever the loader finds.
 *
 *     loops NAME TIMES
 *
 * roundtrip: wl_display_roundtrip; syncs: wl_display.sync, fifty at a time, each with a listener;
 * damage: wl_surface.damage and commit, with a round trip after each 25; region: a region is made,
 * filled, set and destroyed, with the same. */
#define _GNU_SOURCE
#include "../../tests/libwayland/compositor.h"

#define AT_ONCE 50
#define BEFORE_A_ROUND_TRIP 25

static struct wl_surface *surface;
static int awaited;

static void on_done(void *data, struct wl_callback *callback, uint32_t number)
{
	(void)data, (void)number;
	wl_callback_destroy(callback);
	awaited--;
}

static const struct wl_callback_listener of_callback = { on_done };

static void roundtrip(int time)
{
	(void)time;
	MUST(wl_display_roundtrip(display) >= 0);
}

static void sync_many(int time)
{
	wl_callback_add_listener(wl_display_sync(display), &of_callback, NULL);
	awaited++;
	while (time % AT_ONCE == 0 && awaited)
		MUST(wl_display_dispatch(display) >= 0);
}

static void damage(int time)
{
	wl_surface_damage(surface, 0, 0, 10, 10);
	wl_surface_commit(surface);
	if (time % BEFORE_A_ROUND_TRIP == 0)
		roundtrip(time);
}

static void region(int time)
{
	struct wl_region *input_region = wl_compositor_create_region(compositor);
	wl_region_add(input_region, 0, 0, 10, 10);
	wl_surface_set_input_region(surface, input_region);
	wl_region_destroy(input_region);
	if (time % BEFORE_A_ROUND_TRIP == 0)
		roundtrip(time);
}

static const struct {
	const char *name;
	void (*once)(int time);
} loops[] = {
	{ "roundtrip", roundtrip },
	{ "syncs", sync_many },
	{ "damage", damage },
	{ "region", region },
};

int main(int argc, char **argv)
{
	size_t at = 0;
	if (is_compositor(argc, argv))
		return 0;
	MUST(argc == 3);
	while (strcmp(loops[at].name, argv[1]))
		MUST(++at < sizeof loops / sizeof loops[0]);
	connect_to_compositor(argv[0], 0);
	surface = wl_compositor_create_surface(compositor);
	for (int time = atoi(argv[2]); time > 0; time--)
		loops[at].once(time - 1);
	MUST(!wl_display_get_error(display));
	wl_surface_destroy(surface);
	disconnect();
	return 0;
}
