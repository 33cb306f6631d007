/* A line on a terminal that says how far a long reading is. */
#define _GNU_SOURCE
#include "inspect.h"

#include <stdio.h>
#include <unistd.h>

/* It is shown after so many seconds, and again after this part of one. */
#define SOON_SHOWN 1.0
#define OFTEN 0.2
#define BARS 30

static double seconds_between(const struct timespec *from, const struct timespec *to)
{
	return (double)(to->tv_sec - from->tv_sec) + (double)(to->tv_nsec - from->tv_nsec) / 1e9;
}

void progress_begin(struct progress *progress, const char *name, off_t size)
{
	*progress = (struct progress){ .name = name, .size = size };
	/* Lines on the same terminal show it as well. */
	progress->is_shown = isatty(STDERR_FILENO) && !prints_to_terminal();
	clock_gettime(CLOCK_MONOTONIC, &progress->start);
}

/* Puts a bar, the part in percent, and how long the rest may take. */
static void put_part(struct text *line, const struct progress *progress, uint64_t length, double lasted)
{
	double part = (double)length / (double)progress->size;
	int bars = (int)(part * BARS);
	text_add(line, "[");
	for (int i = 0; i < BARS; i++)
		text_add(line, i < bars ? "#" : ".");
	text_format(line, "] %d %%, %.0f s left", (int)(part * 100), lasted / part - lasted);
}

void progress_show(struct progress *progress, uint64_t length)
{
	struct text line = { NULL, 0, 0 };
	struct timespec now;
	if (!progress->is_shown)
		return;
	clock_gettime(CLOCK_MONOTONIC, &now);
	double lasted = seconds_between(&progress->start, &now);
	if (lasted < SOON_SHOWN || (progress->is_there && seconds_between(&progress->last, &now) < OFTEN))
		return;
	progress->last = now;
	progress->is_there = true;
	text_format(&line, "\r\033[K%s: ", progress->name);
	if (progress->size && length <= (uint64_t)progress->size)
		put_part(&line, progress, length, lasted);
	else
		text_format(&line, "%.1f MB", (double)length / 1e6);
	if (write(STDERR_FILENO, line.bytes, line.length) < 0)
		progress->is_shown = false;
	text_free(&line);
}

void progress_end(struct progress *progress)
{
	static const char removed[] = "\r\033[K";
	if (progress->is_there && write(STDERR_FILENO, removed, sizeof removed - 1) < 0)
		progress->is_shown = false;
	progress->is_there = false;
}
