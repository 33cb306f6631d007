/* Whether a side reads what is written to it: the kernel knows how much of that it has not read. */
#define _GNU_SOURCE
#include "inspect.h"

#include <sys/ioctl.h>

/* A side with unread bytes is looked at so many times in the time after which it is late. */
#define LOOKS 4
/* At the end of a session, what has lasted for so many seconds is said. */
#define LONG_WAIT 1

void reader_begin(struct reader *reader, int side, int socket)
{
	*reader = (struct reader){ .side = side, .socket = socket, .look = -1, .since = -1 };
}

/* How much memory the bytes take that the side has not read. */
static int unread(const struct reader *reader)
{
	int size;
	return ioctl(reader->socket, TIOCOUTQ, &size) ? 0 : size;
}

/* The side still has read nothing. */
static void note_unread(struct reader *reader, double now)
{
	if (now - reader->since > reader->longest)
		reader->longest = now - reader->since;
}

/* The side has read something. */
static void note_read(struct reader *reader, const struct printer *printer, double now, int left)
{
	if (reader->is_said)
		print_unread(printer, reader->side, reader->since, now, true);
	reader->is_said = false;
	reader->since = left ? now : -1;
	reader->unread = left;
}

void reader_before_write(struct reader *reader, const struct printer *printer, double now)
{
	int left = reader->since < 0 ? 0 : unread(reader);
	if (reader->since >= 0 && left < reader->unread)
		note_read(reader, printer, now, left);
}

void reader_after_write(struct reader *reader, const struct printer *printer, double now, size_t written)
{
	if (reader->look < 0 && printer->options->late > 0)
		reader->look = now + printer->options->late / LOOKS;
	if (reader->since < 0 || !written)
		return;
	int left = unread(reader);
	if (left < reader->unread || (size_t)(left - reader->unread) < written)
		note_read(reader, printer, now, left);
	reader->unread = left;
}

void reader_look(struct reader *reader, const struct printer *printer, double now)
{
	double late = printer->options->late;
	if (reader->look < 0 || now < reader->look)
		return;
	int left = unread(reader);
	if (reader->since < 0 || left < reader->unread)
		note_read(reader, printer, now, left);
	else
		note_unread(reader, now);
	if (reader->since >= 0 && !reader->is_said && now - reader->since >= late) {
		reader->is_said = true;
		print_unread(printer, reader->side, reader->since, now, false);
	}
	reader->look = left ? now + late / LOOKS : -1;
}

void reader_end(struct reader *reader, const struct printer *printer, double now)
{
	if (reader->since < 0 || unread(reader) < reader->unread)
		return;
	note_unread(reader, now);
	if (now - reader->since >= LONG_WAIT)
		print_unread(printer, reader->side, reader->since, now, false);
}
