/* What is printed of a client, in lines. */
#define _GNU_SOURCE
#include "inspect.h"

#include <inttypes.h>

#define RED "\033[31m"
#define PLAIN "\033[0m"
/* The arrow of a line and the space behind it. */
#define ARROW 3

/* When the last line was printed. */
static double last_line;

/* Puts the local time of a moment, in seconds since 1970; a dash if it is not known. */
static void put_clock(struct text *text, double moment)
{
	double rounded = moment + 0.0005;
	time_t whole = (time_t)rounded;
	struct tm parts;
	char clock[16];
	if (moment < 0 || !localtime_r(&whole, &parts) || !strftime(clock, sizeof clock, "%H:%M:%S", &parts))
		text_format(text, "%12s ", "-");
	else
		text_format(text, "%s.%03d ", clock, (int)((rounded - (double)whole) * 1000));
}

static void put_front(struct text *text, const struct printer *printer, double seconds)
{
	double since = seconds < 0 ? seconds : seconds + printer->start;
	if (printer->options->time == TIME_DELTA) {
		double delta = since - last_line;
		last_line = since;
		since = since < 0 ? since : delta > 0 ? delta : 0;
	}
	if (printer->options->time == TIME_CLOCK)
		put_clock(text, since < 0 || printer->moment < 0 ? -1 : printer->moment + since);
	else if (printer->options->time && since < 0)
		text_format(text, "%11s ", "-");
	else if (printer->options->time)
		text_format(text, "%11.6f ", since);
	if (printer->is_numbered)
		text_format(text, "#%u ", printer->number);
}

static void put_red(struct text *text, const struct printer *printer, const struct text *words, bool is_red)
{
	bool is_coloured = is_red && printer->options->colour;
	text_add(text, is_coloured ? RED : "");
	text_put(text, words->bytes, words->length);
	text_add(text, is_coloured ? PLAIN "\n" : "\n");
}

/* The colour of an interface, by its name. */
static const char *colour_of(const struct object *object)
{
	static const char *const colours[] = { "\033[33m", "\033[35m", "\033[36m", "\033[93m", "\033[95m", "\033[96m" };
	unsigned sum = 0;
	for (size_t i = 0; i < object->name.length; i++)
		sum = sum * 31 + (unsigned char)object->name.bytes[i];
	return colours[sum % (sizeof colours / sizeof *colours)];
}

/* Puts a line with its arrow and its interface in colours. */
static void put_coloured(struct text *text, const struct message *message, const struct text *line)
{
	size_t name = ARROW + message->target.name.length;
	if (!message->target.name.bytes || line->length < name) {
		text_put(text, line->bytes, line->length);
		text_add(text, "\n");
		return;
	}
	text_add(text, message->from == CLIENT ? "\033[32m" : "\033[34m");
	text_put(text, line->bytes, ARROW);
	text_add(text, colour_of(&message->target));
	text_put(text, line->bytes + ARROW, name - ARROW);
	text_add(text, PLAIN);
	text_put(text, line->bytes + name, line->length - name);
	text_add(text, "\n");
}

/* Puts a message's line, with the known names unless --no-names is given. */
static void put_line(struct text *text, const struct printer *printer, const struct message *message,
	const struct text *line)
{
	if (printer->options->no_names)
		text_put(text, line->bytes, line->length);
	else
		put_line_with_names(text, message, line, &printer->room->part);
}

static void print_and_free(struct text *text)
{
	print(text->bytes, text->length);
	text_free(text);
}

void print_words(const struct printer *printer, double seconds, const struct text *words, bool is_red)
{
	struct text text = { NULL, 0, 0 };
	if (printer->options->json)
		return;
	put_front(&text, printer, seconds);
	put_red(&text, printer, words, is_red);
	print_and_free(&text);
}

/* The notice after a message from which on nothing is judged. */
static void print_note(const struct printer *printer, const struct message *message, const char *note)
{
	struct text words = { NULL, 0, 0 };
	text_add(&words, note);
	print_words(printer, message->seconds, &words, false);
	text_free(&words);
}

/* Prints the last messages about an object. */
static void print_before(const struct printer *printer, double seconds, const struct object *object)
{
	struct before before[MOST_BEFORE];
	size_t count = history_before(printer->history, object, before);
	struct text words = { NULL, 0, 0 };
	if (object->id == DISPLAY_ID)
		text_add(&words, "the last requests before it:");
	else {
		text_add(&words, "the last messages about ");
		put_object(&words, object);
		text_add(&words, ":");
	}
	for (size_t i = 0; i < count; i++) {
		if (!i)
			print_words(printer, seconds, &words, false);
		words.length = 0;
		text_format(&words, "  %c message %" PRIu64 ": ", before[i].from == CLIENT ? '>' : '<', before[i].index);
		text_put(&words, before[i].line->bytes, before[i].line->length);
		print_words(printer, seconds, &words, false);
	}
	text_free(&words);
}

void print_message(const struct printer *printer, const struct message *message, const struct text *line,
	const struct beside *beside)
{
	struct text *text = &printer->room->whole, *named = &printer->room->named;
	bool is_asked = beside->is_red
		|| (!beside->is_outside && (beside->note || is_printed(printer->options->shown, message)));
	if (is_asked && printer->options->json) {
		json_message(printer, message, line, beside);
	} else if (is_asked) {
		text->length = named->length = 0;
		put_front(text, printer, message->seconds);
		text_add(text, beside->is_marked ? "? " : "");
		if (!printer->options->colour) {
			put_line(text, printer, message, line);
			text_add(text, "\n");
		} else {
			put_line(named, printer, message, line);
			if (beside->is_red)
				put_red(text, printer, named, true);
			else
				put_coloured(text, message, named);
		}
		print(text->bytes, text->length);
		if (beside->note)
			print_note(printer, message, beside->note);
		if (is_error(message) && message->arg_count)
			print_before(printer, message->seconds, &message->args[0].object);
	}
	history_note(printer->history, message, line);
}

/* If there are other clients, appends the client to a line about its whole session. */
static void put_who(struct text *text, const struct printer *printer)
{
	if (printer->is_numbered && printer->who && *printer->who)
		text_format(text, " (%s)", printer->who);
}

/* Prints the line of a verdict. */
static void print_verdict_line(const struct printer *printer, double seconds, const struct text *verdict, bool is_red)
{
	struct text line = { NULL, 0, 0 };
	text_put(&line, verdict->bytes, verdict->length);
	put_who(&line, printer);
	print_words(printer, seconds, &line, is_red);
	text_free(&line);
}

void print_broken(const struct printer *printer, const struct breaking *breaking)
{
	double seconds = breaking->message->seconds;
	struct text line = { NULL, 0, 0 };
	if (printer->options->json)
		json_broken(printer, breaking);
	else {
		put_line(&line, printer, breaking->message, breaking->line);
		print_words(printer, seconds, &line, true);
		text_free(&line);
		print_words(printer, seconds, breaking->words, true);
		if (breaking->object.id)
			print_before(printer, seconds, &breaking->object);
		print_verdict_line(printer, seconds, breaking->verdict, true);
	}
	history_note(printer->history, breaking->message, breaking->line);
}

void print_verdict(const struct printer *printer, const struct ending *ending)
{
	if (printer->options->json)
		json_verdict(printer, ending);
	else if (!ending->is_said)
		print_verdict_line(printer, ending->seconds, ending->words, ending->is_red);
}
