/* waywire-inspect: the options. */
#define _GNU_SOURCE
#include "inspect.h"

#include <errno.h>
#include <fcntl.h>
#include <getopt.h>
#include <stdio.h>
#include <stdlib.h>
#include <unistd.h>

const char tool_name[] = "waywire-inspect";

/* In parts, since C99 promises no longer strings. */
static const char help_on_files[] =
	"Prints and judges what passes between Wayland clients and their compositor\n"
	"\n"
	"Usage: waywire-inspect [OPTION].. [COMMAND [WORD]..]\n"
	"       waywire-inspect --read FILE [OPTION]..\n"
	"       waywire-inspect --read-debug LOG [OPTION]..\n"
	"\n"
	"Runs COMMAND with the tool's own socket as its WAYLAND_DISPLAY. Without COMMAND,\n"
	"prints the name of the socket, and waits for clients that you start by hand.\n"
	"\n"
	"What is read and written:\n"
	"  --tables FILE          Adds the interfaces of FILE, a table text, the XML of a\n"
	"                         protocol or a folder with texts NAME.tables; they replace\n"
	"                         installed ones of the same names. May be given several\n"
	"                         times\n"
	"  --no-tables            Does not read the installed tables and protocols\n"
	"  --limit N              The length of the longest message in bytes [default: 4096]\n"
	"  --record FILE          Writes the session of the first client to FILE, that of the\n"
	"                         second to FILE.2, and so on. The tables are written once,\n"
	"                         to FILE.tables: they serve all of these files\n"
	"  --record-limit SIZE    Ends a recording at SIZE bytes, such as 64M [default: no\n"
	"                         limit]. Needs --record\n"
	"  --record-last          If FILE is full, continues in FILE.last, which keeps the end\n"
	"                         of the session [default of --record-limit: 16M]. Needs\n"
	"                         --record\n"
	"  --read FILE            Prints and judges a recording of any length, with the tables\n"
	"                         in FILE.tables if that exists; FILE.2 uses FILE.tables too. -\n"
	"                         is standard input\n"
	"  --follow               At the end of FILE, waits for more until the session has\n"
	"                         ended or a signal comes. Needs --read\n"
	"  --read-debug LOG       Prints and judges the messages in LOG, as far as it shows them:\n"
	"                         what WAYLAND_DEBUG made a client or a compositor print. With\n"
	"                         --record it also becomes recordings\n"
	"  --output FILE          Prints to FILE instead of standard output\n"
	"  --picture FILE.html    Makes a page of each session when the tool ends; that of the\n"
	"                         second client is FILE.2.html, and so on\n"
	"\n";

static const char help_on_lines[] =
	"What is printed:\n"
	"  --only NAME[,..]       Only the messages for objects of the interface NAME, or that\n"
	"                         make or name such an object. NAME may also be\n"
	"                         INTERFACE.MESSAGE, with * and ? as wildcards: 'xdg_*',\n"
	"                         '*.configure', and have an id: wl_surface@3. An arrow before\n"
	"                         it means requests or events alone: '-> wl_surface', '<-'.\n"
	"                         May be given several times\n"
	"  --except NAME[,..]     All messages except those for objects of the interface NAME,\n"
	"                         or that are this INTERFACE.MESSAGE\n"
	"  --from N, --to N       Only the messages from the one with the number N on, or up to\n"
	"                         it; all are judged. N may be a time as --time prints it,\n"
	"                         such as 2.5s\n"
	"  --last N               Of these only the last N; with --read\n"
	"  --filters FILE         Reads such filters from FILE, in lines such as only NAME,\n"
	"                         except NAME, from N and to N, and again whenever FILE\n"
	"                         changes\n"
	"  --time[=delta|=clock]  Before each line, the seconds since the first client\n"
	"                         connected; with delta, those since the line before; with\n"
	"                         clock, the local time\n"
	"  --json                 One JSON object in each line. Without --output, what COMMAND\n"
	"                         prints goes to standard error\n"
	"  --no-names             Lines as waywire trace prints them, without the names of\n"
	"                         values and the contents of arrays\n"
	"  --stats                At the end of each session, counts of its messages, objects\n"
	"                         and round trips, and what was not answered\n"
	"  --late SECONDS         After this time without an answer, a line says what waits;\n"
	"                         another line says when it was answered. 0: none does\n"
	"                         [default: 2]\n"
	"  --color WHEN           Colours: auto, always or never [default: auto]\n"
	"  --strict               Ends with 123 if a session is not broken and yet something is\n"
	"                         not judged or waited longer than --late says, or if there\n"
	"                         is no message. A line says what\n"
	"  --verbose              Which process each client is, and which installed XML is\n"
	"                         read or skipped, on standard error\n"
	"  --help, --version      This help; the version\n"
	"\n";

static const char help_on_deeds[] =
	"What is done:\n"
	"  --stop-when-broken     Closes a client's connection after the first message that\n"
	"                         breaks a rule\n"
	"  --fault 'WHAT MESSAGE' Does something wrong to messages on purpose: drop,\n"
	"                         duplicate, delay 200ms, hold 5s or kill, then the messages as\n"
	"                         INTERFACE[@ID].MESSAGE or by numbers. May be given several\n"
	"                         times\n"
	"  --faults FILE          Reads such lines from FILE\n"
	"  --stop-at NAME[,..]    Stops both sides before each message that --only NAME would\n"
	"                         name by INTERFACE[@ID].MESSAGE, says who waits, and goes on at\n"
	"                         Enter or SIGUSR1. May be given several times\n";

enum { TABLES = 1, LIMIT, RECORD, RECORD_LIMIT, READ, READ_DEBUG, OUTPUT, PICTURE, ONLY, EXCEPT, FROM, TO, LAST, FILTERS, TIME,
	COLOUR, LATE, FAULT, FAULTS, STOP_AT, HELP, VERSION };

static struct shown shown = { .window = { .since = -1, .until = -1 } };
static struct options options = { .limit = 4096, .late = 2, .shown = &shown };

/* Options without a value are set when they are found. */
static const struct option known_options[] = {
	{ "tables", required_argument, NULL, TABLES },
	{ "no-tables", no_argument, &options.no_tables, true },
	{ "limit", required_argument, NULL, LIMIT },
	{ "record", required_argument, NULL, RECORD },
	{ "record-limit", required_argument, NULL, RECORD_LIMIT },
	{ "record-last", no_argument, &options.record_last, true },
	{ "read", required_argument, NULL, READ },
	{ "follow", no_argument, &options.follow, true },
	{ "read-debug", required_argument, NULL, READ_DEBUG },
	{ "output", required_argument, NULL, OUTPUT },
	{ "picture", required_argument, NULL, PICTURE },
	{ "only", required_argument, NULL, ONLY },
	{ "except", required_argument, NULL, EXCEPT },
	{ "from", required_argument, NULL, FROM },
	{ "to", required_argument, NULL, TO },
	{ "last", required_argument, NULL, LAST },
	{ "filters", required_argument, NULL, FILTERS },
	{ "time", optional_argument, NULL, TIME },
	{ "json", no_argument, &options.json, true },
	{ "no-names", no_argument, &options.no_names, true },
	{ "stats", no_argument, &options.stats, true },
	{ "color", required_argument, NULL, COLOUR },
	{ "late", required_argument, NULL, LATE },
	{ "strict", no_argument, &options.strict, true },
	{ "stop-when-broken", no_argument, &options.stop_when_broken, true },
	{ "fault", required_argument, NULL, FAULT },
	{ "faults", required_argument, NULL, FAULTS },
	{ "stop-at", required_argument, NULL, STOP_AT },
	{ "verbose", no_argument, &options.verbose, true },
	{ "help", no_argument, NULL, HELP },
	{ "version", no_argument, NULL, VERSION },
	{ NULL, 0, NULL, 0 },
};

/* The words of options that are read only once the tables are there. */
struct later {
	char **only, **except, **faults, **stops;
	size_t only_count, except_count, fault_count, stop_count;
	const char *colour;
};

/* Prints texts, which end with a null, and ends the tool. */
static void print_alone(const char *const *texts)
{
	bool is_printed = true;
	for (; *texts; texts++)
		is_printed &= fputs(*texts, stdout) >= 0;
	if (!is_printed || fflush(stdout))
		fail("cannot write to standard output: %s", strerror(errno));
	exit(0);
}

static void print_version(void)
{
	char text[64];
	snprintf(text, sizeof text, "waywire-inspect %s\n", waywire_version());
	print_alone((const char *const[]){ text, NULL });
}

/* The value of --limit. */
static uint32_t limit_of(const char *digits)
{
	size_t length = strspn(digits, "0123456789");
	unsigned long bytes = length && length <= 5 && !digits[length] ? strtoul(digits, NULL, 10) : 0;
	if (bytes < 4096 || bytes > 65532 || bytes % 4)
		fail("--limit %s: not a multiple of 4 from 4096 to 65532", digits);
	return (uint32_t)bytes;
}

/* The value of --last. */
static uint64_t last_of(const char *digits)
{
	size_t length = strspn(digits, "0123456789");
	uint64_t count = length && length < 19 && !digits[length] ? strtoull(digits, NULL, 10) : 0;
	if (!count)
		fail("--last %s: not a number of messages", digits);
	return count;
}

/* The fewest bytes of --record-limit: for parts of a session, with what their heads list. */
#define LEAST_RECORDING 4194304

/* The value of --record-limit: bytes, or with a letter units of 1024 of them, and so on. */
static off_t size_of(const char *word)
{
	static const char units[] = "KMG";
	size_t length = strspn(word, "0123456789");
	const char *unit = word[length] ? strchr(units, word[length]) : NULL;
	int shift = unit ? 10 * (int)(unit - units + 1) : 0;
	uint64_t size = length && length <= 10 ? strtoull(word, NULL, 10) << shift : 0;
	if (word[length + (unit != NULL)] || size < LEAST_RECORDING || size > INT64_MAX)
		fail("--record-limit %s: not a number of bytes from 4M on, such as 64M", word);
	return (off_t)size;
}

/* The value of --late. */
static double late_of(const char *word)
{
	char *end;
	double seconds = strspn(word, "0123456789.") == strlen(word) ? strtod(word, &end) : -1;
	if (seconds < 0 || end == word || *end || seconds > 1e6)
		fail("--late %s: not a number of seconds", word);
	return seconds;
}

static bool colour_of(const char *when)
{
	const char *terminal = getenv("TERM");
	if (!strcmp(when, "always") || !strcmp(when, "never"))
		return *when == 'a';
	if (strcmp(when, "auto"))
		fail("--color %s: not auto, always or never", when);
	return prints_to_terminal() && !getenv("NO_COLOR") && terminal && strcmp(terminal, "dumb");
}

static enum front time_of(const char *how)
{
	if (!how)
		return TIME_SINCE;
	if (strcmp(how, "delta") && strcmp(how, "clock"))
		fail("--time=%s: not delta or clock", how);
	return *how == 'd' ? TIME_DELTA : TIME_CLOCK;
}

/* The value of --from or --to. */
static void take_limit(const char *option, const char *word, uint64_t *number, double *seconds)
{
	if (!window_take(word, number, seconds))
		fail("--%s %s: neither the number of a message nor a time in seconds, such as 2.5s", option, word);
}

static void take_option(struct later *later, int option, char *word)
{
	switch (option) {
	case 0: break; /* it is set */
	case TABLES: options.tables[options.table_count++] = word; break;
	case LIMIT: options.limit = limit_of(word); break;
	case RECORD: options.record = word; break;
	case RECORD_LIMIT: options.record_limit = size_of(word); break;
	case READ: options.read = word; break;
	case READ_DEBUG: options.debug_log = word; break;
	case OUTPUT: options.output = word; break;
	case PICTURE: options.picture = word; break;
	case ONLY: later->only[later->only_count++] = word; break;
	case EXCEPT: later->except[later->except_count++] = word; break;
	case FROM: take_limit("from", word, &shown.window.from, &shown.window.since); break;
	case TO: take_limit("to", word, &shown.window.to, &shown.window.until); break;
	case LAST: shown.window.last = last_of(word); break;
	case FILTERS: options.filters_file = word; break;
	case TIME: options.time = time_of(word); break;
	case LATE: options.late = late_of(word); break;
	case COLOUR: later->colour = word; break;
	case FAULT: later->faults[later->fault_count++] = word; break;
	case STOP_AT: later->stops[later->stop_count++] = word; break;
	case FAULTS: options.faults_file = word; break;
	case HELP: print_alone((const char *const[]){ help_on_files, help_on_lines, help_on_deeds, NULL }); break;
	case VERSION: print_version(); break;
	default: fail("--help says which options there are");
	}
}

/* Opens the standard files that the caller left closed, so that no socket gets the number of standard output. */
static void open_standard_files(void)
{
	int opened;
	do
		opened = open("/dev/null", O_RDONLY);
	while (opened >= 0 && opened <= STDERR_FILENO);
	if (opened >= 0)
		close(opened);
}

/* An array for all words of the command line, ended by null. */
static char **words_of(int count)
{
	char **made = calloc((size_t)count + 1, sizeof *made);
	if (!made)
		fail("out of memory");
	return made;
}

/* Fails if the options do not go together. */
static void check_options(const struct later *later)
{
	if (options.read && (options.command || options.record || options.picture))
		fail("--read cannot be used with COMMAND, --record or --picture");
	if ((options.read || options.debug_log) && (later->fault_count || options.faults_file || later->stop_count))
		fail("%s cannot be used with --fault, --faults or --stop-at", options.read ? "--read" : "--read-debug");
	if (options.debug_log && (options.command || options.read || options.record_last))
		fail("--read-debug cannot be used with COMMAND, --read or --record-last");
	if (shown.window.last && !options.read && !options.debug_log)
		fail("--last needs --read or --read-debug");
	if (options.record_last && !options.record)
		fail("--record-last needs --record");
	if (options.record_limit && !options.record)
		fail("--record-limit needs --record");
	if (options.follow && !options.read)
		fail("--follow needs --read");
	if (options.follow && !strcmp(options.read, "-"))
		fail("--follow needs a file: what comes through standard input is read as it comes");
}

static void read_options(struct later *later, int count, char **words)
{
	int option;
	options.tables = words_of(count + 1);
	later->only = words_of(count);
	later->except = words_of(count);
	later->faults = words_of(count);
	later->stops = words_of(count);
	later->colour = "auto";
	while ((option = getopt_long(count, words, "+", known_options, NULL)) >= 0)
		take_option(later, option, optarg);
	if (optind < count)
		options.command = words + optind;
	check_options(later);
}

static void apply_later(const struct later *later, const struct known *known)
{
	for (size_t i = 0; i < later->only_count; i++)
		filter_read(&shown.only, known->tables, "only", later->only[i]);
	for (size_t i = 0; i < later->except_count; i++)
		filter_read(&shown.except, known->tables, "except", later->except[i]);
	for (size_t i = 0; i < later->fault_count; i++)
		fault_lines_add(&options.faults, known->tables, later->faults[i]);
	for (size_t i = 0; i < later->stop_count; i++)
		filter_read(&options.stop, known->tables, "stop-at", later->stops[i]);
	filters_begin(&options, known->tables);
	if (options.faults_file)
		fault_lines_read(&options.faults, known->tables, options.faults_file);
	if (options.output && !options.follow && (options.read || options.debug_log))
		print_whole_to(options.output);
	else if (options.output)
		print_to(options.output);
	options.colour = colour_of(later->colour) && !options.json;
}

int main(int count, char **words)
{
	struct later later = { 0 };
	struct known known;
	open_standard_files();
	read_options(&later, count, words);
	char **folders = tables_of_folders(&options);
	char *beside = options.read ? tables_beside(&options) : NULL;
	check_files(&options);
	known_read(&known, &options);
	apply_later(&later, &known);
	if (options.json || !options.no_names)
		names_read(&options);
	picture_begin(&options);
	int status = options.read ? read_recording(&options, &known, &(struct numbered){ 1, false })
		: options.debug_log ? read_debug_log(&options, &known) : run(&options, &known);
	print_end();
	known_free(&known);
	names_free();
	free(options.tables);
	filters_free(&options);
	free(later.only);
	free(later.except);
	free(later.faults);
	free(later.stops);
	free(options.stop.asked);
	fault_lines_free(&options.faults);
	free(beside);
	for (char **it = folders; *it; it++)
		free(*it);
	free(folders);
	return status;
}
