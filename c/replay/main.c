/* waywire-replay: the options. */
#define _GNU_SOURCE
#include "replay.h"

#include <errno.h>
#include <getopt.h>
#include <stdio.h>

const char tool_name[] = "waywire-replay";

static const char help[] =
	"Plays the requests of a recorded Wayland client to a compositor\n"
	"\n"
	"Usage: waywire-replay [OPTION].. RECORDING\n"
	"\n"
	"Connects to the compositor of WAYLAND_DISPLAY, sends it the requests of RECORDING,\n"
	"each once what the recorded client had waited for has come, and says at which one\n"
	"the sessions part and how. RECORDING is a file of waywire-inspect --record, or -\n"
	"for standard input; the tables in RECORDING.tables are read if that exists.\n"
	"\n"
	"  --wait SECONDS   How long an answer is waited for [default: 5]\n"
	"  --to N           Plays the requests up to message N, as waywire-inspect numbers\n"
	"                   them\n"
	"  --step           Waits after each request until the compositor has read it, so an\n"
	"                   error is said at the request that it is about\n"
	"  --go-on          Plays on where the sessions part, without what depends on it\n"
	"  --strict         Ends with 1 if a kind of event came less often than in RECORDING\n"
	"  --tables FILE    Adds the interfaces of FILE: see waywire-inspect\n"
	"  --no-tables      Does not read the installed tables and protocols\n"
	"  --limit N        The length of the longest message in bytes [default: 4096]\n"
	"  --help, --version\n"
	"\n"
	"Ends with 0 if RECORDING was played to its end, with 1 if the sessions part, with 2\n"
	"if the command line is wrong, and with 125 if nothing is played.\n";

enum { WAIT = 1, TO, TABLES, LIMIT, HELP, VERSION };

static struct options options = { .limit = 4096 };
static struct wishes wishes = { .wait = 5 };

static const struct option known_options[] = {
	{ "wait", required_argument, NULL, WAIT },
	{ "to", required_argument, NULL, TO },
	{ "step", no_argument, &wishes.step, true },
	{ "go-on", no_argument, &wishes.go_on, true },
	{ "strict", no_argument, &wishes.strict, true },
	{ "tables", required_argument, NULL, TABLES },
	{ "no-tables", no_argument, &options.no_tables, true },
	{ "limit", required_argument, NULL, LIMIT },
	{ "help", no_argument, NULL, HELP },
	{ "version", no_argument, NULL, VERSION },
	{ NULL, 0, NULL, 0 },
};

/* Ends the tool because of the command line. `option` is null if it is about all of it. */
static void refuse(const char *option, const char *word, const char *wanted)
{
	if (option)
		notice("%s %s: %s", option, word, wanted);
	else
		notice("%s", wanted);
	exit(BAD_USAGE);
}

static double wait_of(const char *word)
{
	char *end;
	double seconds = *word && strspn(word, "0123456789.") == strlen(word) ? strtod(word, &end) : -1;
	if (seconds < 0 || *end || end == word || seconds > 1e6)
		refuse("--wait", word, "not a number of seconds");
	return seconds;
}

static uint64_t number_of(const char *option, const char *word, uint64_t least, uint64_t most, const char *wanted)
{
	size_t length = strspn(word, "0123456789");
	uint64_t number = length && length < 19 && !word[length] ? strtoull(word, NULL, 10) : 0;
	if (number < least || number > most)
		refuse(option, word, wanted);
	return number;
}

static void print_alone(const char *text)
{
	if (fputs(text, stdout) < 0 || fflush(stdout))
		fail("cannot write to standard output: %s", strerror(errno));
	exit(0);
}

static void print_version(void)
{
	char text[64];
	snprintf(text, sizeof text, "%s %s\n", tool_name, waywire_version());
	print_alone(text);
}

static void take_option(int option, char *word)
{
	switch (option) {
	case 0: break; /* it is set */
	case WAIT: wishes.wait = wait_of(word); break;
	case TO: wishes.to = number_of("--to", word, 1, INT64_MAX, "not the number of a message"); break;
	case TABLES: options.tables[options.table_count++] = word; break;
	case LIMIT:
		options.limit = (uint32_t)number_of("--limit", word, 4096, 65532, "not a multiple of 4 from 4096 to 65532");
		if (options.limit % 4)
			refuse("--limit", word, "not a multiple of 4 from 4096 to 65532");
		break;
	case HELP: print_alone(help); break;
	case VERSION: print_version(); break;
	default: refuse(NULL, NULL, "--help says which options there are");
	}
}

static void read_options(int count, char **words)
{
	int option;
	options.tables = calloc((size_t)count + 2, sizeof *options.tables);
	if (!options.tables)
		fail("out of memory");
	while ((option = getopt_long(count, words, "", known_options, NULL)) >= 0)
		take_option(option, optarg);
	if (optind + 1 != count)
		refuse(NULL, NULL, "one recording is played; --help says how");
	options.read = words[optind];
}

int main(int count, char **words)
{
	struct known known;
	read_options(count, words);
	struct replay replay = { .options = &options };
	char **folders = tables_of_folders(&options);
	char *beside = tables_beside(&options);
	known_read(&known, &options);
	names_read(&options);
	replay.known = &known;
	replay.wishes = wishes;
	replay.twins.tables = known.tables;
	pieces_open(&replay.pieces, options.read, false, true);
	check_recording(&replay);
	int status = play(&replay);
	pieces_close(&replay.pieces);
	known_free(&known);
	names_free();
	free(options.tables);
	free(beside);
	for (char **it = folders; *it; it++)
		free(*it);
	free(folders);
	return status;
}
