/* Passes the pieces of a recording to an inspector, each cut into parts, and prints what it says:
 *
 *     inspector RECORDING [TABLES [MOST]]
 *
 * TABLES is a table text, `-` for none; MOST is the most bytes of a part. The exit status is 1 if a message
 * breaks a rule. */
#include "must.h"

#include <ctype.h>
#include <limits.h>

static char *contents(const char *path, size_t *length)
{
	static char text[1 << 24];
	FILE *file = fopen(path, "rb");
	MUST(file);
	*length = fread(text, 1, sizeof text, file);
	MUST(*length < sizeof text && !fclose(file));
	return text;
}

static waywire_tables *tables_of(const char *path)
{
	waywire_tables *core, *more;
	size_t length;
	MUST(!waywire_tables_core(&core));
	if (!path || !strcmp(path, "-"))
		return core;
	const char *text = contents(path, &length);
	MUST(!waywire_tables_read(core, text, length, &more, NULL, NULL));
	waywire_tables_free(core);
	return more;
}

/* Passes a part, and prints its lines. */
static void pass(waywire_inspector *inspector, waywire_sender sender, const unsigned char *bytes, size_t length,
	size_t token_count)
{
	MUST(!waywire_inspector_pass(inspector, sender, length ? bytes : NULL, length, token_count));
	const char *lines = waywire_inspector_lines(inspector, &length);
	MUST(fwrite(lines, 1, length, stdout) == length);
}

/* The bytes that digits stand for. */
static size_t bytes_of(const char **digits, unsigned char *bytes)
{
	size_t length = 0;
	unsigned value;
	for (; isxdigit((unsigned char)**digits); *digits += 2) {
		MUST(sscanf(*digits, "%2x", &value) == 1);
		bytes[length++] = (unsigned char)value;
	}
	*digits += **digits == '-';
	return length;
}

/* Passes the piece of a line, its tokens with the first part. */
static void pass_line(waywire_inspector *inspector, const char *line, size_t most)
{
	static unsigned char bytes[1 << 22];
	waywire_sender sender = *line == '>' ? WAYWIRE_FROM_CLIENT : WAYWIRE_FROM_SERVER;
	const char *digits = line + 2;
	size_t length = bytes_of(&digits, bytes), tokens = *digits == ' ' ? strtoul(digits + 2, NULL, 10) : 0;
	size_t part = length < most ? length : most;
	pass(inspector, sender, bytes, part, tokens);
	for (size_t from = part; from < length; from += part) {
		part = length - from < most ? length - from : most;
		pass(inspector, sender, bytes + from, part, 0);
	}
}

int main(int count, char **words)
{
	size_t length, most = count > 3 ? strtoul(words[3], NULL, 10) : SIZE_MAX;
	waywire_tables *tables = tables_of(count > 2 ? words[2] : NULL);
	waywire_inspector *inspector;
	const char *verdict;
	bool broken;
	MUST(!waywire_inspector_new(tables, WAYWIRE_USUAL_LIMIT, &inspector));
	waywire_tables_free(tables); /* the inspector still has them */
	char *text = contents(words[1], &length);
	text[length] = 0;
	for (char *line = strtok(text, "\n"); line; line = strtok(NULL, "\n"))
		if (*line == '>' || *line == '<')
			pass_line(inspector, line, most);
	MUST(!waywire_inspector_verdict(inspector, &verdict, &length, &broken));
	MUST(fwrite(verdict, 1, length, stdout) == length);
	MUST(broken == !strncmp(verdict, "broken: ", 8));
	waywire_inspector_free(inspector);
	return broken;
}
