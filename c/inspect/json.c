/* What --json prints: one JSON object per line, for each message and for everything else. */
#define _GNU_SOURCE
#include "inspect.h"

#include <inttypes.h>

/* The version of the keys and their meanings, which docs/FORMATS.md lists. Another key does not change it. */
#define VERSION "1"

static void print_line(struct text *line)
{
	text_add(line, "}\n");
	print(line->bytes, line->length);
	text_free(line);
}

/* Puts a string; a byte that is no UTF-8 becomes U+FFFD. Returns whether all were. */
static bool put_string(struct text *text, const char *bytes, size_t length)
{
	const unsigned char *at = (const unsigned char *)bytes;
	bool is_all = true;
	text_add(text, "\"");
	for (;;) {
		uint32_t character;
		size_t plain = plain_length(at, length);
		text_put(text, at, plain);
		at += plain;
		length -= plain;
		if (!length)
			break;
		size_t size = character_length(at, length, &character);
		if (!size)
			text_add(text, "\xef\xbf\xbd");
		else if (character < ' ' || character == 0x7f || character == '"' || character == '\\')
			text_format(text, "\\u%04x", character);
		else
			text_put(text, at, size);
		is_all &= size != 0;
		at += size ? size : 1;
		length -= size ? size : 1;
	}
	text_add(text, "\"");
	return is_all;
}

/* Puts a name of the tables, which has letters, digits and `_`; or null. */
static void put_plain(struct text *text, struct name name)
{
	if (!name.bytes) {
		text_add(text, "null");
		return;
	}
	text_add(text, "\"");
	text_put(text, name.bytes, name.length);
	text_add(text, "\"");
}

/* Puts a name, or null. */
static void put_name(struct text *text, struct name name)
{
	if (name.bytes)
		put_string(text, name.bytes, name.length);
	else
		text_add(text, "null");
}

/* Puts what comes before a value: a comma, a key and a colon. */
#define put_key(text, key) text_add((text), ",\"" key "\":")

static void put_words(struct text *text, const char *words)
{
	put_name(text, (struct name){ words, words ? strlen(words) : 0 });
}

static void put_text(struct text *text, const struct text *words)
{
	put_name(text, (struct name){ words->bytes, words->length });
}

/* Puts bytes as digits. */
static void put_bytes(struct text *text, const void *bytes, size_t length)
{
	text_add(text, "\"");
	text_hex(text, bytes, length);
	text_add(text, "\"");
}

/* Puts a time with six decimals, or null if it is not known. */
static void put_seconds(struct text *text, double seconds)
{
	if (seconds >= 0)
		text_seconds(text, seconds);
	else
		text_add(text, "null");
}

static void put_truth(struct text *text, bool is_so)
{
	text_add(text, is_so ? "true" : "false");
}

/* Puts the three parts that name an object, without braces. An interface's name may come from the bytes of a bind. */
static void put_parts(struct text *text, const struct object *object)
{
	if (object->name.bytes && object->interface != WAYWIRE_ANY_INTERFACE) {
		text_add(text, "\"interface\":\"");
		text_put(text, object->name.bytes, object->name.length);
		text_add(text, "\",\"id\":");
	} else {
		text_add(text, "\"interface\":");
		put_name(text, object->name);
		put_key(text, "id");
	}
	text_number(text, object->id);
	put_key(text, "birth");
	text_number(text, object->birth);
}

static void put_object_as(struct text *text, const struct object *object)
{
	text_add(text, "{");
	put_parts(text, object);
	text_add(text, "}");
}

/* Puts an array of one object, or of none, after its key. */
#define put_objects(text, key, object) \
	do { \
		if ((object)->id) \
			put_object_in((text), ",\"" key "\":[{", (object)); \
		else \
			text_add((text), ",\"" key "\":[]"); \
	} while (0)

static void put_object_in(struct text *text, const char *begin, const struct object *object)
{
	text_add(text, begin);
	put_parts(text, object);
	text_add(text, "}]");
}

/* Begins a line of this type about a client. */
#define begin_line(text, printer, type) begin_line_of((text), (printer), "{\"type\":\"" type "\",\"client\":")

static void begin_line_of(struct text *text, const struct printer *printer, const char *begin)
{
	text_add(text, begin);
	text_number(text, printer->number);
}

/* ---- arguments */

/* Puts the kind and the name of an argument. */
#define begin_argument(text, kind, argument) begin_argument_of((text), "{\"kind\":\"" kind "\",\"name\":", (argument))

static void begin_argument_of(struct text *text, const char *begin, const struct argument *argument)
{
	text_add(text, begin);
	if (argument->is_plain)
		put_plain(text, argument->name);
	else
		put_name(text, argument->name);
}

static void put_string_argument(struct text *text, const struct argument *argument)
{
	const waywire_arg *value = &argument->value;
	begin_argument(text, "string", argument);
	put_key(text, "value");
	if (value->kind == WAYWIRE_NULL_STRING)
		text_add(text, "null");
	else if (!put_string(text, value->bytes, value->length)) {
		put_key(text, "bytes");
		put_bytes(text, value->bytes, value->length);
	}
}

static void put_state(struct text *text, const struct object *object)
{
	put_key(text, "state");
	text_add(text, object->state == LIVE ? "\"live\"" : object->state == ENDING ? "\"ending\"" : "\"unknown\"");
}

static void put_object_argument(struct text *text, const struct argument *argument)
{
	begin_argument(text, "object", argument);
	text_add(text, ",");
	if (argument->value.kind == WAYWIRE_NULL_OBJECT) {
		text_add(text, "\"id\":0");
		return;
	}
	put_parts(text, &argument->object);
	put_state(text, &argument->object);
}

/* Puts the names of a value as an array; the bits of a bitfield that have none are one number at its end. */
static void put_value_names(struct text *text, const struct meaning *meaning, uint32_t value)
{
	struct name names[MOST_NAMES];
	uint32_t rest;
	size_t count = names_of_value(meaning, value, names, &rest);
	text_add(text, "[");
	for (size_t i = 0; i < count; i++) {
		text_add(text, i ? "," : "");
		put_name(text, names[i]);
	}
	if (count && rest)
		text_format(text, ",\"0x%" PRIx32 "\"", rest);
	text_add(text, "]");
}

/* Puts the enum of an argument's values, and the key of its names; false if it has none. */
static bool begin_names(struct text *text, const struct argument *argument)
{
	if (!argument->meaning.enumeration.bytes)
		return false;
	put_key(text, "enum");
	put_name(text, argument->meaning.enumeration);
	put_key(text, "names");
	return true;
}

static void put_enum(struct text *text, const struct argument *argument, uint32_t value)
{
	if (begin_names(text, argument))
		put_value_names(text, &argument->meaning, value);
}

/* Puts the numbers of an array, and their names if the numbers have an enum. */
static void put_numbers(struct text *text, const struct argument *argument)
{
	size_t count = has_numbers(argument) ? argument->value.length / 4 : 0;
	if (!has_numbers(argument))
		return;
	put_key(text, "numbers");
	text_add(text, "[");
	for (size_t i = 0; i < count; i++) {
		text_add(text, i ? "," : "");
		text_number(text, number_at(&argument->value, i));
	}
	text_add(text, "]");
	if (!begin_names(text, argument))
		return;
	for (size_t i = 0; i < count; i++) {
		text_add(text, i ? "," : "[");
		put_value_names(text, &argument->meaning, number_at(&argument->value, i));
	}
	text_add(text, count ? "]" : "[]");
}

/* Puts a fixed-point number, which has at most eight decimals. */
static void put_fixed(struct text *text, int32_t parts)
{
	uint32_t size = parts < 0 ? 0 - (uint32_t)parts : (uint32_t)parts, rest = size % 256 * 390625;
	char decimals[] = ".00000000";
	size_t length = sizeof decimals - 1;
	for (size_t at = length - 1; at; at--, rest /= 10)
		decimals[at] = (char)('0' + rest % 10);
	while (length > 1 && decimals[length - 1] == '0')
		length--;
	text_add(text, parts < 0 ? "-" : "");
	text_number(text, size / 256);
	text_put(text, decimals, length > 1 ? length : 0);
}

static void put_number(struct text *text, const struct argument *argument)
{
	const waywire_arg *value = &argument->value;
	if (value->kind == WAYWIRE_FIXED) {
		begin_argument(text, "fixed", argument);
		put_key(text, "value");
		put_fixed(text, value->i);
	} else if (value->kind == WAYWIRE_INT) {
		begin_argument(text, "int", argument);
		put_key(text, "value");
		text_signed(text, value->i);
		put_enum(text, argument, (uint32_t)value->i);
	} else {
		begin_argument(text, "uint", argument);
		put_key(text, "value");
		text_number(text, value->u);
		put_enum(text, argument, value->u);
	}
}

static void put_new(struct text *text, const struct argument *argument)
{
	begin_argument(text, "new", argument);
	text_add(text, ",");
	put_parts(text, &argument->object);
	put_key(text, "version");
	text_number(text, argument->object.version);
}

static void put_array(struct text *text, const struct argument *argument)
{
	begin_argument(text, "array", argument);
	put_key(text, "size");
	text_number(text, argument->value.length);
	put_key(text, "value");
	if (argument->meaning.is_unknown)
		text_add(text, "null");
	else
		put_bytes(text, argument->value.bytes, argument->value.length);
	put_numbers(text, argument);
}

static void put_descriptor(struct text *text, const struct argument *argument)
{
	begin_argument(text, "fd", argument);
	put_key(text, "number");
	if (argument->descriptor)
		text_number(text, argument->descriptor);
	else
		text_add(text, "null");
}

static void put_argument(struct text *text, const struct argument *argument)
{
	switch (argument->value.kind) {
	case WAYWIRE_STRING:
	case WAYWIRE_NULL_STRING: put_string_argument(text, argument); break;
	case WAYWIRE_OBJECT:
	case WAYWIRE_NULL_OBJECT: put_object_argument(text, argument); break;
	case WAYWIRE_NEW:
	case WAYWIRE_BOUND: put_new(text, argument); break;
	case WAYWIRE_ARRAY: put_array(text, argument); break;
	case WAYWIRE_FD: put_descriptor(text, argument); break;
	default: put_number(text, argument);
	}
	text_add(text, "}");
}

static void put_arguments(struct text *text, const struct message *message)
{
	put_key(text, "arguments");
	text_add(text, "[");
	for (size_t i = 0; i < message->arg_count; i++) {
		text_add(text, i ? "," : "");
		put_argument(text, &message->args[i]);
	}
	text_add(text, "]");
}

/* ---- lines */

/* Puts the questions that end with a message. */
static void put_closed(struct text *text, const struct message *message)
{
	size_t count = 0;
	if (message->answers) {
		put_key(text, "answers");
		text_number(text, message->answers);
	}
	for (size_t i = 0; i < message->closed_count; i++) {
		const struct closed *closed = &message->closed[i];
		if (closed->is_open)
			continue;
		text_add(text, count++ ? ",{\"asked\":" : ",\"closes\":[{\"asked\":");
		text_number(text, closed->number);
		put_key(text, "since");
		text_number(text, closed->since);
		if (closed->replaced) {
			put_key(text, "replaced");
			text_number(text, closed->replaced);
		}
		put_key(text, "answered");
		put_truth(text, closed->is_answered);
		text_add(text, "}");
	}
	text_add(text, count ? "]" : "");
	text_add(text, message->is_kept ? ",\"kept\":true" : "");
}

static void put_direction(struct text *text, int from)
{
	text_add(text, from == CLIENT ? ",\"direction\":\"request\"" : ",\"direction\":\"event\"");
}

/* Puts where a message is among others. */
static void put_place(struct text *text, const struct message *message)
{
	put_key(text, "number");
	text_number(text, message->number);
	put_key(text, "time");
	put_seconds(text, message->seconds);
	put_direction(text, message->from);
	put_key(text, "index");
	text_number(text, message->index);
	put_key(text, "piece");
	text_number(text, message->piece);
	put_key(text, "offset");
	text_number(text, message->offset);
	put_key(text, "size");
	text_number(text, message->size);
}

/* Puts all of a message but the closing brace of its object. */
static void put_message_parts(struct text *text, const struct printer *printer, const struct message *message,
	const struct text *line)
{
	begin_line(text, printer, "message");
	put_place(text, message);
	put_key(text, "object");
	put_object_as(text, &message->target);
	put_key(text, "opcode");
	text_number(text, message->opcode);
	put_key(text, "message");
	put_plain(text, message->name);
	put_state(text, &message->target);
	put_arguments(text, message);
	put_objects(text, "made", &message->made);
	put_objects(text, "destroyed", &message->destroyed);
	put_objects(text, "freed", &message->freed);
	put_closed(text, message);
	put_key(text, "text");
	put_text(text, line);
}

/* Puts the messages that led to an error. */
static void put_before(struct text *text, const struct printer *printer, const struct object *object)
{
	struct before before[MOST_BEFORE];
	size_t count = history_before(printer->history, object, before);
	put_key(text, "before");
	text_add(text, "[");
	for (size_t i = 0; i < count; i++) {
		text_add(text, i ? ",{\"number\":" : "{\"number\":");
		text_number(text, before[i].number);
		put_key(text, "text");
		put_text(text, before[i].line);
		text_add(text, "}");
	}
	text_add(text, "]");
}

/* Puts what a wl_display.error says, in a line of its own. */
static void print_error(const struct printer *printer, const struct message *message)
{
	struct text line = { NULL, 0, 0 };
	if (!is_error(message) || message->status || message->arg_count != 3)
		return;
	const struct argument *args = message->args;
	begin_line(&line, printer, "error");
	put_key(&line, "number");
	text_number(&line, message->number);
	put_key(&line, "object");
	put_object_as(&line, &args[0].object);
	put_key(&line, "code");
	text_number(&line, args[1].value.u);
	put_key(&line, "text");
	put_string(&line, args[2].value.bytes, args[2].value.length);
	put_key(&line, "names");
	put_value_names(&line, &args[1].meaning, args[1].value.u);
	put_before(&line, printer, &args[0].object);
	print_line(&line);
}

void json_message(const struct printer *printer, const struct message *message, const struct text *line,
	const struct beside *beside)
{
	struct text *json = &printer->room->whole;
	json->length = 0;
	put_message_parts(json, printer, message, line);
	put_key(json, "bytes");
	put_bytes(json, message->bytes, message->length);
	put_key(json, "judged");
	put_truth(json, message->is_judged);
	if (beside->note) {
		put_key(json, "note");
		put_words(json, beside->note);
	}
	text_add(json, "}\n");
	print(json->bytes, json->length);
	print_error(printer, message);
}

void json_broken(const struct printer *printer, const struct breaking *breaking)
{
	const struct message *message = breaking->message;
	struct text line = { NULL, 0, 0 };
	begin_line(&line, printer, "broken");
	put_key(&line, "number");
	text_number(&line, message->number);
	put_key(&line, "fault");
	text_format(&line, "\"F%u\"", breaking->fault.number);
	put_key(&line, "words");
	put_text(&line, breaking->words);
	put_direction(&line, message->from);
	put_key(&line, "offset");
	text_number(&line, message->offset);
	put_key(&line, "size");
	text_number(&line, message->size);
	put_key(&line, "bytes");
	put_bytes(&line, message->bytes, message->length);
	put_key(&line, "object");
	put_object_as(&line, &message->target);
	put_key(&line, "message");
	if (message->name.bytes) {
		put_message_parts(&line, printer, message, breaking->line);
		text_add(&line, ",\"judged\":true}");
	} else
		text_add(&line, "null");
	print_line(&line);
}

/* A time as it is printed, so that values computed from it are the same when a recording is read. */
static double rounded(double seconds)
{
	return seconds < 0 ? seconds : (double)microseconds_of(seconds) / 1e6;
}

/* Begins a line of a type that is given. */
static void begin_line_as(struct text *text, const struct printer *printer, const char *type)
{
	text_add(text, "{\"type\":");
	put_words(text, type);
	put_key(text, "client");
	text_number(text, printer->number);
}

void json_question(const struct printer *printer, const char *type, const struct question *question, double until)
{
	const struct question_kind *kind = question->kind;
	const struct object target = { .id = question->id, .birth = question->birth, .name = kind->interface };
	double asked = question->seconds, waits = rounded(until) - rounded(asked);
	struct text line = { NULL, 0, 0 };
	begin_line_as(&line, printer, type);
	put_key(&line, "number");
	text_number(&line, question->number);
	put_key(&line, "since");
	text_number(&line, question->since);
	if (question->replaced) {
		put_key(&line, "replaced");
		text_number(&line, question->replaced);
	}
	put_key(&line, "time");
	put_seconds(&line, asked);
	put_direction(&line, kind->from);
	put_key(&line, "object");
	put_object_as(&line, &target);
	put_key(&line, "message");
	put_plain(&line, kind->message);
	put_key(&line, "waiting");
	put_seconds(&line, asked < 0 || until < 0 ? -1 : waits > 0 ? waits : 0);
	print_line(&line);
}

void json_waited(const struct printer *printer, const struct closed *closed, double now)
{
	struct text line = { NULL, 0, 0 };
	begin_line(&line, printer, "waited");
	put_key(&line, "number");
	text_number(&line, closed->number);
	put_key(&line, "time");
	put_seconds(&line, now);
	put_key(&line, "answered");
	put_truth(&line, closed->is_answered);
	put_key(&line, "waited");
	put_seconds(&line, closed->waited);
	print_line(&line);
}

void json_unread(const struct printer *printer, int side, double since, double now, bool is_read_again)
{
	struct text line = { NULL, 0, 0 };
	begin_line_as(&line, printer, is_read_again ? "reads_again" : "not_reading");
	put_key(&line, "side");
	put_words(&line, side == CLIENT ? "client" : "compositor");
	put_key(&line, "time");
	put_seconds(&line, now);
	text_add(&line, is_read_again ? ",\"waited\":" : ",\"waiting\":");
	put_seconds(&line, now - since);
	print_line(&line);
}

void json_fault(const struct printer *printer, const struct fault_count *fault, const struct fault_done *done)
{
	struct text line = { NULL, 0, 0 };
	begin_line(&line, printer, "fault");
	put_key(&line, "line");
	text_number(&line, done->line + 1);
	put_key(&line, "fault");
	put_words(&line, fault->words);
	put_key(&line, "time");
	put_seconds(&line, done->seconds);
	put_key(&line, "words");
	put_words(&line, done->words);
	print_line(&line);
}

void json_stopped(const struct printer *printer, const struct fault_done *stop)
{
	struct text line = { NULL, 0, 0 };
	begin_line(&line, printer, "stopped");
	put_key(&line, "time");
	put_seconds(&line, stop->seconds);
	put_key(&line, "words");
	put_words(&line, stop->words);
	print_line(&line);
}

/* Puts how often each fault was done. */
static void put_faults(struct text *text, const struct fault_counts *faults)
{
	put_key(text, "faults");
	for (size_t i = 0; i < faults->count; i++) {
		text_add(text, i ? ",{\"fault\":" : "[{\"fault\":");
		put_words(text, faults->counts[i].words);
		put_key(text, "done");
		text_number(text, faults->counts[i].count);
		text_add(text, "}");
	}
	text_add(text, "]");
}

void json_verdict(const struct printer *printer, const struct ending *ending)
{
	struct text line = { NULL, 0, 0 };
	begin_line(&line, printer, "verdict");
	put_key(&line, "verdict");
	put_words(&line, ending->verdict);
	put_key(&line, "words");
	put_text(&line, ending->words);
	put_key(&line, "messages");
	text_number(&line, ending->requests + ending->events);
	put_key(&line, "requests");
	text_number(&line, ending->requests);
	put_key(&line, "events");
	text_number(&line, ending->events);
	put_key(&line, "ended");
	put_seconds(&line, ending->was_cut || ending->is_unknown ? -1 : ending->seconds);
	put_key(&line, "cut");
	put_seconds(&line, ending->was_cut ? ending->seconds : -1);
	if (ending->faults->count)
		put_faults(&line, ending->faults);
	print_line(&line);
}

/* Puts words with spaces between as an array. */
static void put_list(struct text *text, const char *words)
{
	text_add(text, "[");
	for (const char *word = words; *word;) {
		size_t length = strcspn(word, " ");
		text_add(text, word == words ? "" : ",");
		put_string(text, word, length);
		word += length + (word[length] == ' ');
	}
	text_add(text, "]");
}

void json_head(const struct head *head)
{
	struct text line = { NULL, 0, 0 };
	text_add(&line, "{\"type\":\"head\",\"version\":" VERSION ",\"recording\":");
	put_words(&line, head->recording);
	put_key(&line, "command");
	text_add(&line, head->command ? "[" : "null");
	for (char **word = head->command; word && *word; word++) {
		text_add(&line, word == head->command ? "" : ",");
		put_words(&line, *word);
	}
	text_add(&line, head->command ? "]" : "");
	put_key(&line, "started");
	put_words(&line, head->started);
	put_key(&line, "tables");
	put_list(&line, head->tables);
	put_key(&line, "timed");
	put_truth(&line, head->is_timed);
	put_key(&line, "from");
	put_seconds(&line, head->from);
	print_line(&line);
}

void json_client(unsigned number, const char *name, long process)
{
	struct text line = { NULL, 0, 0 };
	text_add(&line, "{\"type\":\"client\",\"client\":");
	text_number(&line, number);
	put_key(&line, "name");
	put_words(&line, name);
	put_key(&line, "pid");
	if (process > 0)
		text_number(&line, (uint64_t)process);
	else
		text_add(&line, "null");
	print_line(&line);
}

void json_strict(const struct printer *printer, const char *reason, const struct text *words)
{
	struct text line = { NULL, 0, 0 };
	begin_line(&line, printer, "strict");
	put_key(&line, "reason");
	put_words(&line, reason);
	put_key(&line, "words");
	put_text(&line, words);
	print_line(&line);
}

void json_bad_line(size_t at, const char *words)
{
	struct text line = { NULL, 0, 0 };
	text_add(&line, "{\"type\":\"bad_line\",\"line\":");
	text_number(&line, at);
	put_key(&line, "words");
	put_words(&line, words);
	print_line(&line);
}
