/* The messages that an inspector follows, judged or not: scenes of messages, and what the inspector says
 * about each. Every scene is played with each message cut at every place, with pieces of several messages, and
 * with each allocation failing in turn. */
#include "refusing.h"

#include <ctype.h>
#include <stdarg.h>
#include <string.h>

#define FIRST "4278190080"
#define SECOND "4278190081"
#define THIRD "4278190082"
/* More bytes than a message of a scene has. */
#define MOST 64
#define MOST_STEPS 32

/* A dev makes offs, which a request can end, and heads, which none can. Behind these three the tables of some
 * compositors have more. */
static const char tables_text[] =
	"interface dev 3\nrequest release D\nrequest show o(off)\nevent made N(off)\nevent shown ?o(off)\n"
	"event head N(head)\n"
	"interface off 3\nrequest destroy D\nevent type s\n"
	"interface head 2\nevent name s\n";

/* A message, and what is said about it. It is `>` or `<`, TARGET.OPCODE, numbers and texts; or bytes in
 * digits. */
struct step {
	const char *said;
	const char *reported;
};

struct scene {
	const char *name;
	struct step steps[MOST_STEPS];
	const char *objects; /* that are known at the end */
	const char *verdict;
};

#define SEES(name, interface, version) "< 2.0 " #name " \"" interface "\" " #version, "wl_registry@2 read"
#define OPENS "> 1.1 2", "wl_display@1 read, makes wl_registry@2 1"
#define BINDS_DEV { OPENS }, { SEES(1, "dev", 3) }, { SEES(2, "zz_a", 1) }, \
	{ "> 2.0 1 \"dev\" 3 3", "wl_registry@2 read, makes dev@3 3" }
#define BINDS_UNKNOWN(id) { "> 2.0 2 \"zz_a\" 1 " id, "wl_registry@2 read" }
#define OF_BASE "wl_display@1 0 1; wl_registry@2 1 1; "

static const struct scene scenes[] = {
	{ "an interface that the tables lack",
		{ { OPENS }, { SEES(7, "zz_a", 5) }, { "> 2.0 7 \"zz_a\" 5 3", "wl_registry@2 read" },
			{ "> 3.1 77", "unknown@3 unread" },
			{ "> 1.0 4", "wl_display@1 read, makes wl_callback@4 1" },
			{ "< 3.0 1", "unknown@3 unread" },
			{ "> 9.3", "unknown@9 unread" },
			{ "< 4.0 7", "wl_callback@4 read, destroys 4" },
			{ "< 4.0 7", "wl_callback@4 ending read, destroys 4" } },
		OF_BASE "wl_callback@4 5 1 ending; ", "2 judged, fault 39 of > 2 at 12, argument 0, spelling 0" },
	{ "an id that an unknown object takes",
		{ { OPENS }, { SEES(2, "zz_a", 1) },
			{ "> 1.0 3", "wl_display@1 read, makes wl_callback@3 1" },
			{ "< 3.0 7", "wl_callback@3 read, destroys 3" },
			{ "< 1.1 3", "wl_display@1 read, deletes 3" },
			BINDS_UNKNOWN("3"),
			{ "> 3.0", "unknown@3 unread" }, { "< 3.0 7", "unknown@3 unread" },
			{ "< 1.1 3", "wl_display@1 read, deletes 3" },
			{ "> 1.0 3", "wl_display@1 read, makes wl_callback@3 1" },
			{ "< 3.0 7", "wl_callback@3 read, destroys 3" } },
		OF_BASE "wl_callback@3 10 1 ending; ", "5 judged, fault 39 of > 3 at 24, argument 0, spelling 0" },
	{ "an id of the server that an unknown event may have taken",
		{ BINDS_DEV,
			{ "< 3.0 " FIRST, "dev@3 read, makes off@" FIRST " 3" },
			{ "< 3.0 " SECOND, "dev@3 read, makes off@" SECOND " 3" },
			{ "< 3.2 " THIRD, "dev@3 read, makes head@" THIRD " 3" },
			{ "> " FIRST ".0", "off@" FIRST " read, destroys " FIRST },
			{ "< " FIRST ".0 \"a\"", "off@" FIRST " ending read" },
			BINDS_UNKNOWN("4"),
			{ "< " FIRST ".0 \"a\"", "off@" FIRST " ending read" },
			{ "< 4.0 " FIRST, "unknown@4 unread" },
			{ "< " FIRST ".0 \"a\"", "unknown@" FIRST " unread, destroys " FIRST },
			{ "< " SECOND ".0 \"b\"", "off@" SECOND " read" },
			{ "< " THIRD ".0 \"c\"", "unknown@" THIRD " unread, destroys " THIRD },
			{ "< 3.1 " FIRST, "dev@3 unread" },
			{ "< 3.0 " FIRST, "dev@3 read, makes off@" FIRST " 3" },
			{ "< " FIRST ".0 \"d\"", "off@" FIRST " read" } },
		OF_BASE "dev@3 4 3; off@" FIRST " 17 3; off@" SECOND " 6 3; ",
		"9 judged, fault 39 of > 4 at 48, argument 0, spelling 0" },
	{ "an object of the server that an unknown request may have ended",
		{ BINDS_DEV, BINDS_UNKNOWN("4"),
			{ "< 3.0 " FIRST, "dev@3 read, makes off@" FIRST " 3" },
			{ "> " FIRST ".5", "off@" FIRST " unread, destroys " FIRST },
			{ "< " FIRST ".0 \"a\"", "unknown@" FIRST " unread, destroys " FIRST } },
		OF_BASE "dev@3 4 3; ", "4 judged, fault 39 of > 3 at 40, argument 0, spelling 0" },
	{ "events for what was destroyed",
		{ BINDS_DEV,
			{ "< 3.0 " FIRST, "dev@3 read, makes off@" FIRST " 3" },
			{ "> 3.0", "dev@3 read, destroys 3" }, { "> " FIRST ".0", "off@" FIRST " read, destroys " FIRST },
			{ "< 3.1 " FIRST, "dev@3 ending read" },
			{ "< 3.0 " SECOND, "dev@3 ending read, makes off@" SECOND " 3" },
			{ "< 1.1 3", "wl_display@1 read, deletes 3" },
			{ "< 1.1 9", "wl_display@1 read, deletes 9" },
			{ "< 1.1 1", "wl_display@1 read, deletes 1" },
			{ "> " SECOND ".0", "off@" SECOND " read, destroys " SECOND } },
		OF_BASE "off@" FIRST " 5 3 ending; off@" SECOND " 9 3 ending; ", "lawful, 5 requests, 8 events, 0 and 0" },
	{ "a version that the tables lack",
		{ { OPENS }, { SEES(1, "dev", 9) }, { "> 2.0 1 \"dev\" 9 3", "wl_registry@2 read, makes dev@3 9" },
			{ "> 3.7 5", "dev@3 unread" }, { "< 3.9 4", "dev@3 unread" },
			{ "< 3.0 " FIRST, "dev@3 read, makes off@" FIRST " 9" } },
		OF_BASE "dev@3 3 9; off@" FIRST " 6 9; ", "2 judged, fault 39 of > 2 at 12, argument 0, spelling 0" },
	{ "an object of another interface",
		{ BINDS_DEV, { "> 3.1 2", "dev@3 unread" }, { "> 1.0 4", "wl_display@1 read, makes wl_callback@4 1" },
			{ "< 4.0 1", "wl_callback@4 read, destroys 4" } },
		OF_BASE "dev@3 4 3; wl_callback@4 6 1 ending; ", "4 judged, fault 35 of > 3 at 40, argument 0, spelling 0" },
	{ "an unknown object",
		{ { "> 1.0 2", "wl_display@1 read, makes wl_callback@2 1" }, { "> 9.0", "unknown@9 unread" },
			{ "< 2.0 7", "wl_callback@2 read, destroys 2" } },
		"wl_display@1 0 1; wl_callback@2 1 1 ending; ", "1 judged, fault 32 of > 2 at 12, argument 0, spelling 0" },
	{ "a size that no message has",
		{ { "> 1.0 2", "wl_display@1 read, makes wl_callback@2 1" }, { "> 0100000000000600ff", "wl_display@1 unread" },
			{ "> 1.0 3", NULL }, { "< 2.0 7", "wl_callback@2 read, destroys 2" }, { "> 1.0 3", NULL } },
		"wl_display@1 0 1; wl_callback@2 1 1 ending; ", "1 judged, fault 31 of > 2 at 12, argument 0, spelling 0" },
	{ "a size above the limit",
		{ { "< 01000000010000ff", "wl_display@1 unread" }, { "< 1.1 2", NULL },
			{ "> 1.0 2", "wl_display@1 read, makes wl_callback@2 1" } },
		"wl_display@1 0 1; wl_callback@2 2 1; ", "0 judged, fault 31 of < 1 at 0, argument 0, spelling 0" },
	{ "a malformed argument",
		{ { OPENS }, { "> 2.0 1 \"dev\"", "wl_registry@2 unread" },
			{ "> 1.0 3", "wl_display@1 read, makes wl_callback@3 1" } },
		OF_BASE "wl_callback@3 3 1; ", "1 judged, fault 34 of > 2 at 12, argument 1, spelling 1" },
	{ "bytes behind the last argument",
		{ { "> 1.0 2 3", "wl_display@1 unread" }, { "> 1.0 2", "wl_display@1 read, makes wl_callback@2 1" } },
		"wl_display@1 0 1; wl_callback@2 2 1; ", "0 judged, fault 37 of > 1 at 0, argument 0, spelling 0" },
	{ "a message that the interface lacks",
		{ { "< 1.2 2", "wl_display@1 unread" }, { "> 1.0 2", "wl_display@1 read, makes wl_callback@2 1" } },
		"wl_display@1 0 1; wl_callback@2 2 1; ", "0 judged, fault 33 of < 1 at 0, argument 0, spelling 0" },
	{ "a descriptor that is missing",
		{ { OPENS }, { SEES(1, "wl_shm", 1) }, { "> 2.0 1 \"wl_shm\" 1 3", "wl_registry@2 read, makes wl_shm@3 1" },
			{ "> 3.0 4 64", "wl_shm@3 read, makes wl_shm_pool@4 1, takes 1" },
			{ "> 4.1", "wl_shm_pool@4 read, destroys 4" } },
		OF_BASE "wl_shm@3 3 1; wl_shm_pool@4 4 1 ending; ",
		"3 judged, fault 38 of > 3 at 44, argument 0, spelling 0" },
	{ "new ids that are not the next",
		{ { "> 1.0 3", "wl_display@1 unread" }, { "> 1.0 3", "wl_display@1 read, makes wl_callback@3 1" },
			{ "> 1.0 3", "wl_display@1 read, makes wl_callback@3 1" }, { "> 1.0 0", "wl_display@1 unread" },
			{ "> 1.0 1048576", "wl_display@1 unread" }, { "> 1.0 " FIRST, "wl_display@1 unread" } },
		"wl_display@1 0 1; wl_callback@3 3 1; ", "0 judged, fault 36 of > 1 at 0, argument 0, spelling 0" },
	{ "an error of the display",
		{ { "> 1.0 2", "wl_display@1 read, makes wl_callback@2 1" }, { "< 1.0 2 3 \"no\"", "wl_display@1 read" },
			{ "> 1.0 3", "wl_display@1 read, makes wl_callback@3 1" } },
		"wl_display@1 0 1; wl_callback@2 1 1; wl_callback@3 3 1; ", "lawful, 1 requests, 1 events, 12 and 0" },
};

#define SCENES (sizeof scenes / sizeof *scenes)

static waywire_tables *tables;
static waywire_inspector *inspector;
static bool is_refused; /* whether each allocation of a call is refused first */
static long refusals;   /* how many were */

/* ---- texts */

struct line {
	char text[1024];
	size_t length;
};

static void put(struct line *line, const char *format, ...)
{
	va_list more;
	va_start(more, format);
	int length = vsnprintf(line->text + line->length, sizeof line->text - line->length, format, more);
	va_end(more);
	MUST(length >= 0 && line->length + (size_t)length < sizeof line->text);
	line->length += (size_t)length;
}

/* Ends the program if two texts differ. */
static void must_say(const char *scene, const char *said, const char *wanted)
{
	if (strcmp(said, wanted)) {
		fprintf(stderr, "%s:\n  it says %s\n  not     %s\n", scene, said, wanted);
		exit(1);
	}
}

static void put_interface(struct line *line, uint16_t interface)
{
	const char *name = "unknown";
	size_t length = strlen(name);
	if (interface != WAYWIRE_ANY_INTERFACE)
		MUST(!waywire_tables_name(tables, interface, &name, &length));
	put(line, "%.*s", (int)length, name);
}

/* ---- a message of a scene, as bytes */

struct data {
	unsigned char bytes[MOST];
	size_t length;
};

static void add_word(struct data *data, uint32_t word)
{
	for (int i = 0; i < 4; i++)
		data->bytes[data->length++] = (unsigned char)(word >> 8 * i);
}

/* Adds a text from behind its first quote, and returns what stands behind its second. */
static const char *add_text(struct data *data, const char *at)
{
	size_t length = strcspn(at, "\"");
	add_word(data, (uint32_t)length + 1);
	memcpy(data->bytes + data->length, at, length);
	memset(data->bytes + data->length + length, 0, 4);
	data->length += (length + 4) / 4 * 4;
	return at + length + 1;
}

static void add_digits(struct data *data, const char *at)
{
	unsigned value;
	for (; sscanf(at, "%2x", &value) == 1; at += 2)
		data->bytes[data->length++] = (unsigned char)value;
}

/* The bytes of a message, and who sends it. */
static waywire_sender read_step(const char *said, struct data *data)
{
	char *at;
	waywire_sender sender = *said == '>' ? WAYWIRE_FROM_CLIENT : WAYWIRE_FROM_SERVER;
	data->length = 0;
	if (!strchr(said, '.')) {
		add_digits(data, said + 2);
		return sender;
	}
	add_word(data, (uint32_t)strtoul(said + 2, &at, 10));
	add_word(data, (uint32_t)strtoul(at + 1, &at, 10));
	while (*at)
		if (at[1] == '"')
			at = (char *)add_text(data, at + 2);
		else
			add_word(data, (uint32_t)strtoul(at, &at, 10));
	data->bytes[6] = (unsigned char)data->length;
	return sender;
}

/* ---- what is said */

static struct line reported_by(const waywire_followed *message)
{
	struct line line = { "", 0 };
	put_interface(&line, message->object.interface);
	put(&line, "@%u%s %s", message->target, message->object.is_ending ? " ending" : "",
		message->is_read ? "read" : "unread");
	if (message->made) {
		put(&line, ", makes ");
		put_interface(&line, message->made_interface);
		put(&line, "@%u %u", message->made, message->made_version);
	}
	if (message->destroyed)
		put(&line, ", destroys %u", message->destroyed);
	if (message->deleted)
		put(&line, ", deletes %u", message->deleted);
	if (message->descriptor_count)
		put(&line, ", takes %zu", message->descriptor_count);
	return line;
}

static void put_objects(struct line *line, waywire_sender maker, uint32_t first)
{
	size_t count = waywire_inspector_id_count(inspector, maker);
	for (size_t i = 0; i <= count; i++) {
		uint32_t id = first + (uint32_t)i;
		waywire_known known;
		MUST(!waywire_inspector_object(inspector, id, &known));
		if (!known.is_known) {
			MUST(known.interface == WAYWIRE_ANY_INTERFACE && !known.is_ending && !known.birth && !known.version);
			continue;
		}
		MUST(i < count);
		put_interface(line, known.interface);
		put(line, "@%u %llu %u%s; ", id, (unsigned long long)known.birth, known.version,
			known.is_ending ? " ending" : "");
	}
}

static struct line objects(void)
{
	struct line line = { "", 0 };
	put_objects(&line, WAYWIRE_FROM_CLIENT, 0);
	put_objects(&line, WAYWIRE_FROM_SERVER, WAYWIRE_FIRST_SERVER_ID);
	return line;
}

static struct line verdict(void)
{
	struct line line = { "", 0 };
	waywire_judgement judgement;
	MUST(!waywire_inspector_judgement(inspector, &judgement));
	uint64_t judged = waywire_inspector_judged(inspector);
	if (judgement.fault)
		put(&line, "%llu judged, fault %u of %c %zu at %zu, argument %zu, spelling %u", (unsigned long long)judged,
			judgement.fault, judgement.sender == WAYWIRE_FROM_CLIENT ? '>' : '<', judgement.index,
			judgement.offset, judgement.place, judgement.spelling);
	else
		put(&line, "lawful, %zu requests, %zu events, %zu and %zu", judgement.requests, judgement.events,
			judgement.left_to_server, judgement.left_to_client);
	MUST(judgement.fault || judged == judgement.requests + judgement.events);
	return line;
}

/* Everything that is said: about the objects, the messages in front, and what was judged. */
static struct line all_told(void)
{
	struct line line = objects(), judged = verdict();
	put(&line, "%s", judged.text);
	for (int from = WAYWIRE_FROM_CLIENT; from <= WAYWIRE_FROM_SERVER; from++) {
		waywire_followed message;
		if (!waywire_inspector_ahead(inspector, (waywire_sender)from, &message))
			put(&line, "; %llu %s", (unsigned long long)message.number, reported_by(&message).text);
	}
	return line;
}

/* ---- a scene is played */

/* A call with its words. */
struct call {
	waywire_status (*make)(const struct call *call);
	waywire_sender sender;
	const unsigned char *bytes;
	size_t length;
};

static waywire_status passes(const struct call *call)
{
	return waywire_inspector_pass(inspector, call->sender, call->bytes, call->length, 0);
}

static waywire_status follows(const struct call *call)
{
	return waywire_inspector_follow(inspector, call->sender, call->bytes, call->length);
}

static waywire_status goes_past(const struct call *call)
{
	return waywire_inspector_go_past(inspector, call->sender);
}

/* Makes a call. With each allocation refused in turn, all is left as it was. */
static void make(const struct call *call)
{
	for (long number = 0; is_refused; number++) {
		struct line before = all_told();
		left = number;
		refused = 0;
		waywire_status status = call->make(call);
		left = -1;
		MUST(status == (refused ? WAYWIRE_NO_MEMORY : WAYWIRE_OK));
		if (!status)
			return;
		refusals++;
		must_say("an allocation refused", all_told().text, before.text);
	}
	MUST(!call->make(call));
}

static void give(waywire_sender sender, const unsigned char *bytes, size_t length)
{
	/* The bytes have a block of their own, so that valgrind sees where they end. */
	unsigned char *copy = length ? malloc(length) : NULL;
	if (length)
		memcpy(copy, bytes, length);
	make(&(struct call){ passes, sender, copy, length });
	make(&(struct call){ follows, sender, copy, length });
	free(copy);
}

/* How many messages came, and how many bytes: of each sender, and of both. */
struct counts {
	size_t index[2], offset[2];
	uint64_t number;
};

/* The arguments of a message as a step says them. */
static struct line said_by(const waywire_decoded *decoded)
{
	struct line line = { "", 0 };
	for (size_t i = 0; i < decoded->arg_count; i++) {
		const waywire_arg *arg = &decoded->args[i];
		switch (arg->kind) {
		case WAYWIRE_INT: put(&line, " %d", arg->i); break;
		case WAYWIRE_UINT: put(&line, " %u", arg->u); break;
		case WAYWIRE_STRING: put(&line, " \"%.*s\"", (int)arg->length, arg->bytes); break;
		case WAYWIRE_BOUND:
			put(&line, " \"%.*s\" %u %u", (int)arg->length, arg->bytes, arg->u, arg->object.id);
			break;
		case WAYWIRE_FD: break; /* it is not among the bytes */
		default: put(&line, " %u", arg->object.id);
		}
	}
	return line;
}

/* Takes a message apart: one that was read has the arguments that its step says, and of any other the status is that
 * of its interface's tables. */
static void read_arguments(const struct scene *scene, const struct step *step, waywire_sender sender,
	const waywire_followed *message)
{
	waywire_decoded decoded, wanted;
	const char *arguments = strchr(step->said + 2, ' ');
	waywire_status status = waywire_inspector_decode(inspector, sender, message, &decoded);
	MUST(status == waywire_tables_decode(tables, message->object.interface, message->object.version, sender,
		message->bytes, message->length, &wanted));
	MUST(!message->is_read || !status);
	MUST(message->object.is_known || status == WAYWIRE_NOT_FOUND);
	if (status == WAYWIRE_NOT_FOUND)
		return;
	MUST(decoded.arg_count == wanted.arg_count && decoded.place == wanted.place);
	MUST(decoded.target == message->target && decoded.opcode == message->opcode && decoded.size == message->size);
	MUST(!memcmp(decoded.interfaces, wanted.interfaces, decoded.arg_count * sizeof *decoded.interfaces));
	if (!status && strchr(step->said, '.'))
		must_say(scene->name, said_by(&decoded).text, arguments ? arguments : "");
}

/* Reads what is said about the message in front, and goes past it. */
static void read_front(const struct scene *scene, const struct step *step, waywire_sender sender,
	const struct data *data, struct counts *counts)
{
	waywire_followed message;
	size_t size = (size_t)data->bytes[6] | (size_t)data->bytes[7] << 8;
	MUST(!waywire_inspector_ahead(inspector, sender, &message));
	must_say(scene->name, reported_by(&message).text, step->reported);
	MUST(message.number == ++counts->number && message.index == ++counts->index[sender]);
	MUST(message.offset == counts->offset[sender] && message.size == size);
	MUST(message.opcode == (data->bytes[4] | data->bytes[5] << 8));
	/* Of one with a bad size all that came is reported, also what was said behind it. */
	MUST(!memcmp(message.bytes, data->bytes, message.length < data->length ? message.length : data->length));
	MUST(message.length == size || size < 8 || size > MOST);
	counts->offset[sender] += size;
	read_arguments(scene, step, sender, &message);
	make(&(struct call){ goes_past, sender, NULL, 0 });
	read_arguments(scene, step, sender, &message);
}

static void must_be_none(waywire_sender sender)
{
	waywire_followed message = { .target = 7 };
	MUST(waywire_inspector_ahead(inspector, sender, &message) == WAYWIRE_NOT_FOUND && message.target == 7);
	MUST(!waywire_inspector_go_past(inspector, sender));
}

/* Whether the bytes of a message's first part are a message already: of a bad size 8 are enough. */
static bool is_in_front(const struct step *step, const struct data *data, size_t cut)
{
	return step->reported && (cut >= data->length || (cut >= 8 && !strchr(step->said, '.')));
}

/* Plays the messages one by one, each cut at a place. */
static void play_cut(const struct scene *scene, size_t cut)
{
	struct counts counts = { { 0, 0 }, { 0, 0 }, 0 };
	for (const struct step *step = scene->steps; step->said; step++) {
		struct data data;
		waywire_sender sender = read_step(step->said, &data);
		size_t first = cut < data.length ? cut : data.length;
		give(sender, data.bytes, first);
		bool is_whole = is_in_front(step, &data, first);
		if (is_whole)
			read_front(scene, step, sender, &data, &counts);
		else
			must_be_none(sender);
		give(sender, data.bytes + first, data.length - first);
		if (!is_whole && step->reported)
			read_front(scene, step, sender, &data, &counts);
		must_be_none(sender);
	}
}

/* Plays the messages in pieces that join consecutive messages of one sender. */
static void play_joined(const struct scene *scene)
{
	struct counts counts = { { 0, 0 }, { 0, 0 }, 0 };
	const struct step *step = scene->steps;
	while (step->said) {
		unsigned char piece[MOST * MOST_STEPS];
		size_t length = 0;
		const struct step *end = step;
		struct data data;
		for (; end->said && *end->said == *step->said; end++) {
			read_step(end->said, &data);
			memcpy(piece + length, data.bytes, data.length);
			length += data.length;
		}
		give(*step->said == '>' ? WAYWIRE_FROM_CLIENT : WAYWIRE_FROM_SERVER, piece, length);
		for (; step < end; step++) {
			waywire_sender sender = read_step(step->said, &data);
			if (step->reported)
				read_front(scene, step, sender, &data, &counts);
			else
				must_be_none(sender);
		}
	}
}

/* Plays a scene in one way: cut at a place, or joined if the place is MOST + 1. */
static void play(const struct scene *scene, size_t cut)
{
	long before = used;
	MUST(!waywire_inspector_new(tables, WAYWIRE_USUAL_LIMIT, &inspector));
	if (cut > MOST)
		play_joined(scene);
	else
		play_cut(scene, cut);
	must_say(scene->name, objects().text, scene->objects);
	must_say(scene->name, verdict().text, scene->verdict);
	waywire_inspector_free(inspector);
	MUST(used == before);
}

/* ---- the calls, with what none of them accepts */

static void refuse_values(void)
{
	static const unsigned char bytes[] = { 1, 0, 0, 0, 0, 0, 12, 0, 2, 0, 0, 0 };
	const waywire_sender client = WAYWIRE_FROM_CLIENT, none = (waywire_sender)2;
	waywire_followed message;
	waywire_decoded decoded;
	waywire_known known;
	waywire_judgement judgement;
	MUST(!waywire_inspector_new(tables, WAYWIRE_USUAL_LIMIT, &inspector));
	MUST(waywire_inspector_follow(NULL, client, bytes, 12) == WAYWIRE_NULL);
	MUST(waywire_inspector_follow(inspector, client, NULL, 12) == WAYWIRE_NULL);
	MUST(waywire_inspector_follow(inspector, client, bytes, (size_t)PTRDIFF_MAX + 1) == WAYWIRE_TOO_LARGE);
	MUST(waywire_inspector_follow(inspector, none, bytes, 12) == WAYWIRE_BAD_VALUE);
	MUST(!waywire_inspector_follow(inspector, client, NULL, 0));
	must_be_none(client);
	MUST(!waywire_inspector_follow(inspector, client, bytes, 12));
	MUST(waywire_inspector_ahead(NULL, client, &message) == WAYWIRE_NULL);
	MUST(waywire_inspector_ahead(inspector, client, NULL) == WAYWIRE_NULL);
	MUST(waywire_inspector_ahead(inspector, none, &message) == WAYWIRE_BAD_VALUE);
	MUST(!waywire_inspector_ahead(inspector, client, &message));
	MUST(waywire_inspector_decode(NULL, client, &message, &decoded) == WAYWIRE_NULL);
	MUST(waywire_inspector_decode(inspector, client, NULL, &decoded) == WAYWIRE_NULL);
	MUST(waywire_inspector_decode(inspector, client, &message, NULL) == WAYWIRE_NULL);
	MUST(waywire_inspector_decode(inspector, none, &message, &decoded) == WAYWIRE_BAD_VALUE);
	MUST(waywire_inspector_go_past(NULL, client) == WAYWIRE_NULL);
	MUST(waywire_inspector_go_past(inspector, none) == WAYWIRE_BAD_VALUE);
	must_be_none(WAYWIRE_FROM_SERVER);
	MUST(!waywire_inspector_ahead(inspector, client, &message) && message.number == 1);
	MUST(waywire_inspector_object(NULL, 1, &known) == WAYWIRE_NULL);
	MUST(waywire_inspector_object(inspector, 1, NULL) == WAYWIRE_NULL);
	MUST(waywire_inspector_judgement(NULL, &judgement) == WAYWIRE_NULL);
	MUST(waywire_inspector_judgement(inspector, NULL) == WAYWIRE_NULL);
	MUST(!waywire_inspector_judged(NULL) && !waywire_inspector_id_count(NULL, client));
	MUST(!waywire_inspector_announced(NULL, 1, 0));
	MUST(waywire_inspector_id_count(inspector, client) == 2);
	waywire_inspector_free(inspector);
}

/* Of a global the newest version that was announced, of the interfaces that the tables lack together. */
static void announce(void)
{
	static const char *const said[] = { "> 1.1 2", "< 2.0 1 \"dev\" 2", "< 2.0 1 \"dev\" 3", "< 2.0 1 \"dev\" 1",
		"< 2.0 2 \"zz_a\" 4", "< 2.0 2 \"zz_b\" 6", "< 2.1 2" };
	uint16_t dev, off;
	MUST(!waywire_inspector_new(tables, WAYWIRE_USUAL_LIMIT, &inspector));
	MUST(!waywire_tables_interface(tables, "dev", &dev) && !waywire_tables_interface(tables, "off", &off));
	for (size_t i = 0; i < sizeof said / sizeof *said; i++) {
		struct data data;
		waywire_sender sender = read_step(said[i], &data);
		MUST(!waywire_inspector_follow(inspector, sender, data.bytes, data.length));
		MUST(!waywire_inspector_go_past(inspector, sender));
	}
	MUST(waywire_inspector_announced(inspector, 1, dev) == 3 && !waywire_inspector_announced(inspector, 2, dev));
	MUST(!waywire_inspector_announced(inspector, 1, off));
	MUST(waywire_inspector_announced(inspector, 2, WAYWIRE_ANY_INTERFACE) == 6);
	MUST(!waywire_inspector_announced(inspector, 1, WAYWIRE_ANY_INTERFACE));
	waywire_inspector_free(inspector);
}

/* The first delete_id that nothing asked for, after each message. */
static void take_back(void)
{
	static const struct {
		const char *said;
		uint64_t number;
		uint32_t id;
	} steps[] = { { "> 1.0 2", 0, 0 }, { "< 2.0 7", 0, 0 }, { "< 1.1 2", 0, 0 }, { "> 1.0 2", 0, 0 },
		{ "< 1.1 2", 0, 0 }, { "> 1.1 2", 0, 0 }, { "< 1.1 2", 7, 2 }, { "< 1.1 9", 7, 2 }, { "> 2.0 1", 7, 2 } };
	uint32_t id = 1;
	MUST(!waywire_inspector_undeserved(NULL, &id) && !id);
	MUST(!waywire_inspector_new(tables, WAYWIRE_USUAL_LIMIT, &inspector));
	for (size_t i = 0; i < sizeof steps / sizeof *steps; i++) {
		struct data data;
		waywire_sender sender = read_step(steps[i].said, &data);
		MUST(!waywire_inspector_pass(inspector, sender, data.bytes, data.length, 0));
		MUST(waywire_inspector_undeserved(inspector, &id) == steps[i].number && id == steps[i].id);
	}
	MUST(waywire_inspector_undeserved(inspector, NULL) == 7);
	waywire_inspector_free(inspector);
}

int main(void)
{
	tables = core_and(tables_text);
	for (size_t scene = 0; scene < SCENES; scene++)
		for (size_t cut = 0; cut <= MOST + 1; cut++)
			play(&scenes[scene], cut);
	is_refused = true;
	for (size_t scene = 0; scene < SCENES; scene++) {
		play(&scenes[scene], 0);
		play(&scenes[scene], 5);
	}
	MUST(refusals > (long)SCENES);
	refuse_values();
	announce();
	take_back();
	waywire_tables_free(tables);
	MUST(!used);
	return 0;
}
