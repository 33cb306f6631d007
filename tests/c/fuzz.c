/* Random calls of both ends, right and wrong, against a model that was written apart: what each returns and
 * writes, the bytes and tokens that go, and what the other end reports. Some allocations fail. The program is
 * linked with `--wrap` for malloc and realloc.
 *
 *     fuzz MESSAGES [SEED] */
#include "fuzz_model.h"

/* ---- calls that write */

/* The model's result for a call of an end: its status, and the index that a refusal names. */
struct expected {
	waywire_status status;
	size_t index;
};

#define NO_INDEX 77

/* An object of an end, as often as there is one a live one of fz_all. */
static struct object *chosen(int by)
{
	struct object *object;
	for (int tries = 0; tries < 12; tries++) {
		object = &objects[by][2 + chance(MOST_IDS - 2)];
		if (object->life == LIVE && object->is_all)
			break;
	}
	return object;
}

static void fill_bytes(waywire_arg *arg, char *bytes)
{
	arg->length = chance(MOST_BYTES);
	arg->bytes = bytes;
	for (size_t at = 0; at < arg->length; at++)
		bytes[at] = (char)(1 + chance(255));
}

/* Arguments for `all`, of their kinds, but for now and then one that is wrong. Says which index is refused first,
 * and by which status. */
static struct expected fill_all(struct message *message, int by)
{
	static const uint32_t kinds[MOST_ARGS + 1] = { WAYWIRE_INT, WAYWIRE_UINT, WAYWIRE_FIXED, WAYWIRE_STRING,
		WAYWIRE_NULL_STRING, WAYWIRE_OBJECT, WAYWIRE_NULL_OBJECT, WAYWIRE_ARRAY, WAYWIRE_FD };
	struct expected expected = { WAYWIRE_OK, NO_INDEX };
	message->arg_count = MOST_ARGS;
	for (size_t i = 0; i < MOST_ARGS; i++) {
		waywire_arg *arg = &message->args[i];
		*arg = waywire_no_object();
		arg->kind = kinds[i];
		arg->i = (int32_t)chance(UINT32_MAX);
		arg->u = chance(UINT32_MAX);
		if (arg->kind == WAYWIRE_NULL_STRING && chance(2))
			arg->kind = WAYWIRE_STRING;
		if (arg->kind == WAYWIRE_STRING || arg->kind == WAYWIRE_ARRAY)
			fill_bytes(arg, message->bytes[i]);
		if (arg->kind != WAYWIRE_OBJECT && (arg->kind != WAYWIRE_NULL_OBJECT || chance(2)))
			continue;
		const struct object *object = chosen(by);
		*arg = waywire_of(object->value);
		if ((object->life != LIVE || !object->is_all) && !expected.status)
			expected = (struct expected){ WAYWIRE_BAD_OBJECT, i };
	}
	return expected;
}

/* One thing that is wrong with a call. */
enum mistake { NONE, NULL_END, NULL_ARGS, NULL_BYTES, TOO_LARGE, NO_KIND, STALE, NO_MESSAGE, WRONG_KIND, FEWER,
	MORE, MISTAKES };

struct call {
	waywire_object target;
	uint16_t opcode;
	size_t arg_count;
	waywire_arg args[MOST_ARGS + 1];
};

static struct call call_of(const struct message *message, waywire_object target)
{
	struct call call = { target, message->opcode, message->arg_count, { { 0 } } };
	memcpy(call.args, message->args, message->arg_count * sizeof *call.args);
	return call;
}

/* Makes a mistake, and returns what is expected then. `expected` is what is expected without it. */
static struct expected mistaken(struct call *call, enum mistake mistake, struct expected expected)
{
	size_t index = call->arg_count ? chance((uint32_t)call->arg_count) : 0;
	waywire_arg *arg = &call->args[index];
	switch (mistake) {
	case NULL_BYTES: case TOO_LARGE:
		*arg = waywire_array(mistake == TOO_LARGE ? text : NULL, mistake == TOO_LARGE ? SIZE_MAX / 2 + 1 : 1);
		call->arg_count += call->arg_count == 0;
		return (struct expected){ mistake == TOO_LARGE ? WAYWIRE_TOO_LARGE : WAYWIRE_NULL, NO_INDEX };
	case NO_KIND:
		arg->kind = chance(2) ? 0 : WAYWIRE_FD + 1 + chance(1000);
		call->arg_count += call->arg_count == 0;
		return (struct expected){ WAYWIRE_BAD_VALUE, NO_INDEX };
	case STALE:
		call->target.birth += 1000000;
		return (struct expected){ WAYWIRE_STALE, NO_INDEX };
	case NO_MESSAGE:
		call->opcode = (uint16_t)(60000 + chance(5536)); /* tables that grow have the next ones */
		return (struct expected){ WAYWIRE_NO_SUCH_MESSAGE, NO_INDEX };
	case WRONG_KIND:
		if (!call->arg_count)
			return expected;
		*arg = arg->kind == WAYWIRE_UINT ? waywire_int(1) : waywire_uint(1);
		return (struct expected){ WAYWIRE_WRONG_ARGS, index };
	case FEWER:
		if (!call->arg_count)
			return expected;
		call->arg_count--;
		return (struct expected){ WAYWIRE_WRONG_ARGS, call->arg_count };
	case MORE:
		call->args[call->arg_count] = waywire_uint(1);
		return (struct expected){ WAYWIRE_WRONG_ARGS, call->arg_count++ };
	default:
		return expected;
	}
}

static bool is_number(const waywire_arg *arg)
{
	return arg->kind == WAYWIRE_INT || arg->kind == WAYWIRE_UINT || arg->kind == WAYWIRE_FIXED;
}

/* How many of the first arguments of a message are numbers. */
static size_t numbers_in(const struct message *message)
{
	size_t count = 0;
	while (count < message->arg_count && is_number(&message->args[count]))
		count++;
	return count;
}

/* Makes a call by the words of its arguments. */
static waywire_status send_words(waywire_end *end, const struct call *call, bool has_words, size_t *index)
{
	uint32_t words[MOST_ARGS + 1];
	for (size_t i = 0; i < call->arg_count; i++)
		words[i] = call->args[i].kind == WAYWIRE_UINT ? call->args[i].u : (uint32_t)call->args[i].i;
	return waywire_end_send_words(end, call->target, call->opcode, has_words ? words : NULL, call->arg_count, index);
}

static size_t tokens_in(const struct message *message)
{
	size_t count = 0;
	for (size_t i = 0; i < message->arg_count; i++)
		count += message->args[i].kind == WAYWIRE_FD;
	return count;
}

/* The message is written: its bytes and tokens are the last ones that are to be taken. */
static void goes(struct way *way, const struct message *message)
{
	unsigned char bytes[OUT_BYTES];
	size_t length = encode(message, bytes);
	for (size_t i = 0; i < message->arg_count; i++)
		if (message->args[i].kind == WAYWIRE_FD) {
			way->tokens[way->token_count].at = way->length;
			way->tokens[way->token_count++].token = message->args[i].u;
		}
	memcpy(way->bytes + way->length, bytes, length);
	way->length += length;
	MUST(way->count < MOST_MESSAGES);
	struct message *last = &way->messages[(way->first + way->count++) % MOST_MESSAGES];
	*last = *message;
	for (size_t i = 0; i < last->arg_count; i++)
		if (last->args[i].kind == WAYWIRE_STRING || last->args[i].kind == WAYWIRE_ARRAY)
			last->args[i].bytes = last->bytes[i];
}

/* The old contents of what a call writes. */
static const waywire_object stood = { 7, 7 };

/* Writes a message of an end, perhaps by a call that has a mistake, where without it this is expected.
 * `following` is the delete_id that goes with it. Returns whether it was written, and in `new` what it made. */
static bool sends(int by, const struct message *message, waywire_object target, struct expected expected,
	size_t following, waywire_object *new)
{
	unsigned char bytes[OUT_BYTES];
	enum mistake mistake = chance(4) ? NONE : (enum mistake)chance(MISTAKES);
	bool by_words = chance(2) && (mistake < NULL_BYTES || mistake == STALE || mistake == NO_MESSAGE || mistake >= FEWER);
	struct call call = call_of(message, target);
	if (numbers_in(message) < message->arg_count && by_words && (by_words = mistake == NONE && !chance(4)))
		expected = (struct expected){ WAYWIRE_WRONG_ARGS, numbers_in(message) };
	size_t index = NO_INDEX;
	bool makes = message->arg_count && message->args[0].kind == WAYWIRE_NEW;
	bool asks_index = chance(8), asks_made = makes || chance(8);
	settle(&ways[by]);
	if (!expected.status && !fits(&ways[by], encode(message, bytes) + following, tokens_in(message)))
		expected.status = WAYWIRE_FULL;
	expected = mistaken(&call, mistake, expected);
	if (mistake == NULL_END || (mistake == NULL_ARGS && call.arg_count))
		expected = (struct expected){ WAYWIRE_NULL, NO_INDEX };
	*new = stood;
	refuse_some();
	waywire_end *end = mistake == NULL_END ? NULL : ends[by];
	waywire_status status = by_words
		? send_words(end, &call, mistake != NULL_ARGS, asks_index ? &index : NULL)
		: waywire_end_send(end, call.target, call.opcode, mistake == NULL_ARGS ? NULL : call.args,
			call.arg_count, asks_made ? new : NULL, asks_index ? &index : NULL);
	refuse_none();
	if (status == WAYWIRE_NO_MEMORY && was_refused && makes && !expected.status)
		expected.status = status;
	MUST(status == expected.status);
	MUST(index == (asks_index ? expected.index : NO_INDEX));
	if (status || !asks_made || by_words)
		MUST(waywire_object_equal(*new, stood));
	else
		MUST((new->id != 0) == makes);
	return !status;
}

static struct message message_to(waywire_object target, uint16_t opcode)
{
	struct message message = { .target = target.id, .opcode = opcode };
	return message;
}

static const waywire_object display = { 0, 1 };
static const struct expected right = { WAYWIRE_OK, NO_INDEX };

/* An object is live at an end, with no pointer of the caller's. */
static void opens(int by, waywire_object object, bool is_all)
{
	MUST(object.id > 1 && object.id < MOST_IDS && objects[by][object.id].life == FREE);
	objects[by][object.id] = (struct object){ object, LIVE, is_all, false, NULL };
}

static bool has_free_id(void)
{
	size_t used = 0;
	for (size_t id = 0; id < MOST_IDS; id++)
		used += objects[BY_CLIENT][id].life != FREE;
	return used < MOST_IDS - 4;
}

/* A request that makes an object: wl_display.sync, or `make`. */
static void makes_one(bool is_all)
{
	const struct object *maker = chosen(BY_CLIENT);
	waywire_object target = is_all ? maker->value : display, new;
	struct message message = message_to(target, is_all ? MAKE : WAYWIRE_WL_DISPLAY_REQUEST_SYNC);
	if (!has_free_id() || (is_all && (maker->life != LIVE || !maker->is_all)))
		return;
	message.arg_count = 1;
	message.args[0] = waywire_new();
	if (!sends(BY_CLIENT, &message, target, right, 0, &new))
		return;
	opens(BY_CLIENT, new, is_all);
	message.args[0].object = new;
	goes(&ways[BY_CLIENT], &message);
}

static void requests(void)
{
	struct object *object = chosen(BY_CLIENT);
	waywire_object new;
	if (chance(3) == 0) {
		makes_one(chance(2));
		return;
	}
	if (object->life != LIVE || !object->is_all)
		return;
	struct message message = message_to(object->value, chance(4) ? ALL : END);
	struct expected expected = message.opcode == ALL ? fill_all(&message, BY_CLIENT) : right;
	if (object->value.id == BOUND_ID && message.opcode == END)
		return;
	if (!sends(BY_CLIENT, &message, object->value, expected, 0, &new))
		return;
	goes(&ways[BY_CLIENT], &message);
	if (message.opcode == END)
		object->life = ZOMBIE;
}

static void delete_id_goes(uint32_t id)
{
	struct message message = message_to(display, WAYWIRE_WL_DISPLAY_EVENT_DELETE_ID);
	message.arg_count = 1;
	message.args[0] = waywire_uint(id);
	goes(&ways[BY_SERVER], &message);
}

/* A call by which a server's caller ends an object. */
typedef waywire_status end_call(waywire_server, waywire_object);

static void ends_by(end_call *call, struct object *object)
{
	settle(&ways[BY_SERVER]);
	bool room = fits(&ways[BY_SERVER], 12, 0);
	MUST(call(server, object->value) == (room ? WAYWIRE_OK : WAYWIRE_FULL));
	if (!room)
		return;
	object->life = FREE;
	delete_id_goes(object->value.id);
	MUST(call(server, object->value) == WAYWIRE_STALE);
}

/* A callback ends, by its event or without it. */
static void ends_callback(struct object *object)
{
	struct message message = message_to(object->value, WAYWIRE_WL_CALLBACK_EVENT_DONE);
	waywire_object new;
	if (chance(2)) {
		ends_by(chance(2) ? waywire_server_drop_object : waywire_server_end_object, object);
		return;
	}
	message.arg_count = 1;
	message.args[0] = waywire_uint(chance(1000));
	if (!sends(BY_SERVER, &message, object->value, right, 12, &new))
		return;
	goes(&ways[BY_SERVER], &message);
	object->life = FREE;
	delete_id_goes(object->value.id);
}

/* The caller of a server ends an object that the client has destroyed, and tries to end what it may not. */
static void ends_held(void)
{
	struct object *object = &objects[BY_SERVER][2 + chance(MOST_IDS - 2)];
	MUST(waywire_server_end_object(server, display) == WAYWIRE_NOT_DROPPABLE);
	MUST(waywire_server_end_object(server, objects[BY_SERVER][REGISTRY_ID].value) == WAYWIRE_NOT_DROPPABLE);
	if (object->life == LIVE && object->is_held)
		ends_by(waywire_server_end_object, object);
	else if (object->life == FREE)
		MUST(waywire_server_end_object(server, object->value) == WAYWIRE_STALE);
}

static void writes_events(void)
{
	struct object *object = chance(2) ? chosen(BY_SERVER) : &objects[BY_SERVER][2 + chance(MOST_IDS - 2)];
	waywire_object new;
	if (object->life != LIVE || object->value.id == REGISTRY_ID)
		return;
	if (!object->is_all) {
		ends_callback(object);
		return;
	}
	struct message message = message_to(object->value, chance(2) ? ALL : WORDS);
	struct expected expected = right;
	if (message.opcode == ALL) {
		expected = fill_all(&message, BY_SERVER);
	} else {
		message.arg_count = 3;
		message.args[0] = waywire_fd(chance(UINT32_MAX));
		message.args[1] = waywire_fd(chance(UINT32_MAX));
		message.args[2] = waywire_array(NULL, 0);
		fill_bytes(&message.args[2], message.bytes[2]);
	}
	if (sends(BY_SERVER, &message, object->value, expected, 0, &new))
		goes(&ways[BY_SERVER], &message);
}

/* ---- what goes */

/* How many bytes and tokens `take` takes into memory for so many. */
static waywire_amounts takes(const struct way *way, size_t bytes, size_t tokens)
{
	size_t most = way->length - way->sent < bytes ? way->length - way->sent : bytes, end = way->sent + most;
	waywire_amounts amounts = { most, 0 };
	for (size_t i = way->tokens_sent; i < way->token_count;) {
		size_t start = way->tokens[i].at, next = i;
		while (next < way->token_count && way->tokens[next].at == start)
			next++;
		if (start >= end)
			break;
		if (next - way->tokens_sent > tokens) {
			amounts.bytes = start - way->sent;
			break;
		}
		amounts.tokens = next - way->tokens_sent;
		i = next;
	}
	return amounts;
}

static bool same_amounts(waywire_amounts one, waywire_amounts other)
{
	return one.bytes == other.bytes && one.tokens == other.tokens;
}

/* Takes from an end's outbox what the model has there. */
static waywire_amounts take(int by, unsigned char *bytes, size_t length, uint32_t *tokens, size_t count)
{
	struct way *way = &ways[by];
	waywire_amounts wanted = takes(way, length, count), taken;
	waywire_amounts room = { OUT_BYTES - (way->length - way->sent), MOST_TOKENS - (way->token_count - way->tokens_sent) };
	MUST(same_amounts(waywire_end_out_room(ends[by]), room));
	MUST(same_amounts(waywire_end_goes(ends[by], length, count), wanted));
	MUST(!waywire_end_take(ends[by], bytes, length, tokens, count, &taken) && same_amounts(taken, wanted));
	MUST(!memcmp(bytes, way->bytes + way->sent, taken.bytes));
	for (size_t i = 0; i < taken.tokens; i++)
		MUST(tokens[i] == way->tokens[way->tokens_sent + i].token);
	way->sent += taken.bytes;
	way->tokens_sent += taken.tokens;
	return taken;
}

/* ---- what comes */

/* Whether a reported argument is the one that was given, as the reader's own object. */
static bool is_reported(int reader, const waywire_arg *given, const waywire_arg *got)
{
	waywire_arg wanted = *given;
	const struct object *object = &objects[reader][given->object.id < MOST_IDS ? given->object.id : 0];
	if (given->kind == WAYWIRE_OBJECT) {
		wanted.kind = object->life == LIVE ? WAYWIRE_OBJECT : WAYWIRE_DEAD_OBJECT;
		wanted.object = object->value;
	}
	if (given->kind == WAYWIRE_NEW)
		wanted.object.birth = got->object.birth;
	bool has_int = given->kind == WAYWIRE_INT || given->kind == WAYWIRE_FIXED;
	bool has_uint = given->kind == WAYWIRE_UINT || given->kind == WAYWIRE_FD;
	return got->kind == wanted.kind && got->i == (has_int ? given->i : 0) && got->u == (has_uint ? given->u : 0)
		&& waywire_object_equal(got->object, wanted.object) && got->length == given->length
		&& (!given->length || !memcmp(got->bytes, given->bytes, given->length))
		&& (got->kind != WAYWIRE_STRING || ((const char *)got->bytes)[got->length] == 0);
}

/* The report of a message for a live object, or at a client of one that was discarded. */
static void is_told(int reader, const struct message *message, const waywire_report *report)
{
	const struct object *target = &objects[reader][message->target];
	waywire_object object = message->target == 1 ? display : target->value;
	bool live = message->target == 1 || target->life == LIVE;
	MUST(report->kind == (live ? WAYWIRE_MESSAGE : WAYWIRE_DISCARDED) && report->opcode == message->opcode);
	MUST(waywire_object_equal(report->target, object));
	MUST(report->user == (message->target == 1 ? NULL : target->user));
	MUST(!report->id && !report->code && !report->named && !report->spelling && !report->text_length
		&& !report->place && !report->offset && !report->replaced.id && !report->replaced_user);
	MUST(report->arg_count == (live ? message->arg_count : 0) && report->token_count == tokens_in(message));
	for (size_t i = 0; i < report->arg_count; i++)
		MUST(is_reported(reader, &message->args[i], &report->args[i]));
	for (size_t i = 0, token = 0; i < message->arg_count; i++)
		if (message->args[i].kind == WAYWIRE_FD)
			MUST(report->tokens[token++] == message->args[i].u);
}

/* What a server reads. */
static void reads_request(const struct message *message, const waywire_report *report)
{
	struct object *target = &objects[BY_SERVER][message->target];
	is_told(BY_SERVER, message, report);
	if (message->arg_count && message->args[0].kind == WAYWIRE_NEW)
		opens(BY_SERVER, report->args[0].object, message->target != 1);
	if (message->target == 1 || message->opcode != END)
		return;
	target->is_held = of_server != tables;
	if (target->is_held)
		return;
	target->life = FREE;
	settle(&ways[BY_SERVER]);
	delete_id_goes(message->target);
}

/* What a client reads. */
static void reads_event(const struct message *message, const waywire_report *report)
{
	if (message->target != 1) {
		struct object *target = &objects[BY_CLIENT][message->target];
		is_told(BY_CLIENT, message, report);
		if (!target->is_all)
			target->life = ZOMBIE;
		return;
	}
	struct object *ended = &objects[BY_CLIENT][message->args[0].u];
	MUST(report->kind == WAYWIRE_DELETED && waywire_object_equal(report->target, ended->value));
	MUST(report->user == ended->user && !report->arg_count && !report->token_count);
	ended->life = FREE;
}

/* Whether the message in front is whole at its reader, which has taken in this many bytes. */
static size_t came[2];

static bool is_whole(int by, size_t *length)
{
	unsigned char bytes[OUT_BYTES];
	const struct way *way = &ways[by];
	if (!way->count)
		return false;
	*length = encode(&way->messages[way->first], bytes);
	return came[by] >= *length;
}

/* An end reads once: what was written by the other. */
static void reads(int by)
{
	struct way *way = &ways[by];
	waywire_report report;
	size_t length = 0;
	bool whole = is_whole(by, &length), no_room;
	const struct message *message = &way->messages[way->first];
	settle(&ways[BY_SERVER]);
	no_room = by == BY_CLIENT && whole && message->target != 1 && message->opcode == END
		&& of_server == tables && !fits(&ways[BY_SERVER], 12, 0);
	refuse_some();
	waywire_status status = by == BY_CLIENT && chance(2) ? waywire_server_next_unanswered(server, &report)
		: waywire_end_next(ends[1 - by], &report);
	refuse_none();
	if (status == WAYWIRE_NO_MEMORY)
		MUST(was_refused && by == BY_CLIENT && whole && message->args[0].kind == WAYWIRE_NEW);
	else
		MUST(status == (no_room ? WAYWIRE_OUT_FULL : WAYWIRE_OK));
	if (status || !whole) {
		MUST(report.kind == WAYWIRE_NOTHING && !report.arg_count && !report.target.id && !report.user);
		MUST(!report.replaced.id && !report.replaced_user);
		return;
	}
	came[by] -= length;
	way->first = (way->first + 1) % MOST_MESSAGES;
	way->count--;
	read_messages++;
	if (by == BY_CLIENT)
		reads_request(message, &report);
	else
		reads_event(message, &report);
}

/* ---- a piece on its way from one end to the other */

static waywire_amounts least(waywire_amounts room, size_t bytes, size_t tokens)
{
	waywire_amounts amounts = { 0, room.tokens < tokens ? room.tokens : tokens };
	if (amounts.tokens == tokens)
		amounts.bytes = room.bytes < bytes ? room.bytes : bytes;
	return amounts;
}

/* Feeds a piece, and reads if there is no room for all of it. */
static void feeds(int by, const unsigned char *bytes, size_t length, const uint32_t *tokens, size_t count)
{
	while (length || count) {
		waywire_end *reader = ends[1 - by];
		waywire_amounts room = waywire_end_in_room(reader), fed;
		MUST(!waywire_end_feed(reader, length ? bytes : NULL, length, count ? tokens : NULL, count, &fed));
		MUST(same_amounts(fed, least(room, length, count)));
		came[by] += fed.bytes;
		bytes += fed.bytes;
		length -= fed.bytes;
		tokens += fed.tokens;
		count -= fed.tokens;
		if (length || count)
			reads(by);
	}
}

/* An inspector gets the same; if an allocation fails, once more. */
static void passes(int by, const unsigned char *bytes, size_t length, size_t count)
{
	waywire_status status;
	do {
		refuse_some();
		status = waywire_inspector_pass(inspector, by == BY_CLIENT ? WAYWIRE_FROM_CLIENT : WAYWIRE_FROM_SERVER,
			length ? bytes : NULL, length, count);
		refuse_none();
		MUST(!status || (status == WAYWIRE_NO_MEMORY && was_refused));
	} while (status);
}

static void carries(int by, size_t length, size_t count)
{
	unsigned char bytes[OUT_BYTES];
	uint32_t tokens[MOST_TOKENS];
	waywire_amounts taken = take(by, bytes, length, tokens, count);
	passes(by, bytes, taken.bytes, taken.tokens);
	feeds(by, bytes, taken.bytes, tokens, taken.tokens);
}

/* ---- other calls */

/* Asks about any object of an end, and sets its pointer. */
static void asks(int by)
{
	struct object *object = &objects[by][2 + chance(MOST_IDS - 2)];
	void *user = chance(3) ? &objects[chance(2)][chance(MOST_IDS)] : NULL;
	uint16_t interface = 999, wanted;
	uint32_t version = 999;
	if (!object->value.id)
		return;
	waywire_status status = waywire_end_live(ends[by], object->value, &interface, &version);
	MUST(status == (object->life == LIVE ? WAYWIRE_OK : WAYWIRE_NOT_FOUND));
	MUST(!waywire_tables_interface(tables, object->is_all ? "fz_all" : object->value.id == REGISTRY_ID
		? "wl_registry" : "wl_callback", &wanted));
	MUST(interface == (status ? 999 : wanted) && version == (status ? 999 : 1));
	if (object->life != FREE)
		MUST(waywire_end_user(ends[by], object->value) == object->user);
	refuse_some();
	status = waywire_end_set_user(ends[by], object->value, user);
	refuse_none();
	if (status == WAYWIRE_NO_MEMORY)
		MUST(was_refused && object->life == LIVE && user);
	else
		MUST(status == (object->life == LIVE ? WAYWIRE_OK : WAYWIRE_STALE));
	if (!status)
		object->user = user;
}

/* Null where a pointer is needed, lengths that no slice has, and calls of one end with the other. */
static void misuses(void)
{
	waywire_amounts amounts = { 9, 9 };
	waywire_client wrong_client = { server.end };
	waywire_server wrong_server = { client.end };
	uint32_t token = 0;
	char byte = 0;
	MUST(waywire_end_feed(chance(2) ? NULL : client.end, &byte, SIZE_MAX, &token, 0, &amounts) != WAYWIRE_OK);
	MUST(waywire_end_feed(client.end, NULL, 1, NULL, 0, &amounts) == WAYWIRE_NULL);
	MUST(waywire_end_feed(server.end, NULL, 0, NULL, 1, &amounts) == WAYWIRE_NULL);
	MUST(waywire_end_feed(server.end, &byte, 1, &token, 1, NULL) == WAYWIRE_NULL);
	MUST(waywire_end_take(server.end, NULL, 1, NULL, 0, &amounts) == WAYWIRE_NULL);
	MUST(waywire_end_take(client.end, &byte, 1, &token, (size_t)PTRDIFF_MAX, &amounts) == WAYWIRE_TOO_LARGE);
	MUST(!waywire_end_goes(NULL, 1, 1).bytes);
	MUST(waywire_end_next(server.end, NULL) == WAYWIRE_NULL);
	MUST(waywire_end_set_user(NULL, display, &byte) == WAYWIRE_NULL);
	MUST(!waywire_end_user(NULL, display));
	MUST(waywire_client_bind(wrong_client, display, 1, "fz_all", 1, NULL) == WAYWIRE_OTHER_END);
	MUST(waywire_client_bind_unannounced(wrong_client, display, 1, "fz_all", 1, NULL) == WAYWIRE_OTHER_END);
	MUST(waywire_client_more_tables(wrong_client, text, strlen(text), NULL, NULL) == WAYWIRE_OTHER_END);
	MUST(waywire_server_post_error(wrong_server, display, 1, "x") == WAYWIRE_OTHER_END);
	MUST(waywire_server_end_object(wrong_server, display) == WAYWIRE_OTHER_END);
	MUST(amounts.bytes == 9 && amounts.tokens == 9);
	for (int by = BY_CLIENT; by <= BY_SERVER; by++)
		MUST(waywire_end_is_drained(ends[by]) == (ways[by].sent == ways[by].length && !came[1 - by]));
}

/* The tables of one end grow: what is there stays, so the model does not change. Where an allocation fails, they are
 * what they were. */
static void grows(void)
{
	static unsigned number;
	char more[160], name[32];
	waywire_end *end = ends[chance(2) ? BY_CLIENT : BY_SERVER];
	const waywire_tables *before = waywire_end_tables(end);
	uint16_t index;
	number++;
	snprintf(name, sizeof name, "fz_%u", number);
	snprintf(more, sizeof more, "extend fz_all 1\nrequest more_%u u\nevent more_%u u\ninterface %s 1\n", number,
		number, name);
	if (chance(2))
		refuse_some();
	waywire_status status = waywire_end_more_tables(end, more, strlen(more), NULL, NULL);
	refuse_none();
	MUST(!status || (status == WAYWIRE_NO_MEMORY && was_refused));
	const waywire_tables *now = waywire_end_tables(end);
	MUST((now == before) == (status != WAYWIRE_OK));
	MUST(waywire_tables_interface(now, name, &index) == (status ? WAYWIRE_NOT_FOUND : WAYWIRE_OK));
}

/* ---- the whole session */

/* All that was written is carried over and read. */
static void settles(void)
{
	for (int turn = 0; turn < 8; turn++)
		for (int by = BY_CLIENT; by <= BY_SERVER; by++) {
			carries(by, OUT_BYTES, MOST_TOKENS);
			while (ways[by].count && ways[by].sent == ways[by].length) {
				reads(by);
				settle(&ways[1 - by]);
				carries(1 - by, OUT_BYTES, MOST_TOKENS);
			}
		}
	MUST(!ways[BY_CLIENT].count && !ways[BY_SERVER].count);
}

static void carry_raw(int by)
{
	unsigned char bytes[OUT_BYTES];
	waywire_amounts taken, fed;
	MUST(!waywire_end_take(ends[by], bytes, sizeof bytes, NULL, 0, &taken));
	MUST(!waywire_inspector_pass(inspector, by == BY_CLIENT ? WAYWIRE_FROM_CLIENT : WAYWIRE_FROM_SERVER, bytes,
		taken.bytes, 0));
	MUST(!waywire_end_feed(ends[1 - by], bytes, taken.bytes, NULL, 0, &fed));
	MUST(fed.bytes == taken.bytes);
}

/* A registry and an object of fz_all, at both ends. */
static void begins(void)
{
	/* An inbox of tokens for all of a piece, and for a message that is not whole. */
	waywire_sizes sizes = { OUT_BYTES, MOST_TOKENS, 4096, MOST_TOKENS + 4, 0 };
	waywire_report report;
	waywire_object registry, bound, other;
	waywire_arg new = waywire_new();
	uint16_t all;
	uint32_t name;
	size_t count;
	tables = core_and(text);
	of_server = chance(2) ? tables : unended_and(unended_text);
	MUST(!waywire_client_new(tables, &sizes, &client) && !waywire_server_new(of_server, &sizes, &server));
	ends[BY_CLIENT] = client.end;
	ends[BY_SERVER] = server.end;
	MUST(!waywire_inspector_new(tables, WAYWIRE_USUAL_LIMIT, &inspector));
	MUST(!waywire_tables_interface(tables, "fz_all", &all) && !waywire_server_add_global(server, all, 1, &name));
	MUST(!waywire_end_send(client.end, display, WAYWIRE_WL_DISPLAY_REQUEST_GET_REGISTRY, &new, 1, &registry,
		NULL));
	carry_raw(BY_CLIENT);
	MUST(!waywire_end_next(server.end, &report) && registry.id == REGISTRY_ID);
	other = report.args[0].object;
	opens(BY_CLIENT, registry, false);
	opens(BY_SERVER, other, false);
	MUST(!waywire_server_announce(server, &count, NULL) && count == 1);
	carry_raw(BY_SERVER);
	MUST(!waywire_end_next(client.end, &report) && report.args[0].u == name);
	MUST(waywire_client_bind(client, registry, name, "fz_all", 2, &bound) == WAYWIRE_BAD_BIND);
	if (chance(2))
		MUST(!waywire_client_bind(client, registry, name, "fz_all", 1, &bound));
	else
		MUST(!waywire_client_bind_unannounced(client, registry, name, "fz_all", 1, &bound));
	MUST(bound.id == BOUND_ID);
	carry_raw(BY_CLIENT);
	MUST(!waywire_end_next(server.end, &report));
	MUST(report.args[1].kind == WAYWIRE_BOUND && report.args[1].u == 1);
	opens(BY_CLIENT, bound, true);
	opens(BY_SERVER, report.args[1].object, true);
}

/* The inspector saw a lawful session, of as many messages as were read. */
static void judges(unsigned long before)
{
	const char *line;
	size_t length;
	bool broken;
	unsigned long requests_read, events_read;
	char copy[200] = { 0 };
	MUST(!waywire_inspector_verdict(inspector, &line, &length, &broken) && !broken && length < sizeof copy);
	memcpy(copy, line, length);
	MUST(sscanf(copy, "lawful: %lu requests, %lu events,", &requests_read, &events_read) == 2);
	MUST(requests_read + events_read == read_messages + before);
}

/* A session of at least so many messages, with two new ends. Now and then one is read slowly. */
static void session(unsigned long messages)
{
	bool slow = false;
	memset(objects, 0, sizeof objects);
	memset(ways, 0, sizeof ways);
	read_messages = came[0] = came[1] = 0;
	begins();
	while (read_messages < messages) {
		slow ^= !chance(600);
		switch (chance(slow ? 7 : 12)) {
		case 0: case 1: case 2: case 3: requests(); break;
		case 4: case 5: writes_events(); break;
		case 6: chance(2) ? asks((int)chance(2)) : ends_held(); break;
		case 7:
			if (chance(40))
				reads((int)chance(2));
			else
				chance(2) ? misuses() : grows();
			break;
		case 8: case 9: reads((int)chance(2)); break;
		default: carries((int)chance(2), chance(1500), chance(24));
		}
	}
	settles();
	judges(3);
	waywire_end_free(client.end);
	waywire_end_free(server.end);
	waywire_inspector_free(inspector);
	if (of_server != tables)
		waywire_tables_free(of_server);
	waywire_tables_free(tables);
}

int main(int count, char **words)
{
	unsigned long messages = count > 1 ? strtoul(words[1], NULL, 10) : 1000, read = 0;
	state = count > 2 ? strtoul(words[2], NULL, 10) | 1 : 88172645463325252;
	while (read < messages) {
		session(1 + chance(4000));
		read += read_messages;
	}
	printf("%lu messages\n", read);
	return 0;
}
