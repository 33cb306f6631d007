/* The calls of include/waywire.h, built on the proved exports of the crate waywire_c.
 *
 * An export relies on its types and tests nothing: a slice is a pointer that is not null and a length of at most
 * PTRDIFF_MAX, and an out-parameter is never null. So each call here tests what C may pass wrongly. An export
 * takes the address of a handle, with which ends begin here; the handle of tables, which any number of calls may
 * have at one time, is passed by value. */
#include "users.h"

uint32_t waywire_c_client_new(struct handle tables, const waywire_sizes *, void **made);
uint32_t waywire_c_server_new(struct handle tables, const waywire_sizes *, void **made);
void waywire_c_end_free(struct handle);
void waywire_c_end_display(const struct handle *, waywire_object *display);
uint32_t waywire_c_end_live(const struct handle *, waywire_object, uint16_t *interface,
	uint32_t *version);
uint32_t waywire_c_end_object_count(const struct handle *, bool by_server);
uint32_t waywire_c_end_ids_used(const struct handle *, bool by_server);
uint32_t waywire_c_end_look(const struct handle *, uint32_t id, uint64_t *birth);
bool waywire_c_end_has_failed(const struct handle *);
void waywire_c_end_in_room(const struct handle *, waywire_amounts *room);
void waywire_c_end_out_room(const struct handle *, waywire_amounts *room);
bool waywire_c_end_is_drained(const struct handle *);
bool waywire_c_end_feed(struct handle *, const void *bytes, size_t length,
	const uint32_t *tokens, size_t token_count, waywire_amounts *fed);
void waywire_c_end_goes(const struct handle *, size_t bytes, size_t tokens,
	waywire_amounts *amounts);
void waywire_c_end_take(struct handle *, void *bytes, size_t length, uint32_t *tokens,
	size_t token_count, waywire_amounts *taken);
void waywire_c_end_peek(const struct handle *, waywire_part *parts, size_t *tokens);
uint32_t waywire_c_end_token_to_go(const struct handle *, size_t index, uint32_t *token);
void waywire_c_end_sent(struct handle *, size_t bytes, waywire_amounts *taken);
void waywire_c_end_space(const struct handle *, waywire_part *parts);
bool waywire_c_end_received(struct handle *, size_t bytes, const uint32_t *tokens,
	size_t token_count, waywire_amounts *fed);
void waywire_c_end_take_waiting_tokens(struct handle *, uint32_t *tokens,
	size_t token_count, size_t *taken);
uint32_t waywire_c_end_send(struct handle *, waywire_object target, uint16_t opcode,
	const waywire_arg *args, size_t arg_count, waywire_object *made, size_t *index);
uint32_t waywire_c_end_send_words(struct handle *, waywire_object target, uint16_t opcode,
	const uint32_t *words, size_t word_count, size_t *index);
uint32_t waywire_c_end_next(struct handle *, waywire_report *, waywire_arg *args,
	size_t arg_count);

uint32_t waywire_c_client_made(const struct handle *, waywire_object *made);
uint32_t waywire_c_client_bind(struct handle *, waywire_object registry, uint32_t name,
	const void *interface, size_t length, uint32_t version, waywire_object *bound);
uint32_t waywire_c_client_bind_unannounced(struct handle *, waywire_object registry, uint32_t name,
	const void *interface, size_t length, uint32_t version, waywire_object *bound);
uint32_t waywire_c_server_drop_object(struct handle *, waywire_object);
uint32_t waywire_c_server_end_object(struct handle *, waywire_object);
uint32_t waywire_c_server_post_error(struct handle *, waywire_object, uint32_t code,
	const void *text, size_t length);
uint32_t waywire_c_server_add_global(struct handle *, uint16_t interface, uint32_t version,
	uint32_t *name);
uint32_t waywire_c_server_allow_globals(struct handle *, size_t number);
uint32_t waywire_c_server_withdraw(struct handle *, uint32_t name);
uint32_t waywire_c_server_announce(struct handle *, size_t *count, bool *all);
uint32_t waywire_c_server_next(struct handle *, waywire_report *, waywire_arg *args,
	size_t arg_count);
uint32_t waywire_c_server_next_unanswered(struct handle *, waywire_report *, waywire_arg *args,
	size_t arg_count);

/* ---- layouts, which the exports have too */

SAME(object, sizeof(waywire_object) == 16 && offsetof(waywire_object, id) == 8);
SAME(amounts, sizeof(waywire_amounts) == 16 && offsetof(waywire_amounts, tokens) == 8);
SAME(part, sizeof(waywire_part) == 16 && offsetof(waywire_part, length) == 8);
SAME(sizes, sizeof(waywire_sizes) == 40 && offsetof(waywire_sizes, out_tokens) == 8
	&& offsetof(waywire_sizes, in_bytes) == 16 && offsetof(waywire_sizes, in_tokens) == 24
	&& offsetof(waywire_sizes, limit) == 32);
SAME(arg, sizeof(waywire_arg) == 48 && offsetof(waywire_arg, i) == 4 && offsetof(waywire_arg, u) == 8);
SAME(arg_parts, offsetof(waywire_arg, object) == 16 && offsetof(waywire_arg, bytes) == 32
	&& offsetof(waywire_arg, length) == 40);
SAME(report, offsetof(waywire_report, opcode) == 4 && offsetof(waywire_report, target) == 8
	&& offsetof(waywire_report, arg_count) == 24 && offsetof(waywire_report, tokens) == 32
	&& offsetof(waywire_report, token_count) == 40 && offsetof(waywire_report, id) == 48
	&& offsetof(waywire_report, code) == 52 && offsetof(waywire_report, named) == 56
	&& offsetof(waywire_report, spelling) == 60);
SAME(report_parts, offsetof(waywire_report, text) == 64 && offsetof(waywire_report, text_length) == 72
	&& offsetof(waywire_report, place) == 80 && offsetof(waywire_report, offset) == 88
	&& offsetof(waywire_report, replaced) == 96 && offsetof(waywire_report, interface) == 112
	&& offsetof(waywire_report, forgotten) == 114 && offsetof(waywire_report, version) == 116);
/* An export writes the fields before `user`. */
SAME(report_end, offsetof(waywire_report, user) == 120 && offsetof(waywire_report, replaced_user) == 128
	&& offsetof(waywire_report, args) == 136 && sizeof(waywire_report) == 136 + 20 * 48);

/* ---- what C may pass wrongly */

/* One more than a message can have, so that the export refuses a call with too many. */
#define MAX_GIVEN (WAYWIRE_MAX_ARGS + 1)

uint32_t call_nowhere[1];

waywire_status call_slice(const void **bytes, size_t length, size_t size)
{
	if (length > (size_t)PTRDIFF_MAX / size)
		return WAYWIRE_TOO_LARGE;
	if (*bytes)
		return WAYWIRE_OK;
	*bytes = call_nowhere;
	return length ? WAYWIRE_NULL : WAYWIRE_OK;
}

static bool has_bytes(const waywire_arg *arg)
{
	return arg->kind == WAYWIRE_STRING || arg->kind == WAYWIRE_ARRAY;
}

/* Whether an export can take the slices of arguments, even if their kind has none; those that include/waywire.h
 * makes pass. */
static bool have_slices(const waywire_arg *args, size_t count)
{
	if (!args)
		return false;
	for (const waywire_arg *arg = args; arg < args + count; arg++)
		if (!arg->bytes || (arg->length && (!has_bytes(arg) || arg->length > PTRDIFF_MAX)))
			return false;
	return true;
}

/* Copies the arguments of a call, with an address for each slice. */
static waywire_status copy_args(const waywire_arg *args, size_t count, waywire_arg *copies)
{
	if (count && !args)
		return WAYWIRE_NULL;
	for (size_t i = 0; i < count; i++) {
		waywire_arg *copy = &copies[i];
		*copy = args[i];
		if (!has_bytes(copy)) {
			copy->bytes = call_nowhere;
			copy->length = 0;
			continue;
		}
		waywire_status status = call_slice(&copy->bytes, copy->length, 1);
		if (status)
			return status;
	}
	return WAYWIRE_OK;
}

#define BEFORE_SERVER_IDS (WAYWIRE_FIRST_SERVER_ID - 1)

/* The id after this one, given how many ids of each range were used; 0 after the last. */
static uint32_t id_after(uint32_t id, uint32_t of_client, uint32_t of_server)
{
	if (id < of_client)
		return id + 1;
	if (id < BEFORE_SERVER_IDS)
		id = BEFORE_SERVER_IDS;
	return id - BEFORE_SERVER_IDS < of_server ? id + 1 : 0;
}

/* ---- what both ends have */

/* The export that reads a message. */
typedef uint32_t reader(struct handle *, waywire_report *, waywire_arg *args, size_t arg_count);

/* An end, its tables, its objects' pointers, and the tokens of its last report. */
struct waywire_end {
	struct handle handle;
	reader *next; /* a server has an export of its own, which takes fewer steps */
	waywire_tables *tables;
	struct users users;
	uint64_t writes;   /* how many calls may have written or have changed the globals */
	bool (*make_room)(void *data); /* null if nothing does */
	void *room_data;
	size_t no_index;   /* where a refusal writes an index for which the caller did not ask */
	size_t unreported; /* the tokens that came and that no report had yet */
	uint32_t tokens[WAYWIRE_MAX_ARGS];
};

/* The export that makes an end. */
typedef uint32_t maker(struct handle tables, const waywire_sizes *, void **made);

static waywire_status new_end(maker *make, reader *next, const waywire_tables *tables,
	const waywire_sizes *sizes, waywire_end **made)
{
	if (!tables || !sizes)
		return WAYWIRE_NULL;
	waywire_end *end = malloc(sizeof *end);
	if (!end)
		return WAYWIRE_NO_MEMORY;
	waywire_status status = make(tables->handle, sizes, &end->handle.at);
	if (status) {
		free(end);
		return status;
	}
	end->next = next;
	end->tables = tables_ref(tables);
	memset(&end->users, 0, sizeof end->users);
	end->writes = 0;
	end->make_room = NULL;
	end->unreported = 0;
	*made = end;
	return WAYWIRE_OK;
}

void waywire_end_free(waywire_end *end)
{
	if (!end)
		return;
	waywire_c_end_free(end->handle);
	waywire_tables_free(end->tables);
	users_free(&end->users);
	free(end);
}

waywire_object waywire_end_display(const waywire_end *end)
{
	waywire_object display = { 0, 0 };
	if (end)
		waywire_c_end_display(&end->handle, &display);
	return display;
}

waywire_status waywire_end_live(const waywire_end *end, waywire_object object, uint16_t *interface,
	uint32_t *version)
{
	uint16_t no_interface;
	uint32_t no_version;
	if (!end)
		return WAYWIRE_NULL;
	return waywire_c_end_live(&end->handle, object, interface ? interface : &no_interface,
		version ? version : &no_version);
}

waywire_status waywire_end_set_user(waywire_end *end, waywire_object object, void *user)
{
	waywire_status status = waywire_end_live(end, object, NULL, NULL);
	if (status)
		return status == WAYWIRE_NOT_FOUND ? WAYWIRE_STALE : status;
	return users_set(&end->users, object, user);
}

void *waywire_end_user(const waywire_end *end, waywire_object object)
{
	return end ? users_get(&end->users, object) : NULL;
}

size_t waywire_end_object_count(const waywire_end *end)
{
	if (!end)
		return 0;
	return (size_t)waywire_c_end_object_count(&end->handle, false)
		+ waywire_c_end_object_count(&end->handle, true);
}

waywire_status waywire_end_object_after(const waywire_end *end, uint32_t id, waywire_object *object)
{
	uint64_t birth;
	if (!end || !object)
		return WAYWIRE_NULL;
	uint32_t of_client = waywire_c_end_ids_used(&end->handle, false);
	uint32_t of_server = waywire_c_end_ids_used(&end->handle, true);
	while ((id = id_after(id, of_client, of_server)) != 0) {
		if (waywire_c_end_look(&end->handle, id, &birth))
			continue;
		object->birth = birth;
		object->id = id;
		return WAYWIRE_OK;
	}
	return WAYWIRE_NOT_FOUND;
}

const waywire_tables *waywire_end_tables(const waywire_end *end)
{
	return end ? end->tables : NULL;
}

waywire_status waywire_end_more_tables(waywire_end *end, const void *text, size_t length, size_t *line,
	uint32_t *rule)
{
	waywire_tables *more;
	if (!end)
		return WAYWIRE_NULL;
	waywire_status status = tables_read_for_end(&end->handle, text, length, &more, line, rule);
	if (!status) {
		waywire_tables_free(end->tables);
		end->tables = more;
	}
	return status;
}

bool waywire_end_has_failed(const waywire_end *end)
{
	return !end || waywire_c_end_has_failed(&end->handle);
}

waywire_amounts waywire_end_in_room(const waywire_end *end)
{
	waywire_amounts room = { 0, 0 };
	if (end)
		waywire_c_end_in_room(&end->handle, &room);
	return room;
}

waywire_amounts waywire_end_out_room(const waywire_end *end)
{
	waywire_amounts room = { 0, 0 };
	if (end)
		waywire_c_end_out_room(&end->handle, &room);
	return room;
}

void waywire_end_on_full(waywire_end *end, bool (*make_room)(void *data), void *data)
{
	if (!end)
		return;
	end->make_room = make_room;
	end->room_data = data;
}

/* Whether a call is to be tried again, because there was no room and now there is more. */
static bool has_more_room(waywire_end *end, waywire_status status)
{
	return status == WAYWIRE_FULL && end->make_room && end->make_room(end->room_data);
}

uint64_t waywire_end_writes(const waywire_end *end)
{
	return end ? end->writes : 0;
}

bool waywire_end_is_drained(const waywire_end *end)
{
	return !end || waywire_c_end_is_drained(&end->handle);
}

/* Counts the tokens that an end has taken in. A failed end takes nothing in. */
static waywire_status after_feed(waywire_end *end, bool has_failed, const waywire_amounts *fed)
{
	end->unreported += fed->tokens;
	return has_failed ? WAYWIRE_FAILED : WAYWIRE_OK;
}

waywire_status waywire_end_feed(waywire_end *end, const void *bytes, size_t length,
	const uint32_t *tokens, size_t token_count, waywire_amounts *fed)
{
	const void *from = tokens;
	if (!end || !fed)
		return WAYWIRE_NULL;
	waywire_status status = call_slice(&bytes, length, 1);
	if (!status)
		status = call_slice(&from, token_count, sizeof *tokens);
	if (status)
		return status;
	bool has_failed = waywire_c_end_feed(&end->handle, bytes, length, from, token_count, fed);
	return after_feed(end, has_failed, fed);
}

waywire_amounts waywire_end_goes(const waywire_end *end, size_t bytes, size_t tokens)
{
	waywire_amounts amounts = { 0, 0 };
	if (end)
		waywire_c_end_goes(&end->handle, bytes, tokens, &amounts);
	return amounts;
}

waywire_status waywire_end_take(waywire_end *end, void *bytes, size_t length, uint32_t *tokens,
	size_t token_count, waywire_amounts *taken)
{
	const void *to = bytes, *tokens_to = tokens;
	if (!end || !taken)
		return WAYWIRE_NULL;
	waywire_status status = call_slice(&to, length, 1);
	if (!status)
		status = call_slice(&tokens_to, token_count, sizeof *tokens);
	if (!status)
		waywire_c_end_take(&end->handle, (void *)to, length, (uint32_t *)tokens_to,
			token_count, taken);
	return status;
}

waywire_status waywire_end_peek(const waywire_end *end, waywire_part parts[2], uint32_t *tokens,
	size_t room, size_t *token_count)
{
	const void *to = tokens;
	if (!end || !parts || !token_count)
		return WAYWIRE_NULL;
	waywire_status status = call_slice(&to, room, sizeof *tokens);
	if (status)
		return status;
	waywire_c_end_peek(&end->handle, parts, token_count);
	for (size_t i = 0; i < *token_count && i < room; i++)
		waywire_c_end_token_to_go(&end->handle, i, &tokens[i]);
	return WAYWIRE_OK;
}

waywire_amounts waywire_end_sent(waywire_end *end, size_t bytes)
{
	waywire_amounts taken = { 0, 0 };
	if (end)
		waywire_c_end_sent(&end->handle, bytes, &taken);
	return taken;
}

void waywire_end_space(waywire_end *end, waywire_part parts[2])
{
	if (!parts)
		return;
	if (end)
		waywire_c_end_space(&end->handle, parts);
	else
		memset(parts, 0, 2 * sizeof *parts);
}

waywire_status waywire_end_received(waywire_end *end, size_t bytes, const uint32_t *tokens,
	size_t token_count, waywire_amounts *fed)
{
	const void *from = tokens;
	if (!end || !fed)
		return WAYWIRE_NULL;
	waywire_status status = call_slice(&from, token_count, sizeof *tokens);
	if (status)
		return status;
	bool has_failed = waywire_c_end_received(&end->handle, bytes, from, token_count, fed);
	return after_feed(end, has_failed, fed);
}

waywire_status waywire_end_take_waiting_tokens(waywire_end *end, uint32_t *tokens,
	size_t token_count, size_t *taken)
{
	const void *to = tokens;
	if (!end || !taken)
		return WAYWIRE_NULL;
	waywire_status status = call_slice(&to, token_count, sizeof *tokens);
	if (!status)
		waywire_c_end_take_waiting_tokens(&end->handle, (uint32_t *)to, token_count, taken);
	return status;
}

/* Writes a message once. An index is written only if an argument is refused. */
static inline waywire_status send_once(waywire_end *end, waywire_object target, uint16_t opcode,
	const waywire_arg *args, size_t arg_count, waywire_object *made, size_t *index)
{
	waywire_object object;
	waywire_status status = waywire_c_end_send(&end->handle, target, opcode, args, arg_count, &object,
		index ? index : &end->no_index);
	if (!status && made)
		*made = object;
	return status;
}

/* As send_once, if there is a call that can make room. It is kept apart, because it has to keep its arguments over
 * a call. */
static APART waywire_status send_in_room(waywire_end *end, waywire_object target, uint16_t opcode,
	const waywire_arg *args, size_t arg_count, waywire_object *made, size_t *index)
{
	waywire_status status;
	do
		status = send_once(end, target, opcode, args, arg_count, made, index);
	while (has_more_room(end, status));
	return status;
}

/* As waywire_end_send, for arguments whose slices no export can take. It is kept apart for the room that the copies
 * need. */
static APART waywire_status send_copies(waywire_end *end, waywire_object target, uint16_t opcode,
	const waywire_arg *args, size_t arg_count, waywire_object *made, size_t *index)
{
	waywire_arg copies[MAX_GIVEN];
	waywire_status status = copy_args(args, arg_count, copies);
	if (status)
		return status;
	return waywire_end_send(end, target, opcode, copies, arg_count, made, index);
}

waywire_status waywire_end_send(waywire_end *end, waywire_object target, uint16_t opcode,
	const waywire_arg *args, size_t arg_count, waywire_object *made, size_t *index)
{
	if (!end)
		return WAYWIRE_NULL;
	if (arg_count > MAX_GIVEN)
		arg_count = MAX_GIVEN;
	if (!have_slices(args, arg_count))
		return send_copies(end, target, opcode, args, arg_count, made, index);
	end->writes++;
	if (end->make_room)
		return send_in_room(end, target, opcode, args, arg_count, made, index);
	return send_once(end, target, opcode, args, arg_count, made, index);
}

/* As waywire_end_send_words, also with too many words, and if there is a call that can make room. It is kept apart,
 * because it has to keep its arguments over a call. */
static APART waywire_status send_words_in_room(waywire_end *end, waywire_object target, uint16_t opcode,
	const uint32_t *words, size_t word_count, size_t *index)
{
	if (word_count > MAX_GIVEN)
		word_count = MAX_GIVEN;
	waywire_status status;
	do
		status = waywire_c_end_send_words(&end->handle, target, opcode, words, word_count, index);
	while (has_more_room(end, status));
	return status;
}

waywire_status waywire_end_send_words(waywire_end *end, waywire_object target, uint16_t opcode,
	const uint32_t *words, size_t word_count, size_t *index)
{
	if (!end)
		return WAYWIRE_NULL;
	if (!words) {
		if (word_count)
			return WAYWIRE_NULL;
		words = call_nowhere;
	}
	if (!index)
		index = &end->no_index;
	end->writes++;
	if (word_count > MAX_GIVEN || end->make_room)
		return send_words_in_room(end, target, opcode, words, word_count, index);
	return waywire_c_end_send_words(&end->handle, target, opcode, words, word_count, index);
}

/* Lists the tokens of a report's arguments. It is kept apart from most reports, which have none. */
static APART void list_tokens(waywire_end *end, waywire_report *report)
{
	for (const waywire_arg *arg = report->args; arg < report->args + report->arg_count; arg++)
		if (arg->kind == WAYWIRE_FD) {
			end->tokens[report->token_count++] = arg->u;
			report->tokens = end->tokens;
		}
	end->unreported -= report->token_count;
}

/* Adds the objects' pointers and the list of tokens to a report. */
static inline waywire_status next_by(reader *read, waywire_end *end, waywire_report *report)
{
	waywire_status status = read(&end->handle, report, report->args, WAYWIRE_MAX_ARGS);
	if (end->unreported)
		list_tokens(end, report);
	report->user = users_get(&end->users, report->target);
	report->replaced_user = NULL;
	if (report->replaced.id)
		report->replaced_user = users_get(&end->users, report->replaced);
	return status;
}

waywire_status waywire_end_next(waywire_end *end, waywire_report *report)
{
	return end && report ? next_by(end->next, end, report) : WAYWIRE_NULL;
}

/* ---- what a client has alone */

waywire_status waywire_client_new(const waywire_tables *tables, const waywire_sizes *sizes,
	waywire_client *client)
{
	return client ? new_end(waywire_c_client_new, waywire_c_end_next, tables, sizes, &client->end)
		: WAYWIRE_NULL;
}

waywire_status waywire_client_bind(waywire_client client, waywire_object registry, uint32_t name,
	const char *interface, uint32_t version, waywire_object *bound)
{
	waywire_object no_object;
	if (!client.end || !interface)
		return WAYWIRE_NULL;
	client.end->writes++;
	waywire_status status;
	do
		status = waywire_c_client_bind(&client.end->handle, registry, name, interface,
			strlen(interface), version, bound ? bound : &no_object);
	while (has_more_room(client.end, status));
	return status;
}

waywire_status waywire_client_bind_unannounced(waywire_client client, waywire_object registry, uint32_t name,
	const char *interface, uint32_t version, waywire_object *bound)
{
	waywire_object no_object;
	if (!client.end || !interface)
		return WAYWIRE_NULL;
	client.end->writes++;
	waywire_status status;
	do
		status = waywire_c_client_bind_unannounced(&client.end->handle, registry, name, interface,
			strlen(interface), version, bound ? bound : &no_object);
	while (has_more_room(client.end, status));
	return status;
}

waywire_status waywire_client_more_tables(waywire_client client, const void *text, size_t length,
	size_t *line, uint32_t *rule)
{
	waywire_object made;
	waywire_status status = waywire_client_made(client, &made); /* refuses a server */
	return status ? status : waywire_end_more_tables(client.end, text, length, line, rule);
}

waywire_status waywire_client_made(waywire_client client, waywire_object *made)
{
	if (!client.end || !made)
		return WAYWIRE_NULL;
	return waywire_c_client_made(&client.end->handle, made);
}

/* ---- what a server has alone */

waywire_status waywire_server_new(const waywire_tables *tables, const waywire_sizes *sizes,
	waywire_server *server)
{
	return server ? new_end(waywire_c_server_new, waywire_c_server_next, tables, sizes, &server->end)
		: WAYWIRE_NULL;
}

waywire_status waywire_server_drop_object(waywire_server server, waywire_object object)
{
	if (!server.end)
		return WAYWIRE_NULL;
	server.end->writes++;
	waywire_status status;
	do
		status = waywire_c_server_drop_object(&server.end->handle, object);
	while (has_more_room(server.end, status));
	return status;
}

waywire_status waywire_server_end_object(waywire_server server, waywire_object object)
{
	if (!server.end)
		return WAYWIRE_NULL;
	server.end->writes++;
	waywire_status status;
	do
		status = waywire_c_server_end_object(&server.end->handle, object);
	while (has_more_room(server.end, status));
	return status;
}

/* How many bytes of a text fit in an error, without cutting a UTF-8 character. */
static size_t error_length(const char *text)
{
	size_t length = strlen(text);
	if (length <= WAYWIRE_MAX_ERROR_TEXT)
		return length;
	for (length = WAYWIRE_MAX_ERROR_TEXT; length > WAYWIRE_MAX_ERROR_TEXT - 4; length--)
		if (((unsigned char)text[length] & 0xc0) != 0x80)
			return length;
	return WAYWIRE_MAX_ERROR_TEXT; /* it is no UTF-8 */
}

waywire_status waywire_server_post_error(waywire_server server, waywire_object object,
	uint32_t code, const char *text)
{
	if (!server.end || !text)
		return WAYWIRE_NULL;
	server.end->writes++;
	return waywire_c_server_post_error(&server.end->handle, object, code, text,
		error_length(text));
}

waywire_status waywire_server_add_global(waywire_server server, uint16_t interface,
	uint32_t version, uint32_t *name)
{
	uint32_t no_name;
	if (!server.end)
		return WAYWIRE_NULL;
	server.end->writes++;
	return waywire_c_server_add_global(&server.end->handle, interface, version,
		name ? name : &no_name);
}

waywire_status waywire_server_allow_globals(waywire_server server, size_t number)
{
	if (!server.end)
		return WAYWIRE_NULL;
	server.end->writes++;
	return waywire_c_server_allow_globals(&server.end->handle, number);
}

waywire_status waywire_server_withdraw(waywire_server server, uint32_t name)
{
	if (!server.end)
		return WAYWIRE_NULL;
	server.end->writes++;
	return waywire_c_server_withdraw(&server.end->handle, name);
}

waywire_status waywire_server_announce(waywire_server server, size_t *count, bool *all)
{
	size_t no_count;
	bool no_all;
	if (!server.end)
		return WAYWIRE_NULL;
	server.end->writes++;
	return waywire_c_server_announce(&server.end->handle, count ? count : &no_count,
		all ? all : &no_all);
}

waywire_status waywire_server_next_unanswered(waywire_server server, waywire_report *report)
{
	waywire_end *end = server.end;
	return end && report ? next_by(waywire_c_server_next_unanswered, end, report) : WAYWIRE_NULL;
}

/* ---- texts */

const char *waywire_strerror(waywire_status status)
{
	switch (status) {
	case WAYWIRE_OK: return "no error";
	case WAYWIRE_FAILED: return "this end has failed";
	case WAYWIRE_STALE: return "target is not live";
	case WAYWIRE_NO_SUCH_MESSAGE: return "no such message";
	case WAYWIRE_TOO_OLD: return "message is newer than its target";
	case WAYWIRE_WRONG_ARGS: return "argument does not fit the signature";
	case WAYWIRE_BAD_OBJECT: return "argument is no live object of its interface";
	case WAYWIRE_BAD_BIND: return "no such global at this version";
	case WAYWIRE_TOO_LONG: return "message is too long";
	case WAYWIRE_FULL: return "outbox is full";
	case WAYWIRE_NO_IDS: return "no more objects can be opened";
	case WAYWIRE_NO_MEMORY: return "out of memory";
	case WAYWIRE_NOT_DROPPABLE: return "object does not end by an event";
	case WAYWIRE_BAD_GLOBAL: return "no such interface to advertise at this version";
	case WAYWIRE_TOO_MANY_GLOBALS: return "too many globals";
	case WAYWIRE_NO_SUCH_GLOBAL: return "no such global";
	case WAYWIRE_FAULT_BAD_SIZE: return "bad message size";
	case WAYWIRE_FAULT_UNKNOWN_OBJECT: return "unknown object";
	case WAYWIRE_FAULT_UNKNOWN_MESSAGE: return "unknown message";
	case WAYWIRE_FAULT_BAD_ARGUMENT: return "malformed argument";
	case WAYWIRE_FAULT_BAD_OBJECT: return "bad object";
	case WAYWIRE_FAULT_BAD_NEW_ID: return "bad new id";
	case WAYWIRE_FAULT_TRAILING_BYTES: return "trailing bytes";
	case WAYWIRE_FAULT_MISSING_DESCRIPTOR: return "missing descriptor";
	case WAYWIRE_FAULT_BAD_BIND: return "bad bind";
	case WAYWIRE_FAULT_TOO_MANY_OBJECTS: return "too many objects";
	case WAYWIRE_OUT_FULL: return "outbox has no room for delete_id";
	case WAYWIRE_NULL: return "null where a pointer is needed";
	case WAYWIRE_BAD_VALUE: return "argument of a kind that no call takes";
	case WAYWIRE_BAD_SIZES: return "sizes that no end has";
	case WAYWIRE_NOT_FOUND: return "not found";
	case WAYWIRE_TOO_LARGE: return "length is too large";
	case WAYWIRE_OTHER_END: return "call of the other end";
	case WAYWIRE_BAD_LINE: return "bad line";
	case WAYWIRE_BAD_TABLE: return "line breaks a rule of tables";
	case WAYWIRE_FIRST_SERVER_OBJECT: return "first event by which the server makes an object";
	}
	return "unknown status";
}

const char *waywire_strspelling(uint32_t spelling)
{
	static const char *const texts[] = {
		"no misspelling",
		"the message ends before the argument does",
		"null is not allowed here",
		"the string has no ending NUL",
		"the string has a NUL inside",
	};
	return spelling < sizeof texts / sizeof *texts ? texts[spelling] : "unknown misspelling";
}
