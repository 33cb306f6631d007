/* An inspector of what passes, and reading recordings, which can be passed to one. */
#include "calls.h"

uint32_t waywire_c_inspector_new(struct handle tables, uint32_t limit, void **made);
void waywire_c_inspector_free(struct handle);
uint32_t waywire_c_inspector_pass(struct handle *, uint32_t sender, const void *bytes, size_t length,
	size_t token_count);
void waywire_c_inspector_lines(const struct handle *, const void **lines, size_t *length);
uint32_t waywire_c_inspector_verdict(struct handle *, const void **line, size_t *length, bool *broken);

void waywire_c_inspector_verdict_parts(const struct handle *, waywire_judgement *);
uint64_t waywire_c_inspector_judged(const struct handle *);
uint64_t waywire_c_inspector_undeserved(const struct handle *, uint32_t *id);
uint32_t waywire_c_inspector_follow(struct handle *, uint32_t sender, const void *bytes, size_t length);
uint32_t waywire_c_inspector_ahead(const struct handle *, uint32_t sender, waywire_followed *);
uint32_t waywire_c_inspector_go_past(struct handle *, uint32_t sender);
void waywire_c_inspector_object(const struct handle *, uint32_t id, waywire_known *);
size_t waywire_c_inspector_id_count(const struct handle *, bool of_server);
uint32_t waywire_c_inspector_announced(const struct handle *, uint32_t name, uint16_t interface);

/* What an export reports about a piece, besides its bytes. */
struct reported_piece {
	uint32_t sender;
	uint32_t token_count;
	size_t length;
	size_t left; /* of the text, behind the piece's line */
	size_t line;
};

uint32_t waywire_c_recording_next(const void *text, size_t length, size_t line, void *bytes, size_t room,
	struct reported_piece *);

/* These have the layout that the exports give them. */
SAME(known, sizeof(waywire_known) == 16 && offsetof(waywire_known, interface) == 12
	&& offsetof(waywire_known, is_ending) == 15);
SAME(followed, sizeof(waywire_followed) == 96 && offsetof(waywire_followed, object) == 48
	&& offsetof(waywire_followed, target) == 64 && offsetof(waywire_followed, size) == 70
	&& offsetof(waywire_followed, made_interface) == 88 && offsetof(waywire_followed, is_read) == 90);
SAME(judgement, sizeof(waywire_judgement) == 72 && offsetof(waywire_judgement, fault) == 56
	&& offsetof(waywire_judgement, sender) == 64);
SAME(reported_piece, sizeof(struct reported_piece) == 32 && offsetof(struct reported_piece, left) == 16);

/* ---- an inspector */

/* An inspector and its tables. */
struct waywire_inspector {
	struct handle handle;
	waywire_tables *tables;
};

waywire_status waywire_inspector_new(const waywire_tables *tables, uint32_t limit,
	waywire_inspector **inspector)
{
	if (!tables || !inspector)
		return WAYWIRE_NULL;
	waywire_inspector *made = malloc(sizeof *made);
	if (!made)
		return WAYWIRE_NO_MEMORY;
	waywire_status status = waywire_c_inspector_new(tables->handle, limit, &made->handle.at);
	if (status) {
		free(made);
		return status;
	}
	made->tables = tables_ref(tables);
	*inspector = made;
	return WAYWIRE_OK;
}

void waywire_inspector_free(waywire_inspector *inspector)
{
	if (!inspector)
		return;
	waywire_c_inspector_free(inspector->handle);
	waywire_tables_free(inspector->tables);
	free(inspector);
}

waywire_status waywire_inspector_pass(waywire_inspector *inspector, waywire_sender sender,
	const void *bytes, size_t length, size_t token_count)
{
	if (!inspector)
		return WAYWIRE_NULL;
	waywire_status status = call_slice(&bytes, length, 1);
	if (status)
		return status;
	return waywire_c_inspector_pass(&inspector->handle, sender, bytes, length, token_count);
}

const char *waywire_inspector_lines(const waywire_inspector *inspector, size_t *length)
{
	const void *lines;
	if (!length)
		return NULL;
	*length = 0;
	if (!inspector)
		return NULL;
	waywire_c_inspector_lines(&inspector->handle, &lines, length);
	return lines ? lines : (const char *)call_nowhere;
}

waywire_status waywire_inspector_verdict(waywire_inspector *inspector, const char **line,
	size_t *length, bool *broken)
{
	const void *found;
	bool is_broken;
	if (!inspector || !line || !length)
		return WAYWIRE_NULL;
	waywire_status status = waywire_c_inspector_verdict(&inspector->handle, &found, length,
		&is_broken);
	if (status)
		return status;
	*line = found;
	if (broken)
		*broken = is_broken;
	return WAYWIRE_OK;
}

waywire_status waywire_inspector_judgement(const waywire_inspector *inspector,
	waywire_judgement *judgement)
{
	if (!inspector || !judgement)
		return WAYWIRE_NULL;
	waywire_c_inspector_verdict_parts(&inspector->handle, judgement);
	return WAYWIRE_OK;
}

uint64_t waywire_inspector_judged(const waywire_inspector *inspector)
{
	return inspector ? waywire_c_inspector_judged(&inspector->handle) : 0;
}

uint64_t waywire_inspector_undeserved(const waywire_inspector *inspector, uint32_t *id)
{
	uint32_t taken = 0;
	uint64_t number = inspector ? waywire_c_inspector_undeserved(&inspector->handle, &taken) : 0;
	if (id)
		*id = taken;
	return number;
}

/* ---- the messages that it follows */

waywire_status waywire_inspector_follow(waywire_inspector *inspector, waywire_sender sender,
	const void *bytes, size_t length)
{
	if (!inspector)
		return WAYWIRE_NULL;
	waywire_status status = call_slice(&bytes, length, 1);
	if (status)
		return status;
	return waywire_c_inspector_follow(&inspector->handle, sender, bytes, length);
}

waywire_status waywire_inspector_ahead(const waywire_inspector *inspector, waywire_sender sender,
	waywire_followed *message)
{
	if (!inspector || !message)
		return WAYWIRE_NULL;
	return waywire_c_inspector_ahead(&inspector->handle, sender, message);
}

waywire_status waywire_inspector_decode(const waywire_inspector *inspector, waywire_sender sender,
	const waywire_followed *message, waywire_decoded *decoded)
{
	if (!inspector || !message || !decoded)
		return WAYWIRE_NULL;
	return waywire_tables_decode(inspector->tables, message->object.interface, message->object.version,
		sender, message->bytes, message->length, decoded);
}

waywire_status waywire_inspector_go_past(waywire_inspector *inspector, waywire_sender sender)
{
	if (!inspector)
		return WAYWIRE_NULL;
	return waywire_c_inspector_go_past(&inspector->handle, sender);
}

waywire_status waywire_inspector_object(const waywire_inspector *inspector, uint32_t id,
	waywire_known *known)
{
	if (!inspector || !known)
		return WAYWIRE_NULL;
	waywire_c_inspector_object(&inspector->handle, id, known);
	return WAYWIRE_OK;
}

size_t waywire_inspector_id_count(const waywire_inspector *inspector, waywire_sender maker)
{
	if (!inspector)
		return 0;
	return waywire_c_inspector_id_count(&inspector->handle, maker == WAYWIRE_FROM_SERVER);
}

uint32_t waywire_inspector_announced(const waywire_inspector *inspector, uint32_t name,
	uint16_t interface)
{
	return inspector ? waywire_c_inspector_announced(&inspector->handle, name, interface) : 0;
}

/* ---- a recording */

/* Where the last line of a part of a text begins. */
static size_t last_line(const char *text, size_t from, size_t behind)
{
	size_t at = behind - 1;
	while (at > from && text[at - 1] != '\n')
		at--;
	return at;
}

waywire_status waywire_recording_next(const void *text, size_t length, size_t from, size_t line, void *bytes,
	size_t room, waywire_piece *piece)
{
	const void *to = bytes;
	struct reported_piece reported = { 0, 0, 0, 0, 0 };
	if (!piece)
		return WAYWIRE_NULL;
	waywire_status status = call_slice(&text, length, 1);
	if (!status)
		status = call_slice(&to, room, 1);
	if (status)
		return status;
	if (from > length || line > PTRDIFF_MAX)
		return WAYWIRE_BAD_VALUE;
	status = waywire_c_recording_next((const char *)text + from, length - from, line, (void *)to, room, &reported);
	if (status == WAYWIRE_BAD_LINE)
		piece->line = reported.line;
	if (status)
		return status;
	size_t behind = length - reported.left;
	piece->sender = reported.sender;
	piece->token_count = reported.token_count;
	piece->length = reported.length;
	piece->begin = last_line(text, from, behind);
	piece->behind = behind;
	piece->line = reported.line;
	return status;
}
