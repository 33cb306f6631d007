/* Reads a recording message by message, with both sides. */
#define _GNU_SOURCE
#include "replay.h"

static void note_comment(void *to, const char *comment)
{
	static const char from[] = " from ";
	struct script *script = to;
	script->is_part |= !script->follower.piece_count && !strncmp(comment, from, sizeof from - 1);
}

/* Goes to the next piece; false if there is none. */
static bool next_piece(struct script *script)
{
	struct pieces *pieces = script->pieces;
	const waywire_piece *piece = &pieces->piece;
	waywire_status status = pieces_next(pieces, note_comment, script, NULL);
	if (status == WAYWIRE_NOT_FOUND)
		return false;
	if (status == WAYWIRE_BAD_LINE)
		fail("%s line %zu: bad line", pieces->path, piece->line);
	if (status)
		fail("%s", waywire_strerror(status));
	if (script->is_part)
		fail("%s begins in the middle of its session, and is not played", pieces->path);
	script->follower.piece_count++;
	waywire_inspector *inspector = script->follower.inspector;
	waywire_sender sender = (waywire_sender)piece->sender;
	if (waywire_inspector_pass(inspector, sender, pieces->bytes, piece->length, piece->token_count)
		|| waywire_inspector_follow(inspector, sender, pieces->bytes, piece->length))
		fail("out of memory");
	return true;
}

void script_begin(struct script *script, struct pieces *pieces, const struct options *options,
	const struct known *known)
{
	*script = (struct script){ .pieces = pieces, .follower = { .tables = known->tables, .limit = options->limit } };
	pieces_again(pieces);
	questions_begin(&script->questions);
	if (waywire_inspector_new(known->tables, options->limit, &script->follower.inspector))
		fail("out of memory");
}

const struct message *script_next(struct script *script)
{
	struct message *message = &script->message;
	if (script->has_front && !follow_message(&script->follower, message))
		fail("out of memory");
	script->has_front = false;
	while (!read_message(&script->follower, (int)script->pieces->piece.sender, message))
		if (!next_piece(script))
			return NULL;
	script->has_front = true;
	questions_note(&script->questions, script->follower.tables, message);
	name_arguments(message);
	return message;
}

void script_end(struct script *script)
{
	waywire_inspector_free(script->follower.inspector);
	questions_free(&script->questions);
}
