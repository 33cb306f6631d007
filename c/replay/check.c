/* What is found out from the whole recording before anything is sent. */
#define _GNU_SOURCE
#include "replay.h"

/* Ends the tool because of a request that is not played. */
static void fail_at(const struct script *script, const struct message *request, const char *why)
{
	if (request->number > 1)
		fail("%s: %s; --to %ju plays what comes before it", script->pieces->path, why, (uintmax_t)request->number - 1);
	fail("%s: %s", script->pieces->path, why);
}

/* Ends the tool if the first message that is not lawful is the client's. What comes before a bad event is played. */
static void stop_at_fault(struct script *script, const struct message *message)
{
	const char *line = "";
	size_t length = 0;
	bool is_broken = false;
	if (waywire_inspector_verdict(script->follower.inspector, &line, &length, &is_broken))
		fail("out of memory");
	int its = (int)(length ? length - 1 : 0);
	if (is_broken && message->from == COMPOSITOR) {
		notice("%s is played up to message %ju, an event: %.*s", script->pieces->path, (uintmax_t)message->number, its, line);
		return;
	}
	if (is_bind(message) && message->bound == WAYWIRE_ANY_INTERFACE) {
		struct text name = { NULL, 0, 0 };
		text_put_quoted(&name, message->args[1].value.bytes, message->args[1].value.length);
		notice("no table has %s: see --tables", name.bytes ? name.bytes : "it");
		text_free(&name);
	}
	notice("message %ju: %.*s", (uintmax_t)message->number, its, line);
	fail_at(script, message, "it breaks a rule, so no client sends it");
}

static void check_message(struct replay *replay, const struct script *script, const struct message *message,
	uint64_t counts[2])
{
	replay->last = message->number;
	counts[CLIENT] += message->from == CLIENT && is_name(message->name, "pong");
	counts[COMPOSITOR] += message->from == COMPOSITOR && is_name(message->name, "ping");
	if (message->from == COMPOSITOR || !has_no_stand_in(message))
		return;
	struct text line = { NULL, 0, 0 };
	put_recorded(&line, message);
	notice("message %ju: %s", (uintmax_t)message->number, line.bytes ? line.bytes : "");
	text_free(&line);
	fail_at(script, message, "no file stands for its descriptor, such as that of a dmabuf");
}

void check_recording(struct replay *replay)
{
	struct script script;
	const struct message *message;
	uint64_t counts[2] = { 0, 0 };
	script_begin(&script, &replay->pieces, replay->options, replay->known);
	while ((message = script_next(&script)) && (!replay->wishes.to || message->number <= replay->wishes.to)) {
		if (message->number > waywire_inspector_judged(script.follower.inspector)) {
			stop_at_fault(&script, message);
			break;
		}
		check_message(replay, &script, message, counts);
		replay->ends_in_error = is_error(message);
		if (replay->ends_in_error)
			break;
	}
	script_end(&script);
	replay->answers_pings = counts[CLIENT] || !counts[COMPOSITOR];
	if (!replay->last)
		fail("%s has no message", replay->options->read);
}
