/* Plays a recording: sends its requests, each once what the recorded client had waited for has come. */
#define _GNU_SOURCE
#include "replay.h"

#include <fcntl.h>
#include <unistd.h>

/* ---- events of the recording */

static struct carried recorded_values(const struct places *places, const struct message *event)
{
	struct carried carried = { .made = NULL };
	if (places->serial >= 0) {
		carried.serial = event->args[places->serial].value.u;
		carried.has_serial = true;
	}
	if (places->handle >= 0 && event->args[places->handle].value.kind == WAYWIRE_STRING) {
		const waywire_arg *handle = &event->args[places->handle].value;
		carried.handle = strndup(handle->bytes, handle->length);
	}
	return carried;
}

/* Waits for the error that ended the recorded session. */
static void await_error(struct replay *replay, const struct message *event)
{
	const struct object *about = &event->args[0].object;
	const struct twin *twin = about->id && about->state != UNKNOWN ? twins_find(&replay->twins, about) : NULL;
	const struct await never = { .twin = &(struct twin){ .is_here = false } };
	live_wait(replay, is_here, &never);
	const struct live *live = &replay->live;
	if (!live->is_over)
		part(replay, event, "this error did not come within %g s", replay->wishes.wait);
	else if (!live->has_error || live->code != event->args[1].value.u || live->about != twin)
		part(replay, event, "the session has ended in another way");
	else
		replay->has_same_error = true;
}

/* Waits for the answer that the recorded client has got. When a buffer is released depends on the compositor: that is
 * waited for when the buffer is shown again. */
static void await_answer(struct replay *replay, const struct twin *target, const struct message *event,
	const struct places *places)
{
	const struct await await = { .twin = target, .opcode = event->opcode,
		.count = twin_count(target, RECORDED, event->opcode) };
	if (is_name(target->recorded.name, "wl_buffer"))
		return;
	if (!live_wait(replay, places->ends ? is_ended : has_come_so_often, &await))
		part(replay, event, "this answer did not come within %g s: event %ju of its kind at that object, and %ju came",
			replay->wishes.wait, (uintmax_t)await.count, (uintmax_t)twin_count(target, HERE, event->opcode));
}

static void play_event(struct replay *replay, const struct message *event)
{
	struct twin *target = twins_find(&replay->twins, &event->target);
	if (is_error(event))
		await_error(replay, event);
	if (!target || is_name(event->target.name, "wl_display"))
		return;
	struct noted noted = { .session = RECORDED, .opcode = event->opcode, .made = event->made };
	noted.places = places_of(replay->known->tables, event->target.interface, event->opcode);
	noted.carried = recorded_values(&noted.places, event);
	replay->recorded_events++;
	if (is_message(event, "wl_registry", COMPOSITOR, 0)) {
		const waywire_arg args[] = { event->args[0].value, event->args[1].value, event->args[2].value };
		globals_note(&replay->globals, RECORDED, args);
	}
	struct twin *made = twins_note(&replay->twins, target, &noted);
	if (made)
		made->is_left_out |= target->is_left_out;
	if ((event->answers || noted.places.ends) && !target->is_left_out)
		await_answer(replay, target, event, &noted.places);
}

/* ---- requests */

static struct twin *new_twin(struct replay *replay, const struct message *request)
{
	if (!request->made.id)
		return NULL;
	struct twin *made = twins_add(&replay->twins, request->made.interface);
	twins_name(&replay->twins, made, &request->made);
	return made;
}

/* Whether a request needs an object that will not be made. */
static bool needs_what_is_left_out(const struct replay *replay, const struct message *request)
{
	const struct twin *twin = twins_find(&replay->twins, &request->target);
	bool is_needed = twin && twin->is_left_out;
	for (size_t i = 0; i < request->arg_count; i++) {
		twin = request->args[i].value.kind == WAYWIRE_OBJECT ? twins_find(&replay->twins, &request->args[i].object) : NULL;
		is_needed |= twin && twin->is_left_out;
	}
	return is_needed;
}

/* Binds this session's global in place of the recorded one; with --go-on at its own version if that is older. False if
 * it is not bound. */
static bool play_bind(struct replay *replay, const struct twin *registry, const struct message *request,
	struct twin *made, waywire_status *status)
{
	const struct argument *bound = &request->args[1];
	const struct await await = { .replay = replay, .name = request->args[0].value.u };
	const char *interface = bound->value.bytes;
	uint32_t version = bound->value.u;
	if (!live_wait(replay, is_announced, &await)) {
		part(replay, request, "no %.*s in its place was announced within %g s", (int)bound->value.length, interface,
			replay->wishes.wait);
		return false;
	}
	const struct global *global = global_here(&replay->globals, await.name);
	if (global->version < version) {
		part(replay, request, "%.*s is offered up to version %u", (int)bound->value.length, interface, global->version);
		version = global->version;
	}
	if (replay->partings && !replay->wishes.go_on)
		return false;
	*status = live_bind(replay, registry, global, version, made);
	return true;
}

/* Closes the file of a pool that a request destroys: it is not resized any more. */
static void drop_pool(struct replay *replay, const struct message *request)
{
	struct twin *twin = request->destroyed.id ? twins_find(&replay->twins, &request->destroyed) : NULL;
	if (!twin || twin->file < 0)
		return;
	close(twin->file);
	twin->file = -1;
}

/* Keeps the file of a pool that a request makes, for as long as the pool can be resized. */
static void keep_pool(struct twin *made, const struct message *request, const waywire_arg *args)
{
	if (!made || !is_name(request->target.name, "wl_shm") || !is_name(request->name, "create_pool"))
		return;
	for (size_t i = 0; i < request->arg_count; i++)
		if (args[i].kind == WAYWIRE_FD)
			made->file = fcntl((int)args[i].u, F_DUPFD_CLOEXEC, 0);
}

/* Sends a request that is no bind. False if the sessions part there. */
static bool play_call(struct replay *replay, const struct twin *target, const struct message *request,
	struct twin *made, waywire_status *status)
{
	waywire_arg args[WAYWIRE_MAX_ARGS];
	if (!make_arguments(replay, target, request, args))
		return false;
	keep_pool(made, request, args);
	resize_pool(target, request);
	*status = live_send(replay, target, request->opcode, args, request->arg_count, made);
	if (*status)
		drop_arguments(args, request->arg_count);
	drop_pool(replay, request);
	return true;
}

/* Sends a request once its target is there. False if it was not sent. */
static bool send_request(struct replay *replay, const struct message *request, struct twin *made)
{
	struct twin *target = twins_find(&replay->twins, &request->target);
	waywire_status status = WAYWIRE_OK;
	if (!target || !live_wait(replay, is_here, &(struct await){ .twin = target })) {
		part(replay, request, "its target was not made within %g s", replay->wishes.wait);
		if (target)
			target->is_left_out = true;
		return false;
	}
	bool is_sent = is_bind(request) ? play_bind(replay, target, request, made, &status)
		: play_call(replay, target, request, made, &status);
	if (status)
		part(replay, request, "the client does not send it: %s", waywire_strerror(status));
	return is_sent && !status;
}

static void play_request(struct replay *replay, const struct message *request)
{
	struct twin *made = new_twin(replay, request);
	replay->recorded_requests++;
	if (replay->answers_pings && is_name(request->name, "pong")) {
		replay->pongs++;
		return;
	}
	bool is_left_out = needs_what_is_left_out(replay, request);
	replay->left_out += is_left_out;
	if (is_left_out || !send_request(replay, request, made)) {
		if (made)
			made->is_left_out = true;
	} else if (!replay->wishes.step)
		live_step(replay, 0);
	else if (!live_roundtrip(replay))
		part(replay, request, "the compositor has not read it within %g s", replay->wishes.wait);
}

/* ---- the whole */

/* Plays a message. Once an error has ended this session, and one ends the recording too, only that one is left to be
 * compared: the recorded client had sent more before it read the error. */
static void play_message(struct replay *replay, const struct message *message)
{
	bool is_at_error = replay->ends_in_error && replay->live.has_error;
	if (message->from == COMPOSITOR && (!is_at_error || is_error(message)))
		play_event(replay, message);
	if (message->from == CLIENT && !is_at_error)
		play_request(replay, message);
	if (replay->live.is_over && !is_error(message))
		part(replay, message, "the session is over");
	struct twin *gone = message->freed.id ? twins_find(&replay->twins, &message->freed) : NULL;
	if (gone)
		twins_gone(&replay->twins, gone, RECORDED);
}

/* At the end the compositor reads all that was sent, so an error that it sends is seen. */
static void finish(struct replay *replay, const struct message *last)
{
	if (is_error(last) || live_roundtrip(replay))
		return;
	part(replay, last, "after it, the compositor does not answer within %g s", replay->wishes.wait);
}

static bool goes_on(const struct replay *replay)
{
	bool is_at_error = replay->ends_in_error && replay->live.has_error;
	return !replay->partings || (replay->wishes.go_on && (is_at_error || !replay->live.is_over));
}

int play(struct replay *replay)
{
	const struct message *message = NULL;
	live_begin(replay);
	script_begin(&replay->script, &replay->pieces, replay->options, replay->known);
	while (goes_on(replay) && (message = script_next(&replay->script))) {
		play_message(replay, message);
		if (message->number == replay->last)
			break;
	}
	if (goes_on(replay) && message)
		finish(replay, message);
	int status = print_outcome(replay);
	live_end(replay);
	script_end(&replay->script);
	twins_free(&replay->twins);
	globals_free(&replay->globals);
	text_free(&replay->outcome);
	return status;
}
