/* Keeps the questions without an answer: by what answers them, by the object that they are about, and for each kind in
 * the order in which they began to wait. */
#define _GNU_SOURCE
#include "asking.h"

#include <string.h>

/* The questions about an object, in the order in which they were asked. */
struct subject {
	struct question *first, *last;
};

void questions_begin(struct questions *questions)
{
	*questions = (struct questions){ .seconds = -1, .look = -1, .look_at_pipes = -1 };
}

/* ---- kinds */

static uint64_t kind_key(uint16_t interface, int from, uint16_t opcode)
{
	return (uint64_t)interface << 32 | (uint64_t)from << 16 | opcode;
}

struct question_kind *kind_of(struct questions *questions, const struct message *message, const char *awaited)
{
	uint64_t key = kind_key(message->target.interface, message->from, message->opcode);
	struct question_kind *kind = keyed_find(&questions->kinds, key);
	if (kind)
		return kind;
	kind = malloc(sizeof *kind);
	if (!kind)
		return NULL;
	*kind = (struct question_kind){ .interface = message->target.name, .message = message->name, .awaited = awaited,
		.from = message->from, .first = message->seconds, .last_said = -1 };
	if (keyed_put(&questions->kinds, key, kind))
		return kind;
	free(kind);
	return NULL;
}

/* The question is the newest of its kind that needs an answer. */
static void enter_kind(struct question *question)
{
	struct question_kind *kind = question->kind;
	question->is_due = true;
	question->older = kind->newest;
	question->newer = NULL;
	*(kind->newest ? &kind->newest->newer : &kind->oldest) = question;
	kind->newest = question;
	kind->open++;
}

static void leave_kind(struct question *question)
{
	struct question_kind *kind = question->kind;
	if (!question->is_due)
		return;
	question->is_due = false;
	*(question->older ? &question->older->newer : &kind->oldest) = question->newer;
	*(question->newer ? &question->newer->older : &kind->newest) = question->older;
	kind->open--;
}

/* ---- what they are about */

/* False if memory runs out. */
static bool enter_subject(struct questions *questions, struct question *question)
{
	struct subject *subject = keyed_find(&questions->about, question->about);
	if (!question->about)
		return true;
	if (!subject) {
		subject = calloc(1, sizeof *subject);
		if (!subject || !keyed_put(&questions->about, question->about, subject)) {
			free(subject);
			return false;
		}
	}
	question->before = subject->last;
	*(subject->last ? &subject->last->next : &subject->first) = question;
	subject->last = question;
	return true;
}

static void leave_subject(struct questions *questions, struct question *question)
{
	struct subject *subject = question->about ? keyed_find(&questions->about, question->about) : NULL;
	if (!subject)
		return;
	*(question->before ? &question->before->next : &subject->first) = question->next;
	*(question->next ? &question->next->before : &subject->last) = question->before;
	if (!subject->first) {
		keyed_drop(&questions->about, question->about);
		free(subject);
	}
	question->before = question->next = NULL;
	question->about = 0;
}

struct question *newest_about(const struct questions *questions, uint32_t id)
{
	const struct subject *subject = keyed_find(&questions->about, id);
	return subject ? subject->last : NULL;
}

/* ---- what answers them */

/* The newest question with a key comes first. False if memory runs out. */
static bool enter_key(struct keyed *keyed, struct question *question)
{
	question->again = keyed_find(keyed, question->key);
	return keyed_put(keyed, question->key, question);
}

static void leave_key(struct keyed *keyed, struct question *question)
{
	struct question *at = keyed_find(keyed, question->key);
	if (at == question && question->again)
		keyed_put(keyed, question->key, question->again); /* it has room */
	else if (at == question)
		keyed_drop(keyed, question->key);
	while (at && at->again != question)
		at = at->again;
	if (at)
		at->again = question->again;
}

static struct keyed *keyed_of(struct questions *questions, const struct question *question)
{
	return question->is_pipe ? &questions->pipes : &questions->open;
}

/* ---- a question */

/* Nothing that begins to wait now is late before this time. */
static void look_again(struct questions *questions, double seconds)
{
	if (seconds >= 0 && (questions->look < 0 || seconds < questions->look))
		questions->look = seconds;
}

struct question *ask(struct questions *questions, const struct message *message, const struct asking *asking)
{
	struct question *question = asking->kind ? malloc(sizeof *question) : NULL;
	if (!question)
		return NULL;
	*question = (struct question){ .kind = asking->kind, .pair = asking->pair, .key = asking->key,
		.number = asking->number, .since = message->number, .seconds = message->seconds,
		.id = asking->target.id, .birth = asking->target.birth, .about = asking->about, .stage = asking->stage,
		.is_pipe = asking->is_pipe };
	if (!enter_key(keyed_of(questions, question), question)) {
		free(question);
		return NULL;
	}
	if (!enter_subject(questions, question)) {
		leave_key(keyed_of(questions, question), question);
		free(question);
		return NULL;
	}
	if (asking->is_due)
		enter_kind(question);
	look_again(questions, message->seconds);
	return question;
}

/* What is said of a question that ends, or waits anew. */
static struct closed closed_at(const struct question *question, double seconds)
{
	return (struct closed){ .kind = question->kind, .number = question->number, .since = question->since,
		.replaced = question->replaced, .id = question->id,
		.waited = question->seconds < 0 || seconds < 0 ? 0 : seconds - question->seconds };
}

/* Notes the question that has waited longest for an answer that it needed. */
static void note_longest(struct questions *questions, const struct question *question, double seconds)
{
	struct closed closed = closed_at(question, seconds);
	if (question->is_due && closed.waited > questions->longest.waited)
		questions->longest = closed;
}

/* Notes that a question has ended, or needs no answer any more. */
static void note_closed(struct questions *questions, const struct question *question, double seconds,
	const struct closed *how)
{
	note_longest(questions, question, seconds);
	if (questions->closed_count == questions->closed_room) {
		size_t room = questions->closed_room ? 2 * questions->closed_room : 16;
		struct closed *more = realloc(questions->closed, room * sizeof *more);
		if (!more)
			return;
		questions->closed = more;
		questions->closed_room = room;
	}
	struct closed *closed = &questions->closed[questions->closed_count++];
	*closed = closed_at(question, seconds);
	closed->is_answered = how->is_answered;
	closed->is_open = how->is_open;
	closed->was_said = question->kind->said == question;
	if (!closed->was_said)
		return;
	question->kind->said = NULL;
	question->kind->last_said = seconds;
	look_again(questions, seconds);
}

void close_question(struct questions *questions, struct question *question, double seconds, bool is_answered)
{
	struct question_kind *kind = question->kind;
	double waited = closed_at(question, seconds).waited;
	if (is_answered) {
		kind->answered++;
		kind->all_waits += waited;
		kind->longest = waited > kind->longest ? waited : kind->longest;
	}
	note_closed(questions, question, seconds, &(struct closed){ .is_answered = is_answered });
	surfaces_released(questions, question);
	leave_kind(question);
	leave_subject(questions, question);
	leave_key(keyed_of(questions, question), question);
	free(question);
}

void question_waits(struct questions *questions, struct question *question, const struct message *message)
{
	note_longest(questions, question, message->seconds);
	leave_kind(question);
	question->stage = WAITS;
	question->seconds = message->seconds;
	enter_kind(question);
	look_again(questions, message->seconds);
}

void question_rests(struct questions *questions, struct question *question)
{
	note_longest(questions, question, questions->seconds);
	if (question->kind->said == question)
		note_closed(questions, question, questions->seconds, &(struct closed){ .is_open = true });
	leave_kind(question);
}

void forget_about(struct questions *questions, uint32_t id)
{
	struct question *question;
	while ((question = newest_about(questions, id))) {
		if (question->key > UINT32_MAX || question->key == id) {
			close_question(questions, question, questions->seconds, false);
			continue;
		}
		question_rests(questions, question);
		leave_subject(questions, question);
	}
}

/* ---- what waits */

/* When the oldest question of a kind is late; less than 0 if there is none, or one is said to wait. */
static double late_at(const struct question_kind *kind, double late)
{
	const struct question *oldest = kind->said ? NULL : kind->oldest;
	if (!oldest || oldest->seconds < 0)
		return -1;
	return late + (kind->last_said > oldest->seconds ? kind->last_said : oldest->seconds);
}

const struct question *questions_waiting(struct questions *questions, const struct moment *moment, double late)
{
	if (questions->look < 0 || moment->now < questions->look + late)
		return NULL;
	questions->look = -1;
	for (size_t i = 0; i < questions->kinds.room; i++) {
		struct question_kind *kind = questions->kinds.slots[i].value;
		double at = kind ? late_at(kind, late) : -1;
		if (at < 0)
			continue;
		look_again(questions, at - late);
		if (at > (kind->oldest->is_pipe ? moment->now : moment->all_read[!kind->from]))
			continue;
		kind->said = kind->oldest;
		return kind->said;
	}
	return NULL;
}

void questions_look_at_pipes(struct questions *questions, double now, double soon)
{
	questions->closed_count = 0;
	for (size_t i = questions->pipes.room; i-- > 0;) {
		struct question *question = questions->pipes.count ? questions->pipes.slots[i].value : NULL;
		if (question && !pipe_is_open((ino_t)question->key))
			close_question(questions, question, now, true);
	}
	questions->look_at_pipes = questions->pipes.count ? soon : -1;
}

/* ---- the end */

static int by_number(const void *one, const void *other)
{
	const struct question *first = *(const struct question *const *)one;
	const struct question *second = *(const struct question *const *)other;
	return first->number < second->number ? -1 : first->number > second->number;
}

/* The questions of a map that need an answer, or the others. */
static void add_open(const struct keyed *keyed, bool is_due, const struct question ***made, size_t *count)
{
	for (size_t i = 0; i < keyed->room; i++) {
		for (const struct question *it = keyed->slots[i].value; it; it = it->again) {
			const struct question **more = it->is_due == is_due ? room_for_one(*made, *count, sizeof **made) : NULL;
			if (!more)
				continue;
			*made = more;
			more[(*count)++] = it;
		}
	}
}

static const struct question **all_open(const struct questions *questions, bool is_due, size_t *count)
{
	const struct question **made = NULL;
	*count = 0;
	add_open(&questions->open, is_due, &made, count);
	add_open(&questions->pipes, is_due, &made, count);
	if (made)
		qsort(made, *count, sizeof *made, by_number);
	return made;
}

const struct question **questions_due(const struct questions *questions, size_t *count)
{
	return all_open(questions, true, count);
}

const struct question **questions_at_rest(const struct questions *questions, size_t *count)
{
	return all_open(questions, false, count);
}

const struct question_kind *questions_syncs(const struct questions *questions)
{
	return keyed_find(&questions->kinds, kind_key(0, CLIENT, 0)); /* wl_display is the first interface */
}

static void free_open(struct keyed *keyed)
{
	for (size_t i = 0; i < keyed->room; i++) {
		for (struct question *it = keyed->slots[i].value, *next; it; it = next) {
			next = it->again;
			free(it);
		}
	}
	keyed_free(keyed);
}

static void free_values(struct keyed *keyed)
{
	for (size_t i = 0; i < keyed->room; i++)
		free(keyed->slots[i].value);
	keyed_free(keyed);
}

void questions_free(struct questions *questions)
{
	surfaces_free(questions);
	free_open(&questions->open);
	free_open(&questions->pipes);
	free_values(&questions->about);
	free_values(&questions->kinds);
	keyed_free(&questions->icons);
	free(questions->came[CLIENT].came);
	free(questions->came[COMPOSITOR].came);
	free(questions->roles);
	free(questions->closed);
	questions_begin(questions);
}
