/* How messages ask and answer; for the files that make questions. */
#ifndef INSPECT_ASKING_H
#define INSPECT_ASKING_H

#include "questions.h"

/* ---- interfaces (roles.c) */

/* How an interface asks and answers. */
struct role {
	bool is_known;
	bool ends_by_event;         /* an event ends its objects */
	bool has_pong, has_ack;     /* requests that repeat the serial of ping and configure */
	bool has_toplevel;          /* its objects ask for a configure only once they have a role */
	bool sets_icon;             /* requests that make a surface the one of a cursor or a drag */
	bool moves_data;            /* messages that pass a pipe */
	bool is_surface, is_subsurface, is_subcompositor, is_buffer, is_lock_surface, has_own_release;
	const struct pair *pairs;   /* null if it has none */
	size_t pair_count;
};

/* How an interface asks; null if the tables lack it or memory runs out. */
const struct role *role_of(struct questions *questions, const waywire_tables *tables, uint16_t interface);

/* ---- questions (questions.c) */

/* What is asked. */
struct asking {
	struct question_kind *kind;
	uint64_t key, number;
	struct object target;
	uint32_t about;
	const struct pair *pair;
	enum stage stage;
	bool is_due, is_pipe;
};

/* The kind of a message; null if memory runs out. */
struct question_kind *kind_of(struct questions *questions, const struct message *message, const char *awaited);

/* Null if memory runs out. */
struct question *ask(struct questions *questions, const struct message *message, const struct asking *asking);

/* Removes a question, with or without an answer. */
void close_question(struct questions *questions, struct question *question, double seconds, bool is_answered);

/* From this message on, a question waits for its answer. */
void question_waits(struct questions *questions, struct question *question, const struct message *message);

/* A question needs no answer any more, but may get one. */
void question_rests(struct questions *questions, struct question *question);

/* The newest question about an object; null if there is none. */
struct question *newest_about(const struct questions *questions, uint32_t id);

/* Closes the questions about an object that has ended. Those with the key of an object that there still is may be
 * answered. */
void forget_about(struct questions *questions, uint32_t id);

/* ---- surfaces (surfaces.c) */

/* A surface's request, or one that is about a surface. */
void surfaces_note(struct questions *questions, const waywire_tables *tables, const struct role *role,
	struct message *message);

/* A configure has come for an object. */
void surfaces_configured(struct questions *questions, uint32_t shell);

/* An object has ended. */
void surfaces_forget(struct questions *questions, uint32_t id);

/* A buffer is not held any more. */
void surfaces_released(struct questions *questions, const struct question *held);

void surfaces_free(struct questions *questions);

/* ---- pipes (pipes.c) */

/* Asks if a message passes a pipe. */
void pipes_note(struct questions *questions, const struct message *message);

/* Whether a process may still write to a pipe. */
bool pipe_is_open(ino_t pipe);

#endif
