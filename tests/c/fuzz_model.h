/* The model of fuzz.c: chance, memory that is refused, and what passes between two ends, by its bytes. */
#ifndef FUZZ_MODEL_H
#define FUZZ_MODEL_H

#include "must.h"

#include <string.h>

/* ---- chance */

static uint64_t state = 1;

static uint32_t chance(uint32_t below)
{
	state ^= state << 13;
	state ^= state >> 7;
	state ^= state << 17;
	return (uint32_t)(state >> 32) % below;
}

/* ---- memory that is refused now and then */

void *__real_malloc(size_t size);
void *__real_realloc(void *at, size_t size);

static bool can_refuse, was_refused;

static bool refuses(void)
{
	bool now = can_refuse && !chance(16);
	was_refused |= now;
	return now;
}

void *__wrap_malloc(size_t size)
{
	return refuses() ? NULL : __real_malloc(size);
}

void *__wrap_realloc(void *at, size_t size)
{
	return refuses() ? NULL : __real_realloc(at, size);
}

static void refuse_some(void)
{
	was_refused = false;
	can_refuse = true;
}

static void refuse_none(void)
{
	can_refuse = false;
}

/* ---- the model: one interface for all kinds, and what passes between two ends */

#define TEXT(destroys) "interface fz_all 1\n" \
	"request all i u f s ?s o(fz_all) ?o(fz_all) a h\n" \
	"request make n(fz_all)\n" \
	"request end" destroys "\n" \
	"event all i u f s ?s o(fz_all) ?o(fz_all) a h\n" \
	"event words h h a\n"

static const char text[] = TEXT(" D");
static const char unended_text[] = TEXT(""); /* for a server whose caller ends objects */

enum { ALL = 0, MAKE = 1, END = 2, WORDS = 1 };

#define OUT_BYTES 8192
#define MOST_BYTES 64 /* of a string or an array of the model */
#define MOST_ARGS 9

/* A message on its way, as its writer gave it. */
struct message {
	uint32_t target;
	uint16_t opcode;
	size_t arg_count;
	waywire_arg args[MOST_ARGS];
	char bytes[MOST_ARGS][MOST_BYTES];
};

/* What goes one way: messages that are not read yet, and the bytes and tokens that are not taken yet. */
#define MOST_MESSAGES 4096
#define MOST_TOKENS 64

struct way {
	struct message messages[MOST_MESSAGES];
	size_t first, count;
	unsigned char bytes[OUT_BYTES];
	size_t length, sent; /* of these, `sent` were taken */
	struct {
		size_t at; /* the first byte of its message */
		uint32_t token;
	} tokens[MOST_TOKENS];
	size_t token_count, tokens_sent;
};

/* The objects of each end, by their ids. A zombie is one that ended, and that has its id still. */
enum life { FREE, LIVE, ZOMBIE };
enum { BY_CLIENT, BY_SERVER };

#define MOST_IDS 48

/* The first two, which stay. */
enum { REGISTRY_ID = 2, BOUND_ID = 3 };

struct object {
	waywire_object value;
	enum life life;
	bool is_all; /* of fz_all; else a callback, or one of the first three */
	bool is_held; /* at a server whose caller ends objects: the client has destroyed it */
	void *user;
};

static struct way ways[2]; /* of requests, and of events */
static struct object objects[2][MOST_IDS];
static waywire_tables *tables, *of_server;
static waywire_client client;
static waywire_server server;
static waywire_end *ends[2]; /* theirs */
static waywire_inspector *inspector;
static unsigned long read_messages;

/* ---- the bytes of a message, by the model */

static void put_word(unsigned char **at, uint32_t word)
{
	memcpy(*at, &word, 4);
	*at += 4;
}

static void put_bytes(unsigned char **at, const waywire_arg *arg, size_t ending)
{
	size_t padded = (arg->length + ending + 3) / 4 * 4;
	put_word(at, (uint32_t)(arg->length + ending));
	memset(*at, 0, padded);
	if (arg->length)
		memcpy(*at, arg->bytes, arg->length);
	*at += padded;
}

static void put_arg(unsigned char **at, const waywire_arg *arg)
{
	switch (arg->kind) {
	case WAYWIRE_INT: case WAYWIRE_FIXED: put_word(at, (uint32_t)arg->i); break;
	case WAYWIRE_UINT: put_word(at, arg->u); break;
	case WAYWIRE_STRING: put_bytes(at, arg, 1); break;
	case WAYWIRE_ARRAY: put_bytes(at, arg, 0); break;
	case WAYWIRE_NULL_STRING: case WAYWIRE_NULL_OBJECT: put_word(at, 0); break;
	case WAYWIRE_OBJECT: case WAYWIRE_NEW: put_word(at, arg->object.id); break;
	}
}

/* How many bytes a message has; they are written to `bytes`. */
static size_t encode(const struct message *message, unsigned char *bytes)
{
	unsigned char *at = bytes + 8;
	for (size_t i = 0; i < message->arg_count; i++)
		put_arg(&at, &message->args[i]);
	size_t length = (size_t)(at - bytes);
	uint32_t head[2] = { message->target, (uint32_t)(length << 16 | message->opcode) };
	memcpy(bytes, head, 8);
	return length;
}

/* Whether the outbox has room for this many bytes and tokens. */
static bool fits(const struct way *way, size_t bytes, size_t tokens)
{
	return way->length - way->sent + bytes <= OUT_BYTES
		&& way->token_count - way->tokens_sent + tokens <= MOST_TOKENS;
}

/* Moves what was not taken to the front. */
static void settle(struct way *way)
{
	size_t left = way->token_count - way->tokens_sent;
	memmove(way->bytes, way->bytes + way->sent, way->length - way->sent);
	memmove(way->tokens, way->tokens + way->tokens_sent, left * sizeof *way->tokens);
	for (size_t i = 0; i < left; i++)
		way->tokens[i].at = way->tokens[i].at < way->sent ? 0 : way->tokens[i].at - way->sent;
	way->length -= way->sent;
	way->sent = 0;
	way->token_count = left;
	way->tokens_sent = 0;
}

#endif
