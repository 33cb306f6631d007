/* A recording that begins in the middle of its session: what comments at its head say of what came before. */
#define _GNU_SOURCE
#include "inspect.h"

#include <inttypes.h>
#include <stdio.h>

/* No interface has a longer name, and no message more bytes. */
#define LONGEST_NAME 256
#define LONGEST_MESSAGE 65535
/* The objects take at most this many bytes. A reader does not know of objects that are left out. */
#define MOST_OF_OBJECTS 1048576

/* ---- written */

static void put_known_objects(struct text *text, const struct follower *follower, uint32_t first, size_t count)
{
	for (size_t i = 0; i < count && text->length < MOST_OF_OBJECTS; i++) {
		struct object object = object_of(follower, first + (uint32_t)i);
		if (object.state == UNKNOWN || !object.name.bytes || object.id == DISPLAY_ID)
			continue;
		text_format(text, "# %s %" PRIu32 " %" PRIu32 " ", object.state == LIVE ? "object" : "ending",
			object.id, object.version);
		text_put_name(text, object.name);
		text_add(text, "\n");
	}
}

/* The bytes of a message that is not whole yet. */
static void put_pending(struct text *text, const struct text *front, char sign)
{
	if (!front->length)
		return;
	text_format(text, "# pending %c ", sign);
	text_hex(text, (const unsigned char *)front->bytes, front->length);
	text_add(text, "\n");
}

void part_put(struct text *text, const struct follower *follower, const struct text fronts[2], double seconds)
{
	size_t client_ids = waywire_inspector_id_count(follower->inspector, WAYWIRE_FROM_CLIENT);
	size_t server_ids = waywire_inspector_id_count(follower->inspector, WAYWIRE_FROM_SERVER);
	text_add(text, "# from ");
	text_seconds(text, seconds);
	text_format(text, "\n# ids %zu %zu\n", client_ids, server_ids);
	put_known_objects(text, follower, 0, client_ids);
	put_known_objects(text, follower, WAYWIRE_FIRST_SERVER_ID, server_ids);
	put_pending(text, &fronts[CLIENT], '>');
	put_pending(text, &fronts[COMPOSITOR], '<');
}

/* ---- read */

struct part {
	struct follower *follower;
	size_t client_ids, server_ids; /* how many were used */
	struct reopening reopening;
};

/* Reads the comment of an object; `name` has room for the longest, and its NUL. */
static bool read_object(const char *comment, struct reopened *object, char *name)
{
	char word[8];
	object->name = name;
	if (sscanf(comment, " %7s %" SCNu32 " %" SCNu32 " %256[a-z0-9_]", word, &object->id, &object->version, name) != 4)
		return false;
	object->is_ending = !strcmp(word, "ending");
	return object->is_ending || !strcmp(word, "object");
}

/* The id of an object is one of the used ids. */
static void note_id(struct part *part, uint32_t id)
{
	size_t index = id < WAYWIRE_FIRST_SERVER_ID ? id : id - WAYWIRE_FIRST_SERVER_ID;
	size_t *ids = id < WAYWIRE_FIRST_SERVER_ID ? &part->client_ids : &part->server_ids;
	if (index < MOST_IDS && index >= *ids)
		*ids = index + 1;
}

static void take_ids(void *to, const char *comment)
{
	struct part *part = to;
	char name[LONGEST_NAME + 1];
	struct reopened object;
	size_t client_ids, server_ids;
	if (read_object(comment, &object, name))
		note_id(part, object.id);
	if (sscanf(comment, " ids %zu %zu", &client_ids, &server_ids) != 2)
		return;
	part->client_ids = client_ids > part->client_ids ? client_ids : part->client_ids;
	part->server_ids = server_ids > part->server_ids ? server_ids : part->server_ids;
}

static void take_object(void *to, const char *comment)
{
	struct part *part = to;
	char name[LONGEST_NAME + 1];
	struct reopened object;
	if (read_object(comment, &object, name))
		reopen_object(&part->reopening, &object);
}

/* Takes the front of a message. */
static void take_pending(void *to, const char *comment)
{
	static const char pending[] = " pending > ";
	const struct part *part = to;
	const char *digits = comment + sizeof pending - 1;
	unsigned char bytes[LONGEST_MESSAGE];
	size_t length = 0;
	bool is_clients = !strncmp(comment, pending, sizeof pending - 1);
	if (!is_clients && strncmp(comment, " pending < ", sizeof pending - 1))
		return;
	for (; digits[0] && digits[1] && length < sizeof bytes; digits += 2) {
		if (digit_value(digits[0]) < 0 || digit_value(digits[1]) < 0)
			return;
		bytes[length++] = (unsigned char)(digit_value(digits[0]) * 16 + digit_value(digits[1]));
	}
	waywire_inspector_follow(part->follower->inspector, is_clients ? WAYWIRE_FROM_CLIENT : WAYWIRE_FROM_SERVER, bytes,
		length);
}

/* Nothing is judged from the first message on. */
static void leave_unjudged(struct judging *judging, double seconds)
{
	struct follower *follower = &judging->follower;
	struct text words = { NULL, 0, 0 };
	follower->is_unnumbered[CLIENT] = follower->is_unnumbered[COMPOSITOR] = true;
	judging->standing = UNJUDGED;
	judging->is_part = true;
	text_add(&judging->reason, "the recording begins in the middle of its session");
	text_format(&words, "not judged: the recording begins %.6f s after its session", seconds);
	if (!judging->is_counting)
		print_words(&judging->printer, seconds, &words, false);
	text_free(&words);
}

/* Reopens the objects of a text's comments. */
static void reopen(struct part *part, char *text, size_t length)
{
	reopen_begin(&part->reopening, part->follower, part->client_ids, part->server_ids);
	each_comment(text, length, take_object, part);
	reopen_end(&part->reopening);
}

void part_reopen(struct judging *judging, char *text, size_t length)
{
	struct part part = { .follower = &judging->follower };
	each_comment(text, length, take_ids, &part);
	if (part.client_ids)
		reopen(&part, text, length);
}

void part_read(struct judging *judging, char *text, size_t length, double seconds)
{
	struct part part = { .follower = &judging->follower };
	if (judging->standing == LOST)
		return;
	each_comment(text, length, take_ids, &part);
	reopen(&part, text, length);
	each_comment(text, length, take_pending, &part);
	leave_unjudged(judging, seconds);
}
