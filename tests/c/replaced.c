/* Live objects of the server's whose ids others take over. No request can end them, so a compositor uses their ids
 * again once it has destroyed them on its own, as it does with the outputs of wlr-output-management 2. The report
 * has the object that is replaced and the caller's pointer of it.
 *
 *     replaced OUTPUT_MANAGEMENT.TABLES */
#include "must.h"

#include <stdlib.h>
#include <string.h>

static const char text[] = "interface manager 2\nevent head N(head)\n"
	"interface head 2\nevent again N(head)\n";

/* Opcodes of the tables. */
enum { HEAD = 0, AGAIN = 0 };

/* A client that has bound a manager, and what it read last. */
struct session {
	waywire_tables *tables;
	waywire_client client;
	waywire_object manager;
	waywire_report report;
};

/* An event comes, whose arguments are these words. */
static void comes(struct session *session, uint32_t target, uint32_t opcode, const uint32_t *words, size_t count)
{
	uint32_t message[32] = { target, (uint32_t)(8 + 4 * count) << 16 | opcode };
	waywire_amounts fed;
	MUST(count <= 30);
	memcpy(message + 2, words, 4 * count);
	MUST(!waywire_end_feed(session->client.end, message, 8 + 4 * count, NULL, 0, &fed));
	MUST(fed.bytes == 8 + 4 * count);
}

static uint32_t reads(struct session *session)
{
	MUST(!waywire_end_next(session->client.end, &session->report));
	return session->report.kind;
}

/* Writes a string as words, and returns how many these are. */
static size_t put_string(uint32_t *words, const char *string)
{
	size_t length = strlen(string) + 1;
	words[0] = (uint32_t)length;
	memcpy(words + 1, string, length);
	return 1 + (length + 3) / 4;
}

/* A client over the core's tables and a text binds the manager of this name. */
static void begin(struct session *session, const char *tables, const char *manager, uint32_t version)
{
	static const waywire_sizes sizes = { 4096, 64, 4096, 64, 0 };
	uint32_t global[30] = { 1 };
	waywire_arg new = waywire_new();
	waywire_object registry;
	session->tables = core_and(tables);
	MUST(!waywire_client_new(session->tables, &sizes, &session->client));
	MUST(!waywire_end_send(session->client.end, waywire_end_display(session->client.end),
		WAYWIRE_WL_DISPLAY_REQUEST_GET_REGISTRY, &new, 1, &registry, NULL));
	size_t count = 1 + put_string(global + 1, manager);
	global[count++] = version;
	comes(session, registry.id, WAYWIRE_WL_REGISTRY_EVENT_GLOBAL, global, count);
	MUST(reads(session) == WAYWIRE_MESSAGE && !session->report.forgotten);
	MUST(!waywire_client_bind(session->client, registry, 1, manager, version, &session->manager));
}

static void end(struct session *session)
{
	waywire_end_free(session->client.end);
	waywire_tables_free(session->tables);
}

static waywire_object made_last(const struct session *session)
{
	waywire_object made;
	MUST(!waywire_client_made(session->client, &made));
	return made;
}

/* The manager sends a head with this id. Returns its object. */
static waywire_object head(struct session *session, uint32_t id)
{
	comes(session, session->manager.id, HEAD, &id, 1);
	MUST(reads(session) == WAYWIRE_MESSAGE && session->report.args[0].kind == WAYWIRE_NEW);
	MUST(session->report.args[0].object.id == id);
	MUST(waywire_object_equal(session->report.args[0].object, made_last(session)));
	return made_last(session);
}

/* Whether the last report has replaced this object, for which this pointer was set. */
static bool has_replaced(const struct session *session, waywire_object object, const void *user)
{
	return waywire_object_equal(session->report.replaced, object) && session->report.replaced_user == user;
}

static bool has_replaced_none(const struct session *session)
{
	return !session->report.replaced.id && !session->report.replaced.birth && !session->report.replaced_user;
}

static bool is_listed(const struct session *session, waywire_object object)
{
	bool listed = false;
	for (waywire_object next = { 0, 0 }; !waywire_end_object_after(session->client.end, next.id, &next);)
		listed |= waywire_object_equal(next, object);
	return listed;
}

static size_t counted(const struct session *session)
{
	return waywire_end_object_count(session->client.end);
}

static void report_has_the_old_object(void)
{
	char one, two, three;
	struct session session;
	begin(&session, text, "manager", 2);
	waywire_object first = head(&session, WAYWIRE_FIRST_SERVER_ID);
	MUST(has_replaced_none(&session));
	waywire_object other = head(&session, WAYWIRE_FIRST_SERVER_ID + 1);
	MUST(has_replaced_none(&session) && counted(&session) == 5);
	MUST(!waywire_end_set_user(session.client.end, first, &one));
	MUST(!waywire_end_set_user(session.client.end, other, &two));

	waywire_object second = head(&session, WAYWIRE_FIRST_SERVER_ID);
	MUST(has_replaced(&session, first, &one) && !waywire_object_equal(second, first) && counted(&session) == 5);
	MUST(!waywire_end_user(session.client.end, second) && waywire_end_user(session.client.end, other) == &two);
	MUST(!is_listed(&session, first) && is_listed(&session, second) && is_listed(&session, other));
	MUST(waywire_end_live(session.client.end, first, NULL, NULL) == WAYWIRE_NOT_FOUND);
	MUST(waywire_end_set_user(session.client.end, first, &three) == WAYWIRE_STALE);
	MUST(!waywire_end_set_user(session.client.end, second, &three) && !waywire_end_user(session.client.end, first));
	MUST(has_replaced(&session, first, &one));

	/* One that has no pointer, at the last id; then no message, and one that replaces none. */
	head(&session, WAYWIRE_FIRST_SERVER_ID + 2);
	MUST(has_replaced_none(&session));
	waywire_object last = made_last(&session);
	head(&session, WAYWIRE_FIRST_SERVER_ID + 2);
	MUST(has_replaced(&session, last, NULL));
	MUST(reads(&session) == WAYWIRE_NOTHING && has_replaced_none(&session));
	comes(&session, 1, WAYWIRE_WL_DISPLAY_EVENT_DELETE_ID, (uint32_t[]){ WAYWIRE_FIRST_SERVER_ID },
		1);
	MUST(reads(&session) == WAYWIRE_STRAY && has_replaced_none(&session));
	head(&session, WAYWIRE_FIRST_SERVER_ID + 3);
	MUST(has_replaced_none(&session));
	end(&session);
}

/* An event for a head makes one with the id of that head itself. */
static void target_is_replaced(void)
{
	static const uint32_t id = WAYWIRE_FIRST_SERVER_ID;
	char one;
	struct session session;
	begin(&session, text, "manager", 2);
	waywire_object first = head(&session, id);
	MUST(!waywire_end_set_user(session.client.end, first, &one));
	comes(&session, id, AGAIN, &id, 1);
	MUST(reads(&session) == WAYWIRE_MESSAGE && waywire_object_equal(session.report.target, first));
	MUST(session.report.user == &one && has_replaced(&session, first, &one));
	MUST(session.report.version == 2 && !waywire_end_user(session.client.end, made_last(&session)));
	end(&session);
}

/* ---- a program that keeps what it knows of each output, as kanshi does */

/* Opcodes of wlr-output-management. */
enum { NAME = 0, FINISHED = 9 };

enum { ROUNDS = 1000, OUTPUTS = 3 };

struct output {
	char *name;
};

static size_t outputs;

static void free_output(struct output *output)
{
	if (!output)
		return;
	outputs--;
	free(output->name);
	free(output);
}

/* Reads all that came. */
static void hear(struct session *session)
{
	while (reads(session) != WAYWIRE_NOTHING) {
		struct output *replaced = session->report.replaced_user, *output = session->report.user;
		MUST(session->report.kind == WAYWIRE_MESSAGE);
		if (waywire_object_equal(session->report.target, session->manager)) {
			waywire_object object = session->report.args[0].object;
			MUST((output = calloc(1, sizeof *output)));
			outputs++;
			MUST(!waywire_end_set_user(session->client.end, object, output));
		} else if (session->report.opcode == NAME) {
			MUST((output->name = malloc(session->report.args[0].length + 1)));
			strcpy(output->name, session->report.args[0].bytes);
		}
		free_output(replaced);
	}
}

static char *contents(const char *path)
{
	size_t room = 65536;
	char *bytes = malloc(room);
	FILE *file = fopen(path, "r");
	MUST(bytes && file);
	size_t length = fread(bytes, 1, room, file);
	MUST(length < room && !fclose(file));
	bytes[length] = '\0';
	return bytes;
}

/* Outputs are plugged in and out, and all that was set for them is freed. */
static void nothing_is_lost(const char *path)
{
	char *tables = contents(path);
	uint32_t name[8];
	size_t count = put_string(name, "HDMI-A-1");
	struct session session;
	begin(&session, tables, "zwlr_output_manager_v1", 2);
	free(tables);
	for (uint32_t round = 0; round < ROUNDS; round++) {
		for (uint32_t id = WAYWIRE_FIRST_SERVER_ID; id < WAYWIRE_FIRST_SERVER_ID + OUTPUTS; id++) {
			comes(&session, session.manager.id, HEAD, &id, 1);
			comes(&session, id, NAME, name, count);
			comes(&session, id, FINISHED, name, 0);
		}
		hear(&session);
		MUST(outputs == OUTPUTS && counted(&session) == 3 + OUTPUTS);
	}
	for (waywire_object object = { 0, 0 }; !waywire_end_object_after(session.client.end, object.id, &object);)
		free_output(waywire_end_user(session.client.end, object));
	MUST(outputs == 0);
	end(&session);
}

int main(int count, char **words)
{
	MUST(count == 2);
	report_has_the_old_object();
	target_is_replaced();
	nothing_is_lost(words[1]);
	return 0;
}
