/* Tables that threads share: each thread searches them, makes tables over them, and opens an inspected
 * connection that another thread closes; the one that made them frees them while they are still used. */
#include "must.h"

#include <pthread.h>

#define THREADS 8
#define ROUNDS 20

static const waywire_sizes sizes = { 4096, 64, 4096, 64 };

struct pair {
	pthread_t thread;
	const waywire_tables *tables;
	waywire_client client;
	waywire_server server;
	waywire_inspector *inspector;
};

/* A request of the client's, and whether the server reads it. */
static bool asks(struct pair *pair)
{
	unsigned char bytes[4096];
	waywire_amounts taken, fed;
	waywire_wl_callback callback;
	waywire_report report;
	size_t length;
	waywire_wl_display display = waywire_wl_display_of(waywire_end_display(pair->client.end));
	MUST(!waywire_wl_display_sync(pair->client, display, &callback));
	MUST(!waywire_end_take(pair->client.end, bytes, sizeof bytes, NULL, 0, &taken));
	MUST(!waywire_inspector_pass(pair->inspector, WAYWIRE_FROM_CLIENT, bytes, taken.bytes, 0));
	MUST(waywire_inspector_lines(pair->inspector, &length) && length > 0);
	MUST(!waywire_end_feed(pair->server.end, bytes, taken.bytes, NULL, 0, &fed));
	MUST(!waywire_end_next(pair->server.end, &report) && report.kind == WAYWIRE_MESSAGE);
	return waywire_object_equal(report.args[0].object, callback.object);
}

static void opens(struct pair *pair)
{
	MUST(!waywire_client_new(pair->tables, &sizes, &pair->client));
	MUST(!waywire_server_new(pair->tables, &sizes, &pair->server));
	MUST(!waywire_inspector_new(pair->tables, WAYWIRE_USUAL_LIMIT, &pair->inspector));
}

static void closes(struct pair *pair)
{
	waywire_end_free(pair->client.end);
	waywire_end_free(pair->server.end);
	waywire_inspector_free(pair->inspector);
}

static void searches(const waywire_tables *tables)
{
	static const unsigned char destroy[] = { 3, 0, 0, 0, 0, 0, 8, 0 };
	waywire_message message;
	waywire_kind kind;
	waywire_decoded decoded;
	uint16_t index;
	uint32_t version;
	const char *name;
	size_t length;
	MUST(!waywire_tables_interface(tables, "wl_surface", &index));
	MUST(!waywire_tables_version(tables, index, &version) && version >= 6);
	MUST(!waywire_tables_name(tables, index, &name, &length));
	MUST(length == 10 && !memcmp(name, "wl_surface", length));
	MUST(!waywire_tables_message(tables, index, WAYWIRE_FROM_CLIENT, 0, &message, &name, &length));
	MUST(message.destroys == WAYWIRE_DESTROYS_TARGET && length == 7 && !memcmp(name, "destroy", length));
	MUST(!waywire_tables_kind(tables, index, WAYWIRE_FROM_CLIENT, 1, 0, &kind) && kind.nullable);
	MUST(!waywire_tables_decode(tables, index, version, WAYWIRE_FROM_CLIENT, destroy, sizeof destroy, &decoded));
	MUST(decoded.target == 3 && decoded.name == name && !decoded.arg_count);
}

static void *works(void *given)
{
	static const char text[] = "interface wp_thing 2\nrequest destroy D\n";
	struct pair *pair = given;
	waywire_tables *more;
	uint16_t index;
	for (int round = 0; round < ROUNDS; round++) {
		searches(pair->tables);
		opens(pair);
		MUST(asks(pair));
		closes(pair);
	}
	MUST(!waywire_tables_read(pair->tables, text, sizeof text - 1, &more, NULL, NULL));
	MUST(!waywire_tables_interface(more, "wp_thing", &index));
	pair->tables = more;
	opens(pair);
	waywire_tables_free(more); /* the ends and the inspector still have them */
	MUST(asks(pair));
	return NULL;
}

int main(void)
{
	waywire_tables *tables;
	struct pair pairs[THREADS], own;
	MUST(!waywire_tables_core(&tables));
	own.tables = tables;
	opens(&own);
	for (int i = 0; i < THREADS; i++) {
		pairs[i].tables = tables;
		MUST(!pthread_create(&pairs[i].thread, NULL, works, &pairs[i]));
	}
	searches(tables);
	for (int i = 0; i < THREADS; i++)
		MUST(!pthread_join(pairs[i].thread, NULL));
	waywire_tables_free(tables); /* its ends and its inspector still have them */
	MUST(asks(&own));
	closes(&own);
	for (int i = 0; i < THREADS; i++) { /* ends that another thread made */
		MUST(asks(&pairs[i]));
		closes(&pairs[i]);
	}
	waywire_tables_free(NULL);
	return 0;
}
