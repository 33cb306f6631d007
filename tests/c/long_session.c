/* Passes ten gigabytes of a session to an inspector, which judges and follows it. At the end it must have no more
 * memory than after the first 65 megabytes, when the allocator has reached its own limit. Then passes pieces after
 * a message that breaks a rule; the inspector must not keep any of them. */
#include "must.h"

#include <malloc.h>
#include <stdbool.h>
#include <string.h>

/* The bytes of a wl_keyboard.enter, and of the pieces that bring some of them at once. */
enum { ENTER = 4092, BLOCK = 16 * ENTER, CUT = 30001 };

/* get_registry, then the binds of wl_compositor and wl_seat, create_surface and get_keyboard. */
static const uint32_t get_registry[] = { 1, 12 << 16 | 1, 2 };
static const uint32_t create_surface[] = { 3, 12 << 16, 5 };
static const uint32_t get_keyboard[] = { 4, 12 << 16 | 1, 6 };

static void judge(waywire_inspector *inspector, waywire_sender sender, const void *bytes, size_t length)
{
	MUST(!waywire_inspector_pass(inspector, sender, bytes, length, 0));
}

/* Goes past each message that the piece completes, which is read. */
static void pass(waywire_inspector *inspector, waywire_sender sender, const void *bytes, size_t length)
{
	waywire_followed message;
	judge(inspector, sender, bytes, length);
	MUST(!waywire_inspector_follow(inspector, sender, bytes, length));
	while (!waywire_inspector_ahead(inspector, sender, &message))
		MUST(message.is_read && !waywire_inspector_go_past(inspector, sender));
}

/* Passes wl_registry.global of a name, and the bind of it at an id. */
static void global_and_bind(waywire_inspector *inspector, uint32_t name, const char *interface, uint32_t version,
	uint32_t id)
{
	uint32_t words[12] = { 2, 0, name, (uint32_t)strlen(interface) + 1 };
	size_t end = 4 + (strlen(interface) + 4) / 4;
	memcpy(words + 4, interface, strlen(interface));
	words[end] = version;
	words[1] = (uint32_t)(end + 1) * 4 << 16;
	pass(inspector, WAYWIRE_FROM_SERVER, words, (end + 1) * 4);
	words[end + 1] = id;
	words[1] = (uint32_t)(end + 2) * 4 << 16;
	pass(inspector, WAYWIRE_FROM_CLIENT, words, (end + 2) * 4);
}

/* Events of a keyboard that enters a surface, each with an array of keys. */
static const unsigned char *events(void)
{
	static unsigned char block[BLOCK];
	const uint32_t head[] = { 6, (uint32_t)ENTER << 16 | 1, 7, 5, ENTER - 20 };
	for (size_t at = 0; at < BLOCK; at += ENTER)
		memcpy(block + at, head, sizeof head);
	return block;
}

/* What is allocated. The C library counts large blocks, which it maps one by one, by themselves. */
static size_t allocated(void)
{
	struct mallinfo2 now = mallinfo2();
	return now.uordblks + now.hblkhd;
}

static bool is_lawful(waywire_inspector *inspector)
{
	const char *line;
	size_t length;
	bool broken;
	MUST(!waywire_inspector_verdict(inspector, &line, &length, &broken));
	return !broken;
}

/* Passes a request that breaks a rule, and then four megabytes in each direction. Nothing of these is kept.
 * */
static void pass_behind_the_end(waywire_inspector *inspector)
{
	static const unsigned char piece[4096];
	const uint32_t unknown_object[] = { 99, 8 << 16 };
	size_t taken;
	judge(inspector, WAYWIRE_FROM_CLIENT, unknown_object, sizeof unknown_object);
	MUST(!is_lawful(inspector));
	taken = allocated();
	for (int passed = 0; passed < 1000; passed++) {
		judge(inspector, WAYWIRE_FROM_CLIENT, piece, sizeof piece);
		judge(inspector, WAYWIRE_FROM_SERVER, piece, sizeof piece);
	}
	MUST(allocated() <= taken);
	MUST(!is_lawful(inspector));
}

int main(void)
{
	const unsigned char *block = events();
	waywire_tables *tables;
	waywire_inspector *inspector;
	size_t taken = 0;
	MUST(!waywire_tables_core(&tables));
	MUST(!waywire_inspector_new(tables, WAYWIRE_USUAL_LIMIT, &inspector));
	pass(inspector, WAYWIRE_FROM_CLIENT, get_registry, sizeof get_registry);
	global_and_bind(inspector, 1, "wl_compositor", 6, 3);
	global_and_bind(inspector, 2, "wl_seat", 9, 4);
	pass(inspector, WAYWIRE_FROM_CLIENT, create_surface, sizeof create_surface);
	pass(inspector, WAYWIRE_FROM_CLIENT, get_keyboard, sizeof get_keyboard);
	for (uint64_t passed = 0; passed < 10000000000; passed += BLOCK) {
		pass(inspector, WAYWIRE_FROM_SERVER, block, CUT);
		pass(inspector, WAYWIRE_FROM_SERVER, block + CUT, BLOCK - CUT);
		if (passed == 1000ull * BLOCK) {
			MUST(is_lawful(inspector));
			taken = allocated();
		}
		MUST(!taken || allocated() <= taken); /* before the last verdict, whose line grows with its numbers */
	}
	MUST(is_lawful(inspector));
	pass_behind_the_end(inspector);
	waywire_inspector_free(inspector);
	waywire_tables_free(tables);
	return 0;
}
