/* The wl_interface structs that a program or a compositor passes in: their signatures, which of them are known, and the
 * table texts that are written from them. */
#ifndef WAYWIRE_WAYLAND_STRUCTS_H
#define WAYWIRE_WAYLAND_STRUCTS_H

#include "wayland-abi.h"

#include <waywire.h>

/* ---- signatures (signature.c) */

/* The arguments of a message, by its signature. */
struct signature {
	size_t count;
	uint32_t since; /* the number in front of it; 0 if there is none */
	bool has_new;    /* whether one is a new object */
	bool has_object; /* whether one is an object, or a new one */
	bool is_of_numbers; /* whether all are ints, uints or fixed numbers */
	char letters[WAYWIRE_MAX_ARGS];
	bool nullable[WAYWIRE_MAX_ARGS];
};

/* Reads a signature. False if it is malformed: a number that is too large, a character that is no
 * letter of an argument, a `?` that is not before `s`, `o`, `n` or `a`, or more than
 * WAYWIRE_MAX_ARGS arguments. */
bool signature_read(struct signature *signature, const char *text);

/* ---- known interfaces (known.c) */

/* An interface that agrees with the tables, as it was when that was found out. A plug-in may be
 * unloaded, and another interface lie at its address. */
struct known_interface {
	struct known_interface *next; /* in its bucket */
	const struct wl_interface *at;
	struct wl_interface was;
	struct signature signatures[]; /* those of the requests, and then those of the events */
};

#define KNOWN_BUCKETS 256

struct known_interfaces {
	struct known_interface *buckets[KNOWN_BUCKETS];
};

/* Finds an interface, as it is now. Null if it is not known. */
const struct known_interface *known_find(const struct known_interfaces *known,
	const struct wl_interface *interface);

/* Makes an interface known that agrees with the tables. False with errno. */
bool known_add(struct known_interfaces *known, const struct wl_interface *interface);

void known_drop(struct known_interfaces *known);

/* ---- table texts (structs.c) */

/* An interface that is added, or looked through for others. */
struct reached {
	const struct wl_interface *interface;
	bool is_written; /* the text or the tables have all of it */
};

/* A table text: what tables lack of interfaces, and of all interfaces that their messages name. Begin with the tables,
 * the interfaces that are known to agree with them, and zeros. */
struct growth {
	const waywire_tables *tables;
	struct known_interfaces *known;
	struct reached *reached;
	size_t count, room;
	size_t looked_through; /* how many of those reached */
	char *text;
	size_t length, text_room;
	bool has_failed; /* there was no memory for all of the text */
};

/* Lists an interface, and all that its messages name. False with errno: EINVAL if one is malformed; then it has said
 * why. */
bool growth_reach(struct growth *growth, const struct wl_interface *interface);

/* Writes the text for all interfaces that are listed. One that contradicts the tables, or an interface before it, is
 * left out. False with ENOMEM. */
bool growth_write(struct growth *growth);

/* Makes the interfaces known that the tables have completely, once they have the text. False with errno. */
bool growth_know(const struct growth *growth);

/* Whether the text was read. If not, sets errno, and says which line breaks which rule unless memory is lacking. */
bool growth_was_read(const struct growth *growth, waywire_status status, size_t line, uint32_t rule);

void growth_end(struct growth *growth);

/* Whether tables agree with an interface: they have all its messages, with the same arguments. Then it is known.
 * Otherwise sets errno, and says why unless memory is lacking. */
bool structs_agree(const waywire_tables *tables, struct known_interfaces *known,
	const struct wl_interface *interface);

/* Makes the tables that a display begins with: those of the core, whose versions have no end, and of data transfer. So
 * they have an event that makes an object, and an end knows the server's ids from the beginning. Null with errno. */
waywire_tables *structs_first_tables(const waywire_tables *core, struct known_interfaces *known);

#endif
