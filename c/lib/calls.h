/* What the files of the library for C share: handles, and tests of what C may pass. `make` makes local what is
 * global here: only the calls of include/waywire.h are visible to others. */
#ifndef WAYWIRE_CALLS_H
#define WAYWIRE_CALLS_H

#include "waywire.h"

#include <stdlib.h>

/* A pointer to the tables, the end or the inspector that an export made. */
struct handle {
	void *at;
};

struct waywire_tables {
	struct handle handle;
	size_t users;        /* the caller, each end and each inspector */
	waywire_tables *own; /* these, for whoever joins or leaves their users */
};

/* A layout that the exports have too. */
#define SAME(name, holds) typedef char same_##name[(holds) ? 1 : -1]

/* So the compiler may put a function into its callers, although the code can be moved in memory. */
#define HIDDEN __attribute__((visibility("hidden")))

/* So the compiler does not put a function into its callers. */
#define APART __attribute__((noinline))

/* The address used for an empty slice that is null. */
extern HIDDEN uint32_t call_nowhere[1];

/* Tests a slice, and gives an empty one that is null an address. */
HIDDEN waywire_status call_slice(const void **bytes, size_t length, size_t size);

/* Joins the users of tables. Nothing else about tables changes after they are made, so any number of calls can
 * read them at one time. */
HIDDEN waywire_tables *tables_ref(const waywire_tables *tables);

/* Reads a text and appends it to the tables of an end, which takes the result, `more`, and becomes its user. */
HIDDEN waywire_status tables_read_for_end(struct handle *end, const void *text, size_t length,
	waywire_tables **more, size_t *line, uint32_t *rule);

#endif
