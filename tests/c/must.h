/* What the tests in C of the library share. */
#ifndef MUST_H
#define MUST_H

#include "../must.h"

#include <string.h>
#include <waywire-core.h>
#include <waywire.h>

static inline waywire_tables *tables_over(const waywire_tables *tables, const char *text)
{
	waywire_tables *more;
	MUST(!waywire_tables_read(tables, text, strlen(text), &more, NULL, NULL));
	return more;
}

/* Tables, which are freed, and those of a text. */
static inline waywire_tables *tables_and(waywire_tables *first, const char *text)
{
	waywire_tables *more = tables_over(first, text);
	waywire_tables_free(first);
	return more;
}

/* The core's tables, and those of a text. */
static inline waywire_tables *core_and(const char *text)
{
	waywire_tables *core;
	MUST(!waywire_tables_core(&core));
	return tables_and(core, text);
}

/* The same for a server whose caller ends objects. */
static inline waywire_tables *unended_and(const char *text)
{
	waywire_tables *core;
	MUST(!waywire_tables_core_unended(&core));
	return tables_and(core, text);
}

#endif
