/* The version of the library. `make` says by HOW whether its exports are proved. */
#include "waywire.h"

#ifndef HOW
#define HOW ""
#endif

const char *waywire_version(void)
{
	return WAYWIRE_VERSION HOW;
}
