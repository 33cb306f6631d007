/* Finds the tool's own folders: the protocols and the tools in Python. */
#define _GNU_SOURCE
#include "inspect.h"

#include <errno.h>
#include <limits.h>
#include <stdio.h>
#include <unistd.h>

/* Beside an installed tool is a link to the tool for XML, which `make install` makes. */
#define LINK "waywire-tables-from-xml"
/* A file that the folder of the tools has. */
#define XML_TOOL "tables-from-xml"

void find_own(char *path, size_t size)
{
	ssize_t length = readlink("/proc/self/exe", path, size - 1);
	if (length < 0)
		fail("/proc/self/exe cannot be read: %s", strerror(errno));
	path[length] = 0;
}

/* The path of a file or folder from that of the tool. */
static void find_beside(char *path, size_t size, const char *from_tool)
{
	find_own(path, size);
	char *name = strrchr(path, '/') + 1;
	size_t left = size - (size_t)(name - path);
	if ((size_t)snprintf(name, left, "%s", from_tool) >= left)
		fail("the path of %s is too long", from_tool);
}

static void put_behind(char *path, size_t size, const char *name)
{
	size_t length = strlen(path);
	if ((size_t)snprintf(path + length, size - length, "/%s", name) >= size - length)
		fail("the path of %s is too long", name);
}

static bool has_tools(const char *folder)
{
	char path[PATH_MAX];
	snprintf(path, sizeof path, "%s", folder);
	put_behind(path, sizeof path, XML_TOOL);
	return !access(path, R_OK);
}

/* The folder of the tools: where the link beside the tool leads, or that of the repository that the tool was built
 * in, or that of the same tree. The folder of the protocols lies beside it. */
static void find_tools(char *folder, size_t size)
{
	char link[PATH_MAX], target[PATH_MAX];
	find_beside(link, sizeof link, LINK);
	if (realpath(link, target)) {
		*strrchr(target, '/') = 0;
		if (has_tools(target)) {
			snprintf(folder, size, "%s", target);
			return;
		}
	}
	find_beside(folder, size, "../../tools");
	if (!has_tools(folder))
		find_beside(folder, size, "../share/waywire/tools");
}

void find_tool(char *path, size_t size, const char *name)
{
	find_tools(path, size);
	put_behind(path, size, name);
}

void find_tables(char *folder, size_t size)
{
	find_tool(folder, size, "../protocols");
}

void find_core_names(char *path, size_t size)
{
	find_tool(path, size, "../protocols/core/core.names");
}
