/* What the tests of sockets share: descriptors that are counted and known again. */
#ifndef DESCRIPTORS_H
#define DESCRIPTORS_H

#include "must.h"

#include <sys/mman.h>
#include <sys/stat.h>
#include <unistd.h>
#include <waywire-socket.h>

/* How long something may take to come, in milliseconds. */
#define WAIT 300000

/* A descriptor that is known by the length of its file. */
static inline int new_descriptor(int length)
{
	int descriptor = memfd_create("descriptor", MFD_CLOEXEC);
	MUST(descriptor >= 0 && !ftruncate(descriptor, length));
	return descriptor;
}

/* The length by which a descriptor is known. It is closed. */
static inline int length_of(int descriptor)
{
	struct stat file;
	MUST(!fstat(descriptor, &file) && !close(descriptor));
	return (int)file.st_size;
}

#endif
