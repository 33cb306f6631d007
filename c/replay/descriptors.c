/* The files that stand for the descriptors of the recording, which has none. */
#define _GNU_SOURCE
#include "replay.h"

#include <errno.h>
#include <fcntl.h>
#include <sys/mman.h>
#include <unistd.h>

/* So much of a file has a pattern; the rest is zero. */
#define MOST_PATTERN (64u << 20)
#define BLOCK 65536

/* Requests whose descriptors no file can stand for; a null request means all of the interface. */
static const struct {
	const char *interface, *request;
} without_stand_in[] = {
	{ "zwp_linux_buffer_params_v1", "add" },
	{ "wl_drm", "create_prime_buffer" },
	{ "wp_linux_drm_syncobj_manager_v1", NULL },
	{ "zwp_linux_surface_synchronization_v1", "set_acquire_fence" },
	{ "wp_security_context_manager_v1", NULL },
};

bool has_no_stand_in(const struct message *request)
{
	if (!request->descriptor_count)
		return false;
	for (size_t i = 0; i < sizeof without_stand_in / sizeof *without_stand_in; i++)
		if (is_name(request->target.name, without_stand_in[i].interface) && (!without_stand_in[i].request
				|| is_name(request->name, without_stand_in[i].request)))
			return true;
	return false;
}

/* The size that a request names for its file: an argument of that name. */
static off_t size_in(const struct message *request)
{
	for (size_t i = 0; i < request->arg_count; i++) {
		const waywire_arg *value = &request->args[i].value;
		bool is_pool = is_name(request->target.name, "wl_shm") && i == 2;
		if (!is_pool && !is_name(request->args[i].name, "size"))
			continue;
		if (value->kind == WAYWIRE_UINT)
			return value->u;
		if (value->kind == WAYWIRE_INT)
			return value->i > 0 ? value->i : 0;
	}
	return 0;
}

/* Fills the part of a file behind `from` with opaque pixels from black to white, over and over. */
static bool fill_with_pattern(int file, off_t from, off_t size)
{
	static uint32_t pixels[BLOCK / sizeof(uint32_t)];
	if (!pixels[0])
		for (size_t i = 0; i < sizeof pixels / sizeof *pixels; i++)
			pixels[i] = 0xff000000u | (uint32_t)(i & 0xff) * 0x010101u;
	off_t end = size < (off_t)MOST_PATTERN ? size : (off_t)MOST_PATTERN;
	for (off_t at = from; at < end;) {
		size_t skip = (size_t)(at % BLOCK), length = BLOCK - skip;
		length = (off_t)length < end - at ? length : (size_t)(end - at);
		ssize_t written = pwrite(file, (const char *)pixels + skip, length, at);
		if (written <= 0)
			return false;
		at += written;
	}
	return true;
}

/* Gives a file a size, unless it is longer. */
static bool grow(int file, off_t size)
{
	off_t before = lseek(file, 0, SEEK_END);
	return before >= 0 && (before >= size || (!ftruncate(file, size) && fill_with_pattern(file, before, size)));
}

int descriptor_for(struct replay *replay, const struct message *request)
{
	off_t size = size_in(request);
	int file = memfd_create("waywire-replay", MFD_CLOEXEC | MFD_ALLOW_SEALING);
	if (file < 0 || !grow(file, size) || lseek(file, 0, SEEK_SET))
		fail("no file of %jd bytes can be made: %s", (intmax_t)size, strerror(errno));
	replay->files += size > 0;
	replay->empty_files += !size;
	return file;
}

void resize_pool(const struct twin *pool, const struct message *request)
{
	if (pool->file < 0 || !is_name(request->name, "resize") || request->arg_count != 1)
		return;
	if (request->args[0].value.i > 0 && !grow(pool->file, request->args[0].value.i))
		fail("no file of %jd bytes can be made: %s", (intmax_t)request->args[0].value.i, strerror(errno));
}
