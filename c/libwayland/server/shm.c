/* wl_shm: pools of memory that clients share, and buffers in them. See server.h.
 *
 * A client may shorten the file of a pool. Whoever reads the memory then gets SIGBUS: the handler puts zeros in
 * place of the file, and the client gets an error when the access ends. */
#define _GNU_SOURCE
#include "server.h"

#include <errno.h>
#include <limits.h>
#include <pthread.h>
#include <signal.h>
#include <stdlib.h>
#include <string.h>
#include <sys/mman.h>
#include <unistd.h>

/* The codes of wl_shm's errors, and the formats that every display has. */
enum { INVALID_FORMAT, INVALID_STRIDE, INVALID_FD };
enum { FORMAT_ARGB8888, FORMAT_XRGB8888 };
#define SHM_FORMAT 0 /* the event */

struct wl_shm_pool {
	struct wl_resource *resource; /* null once the client has destroyed it */
	int uses;  /* by its resource and its buffers */
	int holds; /* by the compositor, which may have addresses: meanwhile the memory does not move */
	char *data;
	int32_t size;
	int32_t wanted; /* what the client has asked for */
};

struct wl_shm_buffer {
	struct wl_resource *resource; /* null once the client has destroyed it */
	int references;
	int32_t width, height, stride, offset;
	uint32_t format;
	struct wl_shm_pool *pool;
};

/* ---- SIGBUS */

/* What a thread is reading. */
struct access {
	struct wl_shm_pool *pool;
	int depth;
	bool has_failed; /* zeros were put in place of the pool's file */
};

static pthread_once_t is_set_up = PTHREAD_ONCE_INIT;
static pthread_key_t access_key;
static struct sigaction former_action;

/* Leaves the signal to whoever handled it before. */
static void pass_on(void)
{
	sigaction(SIGBUS, &former_action, NULL);
	raise(SIGBUS);
}

static void on_bus_error(int signal_number, siginfo_t *info, void *context)
{
	struct access *access = pthread_getspecific(access_key);
	struct wl_shm_pool *pool = access ? access->pool : NULL;
	const char *at = info->si_addr;
	(void)signal_number;
	(void)context;
	if (!pool || at < pool->data || at >= pool->data + pool->size) {
		pass_on();
		return;
	}
	access->has_failed = true;
	if (mmap(pool->data, (size_t)pool->size, PROT_READ | PROT_WRITE,
			MAP_PRIVATE | MAP_FIXED | MAP_ANONYMOUS, -1, 0) == MAP_FAILED)
		pass_on();
}

static void set_up(void)
{
	struct sigaction action;
	memset(&action, 0, sizeof action);
	action.sa_sigaction = on_bus_error;
	action.sa_flags = SA_SIGINFO | SA_NODEFER;
	sigemptyset(&action.sa_mask);
	pthread_key_create(&access_key, free);
	sigaction(SIGBUS, &action, &former_action);
}

/* What this thread is reading. Null without memory. */
static struct access *make_access(void)
{
	struct access *access = pthread_getspecific(access_key);
	if (access)
		return access;
	access = calloc(1, sizeof *access);
	if (access && pthread_setspecific(access_key, access)) {
		free(access);
		access = NULL;
	}
	return access;
}

/* A thread reads one pool at a time. */
EXPORT void wl_shm_buffer_begin_access(struct wl_shm_buffer *buffer)
{
	pthread_once(&is_set_up, set_up);
	struct access *access = make_access();
	if (!access) {
		if (buffer->resource)
			wl_client_post_no_memory(buffer->resource->client);
		return;
	}
	if (access->pool && access->pool != buffer->pool) {
		log_line("wl_shm_buffer_begin_access: the thread reads another pool\n");
		abort();
	}
	access->pool = buffer->pool;
	access->depth++;
}

EXPORT void wl_shm_buffer_end_access(struct wl_shm_buffer *buffer)
{
	pthread_once(&is_set_up, set_up);
	struct access *access = pthread_getspecific(access_key);
	if (!access || !access->depth || --access->depth)
		return;
	access->pool = NULL;
	if (access->has_failed && buffer->resource)
		wl_resource_post_error(buffer->resource, INVALID_FD, "error accessing SHM buffer");
	access->has_failed = false;
}

/* ---- pools */

/* Gives a pool the size that the client has asked for. */
static void resize(struct wl_shm_pool *pool)
{
	if (pool->wanted == pool->size)
		return;
	void *data = mremap(pool->data, (size_t)pool->size, (size_t)pool->wanted, MREMAP_MAYMOVE);
	if (data == MAP_FAILED) {
		if (pool->resource)
			wl_resource_post_error(pool->resource, INVALID_FD, "failed mremap");
		return;
	}
	pool->data = data;
	pool->size = pool->wanted;
}

/* Frees a pool that nobody uses or holds. */
static void free_unused(struct wl_shm_pool *pool)
{
	if (pool->uses || pool->holds)
		return;
	munmap(pool->data, (size_t)pool->size);
	free(pool);
}

static void end_use(struct wl_shm_pool *pool)
{
	pool->uses--;
	free_unused(pool);
}

EXPORT void wl_shm_pool_unref(struct wl_shm_pool *pool)
{
	pool->holds--;
	if (!pool->holds && pool->uses)
		resize(pool);
	free_unused(pool);
}

static void end_by_request(struct wl_client *client, struct wl_resource *resource)
{
	(void)client;
	wl_resource_destroy(resource);
}

/* ---- buffers */

EXPORT struct wl_shm_buffer *wl_shm_buffer_ref(struct wl_shm_buffer *buffer)
{
	buffer->references++;
	return buffer;
}

EXPORT void wl_shm_buffer_unref(struct wl_shm_buffer *buffer)
{
	if (--buffer->references)
		return;
	end_use(buffer->pool);
	free(buffer);
}

static void on_buffer_end(struct wl_resource *resource)
{
	struct wl_shm_buffer *buffer = resource->data;
	buffer->resource = NULL;
	wl_shm_buffer_unref(buffer);
}

/* The functions for the requests of wl_buffer. Their address is what distinguishes these buffers. */
static void (*const buffer_requests[])(struct wl_client *, struct wl_resource *) = {
	end_by_request
};

static bool has_format(const struct wl_display *display, uint32_t format)
{
	const uint32_t *formats = display->shm_formats.data;
	if (format == FORMAT_ARGB8888 || format == FORMAT_XRGB8888)
		return true;
	for (size_t i = 0; i < display->shm_formats.size / sizeof *formats; i++)
		if (formats[i] == format)
			return true;
	return false;
}

/* Whether a pool has a buffer. If not, the client is told. */
static bool is_in_pool(struct wl_resource *resource, int32_t offset, int32_t width, int32_t height,
	int32_t stride, uint32_t format)
{
	const struct wl_shm_pool *pool = resource->data;
	if (!has_format(resource->client->display, format)) {
		wl_resource_post_error(resource, INVALID_FORMAT, "invalid format 0x%x", format);
		return false;
	}
	if (offset >= 0 && width > 0 && height > 0 && stride >= width && INT32_MAX / stride >= height
		&& offset <= pool->size - stride * height)
		return true;
	wl_resource_post_error(resource, INVALID_STRIDE,
		"invalid width, height or stride (%dx%d, %u)", width, height, (unsigned)stride);
	return false;
}

static void create_buffer(struct wl_client *client, struct wl_resource *resource, uint32_t id,
	int32_t offset, int32_t width, int32_t height, int32_t stride, uint32_t format)
{
	struct wl_shm_pool *pool = resource->data;
	if (!is_in_pool(resource, offset, width, height, stride, format))
		return;
	struct wl_shm_buffer *buffer = malloc(sizeof *buffer);
	struct wl_resource *made = buffer ? wl_resource_create(client, &wl_buffer_interface, 1, id)
		: NULL;
	if (!made) {
		free(buffer);
		wl_client_post_no_memory(client);
		return;
	}
	*buffer = (struct wl_shm_buffer){ made, 1, width, height, stride, offset, format, pool };
	pool->uses++;
	wl_resource_set_implementation(made, buffer_requests, buffer, on_buffer_end);
}

/* KWin asks with null, once a client has destroyed its buffer. */
EXPORT struct wl_shm_buffer *wl_shm_buffer_get(struct wl_resource *resource)
{
	return resource && wl_resource_instance_of(resource, &wl_buffer_interface, buffer_requests)
		? resource->data : NULL;
}

/* It was deprecated before buffers had pools, and nobody can use it. */
EXPORT struct wl_shm_buffer *wl_shm_buffer_create(struct wl_client *client, uint32_t id,
	int32_t width, int32_t height, int32_t stride, uint32_t format)
{
	(void)client;
	(void)id;
	(void)width;
	(void)height;
	(void)stride;
	(void)format;
	return NULL;
}

EXPORT int32_t wl_shm_buffer_get_stride(struct wl_shm_buffer *buffer)
{
	return buffer->stride;
}

EXPORT uint32_t wl_shm_buffer_get_format(struct wl_shm_buffer *buffer)
{
	return buffer->format;
}

EXPORT int32_t wl_shm_buffer_get_width(struct wl_shm_buffer *buffer)
{
	return buffer->width;
}

EXPORT int32_t wl_shm_buffer_get_height(struct wl_shm_buffer *buffer)
{
	return buffer->height;
}

EXPORT void *wl_shm_buffer_get_data(struct wl_shm_buffer *buffer)
{
	struct wl_shm_pool *pool = buffer->pool;
	if (pool->holds && pool->wanted != pool->size)
		log_line("Buffer address requested when its parent pool has an external reference and a "
			"deferred resize pending.\n");
	return pool->data + buffer->offset;
}

EXPORT struct wl_shm_pool *wl_shm_buffer_ref_pool(struct wl_shm_buffer *buffer)
{
	buffer->pool->holds++;
	return buffer->pool;
}

/* ---- the requests of wl_shm_pool */

static void on_pool_end(struct wl_resource *resource)
{
	struct wl_shm_pool *pool = resource->data;
	pool->resource = NULL;
	end_use(pool);
}

static void resize_pool(struct wl_client *client, struct wl_resource *resource, int32_t size)
{
	struct wl_shm_pool *pool = resource->data;
	(void)client;
	if (size < pool->size) {
		wl_resource_post_error(resource, INVALID_FD, "shrinking pool invalid");
		return;
	}
	pool->wanted = size;
	if (!pool->holds)
		resize(pool);
}

static const struct {
	void (*create_buffer)(struct wl_client *, struct wl_resource *, uint32_t, int32_t, int32_t,
		int32_t, int32_t, uint32_t);
	void (*destroy)(struct wl_client *, struct wl_resource *);
	void (*resize)(struct wl_client *, struct wl_resource *, int32_t);
} pool_requests = { create_buffer, end_by_request, resize_pool };

/* ---- the requests of wl_shm */

/* Maps a client's file. Null if that cannot be; then the client was told. */
static struct wl_shm_pool *map_pool(struct wl_resource *shm, int fd, int32_t size)
{
	if (size <= 0) {
		wl_resource_post_error(shm, INVALID_STRIDE, "invalid size (%d)", size);
		return NULL;
	}
	struct wl_shm_pool *pool = calloc(1, sizeof *pool);
	if (!pool) {
		wl_client_post_no_memory(shm->client);
		return NULL;
	}
	pool->data = mmap(NULL, (size_t)size, PROT_READ | PROT_WRITE, MAP_SHARED, fd, 0);
	if (pool->data == MAP_FAILED) {
		wl_resource_post_error(shm, INVALID_FD, "failed mmap fd %d: %s", fd, strerror(errno));
		free(pool);
		return NULL;
	}
	pool->size = pool->wanted = size;
	pool->uses = 1;
	return pool;
}

static void create_pool(struct wl_client *client, struct wl_resource *resource, uint32_t id, int fd,
	int32_t size)
{
	struct wl_shm_pool *pool = map_pool(resource, fd, size);
	close(fd);
	if (!pool)
		return;
	pool->resource = wl_resource_create(client, &wl_shm_pool_interface, 1, id);
	if (pool->resource) {
		wl_resource_set_implementation(pool->resource, &pool_requests, pool, on_pool_end);
	} else {
		wl_client_post_no_memory(client);
		end_use(pool);
	}
}

static const struct {
	void (*create_pool)(struct wl_client *, struct wl_resource *, uint32_t, int, int32_t);
} shm_requests = { create_pool };

static void post_format(struct wl_resource *shm, uint32_t format)
{
	union wl_argument arg;
	arg.u = format;
	wl_resource_post_event_array(shm, SHM_FORMAT, &arg);
}

static void bind_shm(struct wl_client *client, void *data, uint32_t version, uint32_t id)
{
	const struct wl_display *display = client->display;
	struct wl_resource *shm = wl_resource_create(client, &wl_shm_interface, (int)version, id);
	(void)data;
	if (!shm) {
		wl_client_post_no_memory(client);
		return;
	}
	wl_resource_set_implementation(shm, &shm_requests, client->display, NULL);
	post_format(shm, FORMAT_ARGB8888);
	post_format(shm, FORMAT_XRGB8888);
	const uint32_t *formats = display->shm_formats.data;
	for (size_t i = 0; i < display->shm_formats.size / sizeof *formats; i++)
		post_format(shm, formats[i]);
}

EXPORT int wl_display_init_shm(struct wl_display *display)
{
	return wl_global_create(display, &wl_shm_interface, 1, NULL, bind_shm) ? 0 : -1;
}

EXPORT uint32_t *wl_display_add_shm_format(struct wl_display *display, uint32_t format)
{
	uint32_t *added = wl_array_add(&display->shm_formats, sizeof *added);
	if (added)
		*added = format;
	return added;
}
