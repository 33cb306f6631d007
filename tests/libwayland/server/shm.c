/* wl_shm at a compositor: pools and buffers that are wrong, pools that grow while they are held, and files that the
 * client shortens (SIGBUS), in one thread and in several. What clients read is printed, so that two libraries can be
 * compared. */
#define _GNU_SOURCE
#include "served.h"
#include <pthread.h>

#define PAGE 4096
#define THREADS 4

enum { SHM = FIRST_FREE, POOL, BUFFER, OTHER_BUFFER };
enum { CREATE_BUFFER, POOL_DESTROY, POOL_RESIZE };

static struct peer peers[THREADS];
static struct wire wire;

static void begin(void)
{
	display = wl_display_create();
	MUST(display);
	add_compositor();
	MUST(!wl_display_init_shm(display));
	wl_display_add_shm_format(display, WL_SHM_FORMAT_RGB565);
	open_with_compositor(&peers[0], 4);
}

/* Binds wl_shm, the second global. */
static void bind_shm(struct peer *peer)
{
	put_bind(&wire, 2, "wl_shm", 1, SHM);
	asks(peer, &wire);
}

static int file_of(off_t size)
{
	int descriptor = new_descriptor();
	MUST(!ftruncate(descriptor, size));
	return descriptor;
}

static void put_pool(int descriptor, int32_t size)
{
	begin_message(&wire, SHM, 0);
	put_word(&wire, POOL);
	put_word(&wire, (uint32_t)size);
	end_message(&wire);
	put_descriptor(&wire, descriptor);
}

static void put_buffer(uint32_t id, int32_t offset, int32_t width, int32_t height, int32_t stride, uint32_t format)
{
	put_message(&wire, POOL, CREATE_BUFFER, 6, id, offset, width, height, stride, format);
}

/* A client with a pool of a page and a buffer in it. */
static struct wl_shm_buffer *open_with_buffer(struct peer *peer, int *file)
{
	bind_shm(peer);
	*file = file_of(PAGE);
	put_pool(dup(*file), PAGE);
	put_buffer(BUFFER, 0, 32, 32, 128, WL_SHM_FORMAT_ARGB8888);
	asks(peer, &wire);
	parse(NULL, peer);
	struct wl_shm_buffer *buffer = wl_shm_buffer_get(wl_client_get_object(peer->client, BUFFER));
	MUST(buffer);
	return buffer;
}

static void formats(void)
{
	begin();
	put_bind(&wire, 2, "wl_shm", 1, SHM);
	hears("a bind", &peers[0], &wire);
}

static void facts_of_buffers(void)
{
	int file;
	begin();
	struct wl_shm_buffer *buffer = open_with_buffer(&peers[0], &file);
	char *data = wl_shm_buffer_get_data(buffer);
	MUST(pwrite(file, "x", 1, 5) == 1);
	printf("%d by %d, stride %d, format %u, data %d\n", wl_shm_buffer_get_width(buffer),
		wl_shm_buffer_get_height(buffer), wl_shm_buffer_get_stride(buffer), wl_shm_buffer_get_format(buffer),
		data[5]);
	printf("of nothing %d, of another interface %d\n", wl_shm_buffer_get(NULL) == NULL,
		wl_shm_buffer_get(compositor_resource) == NULL);
	put_message(&wire, BUFFER, 0, 0);
	put_message(&wire, POOL, POOL_DESTROY, 0);
	put_message(&wire, 1, SYNC, 1, OTHER_BUFFER);
	hears("both are destroyed", &peers[0], &wire);
}

static void pools_that_are_wrong(void)
{
	static const int32_t sizes[] = { 0, -1, PAGE };
	for (size_t at = 0; at < sizeof sizes / sizeof *sizes; at++) {
		begin();
		bind_shm(&peers[0]);
		parse(NULL, &peers[0]);
		int ends[2];
		MUST(!pipe(ends));
		put_pool(sizes[at] == PAGE ? ends[0] : file_of(PAGE), sizes[at]);
		hears(sizes[at] == PAGE ? "a pipe" : "a size", &peers[0], &wire);
	}
}

static void buffers_that_are_wrong(void)
{
	static const struct { int32_t offset, width, height, stride; uint32_t format; } tried[] = {
		{ 0, 32, 32, 128, 12345 }, { -1, 32, 32, 128, 0 }, { 0, 0, 32, 128, 0 }, { 0, 32, 0, 128, 0 },
		{ 0, 32, 32, 31, 0 }, { 4, 32, 32, 128, 0 }, { 0, 32, 33, 128, 0 }, { 0, 32, 0x1000000, 128, 0 },
		{ 0, -1, 32, 128, 0 }, { 0, 32, 32, 128, WL_SHM_FORMAT_RGB565 },
	};
	for (size_t at = 0; at < sizeof tried / sizeof *tried; at++) {
		begin();
		bind_shm(&peers[0]);
		parse(NULL, &peers[0]);
		put_pool(file_of(PAGE), PAGE);
		put_buffer(BUFFER, tried[at].offset, tried[at].width, tried[at].height, tried[at].stride, tried[at].format);
		hears("a buffer", &peers[0], &wire);
		if (!peers[0].has_ended)
			printf("made: %d\n", wl_client_get_object(peers[0].client, BUFFER) != NULL);
	}
}

static void pools_that_change_their_size(void)
{
	int file;
	begin();
	struct wl_shm_buffer *buffer = open_with_buffer(&peers[0], &file);
	MUST(!ftruncate(file, 4 * PAGE));
	put_message(&wire, POOL, POOL_RESIZE, 1, 4 * PAGE);
	put_buffer(OTHER_BUFFER, 3 * PAGE, 32, 32, 128, 0);
	hears("larger", &peers[0], &wire);
	struct wl_shm_buffer *other = wl_shm_buffer_get(wl_client_get_object(peers[0].client, OTHER_BUFFER));
	MUST(other && pwrite(file, "yz", 2, 3 * PAGE) == 2);
	printf("data %d, %d bytes behind the first\n", *(char *)wl_shm_buffer_get_data(other),
		(int)((char *)wl_shm_buffer_get_data(other) - (char *)wl_shm_buffer_get_data(buffer)));
	put_message(&wire, POOL, POOL_RESIZE, 1, PAGE);
	hears("smaller", &peers[0], &wire);
}

/* Who holds a pool keeps its memory where it is, also when the pool grows, and when all its objects are gone. */
static void a_pool_that_is_held(void)
{
	int file;
	begin();
	struct wl_shm_buffer *buffer = open_with_buffer(&peers[0], &file);
	struct wl_shm_pool *pool = wl_shm_buffer_ref_pool(buffer);
	char *data = wl_shm_buffer_get_data(buffer);
	MUST(!ftruncate(file, 64 * PAGE));
	put_message(&wire, POOL, POOL_RESIZE, 1, 64 * PAGE);
	hears("larger while it is held", &peers[0], &wire);
	MUST(pwrite(file, "q", 1, 0) == 1);
	printf("where it was: %d, data %d\n", wl_shm_buffer_get_data(buffer) == data, data[0]);
	put_message(&wire, BUFFER, 0, 0);
	put_message(&wire, POOL, POOL_DESTROY, 0);
	hears("its objects are destroyed", &peers[0], &wire);
	MUST(pwrite(file, "r", 1, 0) == 1);
	printf("data %d\n", data[0]);
	wl_shm_pool_unref(pool);
	wl_display_destroy_clients(display);
}

/* How many mappings of memory files this process has. */
static int count_mapped(void)
{
	char line[4096];
	int count = 0;
	FILE *file = fopen("/proc/self/maps", "r");
	MUST(file);
	while (fgets(line, sizeof line, file))
		count += strstr(line, "memfd:descriptor") != NULL;
	fclose(file);
	return count;
}

static void mappings_that_end(void)
{
	int file;
	begin();
	open_with_buffer(&peers[0], &file);
	printf("mapped: %d\n", count_mapped());
	put_message(&wire, POOL, POOL_DESTROY, 0);
	asks(&peers[0], &wire);
	printf("for the buffer: %d\n", count_mapped());
	put_message(&wire, BUFFER, 0, 0);
	asks(&peers[0], &wire);
	printf("for nothing: %d\n", count_mapped());
	put_pool(file_of(PAGE), PAGE);
	asks(&peers[0], &wire);
	wl_client_destroy(peers[0].client);
	printf("for a client that is gone: %d\n", count_mapped());
}

/* Reads all of a buffer whose file has become shorter. */
static unsigned read_all(struct wl_shm_buffer *buffer)
{
	unsigned sum = 0;
	wl_shm_buffer_begin_access(buffer);
	const volatile unsigned char *data = wl_shm_buffer_get_data(buffer);
	for (int at = 0; at < PAGE; at++)
		sum += data[at];
	wl_shm_buffer_end_access(buffer);
	return sum;
}

static void a_file_that_is_shortened(void)
{
	int file;
	begin();
	struct wl_shm_buffer *buffer = open_with_buffer(&peers[0], &file);
	printf("read %u\n", read_all(buffer));
	wl_shm_buffer_begin_access(buffer);
	MUST(!ftruncate(file, 0));
	printf("read within another access: %u\n", read_all(buffer));
	wl_shm_buffer_end_access(buffer);
	hears("shortened", &peers[0], &wire);
}

struct reader {
	struct wl_shm_buffer *buffer;
	pthread_barrier_t *start;
	unsigned sum;
};

static void *reads(void *data)
{
	struct reader *reader = data;
	pthread_barrier_wait(reader->start);
	reader->sum = read_all(reader->buffer);
	return NULL;
}

/* Each thread reads the buffer of one client. Every second client has shortened its file. */
static void files_that_are_shortened_in_several_threads(void)
{
	pthread_barrier_t start;
	pthread_t threads[THREADS];
	struct reader readers[THREADS];
	begin();
	MUST(!pthread_barrier_init(&start, NULL, THREADS));
	for (int at = 0; at < THREADS; at++) {
		int file;
		if (at)
			open_with_compositor(&peers[at], 4);
		readers[at] = (struct reader){ open_with_buffer(&peers[at], &file), &start, 0 };
		MUST(pwrite(file, "\1\2", 2, 0) == 2);
		if (at % 2)
			MUST(!ftruncate(file, 0));
	}
	for (int at = 0; at < THREADS; at++)
		MUST(!pthread_create(&threads[at], NULL, reads, &readers[at]));
	for (int at = 0; at < THREADS; at++)
		MUST(!pthread_join(threads[at], NULL));
	for (int at = 0; at < THREADS; at++) {
		printf("thread %d has read %u\n", at, readers[at].sum);
		serve(&peers[at]);
		parse("its client", &peers[at]);
	}
}

/* A fault that is not one of a pool ends the process, as without the library. */
static void a_fault_elsewhere(void)
{
	int file;
	begin();
	struct wl_shm_buffer *buffer = open_with_buffer(&peers[0], &file);
	int own = file_of(PAGE);
	volatile char *mapped = mmap(NULL, PAGE, PROT_READ, MAP_SHARED, own, 0);
	MUST(mapped != MAP_FAILED && !ftruncate(own, 0));
	wl_shm_buffer_begin_access(buffer);
	printf("%d\n", mapped[0]);
}

#define PLAYED(name) { #name, name }
static const struct {
	const char *name;
	void (*play)(void);
} played[] = {
	PLAYED(formats), PLAYED(facts_of_buffers), PLAYED(pools_that_are_wrong), PLAYED(buffers_that_are_wrong),
	PLAYED(pools_that_change_their_size), PLAYED(a_pool_that_is_held), PLAYED(mappings_that_end),
	PLAYED(a_file_that_is_shortened), PLAYED(files_that_are_shortened_in_several_threads),
	PLAYED(a_fault_elsewhere),
};

static int play(const void *place)
{
	played[*(const size_t *)place].play();
	return 0;
}

int main(void)
{
	wl_log_set_handler_server(quiet);
	for (size_t at = 0; at < sizeof played / sizeof *played; at++) {
		printf("== %s\n", played[at].name);
		fflush(stdout);
		int status = play_apart(play, &at);
		if (status)
			printf("ended by signal %d, status %d\n", WTERMSIG(status), WEXITSTATUS(status));
	}
	return 0;
}
