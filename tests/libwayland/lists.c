/* Prints what wl_list_* and wl_array_* do: two libraries that are alike print the same. With the word `overflow` it
 * asks instead for more bytes than there can be, which libwayland 1.21 does not bear. */
#include <errno.h>
#include <stdint.h>
#include <stdio.h>
#include <string.h>
#include <wayland-client-core.h>

#define MOST 8

static struct wl_list heads[2], links[MOST];

static int number_of(const struct wl_list *link)
{
	return link == &heads[0] ? -1 : link == &heads[1] ? -2 : (int)(link - links);
}

/* A list forwards and backwards. */
static void print_list(const char *what, const struct wl_list *head)
{
	printf("%s: %d, empty %d:", what, wl_list_length(head), wl_list_empty(head));
	for (const struct wl_list *link = head->next; link != head; link = link->next)
		printf(" %d", number_of(link));
	printf(" |");
	for (const struct wl_list *link = head->prev; link != head; link = link->prev)
		printf(" %d", number_of(link));
	printf("\n");
}

static void print_lists(void)
{
	wl_list_init(&heads[0]);
	wl_list_init(&heads[1]);
	print_list("init", &heads[0]);
	wl_list_insert_list(&heads[0], &heads[1]);
	print_list("nothing inserted", &heads[0]);
	for (int i = 0; i < 3; i++)
		wl_list_insert(&heads[0], &links[i]);
	print_list("inserted", &heads[0]);
	wl_list_insert(heads[0].prev, &links[3]);
	print_list("inserted last", &heads[0]);
	for (int i = 4; i < 6; i++)
		wl_list_insert(&heads[1], &links[i]);
	wl_list_insert_list(&links[1], &heads[1]);
	print_list("list inserted", &heads[0]);
	wl_list_remove(&links[1]);
	print_list("removed", &heads[0]);
	printf("links: %d %d\n", !links[1].prev, !links[1].next);
}

static void print_array(const char *what, const struct wl_array *array)
{
	unsigned sum = 0;
	for (size_t i = 0; i < array->size; i++)
		sum = sum * 31 + ((unsigned char *)array->data)[i];
	printf("%s: %zu of %zu, %u\n", what, array->size, array->alloc, sum);
}

static void print_arrays(void)
{
	struct wl_array one, other;
	wl_array_init(&one);
	printf("init: %zu of %zu, null %d\n", one.size, one.alloc, !one.data);
	for (int i = 0; i < 40; i++) {
		char *added = wl_array_add(&one, (size_t)i);
		memset(added, i, (size_t)i);
		printf("%d at %td\n", i, added - (char *)one.data);
		print_array("added", &one);
	}
	wl_array_init(&other);
	printf("copied: %d\n", wl_array_copy(&other, &one));
	print_array("copy", &other);
	one.size = 5;
	printf("copied: %d\n", wl_array_copy(&other, &one));
	print_array("shorter", &other);
	one.size = 0;
	printf("copied: %d\n", wl_array_copy(&other, &one));
	print_array("empty", &other);
	wl_array_release(&one);
	wl_array_release(&other);
	printf("released: %d\n", (int)(intptr_t)one.data);
	wl_array_init(&one);
	printf("nothing: %d\n", wl_array_add(&one, 0) != NULL);
	print_array("nothing added", &one);
	wl_array_release(&one);
}

static int overflow(void)
{
	struct wl_array array, source;
	wl_array_init(&array);
	source = array;
	for (size_t size = SIZE_MAX; size > PTRDIFF_MAX / 2; size -= size / 5) {
		errno = 0;
		if (wl_array_add(&array, size) || errno != ENOMEM || array.size || array.alloc)
			return 1;
		source.size = size;
		if (wl_array_copy(&array, &source) != -1 || array.size)
			return 1;
	}
	return !wl_array_add(&array, 3) || wl_array_add(&array, SIZE_MAX - 1) || array.size != 3;
}

int main(int count, char **words)
{
	if (count > 1 && !strcmp(words[1], "overflow"))
		return overflow();
	print_lists();
	print_arrays();
	return 0;
}
