/* What the tests of a libwayland-client share: the messages of a compositor, written by hand, and
 * a count of the descriptors that are open. */
#ifndef WIRE_H
#define WIRE_H

#include "../must.h"

#include <dlfcn.h>
#include <errno.h>
#include <stdarg.h>
#include <stdint.h>
#include <string.h>
#include <sys/mman.h>
#include <sys/syscall.h>
#include <sys/wait.h>
#include <unistd.h>

#define FIRST_SERVER_ID 0xff000000u
#define MOST_DESCRIPTORS 28

/* Messages that are sent at once, and the descriptors that go with their first byte. */
struct wire {
	unsigned char bytes[16384];
	size_t length, start;
	int descriptors[MOST_DESCRIPTORS];
	size_t count;
};

static inline void put_word(struct wire *wire, uint32_t word)
{
	MUST(wire->length + sizeof word <= sizeof wire->bytes);
	memcpy(wire->bytes + wire->length, &word, sizeof word);
	wire->length += sizeof word;
}

/* An array: its length, its bytes, and zeros up to a word. */
static inline void put_array(struct wire *wire, const void *bytes, size_t length)
{
	size_t padded = (length + 3) / 4 * 4;
	put_word(wire, (uint32_t)length);
	MUST(wire->length + padded <= sizeof wire->bytes);
	memset(wire->bytes + wire->length, 0, padded);
	if (length)
		memcpy(wire->bytes + wire->length, bytes, length);
	wire->length += padded;
}

static inline void put_text(struct wire *wire, const char *text)
{
	if (text)
		put_array(wire, text, strlen(text) + 1);
	else
		put_word(wire, 0);
}

/* The wire owns the descriptor from here on. */
static inline void put_descriptor(struct wire *wire, int descriptor)
{
	MUST(wire->count < MOST_DESCRIPTORS && descriptor >= 0);
	wire->descriptors[wire->count++] = descriptor;
}

static inline void begin_message(struct wire *wire, uint32_t object, uint16_t opcode)
{
	wire->start = wire->length;
	put_word(wire, object);
	put_word(wire, opcode);
}

static inline void end_message(struct wire *wire)
{
	uint32_t word;
	memcpy(&word, wire->bytes + wire->start + 4, sizeof word);
	word |= (uint32_t)(wire->length - wire->start) << 16;
	memcpy(wire->bytes + wire->start + 4, &word, sizeof word);
}

/* A message of a few words. */
static inline void put_message(struct wire *wire, uint32_t object, uint16_t opcode, int words, ...)
{
	va_list list;
	va_start(list, words);
	begin_message(wire, object, opcode);
	while (words-- > 0)
		put_word(wire, va_arg(list, uint32_t));
	end_message(wire);
	va_end(list);
}

static inline void put_global(struct wire *wire, uint32_t registry, uint32_t name,
	const char *interface, uint32_t version)
{
	begin_message(wire, registry, 0);
	put_word(wire, name);
	put_text(wire, interface);
	put_word(wire, version);
	end_message(wire);
}

/* Sends the first `length` bytes, with all descriptors. They stay the wire's. */
static inline void send_part(const struct wire *wire, size_t length, int socket)
{
	char control[CMSG_SPACE(sizeof wire->descriptors)] = { 0 };
	struct iovec part = { (void *)(uintptr_t)wire->bytes, length };
	struct msghdr message = { .msg_iov = &part, .msg_iovlen = 1 };
	if (wire->count) {
		message.msg_control = control;
		message.msg_controllen = CMSG_SPACE(wire->count * sizeof(int));
		struct cmsghdr *head = CMSG_FIRSTHDR(&message);
		head->cmsg_level = SOL_SOCKET;
		head->cmsg_type = SCM_RIGHTS;
		head->cmsg_len = CMSG_LEN(wire->count * sizeof(int));
		memcpy(CMSG_DATA(head), wire->descriptors, wire->count * sizeof(int));
	}
	if (length)
		MUST(sendmsg(socket, &message, MSG_NOSIGNAL) == (ssize_t)length);
}

/* Closes the descriptors that the wire owns, and makes it empty. */
static inline void clear_wire(struct wire *wire)
{
	for (size_t at = 0; at < wire->count; at++)
		close(wire->descriptors[at]);
	wire->length = wire->count = 0;
}

static inline void send_wire(struct wire *wire, int socket)
{
	send_part(wire, wire->length, socket);
	clear_wire(wire);
}

static inline int new_descriptor(void)
{
	int descriptor = memfd_create("descriptor", MFD_CLOEXEC);
	MUST(descriptor >= 0);
	return descriptor;
}

/* A signal ends a process that hangs after this many seconds: many times what it needs. */
#define HANGS 240

/* Limits what waits behind the socket, if the library is newer than libwayland 1.21, which has a limit of its own. */
static inline void limit_waiting(void *display, size_t most)
{
	void *found = dlsym(RTLD_DEFAULT, "wl_display_set_max_buffer_size");
	if (found)
		(*(void (**)(void *, size_t))&found)(display, most);
}

/* A log handler that prints nothing. */
static inline void quiet(const char *format, va_list list)
{
	(void)format, (void)list;
}

static inline const char *name_of(int error)
{
	return error ? strerrorname_np(error) : "0";
}

/* Plays in a process of its own, whose status is the play's. Returns how the process has ended. */
static inline int play_apart(int (*play)(const void *), const void *what)
{
	int status;
	pid_t child = fork();
	MUST(child >= 0);
	if (!child) {
		alarm(HANGS);
		status = play(what);
		fflush(stdout);
		_exit(status);
	}
	MUST(waitpid(child, &status, 0) == child);
	return status;
}

#ifdef COUNT_CLOSES
/* How often a descriptor was closed that was not open. The library's calls come here, too. */
static int closed_twice;

int close(int descriptor)
{
	int status = (int)syscall(SYS_close, descriptor);
	if (status && errno == EBADF)
		closed_twice++;
	return status;
}
#endif

#endif
