/* waywire-inspect: connects Wayland clients to their compositor, passes on all that they send, and prints and
 * judges each message.
 *
 * A session is one client's connection (session.c). It has two ways, one for each direction (way.c), and a
 * judging (judge.h), which gets each piece after it was passed on. run.c waits for all sessions. The pieces of a
 * recording go through a judging too (read.c). */
#ifndef INSPECT_H
#define INSPECT_H

#include "judge.h"
#include "pieces.h"

#include <poll.h>
#include <signal.h>
#include <sys/types.h>
#include <time.h>
#include <waywire-socket.h>

#define PIECE_BYTES 65536
/* The kernel passes at most this number of descriptors at once. */
#define PIECE_DESCRIPTORS 253
/* After how many milliseconds something is tried again that could not be done. */
#define SOON 20
/* The exit status if nothing could be inspected. */
#define NOTHING_INSPECTED 125
/* The exit status if --strict refuses a session that is not broken. */
#define NOT_STRICT 123

/* What a line begins with. */
enum front { TIME_NONE, TIME_SINCE, TIME_DELTA, TIME_CLOCK };

struct options {
	char **tables; /* the files of --tables */
	size_t table_count;
	int no_tables; /* the installed ones are not read */
	uint32_t limit;
	const char *record;  /* null if nothing is recorded */
	int record_last;     /* also keep the last part of a long session */
	off_t record_limit;  /* the most bytes of a recording; 0 if there is no limit */
	const char *read;    /* the recording that is read; null if there is none */
	int follow;          /* at the end of the recording, wait for more */
	const char *debug_log; /* the log of WAYLAND_DEBUG that is read; null if there is none */
	const char *output;  /* null if it is standard output */
	const char *picture; /* null if none is made */
	const char *filters_file; /* with lines of filters; null if there is none */
	struct shown *shown; /* as it is now: that file may change it (filter_lines.c) */
	enum front time;
	int json, stats, strict, stop_when_broken, verbose;
	struct fault_lines faults;
	struct filter stop;      /* the messages at which both sides stop */
	const char *faults_file; /* with lines of faults; null if there is none */
	int no_names; /* lines without the names of values */
	double late;  /* what has waited for so many seconds is said to wait, and refused by --strict; 0 if nothing is */
	bool colour;
	char **command; /* ends with a null; null if there is none */
};

/* ---- what is said (output.c) */

/* The tool's name, which its main defines: waywire-replay has these files in it too. */
extern const char tool_name[];

/* Writes a line to standard error, after the tool's name. */
void notice(const char *format, ...) __attribute__((format(printf, 1, 2)));

/* Writes a line to standard error, and ends the tool with the status for nothing inspected. */
void fail(const char *format, ...) __attribute__((format(printf, 1, 2), noreturn));

/* From now on, output goes to a file, which is emptied when the first line comes. Ends the tool if it cannot be
 * opened. */
void print_to(const char *path);

/* As `print_to`, but the file stays as it was until `print_end`. */
void print_whole_to(const char *path);

/* Ends the output: what was printed is in the file. */
void print_end(void);

/* Whether it goes to a terminal. */
bool prints_to_terminal(void);

/* Prints bytes. */
void print(const char *text, size_t length);

/* Prints the name of the socket for clients, on standard output, or aside on standard error. */
void print_name(const char *display, bool is_aside);

/* Flushes what was printed. */
void print_now(void);

/* The signals that stay blocked while standard output takes nothing. After any other signal, it is
 * waited for a second and no more. */
void print_waits_with(const sigset_t *signals);

/* From now on, standard output is waited for at most a second. */
void print_briefly(void);

/* ---- the lines of --filters (filter_lines.c) */

/* Reads the file of --filters, if there is one. Ends the tool if it has a bad line. */
void filters_begin(const struct options *options, const waywire_tables *tables);

/* Reads it again if it has changed since. If it has a bad line, all is printed that was, and a line says so. */
void filters_look(const struct options *options, const waywire_tables *tables);

/* How often it is looked at, in milliseconds; -1 if there is none. */
int filters_due(const struct options *options);

void filters_free(const struct options *options);

/* ---- what is read and what is written (files.c) */

/* Ends the tool if a file would be read and written, or written twice. */
void check_files(const struct options *options);

/* Whether a path leads to a file that is read. */
bool is_input(const struct options *options, const char *path);

/* A file that is written beside its target, which it replaces once it is whole. A pipe or a device is written as it
 * is. */
struct replacement {
	int file;     /* -1 if none is open */
	char *target;
	char *path;   /* null if the target is written as it is */
};

/* Begins one. False with errno set if that fails. */
bool replacement_open(struct replacement *made, const char *path);

/* Replaces the target. False with errno set if that fails; then it is as it was. */
bool replacement_end(struct replacement *made);

/* Leaves the target as it was. */
void replacement_drop(struct replacement *made);

/* ---- where things are (folders.c) */

/* The path of the tool. */
void find_own(char *path, size_t size);

/* The path of a tool in Python, or of a file beside these. */
void find_tool(char *path, size_t size, const char *name);

/* The folder with the installed table texts. */
void find_tables(char *folder, size_t size);

/* The path of the names of the core's arguments and values. */
void find_core_names(char *path, size_t size);

/* ---- the tables (tables.c, texts.c, protocols.c) */

/* The tables of the core and of all texts that were read. */
struct known {
	waywire_tables *tables;
	waywire_tables *raised; /* the same, without an end of versions: sessions are judged by these */
	struct text joined; /* the texts, each after a comment that names it */
	struct text names;  /* the names of the texts, with spaces between, the core first */
};

/* Reads the texts. Ends the tool if that fails. */
void known_read(struct known *known, const struct options *options);

void known_free(struct known *known);

/* Whether a message that the tables lack was left out of them because no text can hold it; then its name (unheld.c). */
bool is_unheld(const struct known *known, const struct message *message, struct name *name);

/* Whether an event ends objects of an interface, though no text can hold that (unheld.c). */
bool is_ended_unmarked(const struct known *known, struct name interface);

/* A table text. */
struct source {
	char *path;
	char *bytes; /* ends with a line feed unless it is empty; null if the text is left out */
	size_t length, lines;
	bool is_given; /* by --tables */
};

/* The longest file that `waywire` reads, and the longest line of a recording. */
#define LONGEST_FILE 16777216

/* Adds a file to a text, but stops once the text is longer than LONGEST_FILE. False with errno set if that fails. */
bool read_bytes(const char *path, struct text *text);

/* Reads a file of at most LONGEST_FILE bytes. Ends the tool if that fails. */
void read_file(const char *path, struct text *text);

/* Reads a text, or an XML, which waywire-tables-from-xml converts. */
void source_read(struct source *source);

/* Makes a text one of tables; it belongs to the source then. */
void source_take(struct source *source, struct text *taken);

/* Makes a text from the installed XML, with the interfaces, or versions of interfaces, that neither the core nor
 * these texts have. False if there are none. */
bool installed_protocols(struct text *made, const struct source *sources, size_t source_count,
	const waywire_tables *core, bool is_verbose);

/* The name that the line at this index declares or extends; empty if it does neither. */
struct name source_names(const struct source *source, size_t at);

/* Whether a text declares an interface; an extension does not. */
bool source_declares(const struct source *source, struct name name);

/* The line after the one at this index. */
size_t source_next_line(const struct source *source, size_t at);

/* The paths of the files with this end in the folder of the installed texts, in the order of their names, to be freed.
 * Null with errno set where the folder cannot be read. */
char **installed_files(const char *end, size_t *count);

/* Removes from a text the interfaces that another text declares, and what extends them. */
void source_without(struct source *source, const struct source *other);

/* Whether a file is a protocol's XML, by its name. */
bool is_xml(const char *path);

/* Finds the path of the names beside a table text; false if its name does not end with .tables. */
bool find_names_beside(char *path, size_t size, const char *tables);

/* Reads the names that stand beside the files of --tables. From now on messages get names; those that are installed
 * are read with the first (names.c). */
void names_read(const struct options *options);

/* Finds the names of a message's arguments, and what their values mean, if that is known. */
void name_arguments(struct message *message);

void names_free(void);

/* Runs a program to its end. Its standard output is added to `output`, unless that is null. If it is to be quiet, its
 * standard error is dropped. Returns its exit status, 127 if it cannot be run. */
int run_to_end(char *const *words, struct text *output, bool is_quiet);

/* ---- a recording (recording.c) */

/* Whose session is recorded. */
struct client {
	unsigned number;
	pid_t process; /* 0 if it is not known */
	char name[64]; /* the name of its program; empty if it is not known */
};

/* A file in the form of docs/FORMATS.md, Recordings; `file` is -1 if there is none. */
struct recording {
	int file;
	char *path;
	off_t length;
	unsigned parts; /* how many were begun after the first file was full */
	struct text fronts[2]; /* for --record-last: the bytes after the last whole message of each direction */
	uint64_t passed[2];    /* how many bytes of each direction have passed */
	const struct options *options;
	const struct known *known;
	struct client client;
};

/* The process at a socket, and its name. */
struct client client_at(int socket, unsigned number);

/* The moment, as `2026-11-26T20:40:00.250Z`; `size` is at least 32. */
void write_moment(char *text, size_t size);

/* The seconds since 1970 in the text of a moment; -1 if the text is none. The fraction of a second may be missing. */
double read_moment(const char *text);

/* The moment in seconds since 1970. */
double moment_now(void);

/* Whether a file can be written. Leaves it as it is, and reports it if it cannot be. */
bool can_write(const char *path);

/* The same of a recording and its tables. */
bool can_record(const char *path);

/* Begins the recording of a client: the file of --record, followed by `.2` for the second client, and so on. With the
 * first it also writes the tables. If that fails, it is reported, and nothing is recorded. */
void recording_begin(struct recording *recording, const struct options *options, const struct known *known,
	const struct client *client);

/* A piece that is recorded. */
struct recorded {
	int from;
	const unsigned char *bytes;
	size_t length, descriptor_count;
	double seconds;
};

/* Adds a piece, with its time. Where the file does not take it, or would be longer than a recording may be, that
 * is said, and the recording ends before it: in the second case with a line that says so. With --record-last it goes
 * on in a second file; `follower` is what the session has come to, null if it is not followed any more. */
void recording_add(struct recording *recording, const struct follower *follower, const struct recorded *piece);

/* Adds a fault that was done. */
void recording_add_fault(struct recording *recording, const struct fault_done *done);

/* Ends the recording with the time at which the session ended. */
void recording_end(struct recording *recording, double seconds);

/* Writes all; false with errno set. */
bool write_whole(int file, const char *text, size_t length);

/* The file of --record for a client, to be freed; null if memory runs out. */
char *numbered(const char *path, unsigned number);

/* ---- a recording that begins in the middle (part.c) */

/* Puts the comments at its head: its time, the objects that there are, and the fronts of messages that are not
 * whole, of each direction. */
void part_put(struct text *text, const struct follower *follower, const struct text fronts[2], double seconds);

/* Makes the objects known that comments of a text name, if there are any. To be called before any message. */
void part_reopen(struct judging *judging, char *text, size_t length);

/* Takes these comments from a text. What follows is not judged, which is said. */
void part_read(struct judging *judging, char *text, size_t length, double seconds);

/* ---- objects from before a recording (reopen.c) */

/* The library's inspector is given messages that make them. */
struct reopening {
	struct follower *follower;
	uint32_t registry, maker; /* the ids by which the messages make them */
};

struct reopened {
	uint32_t id, version;
	const char *name; /* its interface's */
	bool is_ending;
};

/* No more ids than these are used of either range. */
#define MOST_IDS 1048575

/* To be called before any message: from then on so many ids of each range may be used. */
void reopen_begin(struct reopening *reopening, struct follower *follower, size_t client_ids, size_t server_ids);

/* Makes an object known, unless the tables have no message that makes or ends it. */
void reopen_object(struct reopening *reopening, const struct reopened *object);

void reopen_end(struct reopening *reopening);

/* ---- a recording that is read (read.c) */

/* Puts the texts of the folders of --tables in place of these. Ends the tool if a folder has none (texts.c). Returns the
 * paths, which end with a null and are to be freed. */
char **tables_of_folders(struct options *options);

/* Uses the tables beside the recording, unless --tables names others. Returns their path, to be freed. */
char *tables_beside(struct options *options);

/* Notes each comment of a text, from behind its `#` up to a NUL that stands in place of its end for that long. */
void each_comment(char *text, size_t length, void (*note)(void *to, const char *comment), void *to);

/* Which client a recording is, and whether there are others. */
struct numbered {
	unsigned number;
	bool has_others;
};

/* Reads the recording of --read. Returns the exit status. */
int read_recording(const struct options *options, const struct known *known, const struct numbered *which);

/* ---- a log of WAYLAND_DEBUG (debug_log.c) */

/* Reads the log of --read-debug. Returns the exit status. */
int read_debug_log(const struct options *options, const struct known *known);

/* Begins to judge what was made of a log, by the comments before its first piece. Of any other recording nothing is
 * noted. */
void log_begin(struct judging *judging, char *text, size_t length);

/* Notes a later comment. */
void log_comment(struct judging *judging, const char *comment);

/* What the arrays of a message hold is not known. */
void log_hide_arrays(struct message *message);

/* Puts the verdict as far as the log shows it. `verdict` is that of the recording. */
void log_put_lawful(const struct judging *judging, struct text *words);
void log_put_broken(struct text *words, const char *verdict, size_t length);

/* ---- a picture (picture.c) */

/* Prepares --picture and --read-debug: unless --record names a file, a recording is made in a folder of its own. */
void picture_begin(struct options *options);

/* Makes the pages of the recordings of so many clients, if pages are asked for. */
void picture_end(const struct options *options, unsigned client_count);

/* ---- sockets (sockets.c) */

/* Listens in XDG_RUNTIME_DIR under the name waywire-PID, with a number behind it if that is taken. Ends
 * the tool if it fails. */
waywire_listening_socket *listen_in_runtime_folder(void);

/* Notes the compositor's path. To be called before WAYLAND_DISPLAY is changed. */
void find_compositor(void);

/* A socket that is connected to the compositor's path; -1 if that fails, which is reported. It does not look at
 * WAYLAND_SOCKET, which can serve one client only. */
int connect_to_compositor(void);

/* Whether nothing more can be read from a socket. */
bool is_at_end(int socket);

/* Whether both directions of a socket were closed at its other end. */
bool is_hung_up(int socket);

/* ---- a way: the bytes from one socket to another (way.c) */

/* At most one piece waits, with its descriptors. */
struct way {
	int source, target;
	bool is_open;  /* the target still accepts bytes, and the source has not ended */
	bool is_ended; /* the source writes nothing more */
	bool is_later; /* the kernel had no room for the descriptors: try again soon */
	size_t from, to;
	size_t descriptor_count;
	int descriptors[PIECE_DESCRIPTORS];
	unsigned char bytes[PIECE_BYTES];
};

enum came { CAME_NOTHING, CAME_PIECE, CAME_END, CAME_TOO_MANY };

/* Reads a piece; CAME_TOO_MANY if this process has no numbers left for its descriptors. */
enum came way_read(struct way *way);

/* Passes on what waits, as much as the target takes. */
void way_write(struct way *way);

bool way_waits(const struct way *way);

/* Closes the descriptors that wait; those that were sent are the target's own. */
void way_close_descriptors(struct way *way);

/* ---- whether a side reads (unread.c) */

struct reader {
	int side, socket;
	double look;  /* when it is looked at again; -1 if all that was written was read */
	double since; /* it has read nothing since then; -1 if that is not known */
	double longest; /* for how long it was seen to read nothing, at most */
	int unread;   /* how much, as the kernel counts it */
	bool is_said; /* that it reads nothing */
};

void reader_begin(struct reader *reader, int side, int socket);

/* To be called around each write to the side. */
void reader_before_write(struct reader *reader, const struct printer *printer, double now);
void reader_after_write(struct reader *reader, const struct printer *printer, double now, size_t written);

/* Prints it if the side has read nothing for too long. To be called when it is to be looked at. */
void reader_look(struct reader *reader, const struct printer *printer, double now);

/* Prints it if the side has read nothing for a while when its session ends. */
void reader_end(struct reader *reader, const struct printer *printer, double now);

/* ---- a session (session.c) */

struct session {
	struct session *next;
	struct client client;
	char who[128]; /* its program and process; empty if they are not known */
	bool is_over;
	int sockets[2];
	struct way ways[2];
	double connected; /* in seconds after the first client */
	uint64_t descriptors[2];   /* that have come from each side */
	struct reader readers[2];  /* by side */
	struct moment moment;      /* when it was looked at last, for what has waited too long */
	struct judging judging;
	struct recording recording;
	struct faults *faults;     /* null if there are none */
};

/* What all sessions share. */
struct shared {
	const struct options *options;
	const struct known *known;
	struct timespec start;  /* when the first client connected */
	double moment;          /* the same, in seconds since 1970 */
	sigset_t while_waiting; /* the signals that are blocked while the tool waits */
	pid_t command;          /* the process of the command; 0 if there is none */
	unsigned session_count; /* how many were begun */
	uint64_t message_count; /* of the sessions that have ended */
	bool is_stopping, any_has_failed, any_is_refused;
};

/* Begins the session of a client, and takes over its sockets. Null if memory runs out. */
struct session *session_new(struct shared *shared, int client, int compositor);

/* What a session waits for at its two sockets. True if it is to be stepped soon in any case. */
bool session_wants(const struct session *session, struct pollfd *polled);

/* In how many milliseconds something may have waited too long; -1 if nothing waits. */
int session_due(const struct session *session, const struct shared *shared);

/* Prints what has waited too long. `polled` is what the sockets are ready for. */
void session_waits(struct session *session, const struct shared *shared, const struct pollfd *polled);

/* Moves what can be moved without waiting. */
void session_step(struct session *session, struct shared *shared, const struct pollfd *polled);

/* Prints the verdict, closes all and frees the session. */
void session_end(struct session *session, struct shared *shared);

/* ---- the whole (run.c) */

/* Inspects until the command and all sessions have ended. Returns the exit status. */
int run(const struct options *options, const struct known *known);

/* ---- the command and its signals (command.c) */

/* The signals that came since they were last checked. */
extern volatile sig_atomic_t stopped_by, was_typed, child_ended, is_to_go_on;

/* Blocks the signals that the tool waits for, and sets their handlers. `before` gets those that were blocked. */
void take_signals(sigset_t *before);

/* Takes the signal with which what --stop-at stopped goes on. To be called after the others were taken. */
void take_going_on(void);

/* ---- a key that goes on (terminal.c) */

/* Opens the terminal at which the tool was started, if there is one. To be called after take_going_on. */
void terminal_open(void);

/* The terminal, if Enter can be typed for the tool there; -1 if not, as while the tool is in the background. */
int terminal_polled(void);

/* Whether the tool has a terminal, where that may change. */
bool terminal_is_there(void);

/* Drops what was typed so far. */
void terminal_drop(void);

/* Takes what was typed. False if nothing was. */
bool terminal_was_typed(void);

/* Starts the command with the tool's socket as its WAYLAND_DISPLAY. If `is_aside`, its standard output goes to standard
 * error. Returns the result of posix_spawnp. */
int start_command(char **command, const char *display, bool is_aside, const sigset_t *before, pid_t *process);

/* How the command and what it started are doing. */
struct children {
	pid_t command;
	bool is_running;    /* the command */
	bool has_others;    /* processes that it left behind */
	int status;         /* of the command, once it has ended */
	int ended_by;       /* the signal that ended it, 0 if none did */
};

/* Notes which have ended. */
void reap(struct children *children);

/* Ends the tool if the system allows fewer open descriptors than a client may need. */
void check_descriptors(void);

/* Allows as many open descriptors as the system does. */
void allow_descriptors(void);

/* Whether enough numbers above this descriptor are left for those that pass. If not, it is reported. */
bool has_room_behind(int descriptor);

#endif
