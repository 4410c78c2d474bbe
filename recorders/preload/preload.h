/* What the modules of the preloaded library share.
 *
 * It records what an unchanged program (Linux, glibc, x86-64) reads from and writes to its MQTT connections. It is
 * loaded with LD_PRELOAD and is between the program and the C library's calls on sockets, and OpenSSL's on TLS
 * connections. What a call gave goes to a raw file for each connection, in the folder that the environment variable
 * MQTT_RECORD_FOLDER names; `assemble` makes logs of these files. README.md says what is seen and what isn't.
 *
 * The program never notices: errno is kept, no file stays open between two calls (so no descriptor of the program's
 * is taken, and none of ours can be closed by it), and where recording fails, it stops, with one line on standard
 * error.
 *
 * One .c file has one idea:
 *   reading.c, writing.c, sockets.c, openssl.c   the calls that the program makes, in place of the real ones
 *   recording.c                                  what is recorded of a call
 *   connections.c                                which connection a descriptor stands for
 *   raw_file.c                                   the raw files
 *   order.c                                      stamps and locks
 *   process.c                                    start, fork and end of a process; its recording stops
 *   calls.c                                      the real calls
 */
#ifndef PRELOAD_H
#define PRELOAD_H

#ifndef _GNU_SOURCE
#define _GNU_SOURCE
#endif
#include <stdatomic.h>
#include <stdbool.h>
#include <stddef.h>
#include <stdint.h>
#include <sys/types.h>
#include <sys/uio.h>

/* The program finds these alone: all else is hidden, and can't be taken for something of its own. */
#define SHOWN __attribute__((visibility("default")))

/* The kinds of records in a raw file, and their flags. raw.py has the same numbers, and says what they mean. */
enum kind { RECEIVED = 1, SENT, LEFT, SHUT, ENDED, HELD, RESTARTED, GAP, WRITING };
enum { SHORT = 1, OVERLAPPING = 2, PARTLY = 4 };

/* What a record says, but for its bytes. Times are in nanoseconds. */
struct event {
    enum kind kind;
    unsigned flags;
    uint64_t stamp, took;
};

/* The first `length` bytes of `count` pieces. */
struct bytes {
    const struct iovec *pieces;
    size_t count, length;
};

enum side { ACCEPTED, CONNECTED };
enum state { UNDECIDED, RECORDED, PASSED_OVER };

struct connection {
    struct connection *next; /* in the list of free ones, or in a list of TLS connections without a socket */
    const void *session;     /* that TLS connection */
    unsigned references;     /* descriptors, and calls that are at work */
    unsigned descriptors;
    ino_t inode;
    enum side side;
    uint64_t opened;
    atomic_int gate;   /* held while state and file are decided */
    atomic_int writer; /* the thread that writes */
    atomic_int state;
    atomic_bool is_tls, has_file, has_ended;
    size_t early;               /* bytes that came while the state was undecided */
    uint32_t process, number;   /* of the file's name */
    _Atomic uint64_t attempted; /* stamp of a TLS write that is to be tried again */
};

/* ---- calls.c */

/* The call of this name that would be made if this library weren't there. It is looked up once. NULL while this very
 * thread is looking one up: the C library may read a file then. */
void *real_call(void *_Atomic *kept, const char *name);

/* `REAL(read)(..)` is the C library's own call, after DECLARE(read). */
#define DECLARE(name) static void *_Atomic real_##name
#define REAL(name) ((__typeof__(&name))real_call(&real_##name, #name))

/* ---- order.c */

uint64_t clock_now(void);

/* The time in nanoseconds, and more than any stamp of this process before. */
uint64_t next_stamp(void);

/* When a stamp was, in nanoseconds since 1970-01-01 UTC, by the clocks as they are now. */
uint64_t time_of_stamp(uint64_t stamp);

/* The number of this thread. */
int this_thread(void);

/* Takes a lock that is held for a few instructions. False where this very thread has it, in a call that a signal
 * interrupted. */
bool lock(atomic_int *held);
void unlock(atomic_int *held);

/* In a child, whose only thread has a number of its own. */
void forget_thread(void);

/* ---- process.c */

/* A child of vfork shares this memory, and isn't recorded. */
bool is_recording(void);

/* The process that is recorded. */
pid_t recorded_process(void);

/* Ends the recording of this process, and of those that start later, with one line. */
void stop_recording(const char *what, int error);

/* Writes a line to standard error, if that is still what it was when the program began. */
void write_error_line(const char *line, int length);

/* ---- raw_file.c */

/* Takes the folder for the raw files. False where the name can't be one. */
bool use_folder(const char *named);

/* A process that has stopped says so in the folder, for all processes. */
void mark_stopped(const char *reason);
bool is_marked_stopped(void);

/* In a child, whose files have its own process's number. */
void number_files_anew(void);

/* Makes the connection's file, with its opening line. */
bool make_file(struct connection *connection, int descriptor);
void remove_file(struct connection *connection);

/* Appends a record; where there are more bytes than a record may have, several. */
void append(const struct connection *connection, struct event event, struct bytes bytes);

/* Appends a record without bytes, if the connection has a file. */
void note(const struct connection *connection, enum kind kind, unsigned flags);

/* ---- connections.c */

bool is_internet(int family);

/* A connection begins on the descriptor, if that is a TCP socket. */
void begin_connection(int descriptor, enum side side, uint64_t opened);

/* The connection of a descriptor, with a reference, or NULL. A descriptor that stands for something else by now is
 * dropped. */
struct connection *take_connection(int descriptor);

/* The connection of a TLS connection without a socket, with a reference, or NULL. It begins here, if it is new. */
struct connection *take_session(const void *session, enum side side);

/* Gives a reference back. NULL is no reference. */
void give_back(struct connection *connection);

/* The descriptor doesn't stand for its connection any more. */
void drop_descriptor(int descriptor);

/* The same for all from the first to the last. It comes before they are closed: afterwards their numbers may stand
 * for something else. */
void leave_descriptors(unsigned first, unsigned last);

/* A TLS connection without a socket ends. */
void leave_session(const void *session);

/* `copy` stands for what `descriptor` stands for. */
void copy_descriptor(int descriptor, int copy);

/* Around a fork: the child gets the table as it is between two changes. */
void hold_connections(void);
void free_connections(void);
void free_connections_in_child(void);

/* ---- recording.c */

/* Records bytes of a connection, if it is one of MQTT. */
void record(struct connection *connection, int descriptor, struct event event, struct bytes bytes);

/* From here on the connection's bytes aren't known. NULL is no connection. */
void lose_connection(struct connection *connection, const char *what);

/* Whether a call that failed with this error means that the connection is over. */
bool is_final(int error);

#endif
