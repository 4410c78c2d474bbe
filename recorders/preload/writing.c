/* The calls that write to a descriptor. What they took is recorded once it is known how much it was, with the stamp
 * of the moment before the call; a record before each call says that some bytes may be on their way. */
#include "preload.h"

#include <errno.h>
#include <fcntl.h>
#include <pthread.h>
#include <sched.h>
#include <sys/sendfile.h>
#include <sys/socket.h>
#include <sys/syscall.h>
#include <time.h>
#include <unistd.h>

DECLARE(write); DECLARE(writev); DECLARE(send); DECLARE(sendto); DECLARE(sendmsg); DECLARE(sendmmsg);
DECLARE(sendfile); DECLARE(sendfile64); DECLARE(splice);

/* A call that writes, from its beginning to its end. */
struct writing {
    struct connection *connection;
    int descriptor;
    bool has_lock;
    uint64_t begun;
};

/* Writes of a connection come one after the other, so that their order is known. Waiting for another thread's has a
 * bound. */
static bool lock_writer(struct connection *connection)
{
    const struct timespec pause = {0, 100000};
    int self = this_thread();
    for (int attempt = 0; attempt < 10000; attempt++) {
        int holder = 0;
        if (atomic_compare_exchange_strong(&connection->writer, &holder, self))
            return true;
        if (holder == self)
            return false;
        if (attempt < 100)
            sched_yield();
        else
            syscall(SYS_nanosleep, &pause, NULL);
    }
    return false;
}

static struct writing begin_writing(int descriptor)
{
    struct writing writing = {take_connection(descriptor), descriptor, false, 0};
    if (writing.connection != NULL) {
        int error = errno;
        int state = atomic_load(&writing.connection->state);
        bool is_seen = state != PASSED_OVER && !atomic_load(&writing.connection->is_tls);
        writing.has_lock = is_seen && lock_writer(writing.connection);
        if (is_seen && state == RECORDED)
            note(writing.connection, WRITING, 0);
        writing.begun = next_stamp();
        errno = error;
    }
    return writing;
}

static void abandon_writing(void *given)
{
    struct writing *writing = given;
    if (writing->has_lock)
        unlock(&writing->connection->writer);
    give_back(writing->connection);
}

static size_t size_of(const struct iovec *pieces, size_t count)
{
    size_t size = 0;
    for (size_t i = 0; i < count; i++)
        size += pieces[i].iov_len;
    return size;
}

static void record_sent(const struct writing *writing, bool is_short, struct bytes bytes)
{
    unsigned flags = (is_short ? SHORT : 0) | (writing->has_lock ? 0 : OVERLAPPING);
    struct event event = {SENT, flags, writing->begun, clock_now() - writing->begun};
    record(writing->connection, writing->descriptor, event, bytes);
}

static ssize_t was_written(struct writing *writing, ssize_t result, const struct iovec *pieces, size_t count,
                           int flags)
{
    struct connection *connection = writing->connection;
    if (connection == NULL)
        return result;
    int error = errno;
    if (flags & MSG_OOB)
        lose_connection(connection, "writing with MSG_OOB");
    else if (result > 0 && !atomic_load(&connection->is_tls)) {
        bool is_short = (size_t)result < size_of(pieces, count);
        record_sent(writing, is_short, (struct bytes){pieces, count, (size_t)result});
    } else if (result <= 0 && !atomic_load(&connection->is_tls))
        note(connection, result < 0 && is_final(error) ? ENDED : HELD, 0);
    abandon_writing(writing);
    errno = error;
    return result;
}

/* Makes the call, and records what it took. A thread that is cancelled in the call gives its lock and its reference
 * back. */
#define WRITE_BY(descriptor, call, pieces, count, flags)                                  \
    struct writing writing = begin_writing(descriptor);                                   \
    ssize_t result;                                                                       \
    pthread_cleanup_push(abandon_writing, &writing);                                      \
    result = (call);                                                                      \
    pthread_cleanup_pop(0);                                                               \
    return was_written(&writing, result, (pieces), (count), (flags))

SHOWN ssize_t write(int descriptor, const void *buffer, size_t size)
{
    __typeof__(&write) real = REAL(write);
    if (real == NULL) /* while the calls are being looked up */
        return syscall(SYS_write, descriptor, buffer, size);
    struct iovec piece = {(void *)buffer, size};
    WRITE_BY(descriptor, real(descriptor, buffer, size), &piece, 1, 0);
}

SHOWN ssize_t writev(int descriptor, const struct iovec *pieces, int count)
{
    WRITE_BY(descriptor, REAL(writev)(descriptor, pieces, count), pieces, (size_t)count, 0);
}

SHOWN ssize_t send(int descriptor, const void *buffer, size_t size, int flags)
{
    struct iovec piece = {(void *)buffer, size};
    WRITE_BY(descriptor, REAL(send)(descriptor, buffer, size, flags), &piece, 1, flags);
}

/* TCP Fast Open: a connection begins with its first bytes. */
static void begin_fast(int descriptor, int flags)
{
    if ((flags & MSG_FASTOPEN) && is_recording()) {
        int error = errno;
        struct connection *connection = take_connection(descriptor);
        if (connection == NULL)
            begin_connection(descriptor, CONNECTED, next_stamp());
        give_back(connection);
        errno = error;
    }
}

SHOWN ssize_t sendto(int descriptor, const void *buffer, size_t size, int flags, const struct sockaddr *address,
                     socklen_t length)
{
    struct iovec piece = {(void *)buffer, size};
    begin_fast(descriptor, flags);
    WRITE_BY(descriptor, REAL(sendto)(descriptor, buffer, size, flags, address, length), &piece, 1, flags);
}

SHOWN ssize_t sendmsg(int descriptor, const struct msghdr *message, int flags)
{
    begin_fast(descriptor, flags);
    WRITE_BY(descriptor, REAL(sendmsg)(descriptor, message, flags), message->msg_iov, message->msg_iovlen, flags);
}

SHOWN int sendmmsg(int descriptor, struct mmsghdr *messages, unsigned count, int flags)
{
    struct writing writing = begin_writing(descriptor);
    int result = REAL(sendmmsg)(descriptor, messages, count, flags);
    int error = errno;
    if (writing.connection != NULL) {
        for (int i = 0; i < result; i++) {
            const struct msghdr *message = &messages[i].msg_hdr;
            record_sent(&writing, false, (struct bytes){message->msg_iov, message->msg_iovlen, messages[i].msg_len});
        }
        if (result < (int)count)
            note(writing.connection, HELD, 0);
        abandon_writing(&writing);
    }
    errno = error;
    return result;
}

/* ---- calls that move bytes past the program */

static void lose_descriptor(int descriptor, const char *what)
{
    struct connection *connection = take_connection(descriptor);
    int error = errno;
    lose_connection(connection, what);
    give_back(connection);
    errno = error;
}

SHOWN ssize_t sendfile(int out, int in, off_t *offset, size_t size)
{
    lose_descriptor(out, "sendfile");
    return REAL(sendfile)(out, in, offset, size);
}

SHOWN ssize_t sendfile64(int out, int in, off64_t *offset, size_t size)
{
    lose_descriptor(out, "sendfile");
    return REAL(sendfile64)(out, in, offset, size);
}

SHOWN ssize_t splice(int in, off64_t *in_offset, int out, off64_t *out_offset, size_t size, unsigned flags)
{
    lose_descriptor(in, "splice");
    lose_descriptor(out, "splice");
    return REAL(splice)(in, in_offset, out, out_offset, size, flags);
}
