/* The calls that read from a descriptor. What came is recorded before the program gets it. */
#include "preload.h"

#include <errno.h>
#include <pthread.h>
#include <sys/socket.h>
#include <sys/syscall.h>
#include <unistd.h>

DECLARE(read); DECLARE(readv); DECLARE(recv); DECLARE(recvfrom); DECLARE(recvmsg); DECLARE(recvmmsg);

/* What a program calls that was built with _FORTIFY_SOURCE. */
ssize_t __read_chk(int, void *, size_t, size_t);
ssize_t __recv_chk(int, void *, size_t, size_t, int);
ssize_t __recvfrom_chk(int, void *, size_t, size_t, int, struct sockaddr *, socklen_t *);
DECLARE(__read_chk); DECLARE(__recv_chk); DECLARE(__recvfrom_chk);

/* Reading can come to the same end many times. */
static void end_reading(struct connection *connection, int error)
{
    if (!atomic_exchange(&connection->has_ended, true))
        note(connection, ENDED, (unsigned)error);
}

/* After a call that reads: what came is in the pieces. */
static ssize_t was_read(int descriptor, struct connection *connection, ssize_t result, const struct iovec *pieces,
                        size_t count, int flags)
{
    if (connection == NULL)
        return result;
    int error = errno;
    if (!(flags & (MSG_PEEK | MSG_ERRQUEUE))) {
        if (result > 0 && (flags & (MSG_TRUNC | MSG_OOB)))
            lose_connection(connection, "reading with MSG_TRUNC or MSG_OOB");
        else if (result > 0 && !atomic_load(&connection->is_tls)) {
            struct event event = {RECEIVED, 0, next_stamp(), 0};
            record(connection, descriptor, event, (struct bytes){pieces, count, (size_t)result});
        } else if (result == 0 && count > 0 && pieces[0].iov_len > 0)
            end_reading(connection, 0);
        else if (result < 0 && is_final(error))
            end_reading(connection, error);
    }
    give_back(connection);
    errno = error;
    return result;
}

static void abandon_reading(void *connection)
{
    give_back(connection);
}

/* Makes the call, and records what it gave. A thread that is cancelled in the call gives its reference back. */
#define READ_BY(descriptor, call, pieces, count, flags)                                   \
    struct connection *connection = take_connection(descriptor);                          \
    ssize_t result;                                                                       \
    pthread_cleanup_push(abandon_reading, connection);                                    \
    result = (call);                                                                      \
    pthread_cleanup_pop(0);                                                               \
    return was_read((descriptor), connection, result, (pieces), (count), (flags))

SHOWN ssize_t read(int descriptor, void *buffer, size_t size)
{
    __typeof__(&read) real = REAL(read);
    if (real == NULL) /* while the calls are being looked up */
        return syscall(SYS_read, descriptor, buffer, size);
    struct iovec piece = {buffer, size};
    READ_BY(descriptor, real(descriptor, buffer, size), &piece, 1, 0);
}

SHOWN ssize_t __read_chk(int descriptor, void *buffer, size_t size, size_t room)
{
    struct iovec piece = {buffer, size};
    READ_BY(descriptor, REAL(__read_chk)(descriptor, buffer, size, room), &piece, 1, 0);
}

SHOWN ssize_t readv(int descriptor, const struct iovec *pieces, int count)
{
    READ_BY(descriptor, REAL(readv)(descriptor, pieces, count), pieces, (size_t)count, 0);
}

SHOWN ssize_t recv(int descriptor, void *buffer, size_t size, int flags)
{
    struct iovec piece = {buffer, size};
    READ_BY(descriptor, REAL(recv)(descriptor, buffer, size, flags), &piece, 1, flags);
}

SHOWN ssize_t __recv_chk(int descriptor, void *buffer, size_t size, size_t room, int flags)
{
    struct iovec piece = {buffer, size};
    READ_BY(descriptor, REAL(__recv_chk)(descriptor, buffer, size, room, flags), &piece, 1, flags);
}

SHOWN ssize_t recvfrom(int descriptor, void *buffer, size_t size, int flags, struct sockaddr *address,
                       socklen_t *length)
{
    struct iovec piece = {buffer, size};
    READ_BY(descriptor, REAL(recvfrom)(descriptor, buffer, size, flags, address, length), &piece, 1, flags);
}

SHOWN ssize_t __recvfrom_chk(int descriptor, void *buffer, size_t size, size_t room, int flags,
                             struct sockaddr *address, socklen_t *length)
{
    struct iovec piece = {buffer, size};
    READ_BY(descriptor, REAL(__recvfrom_chk)(descriptor, buffer, size, room, flags, address, length), &piece, 1,
            flags);
}

SHOWN ssize_t recvmsg(int descriptor, struct msghdr *message, int flags)
{
    READ_BY(descriptor, REAL(recvmsg)(descriptor, message, flags), message->msg_iov, message->msg_iovlen, flags);
}

SHOWN int recvmmsg(int descriptor, struct mmsghdr *messages, unsigned count, int flags, struct timespec *timeout)
{
    int result = REAL(recvmmsg)(descriptor, messages, count, flags, timeout);
    int error = errno;
    for (int i = 0; i < result; i++) {
        const struct msghdr *message = &messages[i].msg_hdr;
        ssize_t size = (ssize_t)messages[i].msg_len;
        was_read(descriptor, take_connection(descriptor), size, message->msg_iov, message->msg_iovlen, flags);
    }
    errno = error;
    return result;
}
