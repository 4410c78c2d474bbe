/* The calls with which connections begin and end, and descriptors are copied and closed. */
#include "preload.h"

#include <errno.h>
#include <fcntl.h>
#include <limits.h>
#include <stdarg.h>
#include <stdlib.h>
#include <sys/socket.h>
#include <sys/syscall.h>
#include <unistd.h>

/* Older C libraries don't declare these. */
#ifndef CLOSE_RANGE_CLOEXEC
#define CLOSE_RANGE_CLOEXEC (1u << 2)
#endif
int close_range(unsigned, unsigned, int);
void closefrom(int);

DECLARE(connect); DECLARE(accept); DECLARE(accept4); DECLARE(close); DECLARE(shutdown);
DECLARE(dup); DECLARE(dup2); DECLARE(dup3); DECLARE(fcntl); DECLARE(fcntl64); DECLARE(closefrom); DECLARE(close_range);
DECLARE(_exit); DECLARE(_Exit);

/* ---- the beginning */

SHOWN int connect(int descriptor, const struct sockaddr *address, socklen_t length)
{
    uint64_t opened = next_stamp();
    int result = REAL(connect)(descriptor, address, length);
    int error = errno;
    if (is_recording() && (result == 0 || error == EINPROGRESS || error == EINTR)) {
        bool has_family = length >= sizeof address->sa_family;
        bool is_new = has_family && is_internet(address->sa_family);
        struct connection *connection = take_connection(descriptor);
        if (connection != NULL && is_new && atomic_load(&connection->has_file))
            is_new = false; /* asked again how connecting went */
        give_back(connection);
        if (is_new)
            begin_connection(descriptor, CONNECTED, opened);
        else if (has_family && address->sa_family == AF_UNSPEC)
            drop_descriptor(descriptor);
    }
    errno = error;
    return result;
}

static int was_accepted(int descriptor)
{
    int error = errno;
    if (descriptor >= 0 && is_recording())
        begin_connection(descriptor, ACCEPTED, next_stamp());
    errno = error;
    return descriptor;
}

SHOWN int accept(int descriptor, struct sockaddr *address, socklen_t *length)
{
    return was_accepted(REAL(accept)(descriptor, address, length));
}

SHOWN int accept4(int descriptor, struct sockaddr *address, socklen_t *length, int flags)
{
    return was_accepted(REAL(accept4)(descriptor, address, length, flags));
}

/* ---- the end */

SHOWN int shutdown(int descriptor, int how)
{
    struct connection *connection = take_connection(descriptor);
    if (connection != NULL) {
        int error = errno;
        if (how == SHUT_WR || how == SHUT_RDWR)
            note(connection, SHUT, (unsigned)how);
        give_back(connection);
        errno = error;
    }
    return REAL(shutdown)(descriptor, how);
}

SHOWN int close(int descriptor)
{
    __typeof__(&close) real = REAL(close);
    if (real == NULL) /* while the calls are being looked up */
        return (int)syscall(SYS_close, descriptor);
    if (descriptor >= 0)
        leave_descriptors((unsigned)descriptor, (unsigned)descriptor);
    return real(descriptor);
}

SHOWN void closefrom(int first)
{
    leave_descriptors(first < 0 ? 0 : (unsigned)first, UINT_MAX);
    REAL(closefrom)(first);
}

SHOWN int close_range(unsigned first, unsigned last, int flags)
{
    if (!((unsigned)flags & CLOSE_RANGE_CLOEXEC))
        leave_descriptors(first, last);
    return REAL(close_range)(first, last, flags);
}

/* A process that ends closes what it has. */
#define EXIT(name)                                                                        \
    SHOWN _Noreturn void name(int status)                                                 \
    {                                                                                     \
        leave_descriptors(0, UINT_MAX);                                                   \
        REAL(name)(status);                                                               \
        __builtin_unreachable();                                                          \
    }

EXIT(_exit)
EXIT(_Exit)

/* ---- copies */

SHOWN int dup(int descriptor)
{
    int copy = REAL(dup)(descriptor);
    copy_descriptor(descriptor, copy);
    return copy;
}

SHOWN int dup2(int descriptor, int wanted)
{
    int copy = REAL(dup2)(descriptor, wanted);
    copy_descriptor(descriptor, copy);
    return copy;
}

SHOWN int dup3(int descriptor, int wanted, int flags)
{
    int copy = REAL(dup3)(descriptor, wanted, flags);
    copy_descriptor(descriptor, copy);
    return copy;
}

#define FCNTL(name)                                                                       \
    SHOWN int name(int descriptor, int command, ...)                                      \
    {                                                                                     \
        va_list arguments;                                                                \
        va_start(arguments, command);                                                     \
        void *argument = va_arg(arguments, void *);                                       \
        va_end(arguments);                                                                \
        int result = REAL(name)(descriptor, command, argument);                           \
        if (command == F_DUPFD || command == F_DUPFD_CLOEXEC)                             \
            copy_descriptor(descriptor, result);                                          \
        return result;                                                                    \
    }

FCNTL(fcntl)
FCNTL(fcntl64)
