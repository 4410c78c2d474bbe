/* The raw files: one for each connection, with an opening line and then records, each written whole by one call.
 *
 * A file is opened for each record and closed after it, by system calls of our own, so that the program's descriptors
 * stay its own. */
#include "preload.h"

#include <arpa/inet.h>
#include <errno.h>
#include <fcntl.h>
#include <limits.h>
#include <netinet/in.h>
#include <stdio.h>
#include <string.h>
#include <sys/resource.h>
#include <sys/socket.h>
#include <sys/stat.h>
#include <sys/syscall.h>
#include <unistd.h>

enum {
    RECORD_MOST = 1 << 20, /* bytes of a record */
    PIECES_MOST = 1000,    /* pieces of a record, below IOV_MAX */
    NAME_MOST = 64,        /* bytes of a name in the folder */
    ADDRESS_MOST = 80,
};

/* What comes before each record's bytes. */
struct frame {
    char mark[4];
    uint16_t kind, flags;
    uint32_t process, length;
    uint64_t stamp, took;
};

static char folder[PATH_MAX - NAME_MOST];
static rlim_t file_most; /* bytes of a file */
static atomic_uint files;

/* ---- the folder */

bool use_folder(const char *named)
{
    struct rlimit limit;
    if (named[0] != '/' || strlen(named) >= sizeof folder)
        return false;
    strcpy(folder, named);
    file_most = getrlimit(RLIMIT_FSIZE, &limit) == 0 ? limit.rlim_cur : RLIM_INFINITY;
    return true;
}

static void path_of_stopped(char path[PATH_MAX])
{
    snprintf(path, PATH_MAX, "%s/stopped", folder);
}

void mark_stopped(const char *reason)
{
    char path[PATH_MAX];
    path_of_stopped(path);
    syscall(SYS_symlinkat, reason, AT_FDCWD, path);
}

bool is_marked_stopped(void)
{
    char path[PATH_MAX];
    struct stat file;
    path_of_stopped(path);
    return lstat(path, &file) == 0;
}

void number_files_anew(void)
{
    atomic_store(&files, 0);
}

/* ---- a file */

static void path_of(const struct connection *connection, char path[PATH_MAX])
{
    snprintf(path, PATH_MAX, "%s/%u-%u.raw", folder, (unsigned)connection->process, (unsigned)connection->number);
}

/* Opens a file to append to. */
static int open_file(const char *path, int flags)
{
    long file;
    do
        file = syscall(SYS_openat, AT_FDCWD, path, flags | O_WRONLY | O_APPEND | O_CLOEXEC, 0600);
    while (file < 0 && errno == EINTR);
    return (int)file;
}

/* Writes all pieces by one call. */
static bool write_whole(int file, const struct iovec *pieces, size_t count, size_t length)
{
    struct stat now;
    long written;
    if (file_most != RLIM_INFINITY && (fstat(file, &now) != 0 || (rlim_t)now.st_size + length > file_most)) {
        errno = EFBIG; /* the call itself would raise a signal */
        return false;
    }
    do
        written = syscall(SYS_writev, file, pieces, count);
    while (written < 0 && errno == EINTR);
    if (written >= 0 && (size_t)written != length)
        errno = ENOSPC;
    return written >= 0 && (size_t)written == length;
}

static void address_text(int descriptor, bool is_peer, char text[ADDRESS_MOST])
{
    struct sockaddr_storage address = {0};
    socklen_t size = sizeof address;
    char host[INET6_ADDRSTRLEN] = "?";
    strcpy(text, "-");
    if ((is_peer ? getpeername : getsockname)(descriptor, (struct sockaddr *)&address, &size) != 0)
        return;
    if (address.ss_family == AF_INET) {
        const struct sockaddr_in *four = (const struct sockaddr_in *)&address;
        inet_ntop(AF_INET, &four->sin_addr, host, sizeof host);
        snprintf(text, ADDRESS_MOST, "%s:%d", host, ntohs(four->sin_port));
    } else if (address.ss_family == AF_INET6) {
        const struct sockaddr_in6 *six = (const struct sockaddr_in6 *)&address;
        inet_ntop(AF_INET6, &six->sin6_addr, host, sizeof host);
        snprintf(text, ADDRESS_MOST, "[%s]:%d", host, ntohs(six->sin6_port));
    }
}

static bool write_opening(int file, const struct connection *connection, int descriptor)
{
    char line[256], own[ADDRESS_MOST], peer[ADDRESS_MOST];
    address_text(descriptor, false, own);
    address_text(descriptor, true, peer);
    const char *side = connection->side == ACCEPTED ? "accepted" : "connected";
    unsigned long long opened = connection->opened, time = time_of_stamp(connection->opened);
    int length = snprintf(line, sizeof line, "mqtt-raw 2 %s %s %s %llu %llu\n", side, own, peer, opened, time);
    struct iovec piece = {line, (size_t)length};
    return write_whole(file, &piece, 1, (size_t)length);
}

bool make_file(struct connection *connection, int descriptor)
{
    char path[PATH_MAX];
    int file;
    do { /* a file of this name may be of an earlier process that had the same number */
        connection->process = (uint32_t)recorded_process();
        connection->number = atomic_fetch_add(&files, 1) + 1;
        path_of(connection, path);
        file = open_file(path, O_CREAT | O_EXCL);
    } while (file < 0 && errno == EEXIST);
    bool is_written = file >= 0 && write_opening(file, connection, descriptor);
    if (!is_written)
        stop_recording(path, errno);
    if (file >= 0)
        syscall(SYS_close, file);
    atomic_store(&connection->has_file, is_written);
    return is_written;
}

void remove_file(struct connection *connection)
{
    if (atomic_exchange(&connection->has_file, false)) {
        char path[PATH_MAX];
        path_of(connection, path);
        syscall(SYS_unlinkat, AT_FDCWD, path, 0);
    }
}

/* ---- records */

static size_t smaller(size_t one, size_t other)
{
    return one < other ? one : other;
}

/* Takes the pieces of the next record from what is left, of whose first piece some bytes are done. Gives the number
 * of their bytes, and in `used` their own. */
static size_t take_pieces(struct bytes *left, size_t *done, struct iovec taken[PIECES_MOST], size_t *used)
{
    size_t length = 0;
    *used = 0;
    while (left->length > 0 && length < RECORD_MOST && left->count > 0 && *used < PIECES_MOST) {
        size_t most = smaller(left->length, RECORD_MOST - length);
        size_t size = smaller(left->pieces->iov_len - *done, most);
        taken[(*used)++] = (struct iovec){(char *)left->pieces->iov_base + *done, size};
        length += size;
        left->length -= size;
        *done += size;
        if (*done == left->pieces->iov_len) {
            *done = 0;
            left->pieces++;
            left->count--;
        }
    }
    return length;
}

void append(const struct connection *connection, struct event event, struct bytes bytes)
{
    char path[PATH_MAX];
    struct frame frame = {"MQRW", (uint16_t)event.kind, (uint16_t)event.flags, (uint32_t)recorded_process(),
                          0, event.stamp, event.took};
    struct iovec all[1 + PIECES_MOST];
    size_t done = 0, used;
    path_of(connection, path);
    int file = open_file(path, O_NOFOLLOW);
    if (file < 0) {
        stop_recording(path, errno);
        return;
    }
    all[0] = (struct iovec){&frame, sizeof frame};
    do {
        size_t length = take_pieces(&bytes, &done, all + 1, &used);
        frame.length = (uint32_t)length;
        if (!write_whole(file, all, 1 + used, sizeof frame + length)) {
            stop_recording(path, errno);
            break;
        }
    } while (bytes.length > 0 && bytes.count > 0);
    syscall(SYS_close, file);
}

void note(const struct connection *connection, enum kind kind, unsigned flags)
{
    if (atomic_load(&connection->has_file))
        append(connection, (struct event){kind, flags, next_stamp(), 0}, (struct bytes){NULL, 0, 0});
}
