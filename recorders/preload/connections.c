/* Which connection a descriptor stands for, or a TLS connection that has no socket.
 *
 * A connection lives as long as something has a reference to it: a descriptor, or a call that is at work. One lock
 * keeps the table; it is held for a few instructions, and never while the program's own calls or ours do their work. */
#include "preload.h"

#include <errno.h>
#include <string.h>
#include <sys/mman.h>
#include <sys/socket.h>
#include <sys/stat.h>

enum {
    DESCRIPTORS = 1 << 20, /* descriptors above aren't recorded */
    SESSIONS = 4096,       /* lists of TLS connections without a socket */
    FRESH = 64,            /* connections that are made at a time */
};

static atomic_int table_lock;
static struct connection *_Atomic table[DESCRIPTORS];
static atomic_int highest; /* descriptor that ever stood for a connection */
static struct connection *sessions[SESSIONS];
static struct connection *unused;

/* ---- connections; the table is locked */

/* A new connection with one reference. The memory comes from the system, since malloc may not be called here. */
static struct connection *make(enum side side, uint64_t opened)
{
    if (unused == NULL) {
        const int access = PROT_READ | PROT_WRITE;
        struct connection *fresh = mmap(NULL, FRESH * sizeof *fresh, access, MAP_PRIVATE | MAP_ANONYMOUS, -1, 0);
        if (fresh == MAP_FAILED)
            return NULL;
        for (int i = 0; i < FRESH; i++) {
            fresh[i].next = unused;
            unused = &fresh[i];
        }
    }
    struct connection *connection = unused;
    unused = connection->next;
    memset(connection, 0, sizeof *connection);
    connection->references = 1;
    connection->side = side;
    connection->opened = opened;
    return connection;
}

static void release(struct connection *connection)
{
    if (--connection->references == 0) {
        connection->next = unused;
        unused = connection;
    }
}

static bool put(int descriptor, struct connection *connection)
{
    if (descriptor >= DESCRIPTORS)
        return false;
    atomic_store(&table[descriptor], connection);
    connection->descriptors++;
    int most = atomic_load(&highest);
    while (descriptor > most && !atomic_compare_exchange_weak(&highest, &most, descriptor)) {}
    return true;
}

static struct connection **place_of(const void *session)
{
    struct connection **place = &sessions[(uintptr_t)session / 64 % SESSIONS];
    while (*place != NULL && (*place)->session != session)
        place = &(*place)->next;
    return place;
}

/* ---- descriptors */

static bool is_known(int descriptor)
{
    return descriptor >= 0 && descriptor < DESCRIPTORS && atomic_load(&table[descriptor]) != NULL;
}

bool is_internet(int family)
{
    return family == AF_INET || family == AF_INET6;
}

static bool is_tcp(int descriptor)
{
    int domain = 0, type = 0;
    socklen_t size = sizeof domain;
    if (getsockopt(descriptor, SOL_SOCKET, SO_DOMAIN, &domain, &size) != 0 || !is_internet(domain))
        return false;
    size = sizeof type;
    return getsockopt(descriptor, SOL_SOCKET, SO_TYPE, &type, &size) == 0 && type == SOCK_STREAM;
}

static bool is_socket(int descriptor, ino_t inode)
{
    struct stat file;
    return fstat(descriptor, &file) == 0 && S_ISSOCK(file.st_mode) && file.st_ino == inode;
}

void give_back(struct connection *connection)
{
    if (connection != NULL && lock(&table_lock)) {
        release(connection);
        unlock(&table_lock);
    }
}

void drop_descriptor(int descriptor)
{
    if (!is_known(descriptor) || !lock(&table_lock))
        return;
    struct connection *connection = atomic_exchange(&table[descriptor], NULL);
    bool is_last = connection != NULL && --connection->descriptors == 0;
    unlock(&table_lock);
    if (is_last)
        note(connection, LEFT, 0);
    give_back(connection);
}

void leave_descriptors(unsigned first, unsigned last)
{
    int error = errno;
    if (is_recording()) {
        unsigned most = (unsigned)atomic_load(&highest);
        for (unsigned descriptor = first; descriptor <= last && descriptor <= most; descriptor++)
            drop_descriptor((int)descriptor);
    }
    errno = error;
}

void begin_connection(int descriptor, enum side side, uint64_t opened)
{
    struct stat file;
    drop_descriptor(descriptor);
    if (descriptor >= DESCRIPTORS || !is_tcp(descriptor) || fstat(descriptor, &file) != 0 || !lock(&table_lock))
        return;
    struct connection *connection = make(side, opened);
    if (connection != NULL) {
        connection->inode = file.st_ino;
        put(descriptor, connection);
    }
    unlock(&table_lock);
    if (connection == NULL)
        stop_recording("memory for a connection", ENOMEM);
}

struct connection *take_connection(int descriptor)
{
    if (!is_known(descriptor) || !is_recording())
        return NULL;
    int error = errno;
    struct connection *connection = NULL;
    if (lock(&table_lock)) {
        connection = atomic_load(&table[descriptor]);
        if (connection != NULL)
            connection->references++;
        unlock(&table_lock);
    }
    if (connection != NULL && !is_socket(descriptor, connection->inode)) {
        drop_descriptor(descriptor);
        give_back(connection);
        connection = NULL;
    }
    errno = error;
    return connection;
}

void copy_descriptor(int descriptor, int copy)
{
    int error = errno;
    if (is_recording() && copy >= 0 && copy != descriptor) {
        drop_descriptor(copy);
        struct connection *connection = take_connection(descriptor);
        if (connection != NULL && lock(&table_lock)) {
            if (put(copy, connection))
                connection->references++;
            unlock(&table_lock);
        }
        give_back(connection);
    }
    errno = error;
}

/* ---- TLS connections without a socket */

struct connection *take_session(const void *session, enum side side)
{
    if (!lock(&table_lock))
        return NULL;
    struct connection **place = place_of(session), *connection = *place;
    if (connection == NULL && (connection = make(side, next_stamp())) != NULL) {
        connection->next = NULL;
        connection->session = session;
        *place = connection;
        atomic_store(&connection->is_tls, true);
    }
    if (connection != NULL)
        connection->references++;
    unlock(&table_lock);
    return connection;
}

void leave_session(const void *session)
{
    struct connection *connection = NULL;
    if (lock(&table_lock)) {
        struct connection **place = place_of(session);
        if ((connection = *place) != NULL)
            *place = connection->next;
        unlock(&table_lock);
    }
    if (connection != NULL)
        note(connection, LEFT, 0);
    give_back(connection);
}

/* ---- around a fork */

static bool is_held;

void hold_connections(void)
{
    is_held = lock(&table_lock);
}

void free_connections(void)
{
    if (is_held)
        unlock(&table_lock);
}

/* The locks of threads that the child doesn't have are free. */
void free_connections_in_child(void)
{
    unlock(&table_lock);
    for (int descriptor = 0; descriptor <= atomic_load(&highest); descriptor++) {
        struct connection *connection = atomic_load(&table[descriptor]);
        if (connection != NULL) {
            unlock(&connection->gate);
            unlock(&connection->writer);
        }
    }
}
