/* The calls of OpenSSL: what is inside TLS. The library isn't linked with OpenSSL: the program's own one is
 * called. */
#include "preload.h"

#include <dlfcn.h>
#include <errno.h>

enum { TLS_RECORD = 16384 }; /* bytes that TLS sends as one, so that the peer gets all of them or none */

typedef struct ssl_st SSL;
int SSL_read(SSL *, void *, int);
int SSL_read_ex(SSL *, void *, size_t, size_t *);
int SSL_write(SSL *, const void *, int);
int SSL_write_ex(SSL *, const void *, size_t, size_t *);
void SSL_free(SSL *);
int SSL_get_rfd(const SSL *);
int SSL_get_wfd(const SSL *);
int SSL_is_server(const SSL *);
DECLARE(SSL_read); DECLARE(SSL_read_ex); DECLARE(SSL_write); DECLARE(SSL_write_ex); DECLARE(SSL_free);
DECLARE(SSL_get_rfd); DECLARE(SSL_get_wfd); DECLARE(SSL_is_server);

/* OpenSSL's own call. A library that a module of the program loaded for itself isn't seen by all: it is looked up
 * from the caller, and then by its name. */
static void *real_tls_call(void *_Atomic *kept, const char *name, void *caller)
{
    static const char *const libraries[] = {"libssl.so.3", "libssl.so.1.1", "libssl.so"};
    void *found = real_call(kept, name);
    Dl_info where;
    if (found == NULL && dladdr(caller, &where) != 0 && where.dli_fname != NULL) {
        void *module = dlopen(where.dli_fname, RTLD_LAZY | RTLD_NOLOAD);
        if (module != NULL) {
            found = dlsym(module, name);
            atomic_store(kept, found);
        }
    }
    for (size_t i = 0; found == NULL && i < sizeof libraries / sizeof *libraries; i++) {
        void *library = dlopen(libraries[i], RTLD_LAZY | RTLD_NOLOAD);
        if (library != NULL) {
            found = dlsym(library, name);
            atomic_store(kept, found);
        }
    }
    return found;
}

#define REAL_TLS(name, caller) ((__typeof__(&name))real_tls_call(&real_##name, #name, (caller)))
#define CALLER __builtin_return_address(0)

/* The connection of a TLS connection: that of its socket, or one of its own where the program moves the bytes
 * itself. */
static struct connection *take_tls(const SSL *session, int descriptor, void *caller)
{
    if (!is_recording())
        return NULL;
    if (descriptor < 0) {
        __typeof__(&SSL_is_server) is_server = REAL_TLS(SSL_is_server, caller);
        return is_server == NULL ? NULL : take_session(session, is_server(session) ? ACCEPTED : CONNECTED);
    }
    struct connection *connection = take_connection(descriptor);
    if (connection != NULL && !atomic_exchange(&connection->is_tls, true)) {
        note(connection, RESTARTED, 0);
        atomic_store(&connection->state, UNDECIDED);
        connection->early = 0;
    }
    return connection;
}

/* ---- reading */

static void was_read(SSL *session, void *buffer, size_t size, void *caller)
{
    int error = errno;
    __typeof__(&SSL_get_rfd) socket_of = REAL_TLS(SSL_get_rfd, caller);
    int descriptor = socket_of == NULL ? -1 : socket_of(session);
    struct connection *connection = take_tls(session, descriptor, caller);
    if (connection != NULL) {
        struct iovec piece = {buffer, size};
        struct event event = {RECEIVED, 0, next_stamp(), 0};
        record(connection, descriptor, event, (struct bytes){&piece, 1, size});
    }
    give_back(connection);
    errno = error;
}

SHOWN int SSL_read(SSL *session, void *buffer, int size)
{
    int result = REAL_TLS(SSL_read, CALLER)(session, buffer, size);
    if (result > 0)
        was_read(session, buffer, (size_t)result, CALLER);
    return result;
}

SHOWN int SSL_read_ex(SSL *session, void *buffer, size_t size, size_t *taken)
{
    int result = REAL_TLS(SSL_read_ex, CALLER)(session, buffer, size, taken);
    if (result > 0)
        was_read(session, buffer, *taken, CALLER);
    return result;
}

/* ---- writing */

/* A call that writes, from its beginning to its end. */
struct writing {
    struct connection *connection;
    int descriptor;
    uint64_t begun;
};

static struct writing begin_writing(SSL *session, void *caller)
{
    int error = errno;
    __typeof__(&SSL_get_wfd) socket_of = REAL_TLS(SSL_get_wfd, caller);
    int descriptor = socket_of == NULL ? -1 : socket_of(session);
    struct writing writing = {take_tls(session, descriptor, caller), descriptor, 0};
    if (writing.connection != NULL && atomic_load(&writing.connection->state) == RECORDED)
        note(writing.connection, WRITING, 0);
    writing.begun = next_stamp();
    errno = error;
    return writing;
}

/* A write that didn't succeed is tried again with the same bytes, and some of them may be on their way: the first
 * attempt counts. */
static void was_written(const struct writing *writing, const void *buffer, size_t size, size_t taken)
{
    struct connection *connection = writing->connection;
    if (connection == NULL)
        return;
    int error = errno;
    if (taken > 0) {
        struct iovec piece = {(void *)buffer, taken};
        uint64_t attempted = atomic_exchange(&connection->attempted, 0);
        uint64_t begun = attempted != 0 ? attempted : writing->begun;
        struct event event = {SENT, taken < size ? SHORT : 0, begun, clock_now() - begun};
        record(connection, writing->descriptor, event, (struct bytes){&piece, 1, taken});
    } else {
        uint64_t none = 0;
        atomic_compare_exchange_strong(&connection->attempted, &none, writing->begun);
        note(connection, HELD, size > TLS_RECORD ? PARTLY : 0);
    }
    give_back(connection);
    errno = error;
}

SHOWN int SSL_write(SSL *session, const void *buffer, int size)
{
    struct writing writing = begin_writing(session, CALLER);
    int result = REAL_TLS(SSL_write, CALLER)(session, buffer, size);
    was_written(&writing, buffer, size > 0 ? (size_t)size : 0, result > 0 ? (size_t)result : 0);
    return result;
}

SHOWN int SSL_write_ex(SSL *session, const void *buffer, size_t size, size_t *taken)
{
    struct writing writing = begin_writing(session, CALLER);
    int result = REAL_TLS(SSL_write_ex, CALLER)(session, buffer, size, taken);
    was_written(&writing, buffer, size, result > 0 ? *taken : 0);
    return result;
}

/* ---- the end: a TLS connection without a socket ends with its object */

SHOWN void SSL_free(SSL *session)
{
    int error = errno;
    if (session != NULL && is_recording())
        leave_session(session);
    errno = error;
    REAL_TLS(SSL_free, CALLER)(session);
}
