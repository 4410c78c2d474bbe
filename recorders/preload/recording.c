/* What is recorded of a call: the bytes of connections that speak MQTT. */
#include "preload.h"

#include <errno.h>
#include <stdio.h>

enum { EARLY_MOST = 64 * 1024 }; /* bytes of the server's that are kept until the client's first byte */

/* What isn't MQTT isn't recorded: the client's first byte shows it. That of a CONNECT is 0x10; other flags are a
 * client's fault, and are recorded too, but 0x16 is how TLS begins. */
static bool is_mqtt(unsigned char first)
{
    return first >> 4 == 1 && first != 0x16;
}

static void pass_over(struct connection *connection)
{
    atomic_store(&connection->state, PASSED_OVER);
    remove_file(connection);
}

/* By the next bytes of a connection whose state is undecided. */
static void decide(struct connection *connection, int descriptor, enum kind kind, unsigned char first, size_t length)
{
    bool is_clients = (kind == RECEIVED) == (connection->side == ACCEPTED);
    connection->early += length;
    if (is_clients ? !is_mqtt(first) : connection->early > EARLY_MOST)
        pass_over(connection);
    else if ((atomic_load(&connection->has_file) || make_file(connection, descriptor)) && is_clients)
        atomic_store(&connection->state, RECORDED);
}

/* Whether bytes of this connection are recorded, of which the first one and the number are given. */
static bool is_wanted(struct connection *connection, int descriptor, enum kind kind, unsigned char first,
                      size_t length)
{
    if (atomic_load(&connection->state) == UNDECIDED && lock(&connection->gate)) {
        if (atomic_load(&connection->state) == UNDECIDED) /* another thread may have decided meanwhile */
            decide(connection, descriptor, kind, first, length);
        unlock(&connection->gate);
    }
    return atomic_load(&connection->state) != PASSED_OVER && atomic_load(&connection->has_file) && is_recording();
}

void record(struct connection *connection, int descriptor, struct event event, struct bytes bytes)
{
    while (bytes.count > 0 && bytes.pieces->iov_len == 0) {
        bytes.pieces++;
        bytes.count--;
    }
    if (bytes.length == 0 || bytes.count == 0)
        return;
    unsigned char first = *(const unsigned char *)bytes.pieces->iov_base;
    if (is_wanted(connection, descriptor, event.kind, first, bytes.length))
        append(connection, event, bytes);
}

void lose_connection(struct connection *connection, const char *what)
{
    if (connection != NULL && atomic_load(&connection->has_file) && atomic_load(&connection->state) != PASSED_OVER) {
        char line[160];
        note(connection, GAP, 0);
        atomic_store(&connection->state, PASSED_OVER);
        int length = snprintf(line, sizeof line, "recording of connection %lu-%lu stopped: %s isn't recorded\n",
                              (unsigned long)connection->process, (unsigned long)connection->number, what);
        write_error_line(line, length);
    }
}

bool is_final(int error)
{
    return error == ECONNRESET || error == EPIPE || error == ETIMEDOUT || error == EHOSTUNREACH ||
           error == ENETUNREACH;
}
