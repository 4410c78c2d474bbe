/* A client that judges itself while it talks to a server over a pair of sockets.
 *
 * usage: pair [--reuse]
 *
 * The client subscribes, publishes and leaves. With --reuse it sends its second SUBSCRIBE under a Packet Identifier
 * that is still in use. The judge is told each write before it is made and each read when it has returned, and says at
 * the very packet that a rule was broken. The status is 1 if there is a fault.
 */
#include "mqjudge.h"

#include <stdio.h>
#include <stdlib.h>
#include <string.h>
#include <sys/socket.h>
#include <sys/wait.h>
#include <unistd.h>

static mqjudge judge = MQJUDGE_EMPTY;
static size_t known; /* how many faults were said */

/* Ends the program where the judge can't go on. */
static void done(uint32_t status, const char *call) {
    if (status != MQJUDGE_OK) {
        fprintf(stderr, "pair: %s answers %u\n", call, status);
        exit(2);
    }
}

static void say(const mqjudge_fault_row *fault) {
    char code[8], citation[64], sentence[160];
    size_t length;
    done(mqjudge_code(fault->statement, code, sizeof code, &length), "mqjudge_code");
    done(mqjudge_citation(fault->statement, MQJUDGE_CLIENT, citation, sizeof citation, &length), "mqjudge_citation");
    done(mqjudge_sentence(fault->statement, sentence, sizeof sentence, &length), "mqjudge_sentence");
    printf("event %u breaks %s (%s): %s\n", fault->position, code, citation, sentence);
}

/* Says each fault that was found since the last call. */
static void look(void) {
    mqjudge_fault_row fault;
    while (mqjudge_next_fault(&judge, &fault) == MQJUDGE_OK) {
        say(&fault);
        known++;
    }
}

static void send_packet(int fd, const char *packet, size_t length) {
    done(mqjudge_sent(&judge, (const uint8_t *)packet, length), "mqjudge_sent");
    look();
    if (write(fd, packet, length) != (ssize_t)length) {
        perror("pair: write");
        exit(2);
    }
}

static void receive(int fd, size_t length) {
    uint8_t bytes[64];
    for (size_t had = 0; had < length;) {
        ssize_t got = read(fd, bytes, length - had);
        if (got <= 0) {
            perror("pair: read");
            exit(2);
        }
        done(mqjudge_received(&judge, bytes, (size_t)got), "mqjudge_received");
        had += (size_t)got;
    }
    look();
}

/* A server that knows what comes: it answers each packet once it has all of it. */
static void serve(int fd) {
    static const struct {
        size_t length;
        const char *answer;
        size_t size;
    } steps[] = {
        {15, "\x20\x03\x00\x00\x00", 5},         /* CONNECT, CONNACK */
        {18, "", 0},                             /* two SUBSCRIBEs */
        {0, "\x90\x04\x00\x01\x00\x00", 6},      /* SUBACK */
        {0, "\x90\x04\x00\x02\x00\x00", 6},      /* SUBACK */
        {9, "\x40\x02\x00\x03", 4},              /* PUBLISH of QoS 1, PUBACK */
        {2, "", 0},                              /* DISCONNECT */
    };
    char bytes[64];
    for (size_t i = 0; i < sizeof steps / sizeof *steps; i++) {
        for (size_t had = 0; had < steps[i].length;) {
            ssize_t got = read(fd, bytes, steps[i].length - had);
            if (got <= 0) {
                _exit(0);
            }
            had += (size_t)got;
        }
        if (write(fd, steps[i].answer, steps[i].size) != (ssize_t)steps[i].size) {
            _exit(1);
        }
    }
    _exit(0);
}

static void talk(int fd, int reuses) {
    send_packet(fd, "\x10\x0d\x00\x04MQTT\x05\x02\x00\x3c\x00\x00\x00", 15);
    receive(fd, 5);
    send_packet(fd, "\x82\x07\x00\x01\x00\x00\x01" "a\x00", 9);
    send_packet(fd, reuses ? "\x82\x07\x00\x01\x00\x00\x01" "b\x00" : "\x82\x07\x00\x02\x00\x00\x01" "b\x00", 9);
    receive(fd, 12);
    send_packet(fd, "\x32\x07\x00\x01" "c\x00\x03\x00" "x", 9);
    receive(fd, 4);
    send_packet(fd, "\xe0\x00", 2);
}

int main(int argc, char **argv) {
    int reuses = argc == 2 && strcmp(argv[1], "--reuse") == 0;
    int pair[2];
    if (argc > 2 || (argc == 2 && !reuses)) {
        fprintf(stderr, "usage: pair [--reuse]\n");
        return 3;
    }
    if (mqjudge_version() != MQJUDGE_VERSION) {
        fprintf(stderr, "pair: the library has version %u of its interface, the header %u\n", mqjudge_version(), MQJUDGE_VERSION);
        return 2;
    }
    if (socketpair(AF_UNIX, SOCK_STREAM, 0, pair) != 0) {
        perror("pair: socketpair");
        return 2;
    }
    pid_t server = fork();
    if (server == 0) {
        close(pair[0]);
        serve(pair[1]);
    }
    close(pair[1]);

    done(mqjudge_new(&judge, 0), "mqjudge_new");
    done(mqjudge_begin(&judge, MQJUDGE_CLIENT, 0), "mqjudge_begin");
    done(mqjudge_open(&judge), "mqjudge_open");
    talk(pair[0], reuses);
    close(pair[0]);
    done(mqjudge_close(&judge), "mqjudge_close");
    look();
    waitpid(server, NULL, 0);

    uint32_t events;
    done(mqjudge_finish(&judge, &events), "mqjudge_finish");
    printf("%zu faults in %u events\n", known, events);
    done(mqjudge_free(&judge), "mqjudge_free");
    return known > 0;
}
