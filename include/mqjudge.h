/* mqjudge: judges one end of an MQTT 5.0 session while it runs.
 *
 * A judge is fed the bytes of a log (docs/LOG_FORMAT.md), of version 1 or 2, in any pieces; or, without a log, it is
 * told what happens at the end that it judges: mqjudge_begin, and then mqjudge_open, mqjudge_sent, mqjudge_received,
 * mqjudge_close, mqjudge_rest and mqjudge_release, whose verdict is that of the log that these events make: a log of
 * version 1, which has no moments. After each call the faults so far are known: mqjudge_faults counts them, at no cost,
 * and mqjudge_next_fault tells each of them once. A fault that is known stays.
 *
 *     mqjudge judge = MQJUDGE_EMPTY;
 *     mqjudge_new(&judge, 0);
 *     mqjudge_begin(&judge, MQJUDGE_CLIENT, 0);
 *     mqjudge_open(&judge);
 *     mqjudge_sent(&judge, packet, length);
 *     size_t faults;
 *     mqjudge_faults(&judge, &faults);
 *     assert(faults == 0);
 *     mqjudge_free(&judge);
 *
 * What one judge is told. It judges one end under one Client Identifier: a client; or a server, as one client sees it. A
 * server, or a process with several clients, has a judge for each Client Identifier. A server that doesn't know yet which
 * one a connection has keeps what came on it until the CONNECT is whole, and then tells that connection's judge all of
 * it; where the server assigns the identifier, until it has. A judge begins where a session begins: tell it all
 * connections under its identifier from the first one on, or from one whose CONNECT has Clean Start 1. Connections don't
 * overlap: tell the end of one before the next one begins, also where a server takes over a session (section 3.1.4).
 *
 * Wrong calls. MQJUDGE_NULL, NO_JUDGE, HELD, VALUE and ORDER change nothing: the right call may come next. But what
 * can't have happened is refused for ever, as in a log: an mqjudge_open while a connection is open (7, `Nested`); an
 * mqjudge_sent, mqjudge_received, mqjudge_close or mqjudge_rest while none is (8, `NotOpen`); an mqjudge_release where
 * mqjudge_begin said that releases aren't told (9, `ReleaseUnrecorded`). So is a log that can't be judged: a packet over
 * the limit (11), a CONNECT of another version (12), 4,097 events of a connection without its CONNACK (13). Refusal 14,
 * `TooLong`, comes at record or event number 4,294,967,296: at 1,000 events a second after 49 days; make a new judge
 * before that, where a session begins. docs/LOG_FORMAT.md has all of them.
 *
 * What isn't answered. A fault says what is false, where, and which event shows it. It doesn't say what it conflicts with:
 * the PUBLISH that holds a Packet Identifier, the CONNACK that announced a limit, or how many messages are in flight. A
 * judge keeps no more of a session than it needs for the verdict, so that takes a second reading of the log, and no call
 * here makes one. Write what you tell the judge into a log too (docs/LOG_FORMAT.md), with the same events, and have
 * `mqjudge check --why FILE` say it: under each fault, by its position and code, the event's position and the numbers.
 *
 * Want of memory. Only mqjudge_new answers MQJUDGE_MEMORY: then it may be called again. Where a judge has no memory for
 * what it is told, its log is refused (16, `Memory`), at the byte that was being taken in, and stays so. Whatever is
 * answered, the faults that are known can still be asked for.
 *
 * To build: `rt lib` in crates/mq_ffi makes crates/mq_ffi/out/libmq_ffi.a; examples/live/README.md has the line of gcc
 * that links it.
 *
 * Threads. There is no state but what a handle holds, so different judges may be used by different threads at once. One
 * judge is used by one thread, the one that made it. No function may be called from a signal handler, nor in the
 * forked child of a process with threads.
 *
 * What the caller ensures, since no library can test it: a pointer that isn't NULL points to what its type says, a
 * buffer has the length that is passed with it, two pointers of one call don't overlap, a handle was MQJUDGE_EMPTY
 * before its first call, nothing but these functions writes a handle, and no copy of a handle is used. `malloc`,
 * `realloc` and `free` are those of one allocator, which aligns a block to each power of two up to 16 that divides its
 * size.
 */
#ifndef MQJUDGE_H
#define MQJUDGE_H

#include <stddef.h>
#include <stdint.h>

#ifdef __cplusplus
extern "C" {
#endif

/* The version of this header. mqjudge_version is that of the library: where the two differ, a program was built with
 * another header than the library, and must call nothing else. It grows with each change that a caller can see, which
 * CHANGELOG.md then describes: of a function, of when an answer comes, or of a type's layout. What a number of
 * mqjudge_status names doesn't change.
 */
#define MQJUDGE_VERSION 4

/* What each call answers. After each of them the judge can still be asked, and freed. Where several apply, it is the
 * first of NULL, NO_JUDGE, REFUSED, VALUE, ORDER.
 */
enum mqjudge_status {
    MQJUDGE_OK = 0,       /* it is done */
    MQJUDGE_NULL = 1,     /* a pointer is NULL, other than that of no bytes; nothing was done */
    MQJUDGE_NO_JUDGE = 2, /* the handle holds no judge: none was made, or it was freed; nothing was done */
    MQJUDGE_HELD = 3,     /* mqjudge_new: the handle holds a judge already, which stays */
    MQJUDGE_VALUE = 4,    /* a limit, an end or a flag has no such value, or a list names nothing or leaves nothing; nothing
                             was done */
    MQJUDGE_MEMORY = 5,   /* mqjudge_new: there is no memory, and no judge was made; it may be called again */
    MQJUDGE_REFUSED = 6,  /* the log is refused: mqjudge_refusal says why. Each later call that tells more answers this
                             too, whatever else is wrong with it, and changes nothing */
    MQJUDGE_ORDER = 7,    /* not now: bytes and events are mixed, an event comes before mqjudge_begin, a second
                             mqjudge_begin, a mqjudge_choose that is too late, or anything after mqjudge_finish; nothing
                             was done */
    MQJUDGE_LENGTH = 8,   /* no call answers this since version 2; in version 1, for more than 1,048,576 bytes */
    MQJUDGE_ABSENT = 9,   /* there is no such fault or statement, or the log isn't refused; nothing was written */
    MQJUDGE_ROOM = 10     /* the buffer is too short for the text and its zero byte; only the length was written */
};

/* The ends that can be judged. */
enum { MQJUDGE_CLIENT = 0, MQJUDGE_SERVER = 1 };

/* A handle of a judge. Its fields are the library's own. */
typedef struct mqjudge {
    void *inside;
    uint64_t holds;
} mqjudge;

/* A handle that holds no judge. */
#define MQJUDGE_EMPTY {0, 0}

/* A fault. */
typedef struct mqjudge_fault_row {
    uint32_t position;   /* the event's number among the events, counted from 1 */
    uint32_t statement;  /* the number of the statement that is false there, in the order of reports, counted from 0 */
    uint32_t decided;    /* the number of the event that shows it */
    uint32_t record;     /* the number of the record of the fault's position, counted from 1 */
    uint32_t has_offset; /* 1 if the statement is a rule on a packet's bytes, and else 0 */
    uint32_t offset;     /* then where in the packet it is broken */
} mqjudge_fault_row;

/* The library's functions. These take no NULL; the macros at the end of this header test for it first. */

/* Makes a judge that reads packets of at most `limit` bytes: 5 to 268,435,460, or 0 for 16,777,216.
 * OK, HELD, VALUE, MEMORY. */
uint32_t mqjudge_new(mqjudge *judge, uint32_t limit);

/* Frees the judge. The handle is then empty, and may be used for another one. OK, NO_JUDGE. */
uint32_t mqjudge_free(mqjudge *judge);

/* Chooses the statements whose faults are told, by a list, before the judge is told anything: before mqjudge_begin, or
 * before the first byte of a log. A list is words with a comma between two, from left to right: a statement's code, the
 * letter of a family, `default`, `all` or `times`; a word after a hyphen takes its statements away, and a list that
 * begins with a hyphen takes them from `default`. docs/COMMANDS.md says more of it. So "default,F,-W13" adds the further
 * statements of the family F, and takes W13 away. Without this call it is `default`. A later list takes the place of an
 * earlier one. K01 and K02 look at the moments of a log of version 2 that is fed: of what is told without a log nothing
 * is late. It is `length` bytes here; the macro of this name takes a text that ends with a zero byte, and no length:
 *
 *     mqjudge_choose(&judge, "default,F,-W13");
 *
 * Faults of other statements are then neither counted nor told, though the judge keeps them; so mqjudge_faults takes
 * time in proportion to how many are known, and so does mqjudge_fault_from. mqjudge_places answers for chosen statements.
 * OK, NO_JUDGE, REFUSED, VALUE (a word names no statement, or none is left), ORDER (too late). */
uint32_t mqjudge_choose(mqjudge *judge, const uint8_t *list, size_t length);

/* Takes in the next bytes of a log. It doesn't matter how the log is cut. No bytes change nothing, and may be NULL: after
 * them mqjudge_begin may still come. OK, NO_JUDGE, REFUSED, ORDER. */
uint32_t mqjudge_feed(mqjudge *judge, const uint8_t *bytes, size_t length);

/* Says which end is judged, MQJUDGE_CLIENT or MQJUDGE_SERVER, and whether its releases of QoS 2 messages are told: 0 or
 * 1. OK, NO_JUDGE, REFUSED, VALUE, ORDER. */
uint32_t mqjudge_begin(mqjudge *judge, uint32_t end, uint32_t releases);

/* A network connection begins. OK, NO_JUDGE, REFUSED, ORDER, as for the events below. */
uint32_t mqjudge_open(mqjudge *judge);

/* The end sent these bytes, which may be any part of a packet, or several. Tell it before they can be answered. Each
 * 1,048,576 bytes are a record of their own. */
uint32_t mqjudge_sent(mqjudge *judge, const uint8_t *bytes, size_t length);

/* The end received these bytes, likewise. Tell it before the end gets them. */
uint32_t mqjudge_received(mqjudge *judge, const uint8_t *bytes, size_t length);

/* The network connection ended, whoever ended it. */
uint32_t mqjudge_close(mqjudge *judge);

/* The end is at rest: what it owes on this connection is done. Missing answers are faults only at a rest. */
uint32_t mqjudge_rest(mqjudge *judge);

/* The end released the QoS 2 message that it received under this Packet Identifier. */
uint32_t mqjudge_release(mqjudge *judge, uint16_t identifier);

/* How many faults of chosen statements are known. OK, NO_JUDGE. */
uint32_t mqjudge_faults(mqjudge *judge, size_t *count);

/* The next fault, of those that this call hasn't told yet. They come by `decided`, and those that one event shows in the
 * order of reports. An event shows faults at its own position and at earlier ones, as where an answer is missing; what
 * it shows is known as a whole once it is taken in, and later events show others. So whatever is told between the calls,
 * each fault is told once, and after ABSENT only what later events show is to come:
 *
 *     while (mqjudge_next_fault(&judge, &fault) == MQJUDGE_OK) {
 *         say(&fault);
 *     }
 *
 * It takes time in proportion to how many faults are known. OK, NO_JUDGE, ABSENT. */
uint32_t mqjudge_next_fault(mqjudge *judge, mqjudge_fault_row *fault);

/* The fault at an index, counted from 0, in the order of reports: by position, and then by statement. It takes time in
 * proportion to the index. OK, NO_JUDGE, ABSENT. */
uint32_t mqjudge_fault(mqjudge *judge, size_t index, mqjudge_fault_row *fault);

/* The first fault at a position or after it. It takes time in proportion to the logarithm of how many there are.
 * OK, NO_JUDGE, ABSENT. */
uint32_t mqjudge_fault_from(mqjudge *judge, uint32_t position, mqjudge_fault_row *fault);

/* The fault at an index among those at a position, counted from 0, as quickly. OK, NO_JUDGE, ABSENT. */
uint32_t mqjudge_fault_at(mqjudge *judge, uint32_t position, size_t index, mqjudge_fault_row *fault);

/* How much the judge keeps: how many Packet Identifiers, filters, Topic Aliases and events of a connection that isn't
 * decided yet; not the faults, nor the bytes of unfinished packets. It is bounded by what is open in the log, and by the
 * filters that a server granted in the session, so a weight that grows says that the end leaves more and more open, or
 * grants more and more different filters. OK, NO_JUDGE. */
uint32_t mqjudge_weight(mqjudge *judge, size_t *weight);

/* How often a statement was put to the test: at how many events of what was told, at no cost. So a verdict without a
 * fault says what it is worth. A statement that doesn't bind the end that is judged has 0. Statements are counted from 0,
 * in the order of reports. The further ones come last: they are judged if mqjudge_choose has chosen one. OK, NO_JUDGE,
 * ABSENT (no such statement, or one that isn't chosen), REFUSED. */
uint32_t mqjudge_places(mqjudge *judge, uint32_t statement, uint32_t *places);

/* Why the log is refused: the number of the refusal (docs/LOG_FORMAT.md), and the offset in the log of the refused byte.
 * OK, NO_JUDGE, ABSENT. */
uint32_t mqjudge_refusal(mqjudge *judge, uint32_t *number, uint64_t *byte);

/* The name of the refusal, as for mqjudge_code. OK, NO_JUDGE, ABSENT, ROOM. */
uint32_t mqjudge_refusal_name(mqjudge *judge, char *buffer, size_t room, size_t *length);

/* Ends the log, and tells how many events it has. The faults stay. OK, NO_JUDGE, REFUSED, ORDER. */
uint32_t mqjudge_finish(mqjudge *judge, uint32_t *events);

/* The code of a statement, such as E1R, with a zero byte after it. `length` is the code's, also if there is no room;
 * with a room of 0, `buffer` may be NULL. OK, ABSENT, ROOM. */
uint32_t mqjudge_code(uint32_t statement, char *buffer, size_t room, size_t *length);

/* Where MQTT 5.0 says it of this end, likewise. It is empty if the statement doesn't bind the end.
 * OK, VALUE, ABSENT, ROOM. */
uint32_t mqjudge_citation(uint32_t statement, uint32_t end, char *buffer, size_t room, size_t *length);

/* What the statement says, in one sentence, likewise. OK, ABSENT, ROOM. */
uint32_t mqjudge_sentence(uint32_t statement, char *buffer, size_t room, size_t *length);

/* The version of the library's interface: MQJUDGE_VERSION of its header. */
uint32_t mqjudge_version(void);

/* The same functions, with a test for NULL. */

static inline uint32_t mqjudge_checked_new(mqjudge *judge, uint32_t limit) {
    if (judge == NULL) {
        return MQJUDGE_NULL;
    }
    return mqjudge_new(judge, limit);
}

static inline uint32_t mqjudge_checked_free(mqjudge *judge) {
    if (judge == NULL) {
        return MQJUDGE_NULL;
    }
    return mqjudge_free(judge);
}

static inline uint32_t mqjudge_checked_choose(mqjudge *judge, const char *list) {
    size_t length = 0;
    if (judge == NULL || list == NULL) {
        return MQJUDGE_NULL;
    }
    while (list[length] != '\0') {
        length++;
    }
    return mqjudge_choose(judge, (const uint8_t *)list, length);
}

static inline uint32_t mqjudge_checked_feed(mqjudge *judge, const uint8_t *bytes, size_t length) {
    if (judge == NULL || (bytes == NULL && length > 0)) {
        return MQJUDGE_NULL;
    }
    return mqjudge_feed(judge, bytes, length);
}

static inline uint32_t mqjudge_checked_begin(mqjudge *judge, uint32_t end, uint32_t releases) {
    if (judge == NULL) {
        return MQJUDGE_NULL;
    }
    return mqjudge_begin(judge, end, releases);
}

static inline uint32_t mqjudge_checked_open(mqjudge *judge) {
    if (judge == NULL) {
        return MQJUDGE_NULL;
    }
    return mqjudge_open(judge);
}

static inline uint32_t mqjudge_checked_sent(mqjudge *judge, const uint8_t *bytes, size_t length) {
    if (judge == NULL || (bytes == NULL && length > 0)) {
        return MQJUDGE_NULL;
    }
    return mqjudge_sent(judge, bytes, length);
}

static inline uint32_t mqjudge_checked_received(mqjudge *judge, const uint8_t *bytes, size_t length) {
    if (judge == NULL || (bytes == NULL && length > 0)) {
        return MQJUDGE_NULL;
    }
    return mqjudge_received(judge, bytes, length);
}

static inline uint32_t mqjudge_checked_close(mqjudge *judge) {
    if (judge == NULL) {
        return MQJUDGE_NULL;
    }
    return mqjudge_close(judge);
}

static inline uint32_t mqjudge_checked_rest(mqjudge *judge) {
    if (judge == NULL) {
        return MQJUDGE_NULL;
    }
    return mqjudge_rest(judge);
}

static inline uint32_t mqjudge_checked_release(mqjudge *judge, uint16_t identifier) {
    if (judge == NULL) {
        return MQJUDGE_NULL;
    }
    return mqjudge_release(judge, identifier);
}

static inline uint32_t mqjudge_checked_faults(mqjudge *judge, size_t *count) {
    if (judge == NULL || count == NULL) {
        return MQJUDGE_NULL;
    }
    return mqjudge_faults(judge, count);
}

static inline uint32_t mqjudge_checked_next_fault(mqjudge *judge, mqjudge_fault_row *fault) {
    if (judge == NULL || fault == NULL) {
        return MQJUDGE_NULL;
    }
    return mqjudge_next_fault(judge, fault);
}

static inline uint32_t mqjudge_checked_weight(mqjudge *judge, size_t *weight) {
    if (judge == NULL || weight == NULL) {
        return MQJUDGE_NULL;
    }
    return mqjudge_weight(judge, weight);
}

static inline uint32_t mqjudge_checked_places(mqjudge *judge, uint32_t statement, uint32_t *places) {
    if (judge == NULL || places == NULL) {
        return MQJUDGE_NULL;
    }
    return mqjudge_places(judge, statement, places);
}

static inline uint32_t mqjudge_checked_fault(mqjudge *judge, size_t index, mqjudge_fault_row *fault) {
    if (judge == NULL || fault == NULL) {
        return MQJUDGE_NULL;
    }
    return mqjudge_fault(judge, index, fault);
}

static inline uint32_t mqjudge_checked_fault_from(mqjudge *judge, uint32_t position, mqjudge_fault_row *fault) {
    if (judge == NULL || fault == NULL) {
        return MQJUDGE_NULL;
    }
    return mqjudge_fault_from(judge, position, fault);
}

static inline uint32_t mqjudge_checked_fault_at(mqjudge *judge, uint32_t position,
    size_t index, mqjudge_fault_row *fault) {
    if (judge == NULL || fault == NULL) {
        return MQJUDGE_NULL;
    }
    return mqjudge_fault_at(judge, position, index, fault);
}

static inline uint32_t mqjudge_checked_refusal(mqjudge *judge, uint32_t *number, uint64_t *byte) {
    if (judge == NULL || number == NULL || byte == NULL) {
        return MQJUDGE_NULL;
    }
    return mqjudge_refusal(judge, number, byte);
}

static inline uint32_t mqjudge_checked_refusal_name(mqjudge *judge, char *buffer, size_t room, size_t *length) {
    if (judge == NULL || (buffer == NULL && room > 0) || length == NULL) {
        return MQJUDGE_NULL;
    }
    return mqjudge_refusal_name(judge, buffer, room, length);
}

static inline uint32_t mqjudge_checked_finish(mqjudge *judge, uint32_t *events) {
    if (judge == NULL || events == NULL) {
        return MQJUDGE_NULL;
    }
    return mqjudge_finish(judge, events);
}

static inline uint32_t mqjudge_checked_code(uint32_t statement, char *buffer, size_t room, size_t *length) {
    if ((buffer == NULL && room > 0) || length == NULL) {
        return MQJUDGE_NULL;
    }
    return mqjudge_code(statement, buffer, room, length);
}

static inline uint32_t mqjudge_checked_citation(uint32_t statement, uint32_t end, char *buffer,
    size_t room, size_t *length) {
    if ((buffer == NULL && room > 0) || length == NULL) {
        return MQJUDGE_NULL;
    }
    return mqjudge_citation(statement, end, buffer, room, length);
}

static inline uint32_t mqjudge_checked_sentence(uint32_t statement, char *buffer, size_t room, size_t *length) {
    if ((buffer == NULL && room > 0) || length == NULL) {
        return MQJUDGE_NULL;
    }
    return mqjudge_sentence(statement, buffer, room, length);
}

#define mqjudge_new(judge, limit) mqjudge_checked_new(judge, limit)
#define mqjudge_free(judge) mqjudge_checked_free(judge)
#define mqjudge_choose(judge, list) mqjudge_checked_choose(judge, list)
#define mqjudge_feed(judge, bytes, length) mqjudge_checked_feed(judge, bytes, length)
#define mqjudge_begin(judge, end, releases) mqjudge_checked_begin(judge, end, releases)
#define mqjudge_open(judge) mqjudge_checked_open(judge)
#define mqjudge_sent(judge, bytes, length) mqjudge_checked_sent(judge, bytes, length)
#define mqjudge_received(judge, bytes, length) mqjudge_checked_received(judge, bytes, length)
#define mqjudge_close(judge) mqjudge_checked_close(judge)
#define mqjudge_rest(judge) mqjudge_checked_rest(judge)
#define mqjudge_release(judge, identifier) mqjudge_checked_release(judge, identifier)
#define mqjudge_faults(judge, count) mqjudge_checked_faults(judge, count)
#define mqjudge_next_fault(judge, fault) mqjudge_checked_next_fault(judge, fault)
#define mqjudge_weight(judge, weight) mqjudge_checked_weight(judge, weight)
#define mqjudge_places(judge, statement, places) mqjudge_checked_places(judge, statement, places)
#define mqjudge_fault(judge, index, fault) mqjudge_checked_fault(judge, index, fault)
#define mqjudge_fault_from(judge, position, fault) mqjudge_checked_fault_from(judge, position, fault)
#define mqjudge_fault_at(judge, position, index, fault) mqjudge_checked_fault_at(judge, position, index, fault)
#define mqjudge_refusal(judge, number, byte) mqjudge_checked_refusal(judge, number, byte)
#define mqjudge_refusal_name(judge, buffer, room, length) mqjudge_checked_refusal_name(judge, buffer, room, length)
#define mqjudge_finish(judge, events) mqjudge_checked_finish(judge, events)
#define mqjudge_code(statement, buffer, room, length) mqjudge_checked_code(statement, buffer, room, length)
#define mqjudge_citation(statement, end, buffer, room, length) \
    mqjudge_checked_citation(statement, end, buffer, room, length)
#define mqjudge_sentence(statement, buffer, room, length) mqjudge_checked_sentence(statement, buffer, room, length)

#ifdef __cplusplus
}
#endif

#endif
