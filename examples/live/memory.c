/* Counts what the library holds, refuses memory to it, and lets a judge run for long.
 *
 * usage: memory [ROUNDS]
 *
 * It is linked with --wrap for malloc, realloc and free, which are then those below. The status is 1 if a call answers
 * that there is no memory though none was refused to it, if a judge that was freed leaves something behind, or if one
 * grows with what it is told.
 */
#include "mqjudge.h"

#include <stdio.h>
#include <stdlib.h>

void *__real_malloc(size_t size);
void *__real_realloc(void *block, size_t size);
void __real_free(void *block);

static size_t held;    /* blocks that weren't freed */
static size_t room;    /* how many more allocations are granted */
static size_t refused; /* how many weren't */
static int wrong;

static int grants(void) {
    if (room == 0) {
        refused++;
        return 0;
    }
    room--;
    return 1;
}

void *__wrap_malloc(size_t size) {
    void *block = grants() ? __real_malloc(size) : NULL;
    held += block != NULL;
    return block;
}

void *__wrap_realloc(void *block, size_t size) {
    void *other = grants() ? __real_realloc(block, size) : NULL;
    held += block == NULL && other != NULL;
    return other;
}

void __wrap_free(void *block) {
    held -= block != NULL;
    __real_free(block);
}

static void expect(const char *what, uint64_t is, uint64_t wanted) {
    if (is != wanted) {
        printf("%s: %llu in place of %llu\n", what, (unsigned long long)is, (unsigned long long)wanted);
        wrong = 1;
    }
}

#define SAYS(call, bytes) {mqjudge_checked_##call, (const uint8_t *)bytes, sizeof bytes - 1}

/* A client that leaves more and more open. */
static const struct {
    uint32_t (*call)(mqjudge *judge, const uint8_t *bytes, size_t length);
    const uint8_t *bytes;
    size_t length;
} told[] = {
    SAYS(sent, "\x10\x0d\x00\x04MQTT\x05\x02\x00\x3c\x00\x00\x00"),
    SAYS(received, "\x20\x03\x00\x00\x00"),
    SAYS(sent, "\x82\x07\x00\x01\x00\x00\x01" "a\x00"),
    SAYS(sent, "\x82\x07\x00\x01\x00\x00\x01" "b\x00"), /* S01 */
    SAYS(received, "\x90\x04\x00\x01\x00\x00"),
    SAYS(sent, "\x32\x07\x00\x01" "c\x00\x02\x00" "x"),
    SAYS(sent, "\x34\x07\x00\x01" "c\x00\x03\x00"),
    SAYS(sent, "x\x34\x07\x00\x01" "c\x00\x04\x00" "x"),
    SAYS(received, "\x50\x02\x00\x03"),
    SAYS(received, "\x34\x07\x00\x01" "a\x00\x01\x00" "x"),
};

/* A call that tells the judge something: it is refused for want of memory exactly if memory was refused to it, or to a
 * call before it. */
static void tell(const char *call, mqjudge *judge, uint32_t answer) {
    uint32_t number = 0;
    uint64_t byte;
    expect(call, answer, refused > 0 ? MQJUDGE_REFUSED : MQJUDGE_OK);
    mqjudge_refusal(judge, &number, &byte);
    expect("the refusal", number, refused > 0 ? 16 : 0);
}

/* Tells a judge all of it, with so many allocations. Whether that was enough. */
static int session(size_t allocations) {
    mqjudge judge = MQJUDGE_EMPTY;
    size_t faults, count = 0;
    uint32_t events;
    mqjudge_fault_row fault;
    room = allocations;
    refused = 0;
    uint32_t answer = mqjudge_new(&judge, 0);
    expect("mqjudge_new", answer, refused > 0 ? MQJUDGE_MEMORY : MQJUDGE_OK);
    if (answer == MQJUDGE_OK) {
        tell("mqjudge_begin", &judge, mqjudge_begin(&judge, MQJUDGE_CLIENT, 1));
        tell("mqjudge_open", &judge, mqjudge_open(&judge));
        for (size_t i = 0; i < sizeof told / sizeof *told; i++) {
            tell("an event", &judge, told[i].call(&judge, told[i].bytes, told[i].length));
        }
        tell("mqjudge_rest", &judge, mqjudge_rest(&judge));
        tell("mqjudge_close", &judge, mqjudge_close(&judge));
        tell("mqjudge_finish", &judge, mqjudge_finish(&judge, &events));
        while (mqjudge_next_fault(&judge, &fault) == MQJUDGE_OK) {
            count++;
        }
        mqjudge_faults(&judge, &faults);
        expect("faults", count, faults);
        expect("mqjudge_free", mqjudge_free(&judge), MQJUDGE_OK);
    }
    expect("blocks after a session", held, 0);
    return refused == 0;
}

/* A judge that is told many messages, each of which is answered, holds no more after the last than after the first. */
static void run(size_t rounds) {
    mqjudge judge = MQJUDGE_EMPTY;
    size_t faults, weight, blocks = 0, first = 0;
    expect("mqjudge_new", mqjudge_new(&judge, 0), MQJUDGE_OK);
    expect("mqjudge_begin", mqjudge_begin(&judge, MQJUDGE_CLIENT, 0), MQJUDGE_OK);
    expect("mqjudge_open", mqjudge_open(&judge), MQJUDGE_OK);
    for (size_t i = 0; i < 2; i++) {
        expect("an event", told[i].call(&judge, told[i].bytes, told[i].length), MQJUDGE_OK);
    }
    for (size_t i = 0; i < rounds; i++) {
        uint32_t answer = mqjudge_sent(&judge, (const uint8_t *)"\x32\x07\x00\x01" "c\x00\x02\x00" "x", 9);
        answer |= mqjudge_received(&judge, (const uint8_t *)"\x40\x02\x00\x02", 4);
        answer |= mqjudge_weight(&judge, &weight);
        if (answer != MQJUDGE_OK) {
            expect("a round", answer, MQJUDGE_OK);
            break;
        }
        if (i == 0) {
            blocks = held;
            first = weight;
        }
    }
    expect("blocks after all rounds", held, blocks);
    expect("weight after all rounds", weight, first);
    mqjudge_faults(&judge, &faults);
    expect("faults", faults, 0);
    expect("mqjudge_free", mqjudge_free(&judge), MQJUDGE_OK);
    expect("blocks after all rounds and mqjudge_free", held, 0);
}

int main(int argc, char **argv) {
    static const uint32_t limits[] = {0, 5, 100000000, 100000001, 268435460};
    size_t rounds = argc > 1 ? strtoul(argv[1], NULL, 10) : 100000;
    room = SIZE_MAX;
    for (size_t i = 0; i < sizeof limits / sizeof *limits; i++) {
        mqjudge judge = MQJUDGE_EMPTY;
        expect("mqjudge_new", mqjudge_new(&judge, limits[i]), MQJUDGE_OK);
        expect("mqjudge_free", mqjudge_free(&judge), MQJUDGE_OK);
        expect("blocks after mqjudge_free", held, 0);
    }
    run(rounds);
    size_t allocations = 0;
    while (!session(allocations)) {
        allocations++;
    }
    if (allocations < 10) {
        expect("allocations of a session are fewer than expected", allocations, 10);
    }
    return wrong;
}
