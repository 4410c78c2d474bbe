/* Calls the library as nobody should, and checks that each call has its answer, does no harm, and leaves the judge as it
 * was. The status is 1 if one hasn't.
 */
#include "mqjudge.h"

#include <stdio.h>

static int wrong;

static void expect(const char *call, uint32_t answer, uint32_t wanted) {
    if (answer != wanted) {
        printf("%s answers %u in place of %u\n", call, answer, wanted);
        wrong = 1;
    }
}

#define EXPECT(wanted, call) expect(#call, call, MQJUDGE_##wanted)

static const uint8_t garbage[] = {0xff, 0xfe, 0, 1};
/* one CONNECT, of one byte more than a record can have */
static const uint8_t many[1048577] = {0x10, 0xfd, 0xff, 0x3f};

int main(void) {
    mqjudge judge = MQJUDGE_EMPTY;
    mqjudge_fault_row fault;
    char text[4];
    size_t size;
    uint32_t number;
    uint64_t byte;

    /* no judge */
    EXPECT(NULL, mqjudge_new(NULL, 0));
    EXPECT(NULL, mqjudge_free(NULL));
    EXPECT(NO_JUDGE, mqjudge_free(&judge));
    EXPECT(NO_JUDGE, mqjudge_choose(&judge, "all"));
    EXPECT(NO_JUDGE, mqjudge_feed(&judge, NULL, 0));
    EXPECT(NO_JUDGE, mqjudge_faults(&judge, &size));
    EXPECT(NO_JUDGE, mqjudge_next_fault(&judge, &fault));
    EXPECT(NO_JUDGE, mqjudge_weight(&judge, &size));
    EXPECT(NO_JUDGE, mqjudge_places(&judge, 0, &number));
    EXPECT(VALUE, mqjudge_new(&judge, 4));
    EXPECT(VALUE, mqjudge_new(&judge, 268435461));

    /* pointers that are NULL, and nothing to ask for */
    EXPECT(OK, mqjudge_new(&judge, 5));
    EXPECT(HELD, mqjudge_new(&judge, 5));
    EXPECT(NULL, mqjudge_choose(&judge, NULL));
    EXPECT(VALUE, mqjudge_choose(&judge, ""));
    EXPECT(VALUE, mqjudge_choose(&judge, "default,X"));
    EXPECT(VALUE, mqjudge_choose(&judge, "W,-W"));
    EXPECT(VALUE, mqjudge_choose(&judge, "\xff"));
    EXPECT(OK, mqjudge_choose(&judge, "all"));
    EXPECT(OK, mqjudge_places(&judge, 74, &number));
    EXPECT(OK, mqjudge_choose(&judge, "-A"));
    EXPECT(NULL, mqjudge_feed(&judge, NULL, 1));
    EXPECT(OK, mqjudge_feed(&judge, NULL, 0));
    EXPECT(NULL, mqjudge_faults(&judge, NULL));
    EXPECT(NULL, mqjudge_fault(&judge, 0, NULL));
    EXPECT(NULL, mqjudge_next_fault(&judge, NULL));
    EXPECT(ABSENT, mqjudge_next_fault(&judge, &fault));
    EXPECT(NULL, mqjudge_weight(&judge, NULL));
    EXPECT(OK, mqjudge_weight(&judge, &size));
    expect("the weight of nothing", (uint32_t)size, 0);
    EXPECT(NULL, mqjudge_places(&judge, 0, NULL));
    EXPECT(OK, mqjudge_places(&judge, 0, &number));
    expect("the places of nothing", number, 0);
    EXPECT(ABSENT, mqjudge_places(&judge, 74, &number));
    EXPECT(ABSENT, mqjudge_fault(&judge, 0, &fault));
    EXPECT(ABSENT, mqjudge_fault_from(&judge, 0, &fault));
    EXPECT(ABSENT, mqjudge_fault_at(&judge, 1, 0, &fault));
    EXPECT(NULL, mqjudge_refusal(&judge, &number, NULL));
    EXPECT(ABSENT, mqjudge_refusal(&judge, &number, &byte));
    EXPECT(ABSENT, mqjudge_refusal_name(&judge, text, sizeof text, &size));
    EXPECT(NULL, mqjudge_finish(&judge, NULL));
    EXPECT(ROOM, mqjudge_code(0, NULL, 0, &size));
    EXPECT(ROOM, mqjudge_code(0, text, 3, &size));
    EXPECT(OK, mqjudge_code(0, text, 4, &size));
    EXPECT(ABSENT, mqjudge_code(102, text, 4, &size));
    EXPECT(VALUE, mqjudge_citation(0, 2, text, sizeof text, &size));

    /* garbage, and nothing but its refusal from then on */
    EXPECT(REFUSED, mqjudge_feed(&judge, garbage, sizeof garbage));
    EXPECT(REFUSED, mqjudge_feed(&judge, NULL, 0));
    EXPECT(REFUSED, mqjudge_choose(&judge, "X"));
    EXPECT(REFUSED, mqjudge_open(&judge));
    EXPECT(REFUSED, mqjudge_begin(&judge, 2, 0));
    EXPECT(REFUSED, mqjudge_begin(&judge, MQJUDGE_CLIENT, 2));
    EXPECT(REFUSED, mqjudge_sent(&judge, many, sizeof many));
    EXPECT(REFUSED, mqjudge_finish(&judge, &number));
    EXPECT(REFUSED, mqjudge_places(&judge, 0, &number));
    EXPECT(ABSENT, mqjudge_places(&judge, 74, &number));
    EXPECT(OK, mqjudge_refusal(&judge, &number, &byte));
    EXPECT(OK, mqjudge_free(&judge));

    /* events in a wrong order */
    EXPECT(OK, mqjudge_new(&judge, 0));
    EXPECT(ORDER, mqjudge_open(&judge));
    EXPECT(ORDER, mqjudge_received(&judge, many, sizeof many));
    EXPECT(OK, mqjudge_feed(&judge, NULL, 0)); /* no bytes change nothing */
    EXPECT(OK, mqjudge_choose(&judge, "default,F,-W13"));
    EXPECT(VALUE, mqjudge_begin(&judge, 2, 0));
    EXPECT(OK, mqjudge_begin(&judge, MQJUDGE_SERVER, 0));
    EXPECT(ORDER, mqjudge_begin(&judge, MQJUDGE_SERVER, 0));
    EXPECT(ORDER, mqjudge_choose(&judge, "default"));
    EXPECT(VALUE, mqjudge_choose(&judge, "X"));
    EXPECT(ORDER, mqjudge_feed(&judge, garbage, sizeof garbage));
    EXPECT(ORDER, mqjudge_feed(&judge, NULL, 0));
    EXPECT(OK, mqjudge_open(&judge));
    EXPECT(OK, mqjudge_sent(&judge, NULL, 0));
    EXPECT(NULL, mqjudge_received(&judge, NULL, 1));
    EXPECT(OK, mqjudge_received(&judge, many, sizeof many)); /* in two records */
    EXPECT(REFUSED, mqjudge_release(&judge, 1)); /* its header said that releases aren't told */
    EXPECT(OK, mqjudge_free(&judge));
    EXPECT(NO_JUDGE, mqjudge_free(&judge));

    /* after the end */
    EXPECT(OK, mqjudge_new(&judge, 0));
    EXPECT(OK, mqjudge_begin(&judge, MQJUDGE_CLIENT, 1));
    EXPECT(OK, mqjudge_finish(&judge, &number));
    EXPECT(ORDER, mqjudge_finish(&judge, &number));
    EXPECT(ORDER, mqjudge_open(&judge));
    EXPECT(OK, mqjudge_faults(&judge, &size));
    EXPECT(OK, mqjudge_free(&judge));
    return wrong;
}
