/*
 * Two routers that hold the same forecast, reached in another order: their words differ, their packed words are equal.
 * Every return value is checked. runs/bindings builds and runs it.
 */
#include "maybenot_core.h"

#include <inttypes.h>
#include <stdio.h>
#include <stdlib.h>
#include <string.h>

#define RECORDS 16u
#define WORDS MAYBENOT_CORE_WORDS(RECORDS)

/* Two states and their packed forms: no heap. */
static uint64_t one[WORDS];
static uint64_t other[WORDS];
static uint64_t one_packed[WORDS];
static uint64_t other_packed[WORDS];

/* Ends the program where a call was refused. */
static void want(const char *call, uint64_t number)
{
    if (number != MAYBENOT_CORE_OK) {
        printf("%s was refused: %" PRIu64 "\n", call, number);
        exit(EXIT_FAILURE);
    }
}

static void start(uint64_t *block)
{
    /* network delay 20 ns, no rates, no window, no integration delays, one machine on each side */
    want("open", maybenot_core_open(block, WORDS, 20, 0, 0, 0, 0, 0, 0, 0, 0, 0, 1, 1));
}

static void packet(uint64_t *block, uint64_t moment, uint64_t side)
{
    want("push", maybenot_core_push_sim(block, WORDS, MAYBENOT_CORE_NORMAL_SENT, moment, 0, side, 0, 0, 0, 0));
}

/* Packs both and compares: the words as they are, then the packed ones. */
static void compare(const char *when)
{
    int as_they_are = memcmp(one, other, sizeof one) == 0;
    int packed;
    want("pack", maybenot_core_pack(one, WORDS, one_packed, WORDS));
    want("pack", maybenot_core_pack(other, WORDS, other_packed, WORDS));
    packed = memcmp(one_packed, other_packed, sizeof one_packed) == 0;
    printf("%s: words %s, packed words %s\n", when, as_they_are ? "equal" : "differ", packed ? "equal" : "differ");
}

int main(void)
{
    uint64_t answer[MAYBENOT_CORE_ANSWER_WORDS];
    uint64_t number;

    start(one);
    start(other);
    compare("both opened");

    packet(one, 100, MAYBENOT_CORE_CLIENT);
    packet(one, 50, MAYBENOT_CORE_SERVER);
    packet(other, 50, MAYBENOT_CORE_SERVER);
    packet(other, 100, MAYBENOT_CORE_CLIENT);
    compare("the same packets, in another order");

    want("set_timer", maybenot_core_set_timer(other, WORDS, MAYBENOT_CORE_CLIENT, 0, 70));
    compare("a timer in one of them");
    want("clear_timer", maybenot_core_clear_timer(other, WORDS, MAYBENOT_CORE_CLIENT, 0));
    compare("the timer cleared");

    /* packed words are a state: the other router goes on from them */
    want("pack", maybenot_core_pack(other, WORDS, other_packed, WORDS));
    memcpy(other, other_packed, sizeof other);
    want("pick_next", maybenot_core_pick_next(one, WORDS, 0, answer, MAYBENOT_CORE_ANSWER_WORDS));
    printf("one chooses the packet at %" PRIu64, answer[MAYBENOT_CORE_ANSWER_MOMENT]);
    want("pick_next", maybenot_core_pick_next(other, WORDS, 0, answer, MAYBENOT_CORE_ANSWER_WORDS));
    printf(", the other at %" PRIu64 "\n", answer[MAYBENOT_CORE_ANSWER_MOMENT]);
    compare("after the choice");

    /* a second block of another length is refused, and left as it was */
    number = maybenot_core_pack(one, WORDS, one_packed, WORDS - 4);
    if (number != MAYBENOT_CORE_REFUSED_LENGTH) {
        printf("pack answered %" PRIu64 "\n", number);
        return EXIT_FAILURE;
    }
    printf("a second block of another length: refused with %" PRIu64 "\n", number);
    return EXIT_SUCCESS;
}
