/*
 * A line with one block, from opening to the last event: a client whose packets are blocked from 50 to 150 ns while one
 * waits since 100, with a network delay of 20. Every return value is checked. runs/bindings builds and runs it.
 */
#include "maybenot_core.h"

#include <inttypes.h>
#include <stdio.h>
#include <stdlib.h>

#define RECORDS 16u
#define WORDS MAYBENOT_CORE_WORDS(RECORDS)

static const char *const KINDS[10] = {
    "TunnelSent",  "NormalSent",    "PaddingSent", "TunnelRecv", "NormalRecv",
    "PaddingRecv", "BlockingBegin", "BlockingEnd", "TimerBegin", "TimerEnd",
};

static const char *const REFUSALS[11] = {
    "done",
    "the length is not 256 + 4R words",
    "the words are no accepted state",
    "the state is marked ended",
    "an opening value is outside its limits",
    "the machine is not below its side's count",
    "no such kind of event or action",
    "a moment or a length is above its limit",
    "the delay of the packet is above its moment",
    "not enough records",
    "a sum would pass 2^62 - 1",
};

/* The state lives here: no heap. */
static uint64_t block[WORDS];

/* Ends the program where a call was refused. */
static void want(const char *call, uint64_t number)
{
    if (number == MAYBENOT_CORE_OK) {
        return;
    }
    printf("%s was refused: %" PRIu64 ", %s\n", call, number, number <= 10 ? REFUSALS[number] : "?");
    exit(EXIT_FAILURE);
}

static void start(void)
{
    /* network delay 20 ns, no rates, a window of a second, no integration delays, one machine at the client */
    want("open", maybenot_core_open(block, WORDS, 20, 0, 0, 0, 0, 1000000000, 0, 0, 0, 0, 1, 0));
    want("push", maybenot_core_push_sim(block, WORDS, MAYBENOT_CORE_NORMAL_SENT, 100, 0, MAYBENOT_CORE_CLIENT, 0, 0, 0, 0));
    want("set_action", maybenot_core_set_action(block, WORDS, MAYBENOT_CORE_CLIENT, 0, MAYBENOT_CORE_BLOCK_OUTGOING, 50, 100, 0, 0));
}

/* Steps on the chosen event at its moment, and prints both. */
static void step(const uint64_t *event)
{
    uint64_t moment = event[MAYBENOT_CORE_ANSWER_MOMENT];
    uint64_t side = event[MAYBENOT_CORE_ANSWER_SIDE];
    uint64_t told[MAYBENOT_CORE_STEP_WORDS];
    want("sim_network_stack",
         maybenot_core_sim_network_stack(block, WORDS, moment, event[MAYBENOT_CORE_ANSWER_KIND], moment,
                                         event[MAYBENOT_CORE_ANSWER_DELAY], side, event[MAYBENOT_CORE_ANSWER_PADDING],
                                         event[MAYBENOT_CORE_ANSWER_BYPASS], event[MAYBENOT_CORE_ANSWER_REPLACE],
                                         event[MAYBENOT_CORE_ANSWER_MACHINE], told, MAYBENOT_CORE_STEP_WORDS));
    printf("%4" PRIu64 " ns  %s  %-13s  rounds %" PRIu64 "%s", moment, side ? "client" : "server",
           KINDS[event[MAYBENOT_CORE_ANSWER_KIND]], event[MAYBENOT_CORE_ANSWER_ROUNDS],
           told[MAYBENOT_CORE_STEP_ACTIVITY] ? "  on the network" : "");
    if (told[MAYBENOT_CORE_STEP_HAS_FALL]) {
        printf(", count falls at %" PRIu64 " ns", told[MAYBENOT_CORE_STEP_FALLS]);
    }
    printf("\n");
}

int main(void)
{
    uint64_t answer[MAYBENOT_CORE_ANSWER_WORDS];
    uint64_t now = 0;
    uint64_t number;

    start();
    for (;;) {
        want("pick_next", maybenot_core_pick_next(block, WORDS, now, answer, MAYBENOT_CORE_ANSWER_WORDS));
        if (answer[MAYBENOT_CORE_ANSWER_CHOSEN] == 0) {
            break;
        }
        step(answer);
        now = answer[MAYBENOT_CORE_ANSWER_MOMENT];
    }
    printf("nothing left after %" PRIu64 " ns, rounds %" PRIu64 "\n", now, answer[MAYBENOT_CORE_ANSWER_ROUNDS]);

    /* a refusal changes nothing: the server has no machine */
    number = maybenot_core_set_timer(block, WORDS, MAYBENOT_CORE_SERVER, 0, 200);
    if (number != MAYBENOT_CORE_REFUSED_MACHINE) {
        printf("set_timer answered %" PRIu64 "\n", number);
        return EXIT_FAILURE;
    }
    printf("a timer for the server: refused with %" PRIu64 ", %s\n", number, REFUSALS[number]);
    if (!maybenot_core_accepted(block, WORDS)) {
        printf("the words are no accepted state\n");
        return EXIT_FAILURE;
    }
    printf("the words are an accepted state\n");
    return EXIT_SUCCESS;
}
