/*
 * A packet list in two calls: one loads its packets, one runs them by turns until nothing is left. Each call tests the block
 * once, however many rows it makes. runs/bindings builds and runs it.
 */
#include "maybenot_core.h"

#include <inttypes.h>
#include <stdio.h>
#include <stdlib.h>

/* The packet list: a request, and a page that comes in four packets. */
static const struct packet {
    uint64_t moment;
    uint64_t side;
} PACKETS[] = {
    {0, MAYBENOT_CORE_CLIENT},   {100, MAYBENOT_CORE_SERVER}, {110, MAYBENOT_CORE_SERVER},
    {115, MAYBENOT_CORE_SERVER}, {130, MAYBENOT_CORE_SERVER},
};
#define PACKETS_COUNT (sizeof PACKETS / sizeof PACKETS[0])

/* A packet makes four events, each one turn; the last turn says that nothing is left. */
#define TURNS (4 * PACKETS_COUNT + 1)

#define RECORDS 32u
#define WORDS MAYBENOT_CORE_WORDS(RECORDS)

static const char *const KINDS[10] = {
    "TunnelSent",  "NormalSent",    "PaddingSent", "TunnelRecv", "NormalRecv",
    "PaddingRecv", "BlockingBegin", "BlockingEnd", "TimerBegin", "TimerEnd",
};

/* The state, the rows and their answers: no heap. */
static uint64_t block[WORDS];
static uint64_t rows[TURNS][MAYBENOT_CORE_ROW_WORDS];
static uint64_t answers[TURNS][MAYBENOT_CORE_ROW_ANSWER_WORDS];

/* Makes the first rows as one list; how many were made. Ends the program where one of them was refused. */
static size_t make(size_t count)
{
    size_t made = (size_t)maybenot_core_calls(block, WORDS, rows[0], count * MAYBENOT_CORE_ROW_WORDS, answers[0],
                                              count * MAYBENOT_CORE_ROW_ANSWER_WORDS);
    size_t i;
    for (i = 0; i < made; i++) {
        if (answers[i][MAYBENOT_CORE_ROW_NUMBER] != MAYBENOT_CORE_OK) {
            printf("row %zu was refused: %" PRIu64 "\n", i, answers[i][MAYBENOT_CORE_ROW_NUMBER]);
            exit(EXIT_FAILURE);
        }
    }
    return made;
}

/* Pushes every packet of the list; words of a row that are not written stay 0. */
static void load(void)
{
    size_t i;
    for (i = 0; i < PACKETS_COUNT; i++) {
        uint64_t *row = rows[i];
        row[0] = MAYBENOT_CORE_CALL_PUSH;
        row[1] = MAYBENOT_CORE_NORMAL_SENT;
        row[2] = PACKETS[i].moment;
        row[4] = PACKETS[i].side;
    }
    if (make(PACKETS_COUNT) != PACKETS_COUNT) {
        printf("not every packet was loaded\n");
        exit(EXIT_FAILURE);
    }
    printf("%zu packets loaded\n", PACKETS_COUNT);
}

/* Runs by turns from moment 0 on; how many turns were made. */
static size_t run(void)
{
    size_t i;
    for (i = 0; i < TURNS; i++) {
        rows[i][0] = MAYBENOT_CORE_CALL_TURN;
        rows[i][1] = 0; /* time: each turn goes on at the moment of the one before */
        rows[i][2] = 0; /* stop: at no event */
    }
    return make(TURNS);
}

static void print(const uint64_t *answer)
{
    const uint64_t *event = answer + MAYBENOT_CORE_ROW_OUT;
    printf("%4" PRIu64 " ns  %s  %-13s  rounds %" PRIu64 "%s", event[MAYBENOT_CORE_ANSWER_MOMENT],
           event[MAYBENOT_CORE_ANSWER_SIDE] ? "client" : "server", KINDS[event[MAYBENOT_CORE_ANSWER_KIND]],
           event[MAYBENOT_CORE_ANSWER_ROUNDS], answer[MAYBENOT_CORE_ROW_ACTIVITY] ? "  on the network" : "");
    if (answer[MAYBENOT_CORE_ROW_HAS_FALL]) {
        printf(", count falls at %" PRIu64 " ns", answer[MAYBENOT_CORE_ROW_FALLS]);
    }
    printf("\n");
}

int main(void)
{
    size_t made;
    size_t i;
    const uint64_t *last;

    /* network delay 20 ns, at most three packets in 50 ns, no integration delays, no machines */
    if (maybenot_core_open(block, WORDS, 20, 1, 3, 0, 0, 50, 0, 0, 0, 0, 0, 0) != MAYBENOT_CORE_OK) {
        printf("open was refused\n");
        return EXIT_FAILURE;
    }
    load();
    made = run();
    for (i = 0; i + 1 < made; i++) {
        print(answers[i]);
    }
    last = answers[made - 1] + MAYBENOT_CORE_ROW_OUT;
    if (last[MAYBENOT_CORE_ANSWER_CHOSEN] != 0) {
        printf("something is left\n");
        return EXIT_FAILURE;
    }
    printf("nothing left after %zu turns\n", made);
    return EXIT_SUCCESS;
}
