/*
 * How much stack a call takes: every function of include/maybenot_core.h is called many times in a thread whose stack is
 * painted first, and the lowest byte that lost its paint tells how deep the call went. The figure is from the frame of the
 * function that makes the call, so its own frame, the arguments and the return address are in it. runs/bindings builds and
 * runs it.
 *
 *   stack CALLS     exit status 1 where a call took more than MAYBENOT_CORE_STACK_BYTES
 */
#define _GNU_SOURCE
#include "maybenot_core.h"

#include <pthread.h>
#include <stdio.h>
#include <stdlib.h>
#include <string.h>

#define STACK (256u * 1024u)
#define PAINTED (32u * 1024u)
#define PAINT 0xa5
#define LARGE MAYBENOT_CORE_WORDS(MAYBENOT_CORE_MAX_RECORDS)
#define CALLS 10
#define ROWS 8

static const char *const NAMES[CALLS] = {
    "open", "push_sim", "set_action", "clear_action", "set_timer", "clear_timer", "pick_next", "sim_network_stack", "pack", "calls",
};

static uint64_t block[LARGE];
static uint64_t second[LARGE];
static uint64_t out[MAYBENOT_CORE_ANSWER_WORDS];
static uint64_t rows[ROWS][MAYBENOT_CORE_ROW_WORDS];
static uint64_t answers[ROWS][MAYBENOT_CORE_ROW_ANSWER_WORDS];
static size_t deepest[CALLS];
static size_t deepest_accepted;
static size_t done[CALLS];
static uint64_t seed = 88172645463325252u;
static unsigned long calls_asked;

static uint64_t chance(uint64_t below)
{
    seed ^= seed << 13;
    seed ^= seed >> 7;
    seed ^= seed << 17;
    return seed % below;
}

/* A moment or a length: mostly small, now and then at or past a limit. */
static uint64_t number(void)
{
    if (chance(50) == 0) {
        return MAYBENOT_CORE_MAX_MOMENT - chance(3) + 1;
    }
    return chance(2000);
}

/* The arguments of a row after its code, as the calls of `made` have them. */
static void arguments(uint64_t code, uint64_t *a)
{
    size_t i;
    for (i = 0; i < MAYBENOT_CORE_ROW_WORDS - 1; i++) {
        a[i] = chance(3);
    }
    if (code == MAYBENOT_CORE_CALL_PUSH || code == MAYBENOT_CORE_CALL_SIM_NETWORK_STACK) {
        uint64_t *event = code == MAYBENOT_CORE_CALL_PUSH ? a : a + 1;
        a[0] = chance(2000);
        event[0] = chance(11);
        event[1] = number();
    } else if (code == MAYBENOT_CORE_CALL_SET_ACTION) {
        a[2] = chance(4);
        a[3] = number();
        a[4] = chance(300);
    } else if (code == MAYBENOT_CORE_CALL_SET_TIMER) {
        a[2] = number();
    } else if (code == MAYBENOT_CORE_CALL_PICK_NEXT || code == MAYBENOT_CORE_CALL_TURN) {
        a[0] = chance(2000);
    }
}

/* A list of random rows; the last number that it answered. */
static uint64_t list(size_t words)
{
    uint64_t made;
    size_t i;
    for (i = 0; i < ROWS; i++) {
        rows[i][0] = chance(8);
        arguments(rows[i][0], rows[i] + 1);
    }
    made = maybenot_core_calls(block, words, rows[0], ROWS * MAYBENOT_CORE_ROW_WORDS, answers[0],
                               ROWS * MAYBENOT_CORE_ROW_ANSWER_WORDS);
    return made == 0 ? 0 : answers[made - 1][MAYBENOT_CORE_ROW_NUMBER];
}

static uint64_t made(size_t call, size_t words)
{
    uint64_t flags = chance(8);
    uint64_t kind = chance(11);
    switch (call) {
    case 0:
        return maybenot_core_open(block, words, chance(50), chance(2), 1 + chance(5), chance(2), 1 + chance(5), chance(500),
                                  chance(3), chance(3), chance(3), chance(3), 2, 2);
    case 1:
        return maybenot_core_push_sim(block, words, kind, number(), chance(3), chance(2), flags & 1, flags & 2, flags & 4, chance(3));
    case 2:
        return maybenot_core_set_action(block, words, chance(2), chance(3), chance(4), number(), chance(300), flags & 1, flags & 2);
    case 3:
        return maybenot_core_clear_action(block, words, chance(2), chance(3));
    case 4:
        return maybenot_core_set_timer(block, words, chance(2), chance(3), number());
    case 5:
        return maybenot_core_clear_timer(block, words, chance(2), chance(3));
    case 6:
        return maybenot_core_pick_next(block, words, chance(2000), out, MAYBENOT_CORE_ANSWER_WORDS);
    case 7:
        return maybenot_core_sim_network_stack(block, words, chance(2000), kind, number(), chance(3), chance(2), flags & 1,
                                               flags & 2, flags & 4, chance(3), out, MAYBENOT_CORE_STEP_WORDS);
    case 8:
        return maybenot_core_pack(block, words, second, words);
    default:
        return list(words);
    }
}

/* How far below `top` the paint is gone. */
static size_t depth(const unsigned char *top)
{
    const unsigned char *p = top - PAINTED;
    while (p < top && *p == PAINT) {
        p++;
    }
    return (size_t)(top - p);
}

/* Paints what is below this frame, up to where the frames of memset and of this function itself end. */
__attribute__((noinline)) static void paint(unsigned char *top)
{
    volatile unsigned char *p = top - PAINTED;
    volatile unsigned char *end = (unsigned char *)__builtin_frame_address(0) - 128;
    while (p < end) {
        *p++ = PAINT;
    }
}

__attribute__((noinline)) static uint64_t measured(size_t call, size_t words)
{
    unsigned char *top = (unsigned char *)__builtin_frame_address(0);
    uint64_t n;
    size_t d;
    paint(top);
    n = made(call, words);
    d = depth(top);
    done[call]++;
    if (d > deepest[call]) {
        deepest[call] = d;
    }
    return n;
}

__attribute__((noinline)) static void measured_accepted(size_t words)
{
    unsigned char *top = (unsigned char *)__builtin_frame_address(0);
    size_t d;
    bool a;
    paint(top);
    a = maybenot_core_accepted(block, words);
    d = depth(top);
    if (d > deepest_accepted) {
        deepest_accepted = d;
    }
    if (!a) {
        printf("a state is not accepted\n");
        exit(EXIT_FAILURE);
    }
}

/* Random calls on a block of so many words; a new state after each 400, and after an ended one. */
static void calls(size_t words, unsigned long n)
{
    unsigned long i;
    for (i = 0; i < n; i++) {
        uint64_t r = measured(i % 400 == 0 ? 0 : 1 + (size_t)chance(CALLS - 1), words);
        if (r == MAYBENOT_CORE_REFUSED_ENDED || r == MAYBENOT_CORE_REFUSED_SUM) {
            measured(0, words);
        }
        if (i % 16 == 0) {
            measured_accepted(words);
        }
    }
}

static void *thread(void *unused)
{
    (void)unused;
    calls(MAYBENOT_CORE_WORDS(64), calls_asked);
    calls(MAYBENOT_CORE_WORDS(6), calls_asked / 10);
    calls(LARGE, calls_asked / 2000);
    return NULL;
}

int main(int argc, char **argv)
{
    static unsigned char stack[STACK] __attribute__((aligned(4096)));
    pthread_attr_t attributes;
    pthread_t t;
    size_t i;
    size_t most = deepest_accepted;

    calls_asked = argc > 1 ? strtoul(argv[1], NULL, 10) : 100000;
    if (pthread_attr_init(&attributes) != 0 || pthread_attr_setstack(&attributes, stack, STACK) != 0 ||
        pthread_create(&t, &attributes, thread, NULL) != 0 || pthread_join(t, NULL) != 0) {
        printf("no thread\n");
        return EXIT_FAILURE;
    }
    most = deepest_accepted;
    printf("%-18s %6zu bytes\n", "accepted", deepest_accepted);
    for (i = 0; i < CALLS; i++) {
        printf("%-18s %6zu bytes  %8zu calls\n", NAMES[i], deepest[i], done[i]);
        if (deepest[i] > most) {
            most = deepest[i];
        }
    }
    printf("greatest %zu, limit %u\n", most, MAYBENOT_CORE_STACK_BYTES);
    return most <= MAYBENOT_CORE_STACK_BYTES ? EXIT_SUCCESS : EXIT_FAILURE;
}
