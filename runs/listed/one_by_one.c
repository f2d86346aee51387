/*
 * A list of calls made one by one: what maybenot_core_calls must do, over the other functions of the archive. The runs hold
 * the list call to it. Compiled with -DSTAND_IN it is maybenot_core_calls itself, for an archive that has none yet; it is
 * slow then, since each call tests the block (runs/listed/archive).
 */
#include "one_by_one.h"

#include "../../include/maybenot_core.h"

#include <string.h>

#ifdef STAND_IN
#define calls_one_by_one maybenot_core_calls
#endif

/* What a list keeps from row to row. */
struct list {
    uint64_t *block;
    size_t words;
    uint64_t last; /* the moment of the last event that a choice or a turn of this list chose; 0 for none */
};

/* A choice at a time. Its ten words go to `out`; the number is returned. */
static uint64_t choose(struct list *l, uint64_t time, uint64_t *out)
{
    uint64_t number = maybenot_core_pick_next(l->block, l->words, time, out, MAYBENOT_CORE_ANSWER_WORDS);
    if (out[MAYBENOT_CORE_ANSWER_CHOSEN] != 0) {
        l->last = out[MAYBENOT_CORE_ANSWER_MOMENT];
    }
    return number;
}

/* The step of the event in the eight words `e`. Its three words go to `out`; the number is returned. */
static uint64_t step(struct list *l, uint64_t time, const uint64_t *e, uint64_t *out)
{
    return maybenot_core_sim_network_stack(l->block, l->words, time, e[0], e[1], e[2], e[3], e[4], e[5], e[6], e[7], out,
                                           MAYBENOT_CORE_STEP_WORDS);
}

/* Whether the chosen event is one of those that `stop` names. */
static bool stops(uint64_t stop, const uint64_t *chosen)
{
    return (stop & MAYBENOT_CORE_STOP(chosen[MAYBENOT_CORE_ANSWER_SIDE], chosen[MAYBENOT_CORE_ANSWER_KIND])) != 0;
}

/* A turn; whether the list goes on after it. */
static bool turn(struct list *l, uint64_t time, uint64_t stop, uint64_t *answer)
{
    uint64_t *chosen = answer + MAYBENOT_CORE_ROW_OUT;
    answer[0] = choose(l, time > l->last ? time : l->last, chosen);
    if (answer[0] != MAYBENOT_CORE_OK || chosen[MAYBENOT_CORE_ANSWER_CHOSEN] == 0) {
        return false;
    }
    answer[0] = step(l, chosen[MAYBENOT_CORE_ANSWER_MOMENT], chosen + MAYBENOT_CORE_ANSWER_KIND, answer + MAYBENOT_CORE_ROW_ACTIVITY);
    return answer[0] == MAYBENOT_CORE_OK && !stops(stop, chosen);
}

/* Makes a row's call, its code one of the eight; whether the list goes on after it. */
static bool make(struct list *l, const uint64_t *row, uint64_t *answer)
{
    const uint64_t *a = row + 1;
    uint64_t *b = l->block;
    size_t n = l->words;
    memset(answer, 0, MAYBENOT_CORE_ROW_ANSWER_WORDS * sizeof *answer);
    switch (row[0]) {
    case MAYBENOT_CORE_CALL_PUSH:
        answer[0] = maybenot_core_push_sim(b, n, a[0], a[1], a[2], a[3], a[4], a[5], a[6], a[7]);
        return true;
    case MAYBENOT_CORE_CALL_SET_ACTION:
        answer[0] = maybenot_core_set_action(b, n, a[0], a[1], a[2], a[3], a[4], a[5], a[6]);
        return true;
    case MAYBENOT_CORE_CALL_CLEAR_ACTION:
        answer[0] = maybenot_core_clear_action(b, n, a[0], a[1]);
        return true;
    case MAYBENOT_CORE_CALL_SET_TIMER:
        answer[0] = maybenot_core_set_timer(b, n, a[0], a[1], a[2]);
        return true;
    case MAYBENOT_CORE_CALL_CLEAR_TIMER:
        answer[0] = maybenot_core_clear_timer(b, n, a[0], a[1]);
        return true;
    case MAYBENOT_CORE_CALL_PICK_NEXT:
        answer[0] = choose(l, a[0], answer + MAYBENOT_CORE_ROW_OUT);
        return true;
    case MAYBENOT_CORE_CALL_SIM_NETWORK_STACK:
        answer[0] = step(l, a[0], a + 1, answer + MAYBENOT_CORE_ROW_OUT);
        return true;
    default:
        return turn(l, a[0], a[1], answer);
    }
}

uint64_t calls_one_by_one(uint64_t *block, size_t words, const uint64_t *calls, size_t calls_words, uint64_t *answers, size_t answers_words)
{
    struct list l = {block, words, 0};
    size_t rows = calls_words / MAYBENOT_CORE_ROW_WORDS;
    size_t room = answers_words / MAYBENOT_CORE_ROW_ANSWER_WORDS;
    size_t made = 0;
    bool goes_on = true;
    while (goes_on && made < rows && made < room && calls[made * MAYBENOT_CORE_ROW_WORDS] <= MAYBENOT_CORE_CALL_TURN) {
        goes_on = make(&l, calls + made * MAYBENOT_CORE_ROW_WORDS, answers + made * MAYBENOT_CORE_ROW_ANSWER_WORDS);
        made++;
    }
    return made;
}
