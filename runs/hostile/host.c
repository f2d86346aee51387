/* host CALLS SEED: random calls of the library on sound, damaged and random
 * blocks. Blocks and `out` lie between pages that nobody may touch, flush against
 * the upper one or the lower one by turns; what is left of their own pages is
 * filled with a known byte. Each answer, each word left and each byte around is
 * held to the reading in reading.c. Ends with a table; exit status 0 if all was
 * as it should be, else 1. Compiled with -DEXACT it lends exact pieces of the heap
 * instead, for valgrind. */
#include "../../include/maybenot_core.h"
#include "lots.h"
#include "places.h"
#include <stdio.h>
#include <stdlib.h>
#include <string.h>

/* ---- lengths */

struct lot {
  size_t length;
  unsigned weight;       /* of 10,000 */
  word *live, *before, *left;
  int life;              /* calls until the living block is made anew */
  struct place place;
  unsigned long calls, sound, answers[11];
};

static struct lot lots[] = {LENGTHS(LOT)};
#define LOTS (sizeof lots / sizeof *lots)

static void prepare(struct lot *l) {
  l->live = calloc(l->length + 1, 8);
  l->before = calloc(l->length + 1, 8);
  l->left = calloc(l->length + 1, 8);
  l->place = place_for(l->length);
}

static unsigned weight_of(size_t i) { return lots[i].weight; }

/* ---- a call, and what is held to the reading */

static word make(word *b, size_t n, const struct call *c, struct place *out) {
  const word *o = c->opening;
  switch (c->what) {
    case OPEN: return maybenot_core_open(b, n, o[0], o[1], o[2], o[3], o[4], o[5], o[6], o[7], o[8], o[9], o[10], o[11]);
    case PUSH: return maybenot_core_push_sim(b, n, c->kind, c->moment, c->delay, c->side, c->padding, c->bypass, c->replace, c->machine);
    case SET_ACTION: return maybenot_core_set_action(b, n, c->side, c->machine, c->kind, c->moment, c->delay, c->bypass, c->replace);
    case CLEAR_ACTION: return maybenot_core_clear_action(b, n, c->side, c->machine);
    case SET_TIMER: return maybenot_core_set_timer(b, n, c->side, c->machine, c->moment);
    case CLEAR_TIMER: return maybenot_core_clear_timer(b, n, c->side, c->machine);
    case PICK: return maybenot_core_pick_next(b, n, c->time, out->lent, out->length);
    case STEP:
      return maybenot_core_sim_network_stack(b, n, c->time, c->kind, c->moment, c->delay, c->side, c->padding, c->bypass, c->replace, c->machine,
                                             out->lent, out->length);
    default: return maybenot_core_accepted(b, n);
  }
}

/* Whether `out` holds what is due, or is as it was where it has another length or nothing is due. */
static int out_right(enum what what, const struct place *out, const word *due) {
  size_t length = what == PICK ? 10 : what == STEP ? 3 : 0;
  if (length && out->length == length) return !memcmp(out->lent, due, 8 * length);
  for (size_t i = 0; i < out->length; i++)
    if (out->lent[i] != OUT_BEFORE) return 0;
  return 1;
}

/* Holds a call to its verdict; the fault, or 0. */
static const char *hold(const struct lot *l, const struct call *c, const struct place *out, word number) {
  word due[10];
  struct verdict v = verdict(l->before, l->length, c, l->left, due);
  const word *w = l->place.lent;
  if (number != v.number) return "another number than the page gives";
  if (!untouched_around(&l->place) || !untouched_around(out)) return "written outside what is lent";
  if (!out_right(c->what, out, due)) return "`out`";
  if (!v.changes) return memcmp(l->before, w, 8 * l->length) ? "a refused call changed words" : 0;
  if (!same_words(l->left, w, l->length)) return "other words left than the page gives";
  return accepted_by_the_page(w, l->length) ? 0 : "the state left is not accepted";
}

static void tell(unsigned long i, const struct lot *l, const struct call *c, word number, const char *fault) {
  printf("call %lu: %s\n  length %zu, call %d, number %llu, time %llu kind %llu moment %llu delay %llu side %llu flags %llu %llu %llu machine %llu\n", i, fault,
         l->length, c->what, (unsigned long long)number, (unsigned long long)c->time, (unsigned long long)c->kind, (unsigned long long)c->moment,
         (unsigned long long)c->delay, (unsigned long long)c->side, (unsigned long long)c->padding, (unsigned long long)c->bypass,
         (unsigned long long)c->replace, (unsigned long long)c->machine);
  printf("  words:");
  for (size_t k = 0; k < l->length && k < 600; k++)
    if (l->before[k]) printf(" %zu:%llu", k, (unsigned long long)l->before[k]);
  printf("\n");
}

/* One call on a sound or a damaged block of the lot. */
static const char *once(struct lot *l, struct place *out, struct call *c, word *number) {
  int sound = size_ok(l->length) && below(100) < 45;
  if (size_ok(l->length) && --l->life < 0) {
    l->life = (int)below(80);
    build(l->live, l->length);
  }
  memcpy(l->before, l->live, 8 * l->length);
  if (!sound) damage(l->before, l->length);
  some_call(c, l->before, l->length);
  memcpy(l->left, l->before, 8 * l->length);
  lend(&l->place, l->length, below(2));
  if (l->length) memcpy(l->place.lent, l->before, 8 * l->length);
  lend(out, below(10) ? (c->what == STEP ? 3 : 10) : below(12), below(2));
  for (size_t i = 0; i < out->length; i++) out->lent[i] = OUT_BEFORE;
  *number = make(l->place.lent, l->length, c, out);
  l->calls++;
  l->sound += sound;
  if (c->what != ACCEPTED && *number < 11) l->answers[*number]++;
  const char *fault = hold(l, c, out, *number);
  if (sound && !fault && (!l->place.lent[16] || !below(8))) memcpy(l->live, l->place.lent, 8 * l->length);
  return fault;
}

static void table(void) {
  printf("%8s %8s %10s %10s %9s", "words", "R", "calls", "undamaged", "done");
  for (int i = 1; i < 11; i++) printf(" %9d", i);
  printf("\n");
  for (size_t i = 0; i < LOTS; i++) {
    struct lot *l = &lots[i];
    char records[24] = "-";
    if (size_ok(l->length)) snprintf(records, sizeof records, "%zu", (l->length - 256) / 4);
    printf("%8zu %8s %10lu %10lu", l->length, records, l->calls, l->sound);
    for (int a = 0; a < 11; a++) printf(" %9lu", l->answers[a]);
    printf("\n");
  }
}

int main(int count, char **words) {
  if (count != 3) return 2;
  unsigned long calls = strtoul(words[1], 0, 10), bad = 0;
  seed(strtoul(words[2], 0, 10));
  for (size_t i = 0; i < LOTS; i++) prepare(&lots[i]);
  struct place out = place_for(12);
  for (unsigned long i = 0; i < calls; i++) {
    struct call c = {0};
    word number;
    struct lot *l = &lots[drawn(LOTS, weight_of)];
    const char *fault = once(l, &out, &c, &number);
    if (fault && bad++ < 3) tell(i, l, &c, number, fault);
  }
  table();
  printf("seed %s: %lu calls, %lu faults\n", words[2], calls, bad);
  return bad != 0;
}
