/* Faults between the host and the library, to see that the host notices them:
 * FAULT is the number of one. Linked with -Wl,--wrap for each function here. */
#include "reading.h"

_Bool __real_maybenot_core_accepted(const word *, size_t);
word __real_maybenot_core_open(word *, size_t, word, word, word, word, word, word, word, word, word, word, word, word);
word __real_maybenot_core_push_sim(word *, size_t, word, word, word, word, word, word, word, word);
word __real_maybenot_core_set_timer(word *, size_t, word, word, word);
word __real_maybenot_core_pick_next(word *, size_t, word, word *, size_t);
word __real_maybenot_core_sim_network_stack(word *, size_t, word, word, word, word, word, word, word, word, word, word *, size_t);

static unsigned turn;

/* Now and then, so that a fault is not seen at the first call alone. */
static int now_and_then(void) { return ++turn % 50 == 0; }

_Bool __wrap_maybenot_core_accepted(const word *b, size_t n) {
  _Bool r = __real_maybenot_core_accepted(b, n);
  if (FAULT == 1 && now_and_then()) return !r;            /* acceptance says the other thing */
  if (FAULT == 2 && now_and_then()) return r + ((volatile const word *)b)[n] * 0; /* reads one word past the block */
  return r;
}

word __wrap_maybenot_core_open(word *b, size_t n, word d, word a, word p, word q, word r, word w, word x, word y, word z, word v, word m, word s) {
  word k = n > 200 ? b[200] : 0, number = __real_maybenot_core_open(b, n, d, a, p, q, r, w, x, y, z, v, m, s);
  if (FAULT == 3 && !number) b[200] = k; /* opening keeps a word without a meaning */
  return number;
}

word __wrap_maybenot_core_push_sim(word *b, size_t n, word k, word m, word d, word s, word p, word y, word r, word i) {
  word number = __real_maybenot_core_push_sim(b, n, k, m, d, s, p, y, r, i);
  if (FAULT == 4 && now_and_then()) b[n] = 0;                /* writes one word past the block */
  if (FAULT == 5 && now_and_then()) b[-1] = 0;               /* writes one word before it */
  if (FAULT == 6 && number == 9 && now_and_then()) b[20]++;  /* a refused push changes a word without a meaning */
  if (FAULT == 7 && number == 7) return 6;                   /* another number */
  if (FAULT == 8 && number == 5) return 0;                   /* a refusal that is not told */
  return number;
}

word __wrap_maybenot_core_set_timer(word *b, size_t n, word s, word m, word t) {
  if (FAULT == 9 && now_and_then()) s = !s; /* the other side's timer */
  return __real_maybenot_core_set_timer(b, n, s, m, t);
}

word __wrap_maybenot_core_pick_next(word *b, size_t n, word t, word *o, size_t l) {
  word number = __real_maybenot_core_pick_next(b, n, t, o, l);
  if (FAULT == 10 && now_and_then()) o[l] = 0;                     /* writes one word past `out` */
  if (FAULT == 11 && !number && now_and_then()) b[17]++;           /* a round that nobody made */
  if (FAULT == 12 && number == 2 && l == 10) o[1] = 1;             /* rounds in a refusal */
  if (FAULT == 13 && number == 10) b[16] = 0;                      /* no ended mark */
  if (FAULT == 14 && l == 9 && now_and_then()) o[0] = 0;           /* an `out` of another length is written */
  return number;
}

/* The least moment of the side's stamps, plus the window plus 1. */
static word least_falls(const word *b, word s) {
  word least = MAX;
  for (word at = b[24 + 2 * (s ? 5 : 10)]; at; at = b[RECORD(at)])
    if (b[RECORD(at) + 1] < least) least = b[RECORD(at) + 1];
  return least + b[3] + 1;
}

word __wrap_maybenot_core_sim_network_stack(word *b, size_t n, word t, word k, word m, word d, word s, word p, word y, word r, word i, word *o, size_t l) {
  word number = __real_maybenot_core_sim_network_stack(b, n, t, k, m, d, s, p, y, r, i, o, l);
  int made = !number && l == 3, told = made && o[1];
  if (FAULT == 15 && number == 10) b[17]++;                           /* a step's 10 changes more than the ended mark */
  if (FAULT == 16 && made && now_and_then()) o[0] ^= 1;               /* yes for no */
  if (FAULT == 17 && number == 9) return 10;                          /* 10 goes before 9 */
  if (FAULT == 18 && number == 8) return 7;
  if (FAULT == 19 && told) o[2]--;                                    /* the moment one nanosecond early */
  if (FAULT == 20 && told) o[2] = least_falls(b, s);                  /* the least moment, not the oldest by arrival */
  if (FAULT == 21 && made && !k && !told) o[1] = 1, o[2] = TOP + 1;   /* a moment past the limit is told */
  if (FAULT == 22 && l == 1 && now_and_then()) o[0] = 1;              /* an `out` of one word is written */
  return number;
}
