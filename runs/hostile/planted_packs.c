/* Faults between packs.c and packing, to see that it notices them: FAULT is the number of one. Linked with
 * -Wl,--wrap=maybenot_core_pack. */
#include "reading.h"
#include <string.h>

word __real_maybenot_core_pack(const word *, size_t, word *, size_t);

static unsigned turn;

/* Now and then, so that a fault is not seen at the first call alone. */
static int now_and_then(void) { return ++turn % 50 == 0; }

/* The last record of chain k in packed words; 0 for none. */
static word last_of(const word *v, int k) {
  word at = v[24 + 2 * k];
  while (at && v[RECORD(at)]) at = v[RECORD(at)];
  return at;
}

/* Faults in what was packed. */
static void spoilt(const word *b, word *v, size_t n) {
  word at;
  if (FAULT == 1) v[18] = b[18];                                                            /* a word without a meaning is copied */
  if (FAULT == 2) v[255] = b[255];                                                          /* and the last of them */
  if (FAULT == 3) v[16] = 0;                                                                /* the ended mark is not copied */
  if (FAULT == 4) v[17] = 0;                                                                /* nor the round total */
  if (FAULT == 5 && (at = last_of(v, 11)) && at < (n - 256) / 4) v[RECORD(at)] = at + 1;    /* the last aggregate has a link */
  if (FAULT == 6 && (at = v[24])) v[RECORD(at) + 3] = 16;                                   /* a free tag is left */
  if (FAULT == 7 && !v[25]) v[24] = (n - 256) / 4;                                          /* a full block has a free head */
  if (FAULT == 8 && v[27] > 1) memcpy(v + RECORD(v[26]) + 1, v + RECORD(v[26] + 1) + 1, 24); /* a record twice */
}

word __wrap_maybenot_core_pack(const word *b, size_t n, word *v, size_t m) {
  word number;
  if (FAULT == 9 && n >= 260 && m >= 260 && b[16] == 1) return 3;            /* 3 for an ended state */
  if (FAULT == 10 && n >= 260 && m > n) m = n;                               /* a longer second block is taken */
  if (FAULT == 11 && n == m && n >= 260) v[0] = b[0];                        /* a refusal writes */
  if (FAULT == 12 && n >= 260 && now_and_then()) ((volatile word *)b)[20] = b[20]; /* writes to the first block what it holds */
  number = __real_maybenot_core_pack(b, n, v, m);
  if (!number) spoilt(b, v, n);
  if (FAULT == 13 && now_and_then()) v[m] = 0;                               /* one word past the second block */
  if (FAULT == 14 && now_and_then()) v[-1] = 0;                              /* one before it */
  if (FAULT == 15 && now_and_then()) number += ((volatile const word *)b)[n] * 0; /* one word read past the first */
  if (FAULT == 16 && number == 1 && n != m && size_ok(n) && !accepted_by_the_page(b, n)) return 2; /* 2 goes before 1 */
  if (FAULT == 17 && number == 2) return 1;
  if (FAULT == 18 && number == 1 && m && now_and_then()) v[m - 1] ^= 1;      /* a refusal writes the last word */
  return number;
}
