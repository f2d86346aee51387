/* packs CALLS SEED: packing of sound, damaged and random blocks into second blocks of
 * any length, what they hold being noise. Both lie between pages that nobody may touch,
 * and the first may only be read during the call. Each answer, each word of both and each
 * byte around is held to a packing written here from document 02 and docs/LAYOUT.md. Now
 * and then what is packed is packed again. Ends with a table; exit status 0 if all was as
 * it should be, else 1. Compiled with -DEXACT it lends exact pieces of the heap instead,
 * for valgrind. */
#include "../../include/maybenot_core.h"
#include "lots.h"
#include "places.h"
#include <stdio.h>
#include <stdlib.h>
#include <string.h>

#define MOST (R(65536) + 8)
#define SMALL 1024

struct lot {
  size_t length;
  unsigned weight; /* of 10,000 */
  struct place place;
  unsigned long calls, sound, answers[3];
};

static struct lot lots[] = {LENGTHS(LOT)};
#define LOTS (sizeof lots / sizeof *lots)

static word before[MOST], due[MOST], second_before[MOST];

static unsigned weight_of(size_t i) { return lots[i].weight; }

/* ---- a second reading: the packed form of accepted words */

static int without_meaning(size_t i) { return (i >= 18 && i < 24) || (i >= 48 && i < 64) || (i >= 192 && i < 256); }

static void packed_by_the_page(const word *w, size_t n, word *out) {
  word records = (n - 256) / 4, next = 1;
  memset(out, 0, 8 * n);
  for (size_t i = 0; i < 256; i++)
    if (!without_meaning(i) && (i < 24 || i >= 48)) out[i] = w[i];
  for (int k = 1; k < 12; k++) {
    word at = w[24 + 2 * k];
    out[25 + 2 * k] = w[25 + 2 * k];
    if (at) out[24 + 2 * k] = next;
    for (; at; at = w[RECORD(at)], next++) {
      memcpy(out + RECORD(next), w + RECORD(at), 32);
      out[RECORD(next)] = w[RECORD(at)] ? next + 1 : 0;
    }
  }
  out[24] = next <= records ? next : 0;
  out[25] = records + 1 - next;
  for (; next < records; next++) out[RECORD(next)] = next + 1;
}

/* ---- a call */

static size_t some_length(size_t n) {
  switch (below(12)) {
    case 0: return below(300);
    case 1: return n + 1 + below(8);
    case 2: return n ? n - 1 - below(n < 8 ? n : 8) : 0;
    case 3: return below(8) ? R(1 + below(60)) : R(65535) + below(9) - 4;
    default: return n;
  }
}

/* The place of a second block of so many words. */
static struct place *second_place(size_t length) {
  static struct place small, large;
  if (!small.pages) small = place_for(SMALL), large = place_for(MOST);
  return length <= SMALL ? &small : &large;
}

static const char *hold(const struct place *first, const struct place *second, word number) {
  size_t n = first->length, m = second->length;
  word right = !size_ok(n) || m != n ? 1 : accepted_by_the_page(before, n) ? 0 : 2;
  if (number != right) return "another number than the page gives";
  if (!untouched_around(first) || !untouched_around(second)) return "written outside what is lent";
  if (n && memcmp(before, first->lent, 8 * n)) return "the first block was changed";
  if (number) return m && memcmp(second_before, second->lent, 8 * m) ? "a refused call changed the second block" : 0;
  packed_by_the_page(before, n, due);
  return memcmp(due, second->lent, 8 * n) ? "other packed words than the page gives" : 0;
}

/* What was packed is accepted, and packed into the first block it stays. */
static const char *again(struct place *first, struct place *second) {
  if (!accepted_by_the_page(second->lent, second->length)) return "the packed words are not accepted";
  lend(first, second->length, below(2));
  if (maybenot_core_pack(second->lent, second->length, first->lent, first->length)) return "packed words are refused";
  return memcmp(due, first->lent, 8 * first->length) || memcmp(due, second->lent, 8 * first->length) ? "packing twice changes words" : 0;
}

static const char *once(struct lot *l, word *number, size_t *length) {
  struct place *second;
  int sound = size_ok(l->length) && below(100) < 70;
  *length = some_length(l->length);
  if (size_ok(l->length)) build(before, l->length);
  if (!sound) damage(before, l->length);
  lend(&l->place, l->length, below(2));
  if (l->length) memcpy(l->place.lent, before, 8 * l->length);
  only_read(&l->place);
  second = second_place(*length);
  lend(second, *length, below(2));
  for (size_t i = 0; i < *length; i++) second->lent[i] = second_before[i] = random_word();
  *number = maybenot_core_pack(l->place.lent, l->length, second->lent, *length);
  l->calls++;
  l->sound += sound;
  if (*number < 3) l->answers[*number]++;
  const char *fault = hold(&l->place, second, *number);
  return !fault && !*number && !below(8) ? again(&l->place, second) : fault;
}

static void table(void) {
  printf("%8s %8s %10s %10s %9s %9s %9s\n", "words", "R", "packings", "undamaged", "done", "1", "2");
  for (size_t i = 0; i < LOTS; i++) {
    struct lot *l = &lots[i];
    char records[24] = "-";
    if (size_ok(l->length)) snprintf(records, sizeof records, "%zu", (l->length - 256) / 4);
    printf("%8zu %8s %10lu %10lu %9lu %9lu %9lu\n", l->length, records, l->calls, l->sound, l->answers[0], l->answers[1], l->answers[2]);
  }
}

int main(int count, char **words) {
  if (count != 3) return 2;
  unsigned long calls = strtoul(words[1], 0, 10), bad = 0;
  seed(strtoul(words[2], 0, 10));
  for (size_t i = 0; i < LOTS; i++) lots[i].place = place_for(lots[i].length);
  for (unsigned long i = 0; i < calls; i++) {
    word number;
    size_t length;
    struct lot *l = &lots[drawn(LOTS, weight_of)];
    const char *fault = once(l, &number, &length);
    if (fault && bad++ < 3) printf("call %lu: %s (%zu words into %zu, number %llu)\n", i, fault, l->length, length, (unsigned long long)number);
  }
  table();
  printf("seed %s: %lu packings, %lu faults\n", words[2], calls, bad);
  return bad != 0;
}
