/* See blocks.h. */
#include "blocks.h"
#include <stdlib.h>
#include <string.h>

/* ---- random numbers (splitmix64) */

static word state;

void seed(word s) { state = s; }

word random_word(void) {
  word z = state += 0x9e3779b97f4a7c15ull;
  z = (z ^ z >> 30) * 0xbf58476d1ce4e5b9ull;
  z = (z ^ z >> 27) * 0x94d049bb133111ebull;
  return z ^ z >> 31;
}

word below(word n) { return random_word() % n; }

static word one_of(size_t n, const word *v) { return v[below(n)]; }
#define ONE_OF(...) one_of(sizeof((word[]){__VA_ARGS__}) / 8, (word[]){__VA_ARGS__})

/* ---- sound blocks */

/* How far a block's moments lie apart, and where they start. */
static word start, spread;

static void draw_header(word *w) {
  word delay = below(3) ? 0 : ONE_OF(1, 5, 1000000, L12);
  w[0] = ONE_OF(0, 0, 1, 2, 5, 20, 1000000, L12);
  w[1] = ONE_OF(0, 0, 1, 1, 2, 3, 10, 0xffffffff);
  w[2] = ONE_OF(0, 0, 1, 2, 0xffffffff);
  w[3] = ONE_OF(0, 1, 10, 11, 100, 1000000, 1000000000, L12);
  for (int i = 4; i < 8; i++) w[i] = below(2) ? delay : 0;
  w[8] = ONE_OF(0, 1, 2, 3, 16);
  w[9] = ONE_OF(0, 1, 2, 3, 16);
  w[10] = ONE_OF(0, 0, 5, 1000, TOP - start);
  w[11] = ONE_OF(0, 0, 5, 1000, below(20) ? 7 : TOP);
  w[14] = below(2);
  w[15] = below(2);
  w[16] = !below(40);
  w[17] = below(50) ? below(1000) : TOP - below(3);
  for (int i = 18; i < 24; i++) w[i] = random_word();
  for (int i = 48; i < 64; i++) w[i] = random_word();
  for (int i = 192; i < 256; i++) w[i] = random_word();
}

static word near(void) {
  word m = start + below(spread + 1);
  return m > TOP ? TOP : m;
}

/* Blocks, timers and actions, as far as there is room for them. */
static word draw_slots(word *w, word records) {
  word room = records;
  for (int side = 0; side < 2; side++)
    if (room >= 3 && below(2)) {
      w[12 + side] = near() + 1;
      room -= 3;
    }
  for (int j = 0; j < 32; j++) {
    if ((word)(j % 16) >= w[8 + j / 16]) continue;
    if (room >= 1 && !below(3)) {
      w[64 + j] = near() + 1;
      room -= 1;
    }
    if (room >= 4 && !below(3)) {
      word *a = w + 96 + 3 * j;
      a[0] = ONE_OF(1, 2, 2, 5, 6, 9, 10, 13, 14);
      a[1] = near();
      a[2] = a[0] % 4 == 2 ? ONE_OF(0, 1, 100, 1000000, L12) : 0;
      room -= 4;
    }
  }
  return room;
}

static word draw_tag(const word *w, int k) {
  int server = k > 5;
  word flags = 256 * below(2) + 1024 * below(2);
  if (k == 11) return 11 + 2048 * below(2);
  if (k % 5 == 0) return k;
  if (k % 5 == 1) return k + 16 + flags + 512 * below(2);
  if (k % 5 == 2) return k + flags;
  if (k % 5 == 3) return k + flags + 512;
  word kind = 2 + below(8);
  int has = kind == 2 || kind == 6 || kind >= 8;
  if (has && !w[8 + server]) kind = 5, has = 0;
  return k + 16 * kind + flags + 512 * below(2) + (has ? 4096 * below(w[8 + server]) : 0);
}

/* So many records in chain k, with the numbers handed in. */
static void draw_chain(word *w, int k, const word *numbers, word count) {
  word moment = start, rank = 0;
  w[24 + 2 * k] = count ? numbers[0] : 0;
  w[25 + 2 * k] = count;
  for (word i = 0; i < count; i++) {
    word *r = w + 256 + 4 * (numbers[i] - 1);
    r[0] = i + 1 < count ? numbers[i + 1] : 0;
    if (k == 0) {
      r[3] = 16 * below(3);
      continue;
    }
    moment += below(3) ? below(spread / (count + 1) + 1) : 0;
    if (moment > TOP) moment = TOP;
    word tag = draw_tag(w, k);
    word this = tag / 16 % 16;
    if (i && k % 5 && moment == w[256 + 4 * (numbers[i - 1] - 1) + 1] && this < rank) moment = moment < TOP ? moment + 1 : moment;
    if (moment == TOP && this < rank) tag = w[256 + 4 * (numbers[i - 1] - 1) + 3], this = rank;
    rank = this;
    r[1] = moment;
    r[2] = k % 5 == 0 ? 0 : ONE_OF(0, 0, 1, 5, 1000000, 2 * L12);
    r[3] = tag;
  }
}

void build(word *w, size_t n) {
  static word numbers[65535];
  size_t records = (n - 256) / 4;
  word counts[12] = {0}, room, used, place = 0;
  start = ONE_OF(0, 0, 100, 1000000000, TOP - 300, TOP - 3 * L12);
  spread = ONE_OF(3, 20, 200, 3000000, 400000000);
  memset(w, 0, 8 * n);
  draw_header(w);
  room = draw_slots(w, records);
  used = below(5) ? below(room + 1) : room;
  for (word i = 0; i < used; i++) counts[1 + below(11)]++;
  counts[0] = records - used;
  for (size_t i = 0; i < records; i++) numbers[i] = i + 1;
  for (size_t i = records - 1; i > 0 && start; i--) {
    size_t j = below(i + 1);
    word x = numbers[i];
    numbers[i] = numbers[j], numbers[j] = x;
  }
  for (int k = 0; k < 12; k++) {
    draw_chain(w, k, numbers + place, counts[k]);
    place += counts[k];
  }
  if (!accepted_by_the_page(w, n)) abort();
}

/* ---- damage */

static size_t some_place(size_t n) {
  switch (below(7)) {
    case 0: return below(n);
    case 1: return below(2) ? below(48) : 64 + below(128);
    case 2: return 24 + below(24);
    case 3:
    case 4: return n > 256 ? 256 + below(n - 256) : below(n);
    case 5: return 64 + below(128);
    default: return 8 + below(10);
  }
}

static word some_value(const word *w, size_t n, size_t i) {
  word r = n > 256 ? (n - 256) / 4 : 1;
  switch (below(4)) {
    case 0:
      return ONE_OF(0, 1, 2, 3, r, r + 1, r - 1, 15, 16, 17, 11, 2059, 2048, 4096, 65535, 65536, L12, L12 + 1, 2 * L12, 2 * L12 + 1, 0xffffffff, 1ull << 32, TOP,
                    TOP + 1, TOP + 2, MAX);
    case 1: return w[i] + ONE_OF(-1ull, 1, 16, -16ull, 256, 512, 1024, 4096, 65536);
    case 2: return w[i] ^ 1ull << below(64);
    default: return w[below(n)];
  }
}

static void swap_records(word *w, size_t n) {
  size_t records = (n - 256) / 4;
  word *a = w + 256 + 4 * below(records), *b = w + 256 + 4 * below(records), x[4];
  memcpy(x, a, 32);
  memmove(a, b, 32);
  memcpy(b, x, 32);
}

void damage(word *w, size_t n) {
  word how = below(100), mask = ONE_OF(1, 3, 15, MAX);
  if (!n) return;
  if (how < 1) memset(w, 0, 8 * n);
  if (how == 1) memset(w, 0xff, 8 * n);
  if (how == 2 || !size_ok(n))
    for (size_t i = 0; i < n; i++) w[i] = random_word() & mask;
  if (how < 3 || n < 256) return;
  for (word left = ONE_OF(0, 1, 1, 1, 1, 2, 2, 3); left; left--) {
    size_t i = some_place(n);
    w[i] = some_value(w, n, i);
  }
  if (!below(10) && n >= 260) swap_records(w, n);
}

/* ---- calls */

static word some_moment(const word *w, size_t n) {
  word held = n >= 260 ? w[257 + 4 * below((n - 256) / 4)] : 7;
  switch (below(8)) {
    case 0: return ONE_OF(0, 5, 99, 100, 101, 1000000, 1000000000);
    case 1: return below(10) ? held : ONE_OF(TOP - 1, TOP, TOP, TOP + 1, MAX);
    case 2: return below(300);
    case 3: return held + ONE_OF(1000000, 1000001, 100000000, 100000001);
    default: return held + below(20) - (held > 10 ? 10 : 0);
  }
}

static word some_flag(void) { return ONE_OF(0, 0, 0, 1, 1, 2, MAX); }

static void some_opening(word *o) {
  word delay = ONE_OF(0, 1, 20, 1000000, L12);
  memcpy(o, (word[12]){delay, below(2), ONE_OF(1, 1, 3, 0xffffffff), below(2), ONE_OF(1, 2, 0xffffffff), 10, 0, 0, 0, 0, below(17), below(17)}, 96);
  if (below(2)) o[5] = ONE_OF(0, 1000000000, L12);
  if (below(2)) o[6 + below(4)] = ONE_OF(1, 5, 1000, L12);
  if (!below(3)) o[below(12)] = ONE_OF(0, 17, L12 + 1, 1ull << 32, MAX);
}

void some_call(struct call *c, const word *w, size_t n) {
  static const enum what which[] = {PUSH, PUSH, PUSH, STEP, STEP, STEP, STEP, PICK, PICK, PICK, PICK, SET_ACTION, SET_ACTION, SET_TIMER, CLEAR_ACTION, CLEAR_TIMER, ACCEPTED, ACCEPTED};
  c->what = below(60) ? which[below(sizeof which / sizeof *which)] : OPEN;
  some_opening(c->opening);
  c->side = some_flag();
  c->time = some_moment(w, n);
  c->moment = some_moment(w, n);
  if (below(3) == 0) c->time = c->moment;
  c->kind = c->what == SET_ACTION ? ONE_OF(1, 1, 1, 2, 2, 2, 2, 0, 3, MAX) : ONE_OF(0, 0, 0, 0, 0, 1, 1, 1, 2, 2, 2, 2, 3, 3, 4, 5, 6, 7, 8, 9, below(3) ? 0 : 10, below(3) ? 1 : MAX);
  c->delay = ONE_OF(0, 0, 0, 1, 6, 100, L12, below(3) ? 0 : L12 + 1, 2 * L12, below(3) ? 0 : 2 * L12 + 1, below(3) ? 0 : MAX);
  c->padding = some_flag();
  c->bypass = some_flag();
  c->replace = some_flag();
  word count = n > 256 ? w[8 + !c->side] : 1;
  c->machine = below(8) && count && count <= 16 ? below(count) : ONE_OF(0, 0, 1, 2, 15, 16, MAX);
}
