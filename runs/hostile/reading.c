/* See reading.h. */
#include "reading.h"
#include <string.h>

int size_ok(size_t n) { return n >= 260 && n <= 256 + 4 * 65535 && n % 4 == 0; }

int has_machine(word kind) { return kind == 2 || kind == 6 || kind == 8 || kind == 9; }

/* ---- acceptance */

static int slot_ok(const word *w, int side, int m) {
  word t = w[64 + 16 * side + m];
  const word *a = w + 96 + 3 * (16 * side + m);
  if ((word)m >= w[8 + side] && (t || a[0] || a[1] || a[2])) return 0;
  if (t > TOP + 1) return 0;
  if (a[0] == 0) return a[1] == 0 && a[2] == 0;
  if (a[0] > 14 || a[1] > TOP) return 0;
  if (a[0] % 4 == 1) return a[2] == 0;
  return a[0] % 4 == 2 && a[2] <= L12;
}

static int header_ok(const word *w) {
  static const word most[18] = {L12, 0xffffffff, 0xffffffff, L12, L12, L12, L12, L12, 16, 16, TOP, TOP, TOP + 1, TOP + 1, 1, 1, 1, TOP};
  for (int i = 0; i < 18; i++)
    if (w[i] > most[i]) return 0;
  for (int j = 0; j < 32; j++)
    if (!slot_ok(w, j / 16, j % 16)) return 0;
  return 1;
}

static int event_ok(const word *w, int k, const word *r) {
  word tag = r[3], kind = tag / 16 % 16, bypass = tag / 512 % 2, machine = tag / 4096 % 16;
  int place = k % 5, side = k > 5;
  if (tag >= 65536 || tag / 2048 % 2 || kind > 9 || r[2] > 2 * L12) return 0;
  if (place == 1 && kind != 1) return 0;
  if (place == 2 && (kind != 0 || bypass)) return 0;
  if (place == 3 && (kind != 0 || !bypass)) return 0;
  if (place == 4 && kind < 2) return 0;
  return has_machine(kind) ? machine < w[8 + side] : machine == 0;
}

static int record_ok(const word *w, int k, const word *r) {
  if (r[3] % 16 != (word)k) return 0;
  if (k == 0) return 1;
  if (r[1] > TOP) return 0;
  if (k == 5 || k == 10) return r[3] == (word)k && r[2] == 0;
  if (k == 11) return (r[3] == 11 || r[3] == 2059) && r[2] <= TOP;
  return event_ok(w, k, r);
}

/* Whether chain k has so many records as it says, each in it once, in order. */
static int chain_ok(const word *w, size_t records, int k) {
  static unsigned seen[65536], mark;
  word at = w[24 + 2 * k], count = w[25 + 2 * k], moment = 0, rank = 0;
  int ordered = k % 5 != 0;
  if (count > records) return 0;
  mark++;
  for (word i = 0; i < count; i++) {
    if (at < 1 || at > records || seen[at] == mark) return 0;
    seen[at] = mark;
    const word *r = w + RECORD(at);
    if (!record_ok(w, k, r)) return 0;
    word this = r[3] / 16 % 16;
    if (ordered && (r[1] < moment || (r[1] == moment && this < rank))) return 0;
    moment = r[1];
    rank = this;
    at = r[0];
  }
  return at == 0;
}

word reserved_by_the_page(const word *w) {
  word sum = 3 * (w[12] != 0) + 3 * (w[13] != 0);
  for (int j = 0; j < 32; j++) sum += (w[64 + j] != 0) + 4 * (w[96 + 3 * j] != 0);
  return sum;
}

int accepted_by_the_page(const word *w, size_t n) {
  if (!size_ok(n) || !header_ok(w)) return 0;
  size_t records = (n - 256) / 4;
  word total = 0;
  for (int k = 0; k < 12; k++) {
    if (!chain_ok(w, records, k)) return 0; /* a record's tag names its one chain */
    total += w[25 + 2 * k];
  }
  return total == records && reserved_by_the_page(w) <= w[25];
}

/* ---- the other calls */

static struct verdict open_verdict(size_t n, const struct call *c, word *left) {
  const word *o = c->opening;
  int ok = o[0] <= L12 && o[5] <= L12 && o[10] <= 16 && o[11] <= 16;
  for (int i = 6; i < 10; i++) ok &= o[i] <= L12;
  for (int i = 1; i < 5; i += 2) ok &= !o[i] || (o[i + 1] >= 1 && o[i + 1] <= 0xffffffff);
  if (!ok) return (struct verdict){4, 0};
  memset(left, 0, n * sizeof *left);
  left[0] = o[0];
  left[1] = o[1] ? o[2] : 0;
  left[2] = o[3] ? o[4] : 0;
  memcpy(left + 3, o + 5, 7 * sizeof *left);
  size_t records = (n - 256) / 4;
  left[24] = 1;
  left[25] = records;
  for (size_t r = 1; r < records; r++) left[RECORD(r)] = r + 1;
  return (struct verdict){0, 1};
}

static struct verdict slot_verdict(const word *w, const struct call *c, word *left) {
  word room = w[25] - reserved_by_the_page(w);
  int side = !c->side, j = 16 * side + (int)c->machine;
  if (c->machine >= w[8 + side]) return (struct verdict){5, 0};
  word *timer = left + 64 + j, *action = left + 96 + 3 * j;
  if (c->what == SET_ACTION && c->kind != 1 && c->kind != 2) return (struct verdict){6, 0};
  if ((c->what == SET_ACTION || c->what == SET_TIMER) && c->moment > TOP) return (struct verdict){7, 0};
  if (c->what == SET_ACTION && c->kind == 2 && c->delay > L12) return (struct verdict){7, 0};
  if (c->what == SET_TIMER && !*timer && room < 1) return (struct verdict){9, 0};
  if (c->what == SET_ACTION && !*action && room < 4) return (struct verdict){9, 0};
  if (c->what == SET_TIMER) *timer = c->moment + 1;
  if (c->what == CLEAR_TIMER) *timer = 0;
  if (c->what == CLEAR_ACTION) memset(action, 0, 3 * sizeof *action);
  if (c->what == SET_ACTION) {
    action[0] = c->kind + 4 * (c->bypass != 0) + 8 * (c->replace != 0);
    action[1] = c->moment;
    action[2] = c->kind == 2 ? c->delay : 0;
  }
  return (struct verdict){0, 1};
}

/* Numbers 5 to 8 of an event that is handed in; 0 for none. */
static int event_number(const word *w, const struct call *c) {
  if (has_machine(c->kind) && c->machine >= w[8 + !c->side]) return 5;
  if (c->kind > 9) return 6;
  if (c->moment > TOP || c->delay > 2 * L12) return 7;
  if (c->what == STEP && c->time > TOP) return 7;
  if (c->what == STEP && c->kind == 0 && !c->padding && c->delay > c->moment) return 8;
  return 0;
}

static struct verdict push_verdict(const word *w, const struct call *c, word *left) {
  if (w[25] < reserved_by_the_page(w) + 1) return (struct verdict){9, 0};
  queue(left, c->kind, c->moment, c->delay, !c->side, c->padding != 0, c->bypass != 0, c->replace != 0, c->machine);
  return (struct verdict){0, 1};
}

struct verdict verdict(const word *w, size_t n, const struct call *c, word *left, word *out) {
  memset(out, 0, 80);
  if (c->what == ACCEPTED) return (struct verdict){accepted_by_the_page(w, n), 0};
  if (!size_ok(n)) return (struct verdict){1, 0};
  if (c->what == OPEN) return open_verdict(n, c, left);
  if (!accepted_by_the_page(w, n)) return (struct verdict){2, 0};
  if (w[16]) return (struct verdict){3, 0};
  if (c->what == PICK) return pick_verdict(c, left, out);
  if (c->what != PUSH && c->what != STEP) return slot_verdict(w, c, left);
  int number = event_number(w, c);
  if (number) return (struct verdict){number, 0};
  return c->what == PUSH ? push_verdict(w, c, left) : step_verdict(w, c, left, out);
}

/* Equal but for what free records hold: moment, length and all of the tag but its chain number. */
int same_words(const word *a, const word *b, size_t n) {
  if (memcmp(a, b, 256 * sizeof *a)) return 0;
  for (size_t i = 256; i < n; i += 4) {
    if (!memcmp(a + i, b + i, 4 * sizeof *a)) continue;
    if (a[i] != b[i] || a[i + 3] % 16 || b[i + 3] % 16) return 0;
  }
  return 1;
}
