/* A choice: after `pick_next` and queue_peek.rs of the original, round by round on
 * the words, with the sums that docs/DECISIONS.md lists. */
#include "reading.h"
#include <string.h>

#define NEVER MAX /* an absent delay, later than all */

/* ---- heads of queues */

/* The first record of a chain; `at` is 0 where there is none. */
struct head {
  word at, moment, rank;
  int chain;
};

static struct head head_of(const word *w, int place, int server) {
  struct head h = {.chain = place + 5 * server};
  h.at = w[24 + 2 * h.chain];
  if (h.at) h.moment = w[RECORD(h.at) + 1], h.rank = w[RECORD(h.at) + 3] / 16 % 16;
  return h;
}

static int strictly_before(struct head a, struct head b) {
  if (!a.at || !b.at) return a.at != 0;
  return a.moment < b.moment || (a.moment == b.moment && a.rank < b.rank);
}

static int not_after(struct head a, struct head b) { return a.at && !strictly_before(b, a); }

static struct head shifted_base(const word *w, int server) {
  struct head h = head_of(w, 1, server);
  h.moment += w[10 + server];
  return h;
}

/* The head of a side: the base at its shifted moment. */
static struct head side_head(const word *w, int server) {
  struct head first = head_of(w, 3, server), blocking = head_of(w, 2, server), internal = head_of(w, 4, server), base = shifted_base(w, server);
  if (strictly_before(blocking, first)) first = blocking;
  if (strictly_before(internal, first)) first = internal;
  return not_after(base, first) ? base : first;
}

/* The head of the waiting packets; `flag`: only blocking's are held up. */
static struct head waiting(const word *w, int server, word flag) {
  struct head blocking = head_of(w, 2, server), bypassable = head_of(w, 3, server);
  return flag || strictly_before(blocking, bypassable) ? blocking : bypassable;
}

struct candidate {
  word delay;
  int chain;
};

/* As `peek_queue_earliest_side`. */
static struct candidate earliest_of_side(const word *w, int server, word now) {
  struct head held = waiting(w, server, w[14 + server]), base = head_of(w, 1, server), shifted = shifted_base(w, server);
  struct head open = head_of(w, 4, server), bypassable = head_of(w, 3, server);
  if (not_after(shifted, open)) open = base;
  if (w[14 + server] && strictly_before(bypassable, open)) open = bypassable;
  if (!held.at && !open.at) return (struct candidate){.delay = NEVER};
  int of_base = open.at && open.chain == base.chain;
  word open_at = open.moment + (of_base ? w[10 + server] : 0);
  word until = w[12 + server] ? w[12 + server] - 1 : now;
  word held_at = held.moment > until ? held.moment : until;
  int held_first = held.at && (!open.at || held_at < open_at || (held_at == open_at && !of_base));
  word at = held_first ? held_at : open_at;
  return (struct candidate){.delay = since(at, now), .chain = held_first ? held.chain : open.chain};
}

static struct candidate queue_delay(const word *w, word now, word least) {
  struct head c = side_head(w, 0), s = side_head(w, 1);
  if (!c.at && !s.at) return (struct candidate){.delay = NEVER};
  word c_delay = since(c.moment, now), s_delay = since(s.moment, now);
  int server = !c.at || (s.at && (s_delay < c_delay || (s_delay == c_delay && s.rank < c.rank)));
  struct head h = server ? s : c;
  struct candidate first = {.delay = server ? s_delay : c_delay, .chain = h.chain};
  if (first.delay > least) return (struct candidate){.delay = NEVER};
  word bypass = w[RECORD(h.at) + 3] / 512 % 2;
  if (h.rank != 0 || !w[12 + server] || (w[14 + server] && bypass)) return first;
  struct candidate a = earliest_of_side(w, 0, now), b = earliest_of_side(w, 1, now);
  return a.delay <= b.delay ? a : b;
}

/* ---- the five cases: each answers 1 where a sum passes, and then has changed nothing */

static int case_aggregate(word *w) {
  const word *r = w + RECORD(w[24 + 2 * 11]);
  int side = r[3] / 2048 % 2;
  if (w[10 + side] + r[2] > TOP) return 1;
  w[10 + side] += r[2];
  take_head(w, 11);
  return 0;
}

/* Whether aggregates are queued at a block's end, and of what length. */
static int expire(const word *w, int server, word end, word *length) {
  struct head first = waiting(w, server, 0), base = shifted_base(w, server);
  if (!first.at || first.moment >= end) return 0;
  word tail = first.moment;
  if (w[25 + 2 * (2 + 5 * server)] + w[25 + 2 * (3 + 5 * server)] > 2)
    for (int place = 2; place < 4; place++)
      for (word at = w[24 + 2 * (place + 5 * server)]; at; at = w[RECORD(at)]) {
        word m = w[RECORD(at) + 1];
        if (since(m, first.moment) <= 1000000 && m > tail) tail = m;
      }
  if (tail == end) return 0;
  if (base.at && since(base.moment, first.moment) <= 1000000) return 0;
  *length = since(end, tail);
  return 1;
}

/* A block ends; *returned becomes 1 where its event is the answer. */
static int case_block(word *w, int server, word end, int *returned, word *event) {
  word length = 0, reporting = w[6 + server], client_m = server ? 1 : 4, server_m = server ? 4 : 3;
  int two = expire(w, server, end, &length);
  word client_at = end + since(client_m * w[0], length), server_at = end + since(server_m * w[0], length);
  if (end + reporting > TOP || (two && (client_at > TOP || server_at > TOP))) return 1;
  w[12 + server] = 0;
  if (two) {
    join(w, 11, client_at, length, 11);
    join(w, 11, server_at, length, 2059);
  }
  if (reporting) {
    queue(w, 7, end + reporting, reporting, server, 0, 0, 0, 0);
    return 0;
  }
  *returned = 1;
  memcpy(event, (word[8]){7, end, 0, !server, 0, 0, 0, 0}, 64);
  return 0;
}

static void case_queue(word *w, struct candidate q, word now, word *event) {
  int server = q.chain > 5;
  const word *r = w + RECORD(w[24 + 2 * q.chain]);
  word moment = r[1] + (q.chain % 5 == 1 ? w[10 + server] : 0), t = r[3];
  if (moment < now + q.delay) moment = now + q.delay;
  memcpy(event, (word[8]){t / 16 % 16, moment, r[2], !server, t / 256 % 2, t / 512 % 2, t / 1024 % 2, t / 4096 % 16}, 64);
  take_head(w, q.chain);
}

static void case_timer(word *w, word target) {
  int j = 0;
  while (w[64 + j] != target + 1) j++;
  w[64 + j] = 0;
  queue(w, 9, target, 0, j / 16, 0, 0, 0, j % 16);
}

static int case_action(word *w, word target) {
  int j = 0;
  while (!w[96 + 3 * j] || w[97 + 3 * j] != target) j++;
  word *a = w + 96 + 3 * j, bypass = a[0] / 4 % 2, replace = a[0] / 8 % 2, end = target + a[2];
  int server = j / 16, padding = a[0] % 4 == 1;
  word delay = w[4 + server] + w[6 + server];
  if (!padding && (end > TOP || target + delay > TOP)) return 1;
  memset(a, 0, 24);
  if (padding) {
    queue(w, 2, target, w[4 + server], server, 1, bypass, replace, j % 16);
    return 0;
  }
  word held = w[12 + server] ? w[12 + server] - 1 : target;
  if (replace || end > held) {
    w[12 + server] = end + 1;
    w[14 + server] = bypass;
  }
  queue(w, 6, target + delay, delay, server, 0, w[14 + server], 0, j % 16);
  return 0;
}

/* ---- rounds */

/* The least delay of the timers or actions at or after now; `step` words a slot, moments `from` on, held as moment + `more`. */
static word least_slot(const word *w, int from, int step, word more, word now) {
  word least = NEVER;
  for (int j = 0; j < 32; j++) {
    int held = more ? w[from + step * j] != 0 : w[from + step * j - 1] != 0;
    word moment = w[from + step * j] - more;
    if (held && moment >= now && moment - now < least) least = moment - now;
  }
  return least;
}

enum outcome { GO_ON, EVENT, NOTHING_LEFT, PASSES };

static enum outcome round_of(word *w, word now, word *event) {
  for (int side = 0; side < 2; side++)
    if (head_of(w, 1, side).at && shifted_base(w, side).moment > TOP) return PASSES;
  if (w[17] + 1 > TOP) return PASSES;
  word s = least_slot(w, 97, 3, 0, now), i = least_slot(w, 64, 1, 1, now), b = NEVER, n = NEVER;
  int server = !w[12] || (w[13] && w[13] <= w[12]), returned = 0;
  if (w[12 + server]) b = since(w[12 + server] - 1, now);
  if (w[24 + 2 * 11]) n = since(w[RECORD(w[24 + 2 * 11]) + 1], now);
  word least = s < i ? s : i;
  least = b < least ? b : least;
  least = n < least ? n : least;
  struct candidate q = queue_delay(w, now, least);
  if (least == NEVER && q.delay == NEVER) return NOTHING_LEFT;
  if (n <= s && n <= i && n <= b && n <= q.delay) return case_aggregate(w) ? PASSES : GO_ON;
  if (b <= s && b <= i && b <= q.delay) {
    if (case_block(w, server, now + b, &returned, event)) return PASSES;
    return returned ? EVENT : GO_ON;
  }
  if (q.delay <= s && q.delay <= i) {
    case_queue(w, q, now, event);
    return EVENT;
  }
  if (i <= s) {
    case_timer(w, now + i);
    return GO_ON;
  }
  return case_action(w, now + s) ? PASSES : GO_ON;
}

/* The ten words of the answer go to out. */
struct verdict pick_verdict(const struct call *c, word *left, word *out) {
  memset(out, 0, 80);
  if (c->time > TOP) return (struct verdict){7, 0};
  for (;;) {
    enum outcome o = round_of(left, c->time, out + 2);
    if (o == PASSES) {
      left[16] = 1;
      return (struct verdict){10, 1};
    }
    out[1]++;
    left[17]++;
    out[0] = o == EVENT;
    if (o != GO_ON) return (struct verdict){0, 1};
  }
}
