/* The chains as calls change them, and a network step: after network.rs and delay.rs
 * of the original, with the sums and the order of taking records of docs/DECISIONS.md. */
#include "reading.h"

/* ---- changes of chains */

/* The free record at the head of the free chain. */
static word take(word *w) {
  word r = w[24];
  w[24] = w[RECORD(r)];
  w[25]--;
  return r;
}

static void give_back(word *w, word r) {
  w[RECORD(r)] = w[24];
  w[RECORD(r) + 3] = 0;
  w[24] = r;
  w[25]++;
}

void take_head(word *w, int k) {
  word r = w[24 + 2 * k];
  w[24 + 2 * k] = w[RECORD(r)];
  w[25 + 2 * k]--;
  give_back(w, r);
}

/* A record joins chain k: after all that go before it or are its equals, a stamp after all. */
void join(word *w, int k, word moment, word length, word tag) {
  word r = take(w), rank = tag / 16 % 16, *link = &w[24 + 2 * k];
  while (*link) {
    const word *o = w + RECORD(*link);
    word other = o[3] / 16 % 16;
    if (k % 5 != 0 && (o[1] > moment || (o[1] == moment && other > rank))) break;
    link = &w[RECORD(*link)];
  }
  word next = *link;
  *link = r;
  word *here = w + RECORD(r);
  here[0] = next;
  here[1] = moment;
  here[2] = length;
  here[3] = tag;
  w[25 + 2 * k]++;
}

/* An event is queued in the chain that kind, flag and side call for. */
void queue(word *w, word kind, word moment, word delay, int server, int padding, int bypass, int replace, word machine) {
  int place = kind == 0 ? (bypass ? 3 : 2) : kind == 1 ? 1 : 4;
  int k = place + 5 * server;
  word tag = k + 16 * kind + 256 * padding + 512 * bypass + 1024 * replace + 4096 * (has_machine(kind) ? machine : 0);
  join(w, k, moment, delay, tag);
}

/* ---- a network step */

struct step {
  int server, passes, aggregates, taken_over;
  word evicted, extra, arrival, length, takes, falls;
};

word since(word t, word u) { return t > u ? t - u : 0; }

/* Whether a packet that waits on the side, but for the record `not`, is within 100 ms of the moment. */
static int adjacent(const word *w, int server, word moment, word not) {
  for (int place = 2; place < 4; place++)
    for (word at = w[24 + 2 * (place + 5 * server)]; at; at = w[RECORD(at)])
      if (at != not && since(w[RECORD(at) + 1], moment) <= 100000000) return 1;
  return 0;
}

/* Whether aggregates are queued for a packet of this moment; their sums are looked at. */
static void test_aggregate(const word *w, struct step *s, word time, word moment, word sum, word length, word not) {
  if (adjacent(w, s->server, moment, not)) return;
  word base = w[24 + 2 * (1 + 5 * s->server)];
  if (base) {
    word shifted = w[RECORD(base) + 1] + sum;
    s->passes |= shifted > TOP;
    if (since(shifted, moment) <= 1000000) return;
  }
  s->aggregates = 1;
  s->length = length;
  for (int m = 3; m <= 4; m++)
    if (m == 4 || !s->server) s->passes |= time + since(m * w[0], length) > TOP;
  if (s->server) s->passes |= time + since(w[0], length) > TOP;
}

/* "the first moment at which its oldest kept stamp by arrival would be too old, which is that stamp plus the window
 * plus 1" (document 02, M-120). `kept` is the first stamp that is not evicted, 0 where the new one alone is left. */
static word falls(const word *w, const struct call *c, word kept) {
  word oldest = kept ? w[RECORD(kept) + 1] : c->time;
  return oldest + w[3] + 1;
}

static void plan_tunnel_sent(const word *w, const struct call *c, struct step *s) {
  word at = w[24 + 2 * (5 + 5 * s->server)], kept = w[25 + 2 * (5 + 5 * s->server)];
  for (; at && since(c->time, w[RECORD(at) + 1]) > w[3]; at = w[RECORD(at)]) s->evicted++;
  s->falls = falls(w, c, at);
  kept = kept - s->evicted + 1;
  word limit = w[1] ? w[1] : w[2];
  if (limit && kept > limit) s->extra = w[3] / limit * (kept - limit);
  if (s->extra) test_aggregate(w, s, c->time, c->moment, w[10], s->extra, 0);
  word reporting = w[6 + !s->server];
  word start = c->padding ? c->moment + c->delay : c->moment - c->delay;
  s->arrival = start + w[0] + s->extra + reporting;
  s->passes |= s->arrival > TOP;
  if (!c->padding && s->arrival < c->time) s->arrival = c->time;
  s->takes = 2 + 2 * s->aggregates;
}

/* The waiting packet that padding is replaced with; 0 for none. */
static word replaced(const word *w, int server) {
  word a = w[24 + 2 * (2 + 5 * server)], b = w[24 + 2 * (3 + 5 * server)];
  word r = a;
  if (!w[14 + server] && b && (!a || w[RECORD(a) + 1] >= w[RECORD(b) + 1])) r = b;
  return r && w[RECORD(r) + 3] / 256 % 2 == 0 ? r : 0;
}

static void plan_padding_sent(const word *w, const struct call *c, struct step *s) {
  word r = c->replace ? replaced(w, s->server) : 0;
  if (!r) {
    s->takes = 1;
    return;
  }
  s->taken_over = 1;
  if (!c->bypass) return;
  word moment = w[RECORD(r) + 1];
  test_aggregate(w, s, c->time, moment, w[10 + s->server], since(c->time, moment), r);
  s->takes = 2 * s->aggregates;
}

static void queue_aggregates(word *w, const struct step *s, word time) {
  word client = s->server ? 1 : 4, server = s->server ? 4 : 3;
  join(w, 11, time + since(client * w[0], s->length), s->length, 11);
  join(w, 11, time + since(server * w[0], s->length), s->length, 2059);
}

static void do_tunnel_sent(word *w, const struct call *c, const struct step *s) {
  int stamps = 5 + 5 * s->server;
  for (word i = 0; i < s->evicted; i++) take_head(w, stamps);
  join(w, stamps, c->time, 0, stamps);
  if (s->aggregates) queue_aggregates(w, s, c->time);
  queue(w, 3, s->arrival, w[6 + !s->server], !s->server, c->padding != 0, 0, 0, 0);
}

static void do_padding_sent(word *w, const struct call *c, const struct step *s) {
  if (!s->taken_over) {
    queue(w, 0, c->moment, c->delay, s->server, 1, c->bypass != 0, c->replace != 0, 0);
    return;
  }
  if (!c->bypass) return;
  word r = replaced(w, s->server), moment = w[RECORD(r) + 1], delay = w[RECORD(r) + 2];
  take_head(w, w[RECORD(r) + 3] % 16);
  queue(w, 0, moment, delay, s->server, 0, 1, 0, 0);
  if (s->aggregates) queue_aggregates(w, s, c->time);
}

/* The three words of the answer go to out, which holds zeros. "A moment past the limit is reported as absent". */
struct verdict step_verdict(const word *w, const struct call *c, word *left, word *out) {
  struct step s = {.server = !c->side};
  if (c->kind == 0) plan_tunnel_sent(w, c, &s);
  if (c->kind == 1 || c->kind == 3) s.takes = 1;
  if (c->kind == 2) plan_padding_sent(w, c, &s);
  if (w[25] + s.evicted < reserved_by_the_page(w) + s.takes) return (struct verdict){9, 0};
  if (s.passes) {
    left[16] = 1;
    return (struct verdict){10, 1};
  }
  if (c->kind == 0) do_tunnel_sent(left, c, &s);
  if (c->kind == 1) queue(left, 0, c->moment, c->delay, s.server, 0, 0, 0, 0);
  if (c->kind == 2) do_padding_sent(left, c, &s);
  if (c->kind == 3) queue(left, c->padding ? 5 : 4, c->moment, c->delay, s.server, c->padding != 0, 0, 0, 0);
  out[0] = c->kind == 0 || c->kind == 3;
  if (c->kind == 0 && s.falls <= TOP) out[1] = 1, out[2] = s.falls;
  return (struct verdict){0, 1};
}
