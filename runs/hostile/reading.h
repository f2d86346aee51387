#ifndef READING_H
#define READING_H
/* A second reckoning of what calls must do: which words are accepted, which number
 * a call gives, what it answers and which words it leaves. Acceptance and numbers
 * are runs/damaged.py in C, choice and step follow the original's Rust. */
#include <stddef.h>
#include <stdint.h>

typedef uint64_t word;

#define TOP ((1ull << 62) - 1)
#define MAX (~0ull)
#define L12 1000000000000ull

enum what { OPEN, PUSH, SET_ACTION, CLEAR_ACTION, SET_TIMER, CLEAR_TIMER, PICK, STEP, ACCEPTED, WHATS };

/* A call with its arguments, as they are handed in. */
struct call {
  enum what what;
  word time, kind, moment, delay, side, padding, bypass, replace, machine;
  word opening[12]; /* as maybenot_core_open takes them */
};

/* What a call must do. */
struct verdict {
  word number; /* of the refusal, 0 for none; of acceptance 1 for yes */
  int changes; /* `left` holds the words that it must leave; else it changes none */
};

int size_ok(size_t n);
int accepted_by_the_page(const word *w, size_t n);
word reserved_by_the_page(const word *w);
/* The verdict on a call. left holds a copy of w and becomes the words that stay;
 * out becomes the ten words of a choice or the three of a step. */
struct verdict verdict(const word *w, size_t n, const struct call *c, word *left, word *out);
/* Equal but for what free records hold. */
int same_words(const word *a, const word *b, size_t n);

/* ---- what the files of the reading share */

#define RECORD(r) (256 + 4 * ((r) - 1))

int has_machine(word kind);
void take_head(word *w, int k);
void join(word *w, int k, word moment, word length, word tag);
void queue(word *w, word kind, word moment, word delay, int server, int padding, int bypass, int replace, word machine);
word since(word t, word u);
struct verdict step_verdict(const word *w, const struct call *c, word *left, word *out);
struct verdict pick_verdict(const struct call *c, word *left, word *out);

#endif
