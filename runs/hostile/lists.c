/* lists LISTS SEED: random lists of calls on sound, damaged and random blocks. Rows are calls near what the words hold,
 * turns, noise, and codes that are no call; rows and answers have any number of words. Block, rows and answers lie between
 * pages that nobody may touch (places.h), flush against the upper one or the lower one by turns. The number of rows made,
 * each word of the answers, each word left and each byte around are held to the same calls made one by one on a copy
 * (runs/listed/one_by_one.c), each of which host.c holds to the reading. Ends with a table; exit status 0 if all was as it
 * should be, else 1. */
#include "../../include/maybenot_core.h"
#include "../listed/one_by_one.h"
#include "lots.h"
#include "places.h"
#include <stdio.h>
#include <stdlib.h>
#include <string.h>

#define MOST_ROWS 400
#define MOST_WORDS (MAYBENOT_CORE_ROW_WORDS * (MOST_ROWS + 2))
#define MOST_ANSWERS (MAYBENOT_CORE_ROW_ANSWER_WORDS * (MOST_ROWS + 2))

/* ---- lengths */

struct lot {
  size_t length;
  unsigned weight; /* of 10,000 */
  word *live, *before, *alone;
  int life; /* lists until the living block is made anew */
  struct place place;
  unsigned long lists, sound, asked, made, turns, answers[11];
};

static struct lot lots[] = {
    {.length = R(1), .weight = 900},    {.length = R(2), .weight = 600},    {.length = R(4), .weight = 800},    {.length = R(8), .weight = 1500},
    {.length = R(13), .weight = 1800},  {.length = R(21), .weight = 1900},  {.length = R(60), .weight = 1500},  {.length = R(300), .weight = 400},
    {.length = R(1984), .weight = 60},  {.length = R(65535), .weight = 1},  {.length = 0, .weight = 140},       {.length = 255, .weight = 130},
    {.length = 256, .weight = 130},     {.length = 261, .weight = 138},     {.length = R(65536), .weight = 1},
};
#define LOTS (sizeof lots / sizeof *lots)

/* What is lent beside the block, and copies of it. */
static struct place rows, answers;
static word rows_before[MOST_WORDS], due[MOST_ANSWERS];

static void prepare(struct lot *l) {
  l->live = calloc(l->length + 1, 8);
  l->before = calloc(l->length + 1, 8);
  l->alone = calloc(l->length + 1, 8);
  l->place = place_for(l->length);
}

static unsigned weight_of(size_t i) { return lots[i].weight; }

/* ---- rows */

static void copy(word *row, size_t count, const word *arguments) { memcpy(row + 1, arguments, 8 * count); }
#define ARGUMENTS(row, ...) copy(row, sizeof((word[]){__VA_ARGS__}) / 8, (word[]){__VA_ARGS__})

/* The row of a call. Opening and acceptance are no calls of a list: a turn stands for them. */
static void write_row(word *row, const struct call *c) {
  switch (c->what) {
    case PUSH: row[0] = MAYBENOT_CORE_CALL_PUSH, ARGUMENTS(row, c->kind, c->moment, c->delay, c->side, c->padding, c->bypass, c->replace, c->machine); break;
    case SET_ACTION: row[0] = MAYBENOT_CORE_CALL_SET_ACTION, ARGUMENTS(row, c->side, c->machine, c->kind, c->moment, c->delay, c->bypass, c->replace); break;
    case CLEAR_ACTION: row[0] = MAYBENOT_CORE_CALL_CLEAR_ACTION, ARGUMENTS(row, c->side, c->machine); break;
    case SET_TIMER: row[0] = MAYBENOT_CORE_CALL_SET_TIMER, ARGUMENTS(row, c->side, c->machine, c->moment); break;
    case CLEAR_TIMER: row[0] = MAYBENOT_CORE_CALL_CLEAR_TIMER, ARGUMENTS(row, c->side, c->machine); break;
    case PICK: row[0] = MAYBENOT_CORE_CALL_PICK_NEXT, ARGUMENTS(row, c->time); break;
    case STEP: row[0] = MAYBENOT_CORE_CALL_SIM_NETWORK_STACK, ARGUMENTS(row, c->time, c->kind, c->moment, c->delay, c->side, c->padding, c->bypass, c->replace, c->machine); break;
    default: row[0] = MAYBENOT_CORE_CALL_TURN, ARGUMENTS(row, c->time, below(2) ? 0 : random_word() & random_word() & random_word());
  }
}

/* A turn that goes on where the last event was, at no stop or at few. */
static void write_turn(word *row) {
  word one = 1ull << below(64);
  row[0] = MAYBENOT_CORE_CALL_TURN;
  ARGUMENTS(row, below(3) ? 0 : below(1000), below(3) ? 0 : one | 1ull << below(26));
}

/* A row: unused words are noise. In a bad list now and then the code is no call, or a word is damaged. */
static void draw_row(word *row, const word *w, size_t n, int turns, int bad) {
  struct call c = {0};
  for (unsigned i = 0; i < MAYBENOT_CORE_ROW_WORDS; i++) row[i] = random_word();
  some_call(&c, w, n);
  if (turns && below(4)) {
    write_turn(row);
  } else {
    write_row(row, &c);
  }
  if (bad && !below(20)) row[below(MAYBENOT_CORE_ROW_WORDS)] = random_word() >> below(64);
  if (bad && !below(20)) row[0] = below(2) ? 8 : below(2) ? MAX - below(3) : (word)below(8) | 1ull << (3 + below(61));
}

/* Rows and room for answers: lengths of every remainder, room mostly for all. */
static void draw_list(const word *w, size_t n) {
  const size_t row = MAYBENOT_CORE_ROW_WORDS, answer = MAYBENOT_CORE_ROW_ANSWER_WORDS;
  size_t count = below(20) ? below(24) : below(MOST_ROWS + 1), room = count;
  int turns = !below(3), bad = !below(4);
  if (!below(6)) room = below(count + 2);
  lend(&rows, row * count + (below(2) ? 0 : below(row)), below(2));
  lend(&answers, answer * room + (below(2) ? 0 : below(answer)), below(2));
  for (size_t i = 0; i < count; i++) draw_row(rows.lent + row * i, w, n, turns, bad);
  for (size_t i = row * count; i < rows.length; i++) rows.lent[i] = below(8);
  for (size_t i = 0; i < answers.length; i++) answers.lent[i] = due[i] = OUT_BEFORE;
  if (rows.length) memcpy(rows_before, rows.lent, 8 * rows.length);
}

/* ---- what is held to the calls one by one */

/* The fault of a list that said how many rows it made, or 0. */
static const char *hold(struct lot *l, word made) {
  const word *w = l->place.lent;
  word all = calls_one_by_one(l->alone, l->length, rows_before, rows.length, due, answers.length);
  if (made != all) return "another number of rows made";
  if (!untouched_around(&l->place)) return "written outside the block";
  if (!untouched_around(&rows) || !untouched_around(&answers)) return "written outside rows or answers";
  if (rows.length && memcmp(rows_before, rows.lent, 8 * rows.length)) return "the rows were changed";
  if (answers.length && memcmp(due, answers.lent, 8 * answers.length)) return "another answer";
  /* what changes no word one by one changes none as a list */
  if (!l->length || !memcmp(l->before, l->alone, 8 * l->length)) return l->length && memcmp(l->before, w, 8 * l->length) ? "words changed for nothing" : 0;
  if (!same_words(l->alone, w, l->length)) return "other words left";
  return accepted_by_the_page(w, l->length) ? 0 : "the state left is not accepted";
}

static void count(struct lot *l, int sound, word made) {
  l->lists++;
  l->sound += sound;
  l->asked += rows.length / MAYBENOT_CORE_ROW_WORDS;
  l->made += made;
  for (word i = 0; i < made; i++) {
    word number = answers.lent[MAYBENOT_CORE_ROW_ANSWER_WORDS * i];
    if (number < 11) l->answers[number]++;
    l->turns += rows_before[MAYBENOT_CORE_ROW_WORDS * i] == MAYBENOT_CORE_CALL_TURN;
  }
}

/* One list on a sound or a damaged block of the lot. */
static const char *once(struct lot *l) {
  int sound = size_ok(l->length) && below(100) < 80;
  if (size_ok(l->length) && --l->life < 0) {
    l->life = (int)below(12);
    build(l->live, l->length);
  }
  memcpy(l->before, l->live, 8 * l->length);
  if (!sound) damage(l->before, l->length);
  memcpy(l->alone, l->before, 8 * l->length);
  lend(&l->place, l->length, below(2));
  if (l->length) memcpy(l->place.lent, l->before, 8 * l->length);
  draw_list(l->before, l->length);
  word made = maybenot_core_calls(l->place.lent, l->length, rows.lent, rows.length, answers.lent, answers.length);
  const char *fault = hold(l, made);
  if (!fault) count(l, sound, made);
  if (sound && !fault && (!l->place.lent[16] || !below(8))) memcpy(l->live, l->place.lent, 8 * l->length);
  return fault;
}

/* ---- the table */

static void tell(unsigned long i, const struct lot *l, const char *fault) {
  printf("list %lu: %s\n  length %zu, %zu words of rows, %zu words of answers\n", i, fault, l->length, rows.length, answers.length);
  for (size_t r = 0; r < rows.length / MAYBENOT_CORE_ROW_WORDS && r < 12; r++) {
    printf("  row");
    for (size_t k = 0; k < MAYBENOT_CORE_ROW_WORDS; k++) printf(" %llu", (unsigned long long)rows_before[MAYBENOT_CORE_ROW_WORDS * r + k]);
    printf("\n");
  }
}

static void table(void) {
  printf("%8s %8s %9s %10s %10s %10s %9s %9s", "words", "R", "lists", "undamaged", "rows", "made", "turns", "done");
  for (int i = 1; i < 11; i++) printf(" %8d", i);
  printf("\n");
  for (size_t i = 0; i < LOTS; i++) {
    struct lot *l = &lots[i];
    char records[24] = "-";
    if (size_ok(l->length)) snprintf(records, sizeof records, "%zu", (l->length - 256) / 4);
    printf("%8zu %8s %9lu %10lu %10lu %10lu %9lu", l->length, records, l->lists, l->sound, l->asked, l->made, l->turns);
    for (int a = 0; a < 11; a++) printf(" %*lu", a ? 8 : 9, l->answers[a]);
    printf("\n");
  }
}

int main(int count, char **words) {
  if (count != 3) return 2;
  unsigned long lists = strtoul(words[1], 0, 10), bad = 0;
  seed(strtoul(words[2], 0, 10));
  for (size_t i = 0; i < LOTS; i++) prepare(&lots[i]);
  rows = place_for(MOST_WORDS);
  answers = place_for(MOST_ANSWERS);
  for (unsigned long i = 0; i < lists; i++) {
    struct lot *l = &lots[drawn(LOTS, weight_of)];
    const char *fault = once(l);
    if (fault && bad++ < 3) tell(i, l, fault);
  }
  table();
  printf("seed %s: %lu lists, %lu faults\n", words[2], lists, bad);
  return bad != 0;
}
