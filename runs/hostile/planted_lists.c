/* Faults between lists.c and the list call, to see that it notices them: FAULT is the number of one. Linked with
 * -Wl,--wrap=maybenot_core_calls. */
#include "../../include/maybenot_core.h"
#include "reading.h"
#include <string.h>

#define ROW MAYBENOT_CORE_ROW_WORDS
#define ANSWER MAYBENOT_CORE_ROW_ANSWER_WORDS

word __real_maybenot_core_calls(word *, size_t, const word *, size_t, word *, size_t);

static unsigned turn;

/* Now and then, so that a fault is not seen at the first list alone. */
static int now_and_then(void) { return ++turn % 50 == 0; }

/* Whether the list goes on after a turn with this answer. */
static int goes_on(const word *row, const word *answer) {
  const word *chosen = answer + MAYBENOT_CORE_ROW_OUT;
  word stop = row[2], kind = chosen[MAYBENOT_CORE_ANSWER_KIND];
  if (answer[0]) return FAULT == 1; /* a refused turn does not end the list */
  if (!chosen[MAYBENOT_CORE_ANSWER_CHOSEN]) return FAULT == 2; /* nothing left does not end it */
  if (FAULT == 3) stop = (stop & 0xffff) << 16 | (stop >> 16 & 0xffff); /* the stop bit of the other side */
  if (FAULT == 4) stop >>= 1;                                           /* the stop bit of the next kind */
  if (FAULT == 5) stop = 0;                                             /* no event ends it */
  return !(stop >> (chosen[MAYBENOT_CORE_ANSWER_SIDE] ? kind : 16 + kind) & 1);
}

/* The time of a turn after the last event chosen. */
static word turn_time(word time, word last) {
  if (FAULT == 6) return time; /* a turn forgets the last event */
  if (FAULT == 7 && last) return last; /* and this one its own time */
  return time > last ? time : last;
}

/* A list made row by row, so that a fault may stand between two. */
static word row_by_row(word *b, size_t n, const word *calls, size_t rows, word *answers, size_t room) {
  static word kept;
  word last = FAULT == 8 ? kept : 0; /* the last event of the list before */
  size_t i = 0;
  for (; i < rows && i < room && calls[ROW * i] <= MAYBENOT_CORE_CALL_TURN; i++) {
    word row[ROW], *answer = answers + ANSWER * i;
    memcpy(row, calls + ROW * i, sizeof row);
    if (row[0] == MAYBENOT_CORE_CALL_TURN) row[1] = turn_time(row[1], last);
    if (FAULT == 9 && i == 3 && now_and_then()) { /* a row skipped */
      memset(answer, 0, 8 * ANSWER);
      continue;
    }
    __real_maybenot_core_calls(b, n, row, ROW, answer, ANSWER);
    if (answer[1] && (row[0] == MAYBENOT_CORE_CALL_PICK_NEXT || row[0] == MAYBENOT_CORE_CALL_TURN))
      if (FAULT != 10 || row[0] == MAYBENOT_CORE_CALL_TURN) last = answer[MAYBENOT_CORE_ROW_OUT + MAYBENOT_CORE_ANSWER_MOMENT]; /* 10: a choice's event does not count */
    if (FAULT == 11 && answer[0] == 10) return i + 1; /* the list ends after a 10 */
    if (row[0] == MAYBENOT_CORE_CALL_TURN && !goes_on(row, answer)) return i + 1;
  }
  kept = last;
  return i;
}

/* The test left out: a call on words that are not accepted is made all the same. */
static void untested(word *b, size_t n, word *answers, word made) {
  for (word i = 0; i < made && n >= 260; i++)
    if (answers[ANSWER * i] == 2) answers[ANSWER * i] = 0, b[17]++;
}

word __wrap_maybenot_core_calls(word *b, size_t n, const word *calls, size_t calls_words, word *answers, size_t answers_words) {
  word before = answers_words >= ANSWER ? answers[2] : 0, made;
  if (FAULT <= 11) return row_by_row(b, n, calls, calls_words / ROW, answers, answers_words / ANSWER);
  if (FAULT == 12 && answers_words % ANSWER == ANSWER - 1) answers_words++; /* an answer that has not its whole room */
  if (FAULT == 13 && calls_words % ROW == ROW - 1) calls_words++;           /* a row that is not whole */
  made = __real_maybenot_core_calls(b, n, calls, calls_words, answers, answers_words);
  word *last = made ? answers + ANSWER * (made - 1) : 0;
  int turned = made && calls[ROW * (made - 1)] == MAYBENOT_CORE_CALL_TURN;
  if (FAULT == 14 && now_and_then()) answers[answers_words] = 0;                        /* one word past the answers */
  if (FAULT == 15 && now_and_then()) made += ((volatile const word *)calls)[calls_words] * 0; /* one word read past the rows */
  if (FAULT == 16 && now_and_then()) b[n] = 0;                                          /* one word past the block */
  if (FAULT == 17 && now_and_then()) answers[-1] = 0;                                   /* one before the answers */
  if (FAULT == 18 && made && now_and_then()) answers[2] = before;                       /* a word of an answer left unwritten */
  if (FAULT == 19 && made && now_and_then()) last[ANSWER - 1] ^= 1;                     /* a zero */
  if (FAULT == 20 && made * ANSWER < answers_words) answers[made * ANSWER] = 0;         /* that of a row not made */
  if (FAULT == 21 && now_and_then()) made++;                                            /* a row more than was made */
  if (FAULT == 22 && calls_words && now_and_then()) ((word *)calls)[0] ^= 1;            /* a row is changed */
  if (FAULT == 23) untested(b, n, answers, made);
  if (FAULT == 24 && made && answers[0] == 9) b[20]++;                                  /* a refused call changes a word */
  if (FAULT == 25 && made && last[0] == 3) last[0] = 2;
  if (FAULT == 26 && turned && now_and_then()) last[MAYBENOT_CORE_ROW_ACTIVITY] ^= 1;   /* the activity of a turn */
  if (FAULT == 27 && turned) last[MAYBENOT_CORE_ROW_HAS_FALL] = 0;                      /* a turn tells no moment */
  return made;
}
