#ifndef PLACES_H
#define PLACES_H
/* Places between pages that nobody may touch. Compiled with -DEXACT they are exact pieces of the heap instead, for valgrind. */
#include "reading.h"

struct place {
  unsigned char *pages; /* those that may be touched */
  size_t bytes;         /* of them */
  size_t length;        /* of what is lent, in words */
  word *lent;
  int read; /* it may only be read */
};

/* A place for up to so many words. */
struct place place_for(size_t length);
/* Lends words in the place, flush against its upper or its lower guard; the rest of its pages is filled with a known byte. */
void lend(struct place *p, size_t length, int upper);
/* From here on, until it is lent anew, the place may only be read. */
void only_read(struct place *p);
/* Whether every byte around what is lent is as it was. */
int untouched_around(const struct place *p);
#endif
