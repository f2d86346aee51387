#ifndef BLOCKS_H
#define BLOCKS_H
/* Random numbers, blocks, damage and calls: the same for the same seed. */
#include "reading.h"

#define OUT_BEFORE 0x0123456789abcdefull

void seed(word s);
word random_word(void);
word below(word n);
/* An accepted state of so many words, drawn anew. */
void build(word *w, size_t n);
/* Changes a few words, or makes all of them zeros, ones or noise. */
void damage(word *w, size_t n);
/* Any call with any arguments, many of them near what the words hold. */
void some_call(struct call *c, const word *w, size_t n);
#endif
