/* See places.h. */
#include "places.h"
#include <stdio.h>
#include <stdlib.h>
#include <string.h>
#include <sys/mman.h>

#define PAGE 4096
#define CANARY 0xa5

static void allow(void *pages, size_t bytes, int what) {
  if (mprotect(pages, bytes, what)) {
    perror("mprotect");
    exit(2);
  }
}

struct place place_for(size_t length) {
  size_t bytes = length ? (8 * length + PAGE - 1) / PAGE * PAGE : PAGE;
  unsigned char *all = mmap(0, bytes + 2 * PAGE, PROT_NONE, MAP_PRIVATE | MAP_ANONYMOUS, -1, 0);
  if (all == MAP_FAILED) {
    perror("mmap");
    exit(2);
  }
  allow(all + PAGE, bytes, PROT_READ | PROT_WRITE);
  return (struct place){.pages = all + PAGE, .bytes = bytes, .length = length};
}

void lend(struct place *p, size_t length, int upper) {
  p->length = length;
#ifdef EXACT
  (void)upper;
  free(p->lent);
  p->lent = malloc(8 * length);
#else
  if (p->read) allow(p->pages, p->bytes, PROT_READ | PROT_WRITE);
  p->read = 0;
  memset(p->pages, CANARY, p->bytes);
  p->lent = (word *)(upper ? p->pages + p->bytes - 8 * length : p->pages);
#endif
}

void only_read(struct place *p) {
#ifndef EXACT
  allow(p->pages, p->bytes, PROT_READ);
  p->read = 1;
#else
  (void)p;
#endif
}

int untouched_around(const struct place *p) {
#ifndef EXACT
  static unsigned char canaries[PAGE];
  if (!canaries[0]) memset(canaries, CANARY, sizeof canaries);
  size_t slack = p->bytes - 8 * p->length;
  int upper = (unsigned char *)p->lent != p->pages;
  const unsigned char *from = upper ? p->pages : p->pages + 8 * p->length;
  for (; slack > PAGE; slack -= PAGE, from += PAGE)
    if (memcmp(from, canaries, PAGE)) return 0;
  return !memcmp(from, canaries, slack);
#else
  (void)p;
  return 1;
#endif
}
