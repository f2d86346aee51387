#ifndef LOTS_H
#define LOTS_H
/* Blocks by their lengths, and how often each length is drawn. */
#include "blocks.h"

#define R(r) (256 + 4 * (r))

/* The lengths that lone calls and packing are tried on, each with its weight of 10,000. */
#define LENGTHS(EACH)                                                                                        \
  EACH(R(1), 1500) EACH(R(2), 700) EACH(R(3), 700) EACH(R(4), 800) EACH(R(6), 1000) EACH(R(8), 1300)         \
  EACH(R(13), 1300) EACH(R(21), 1200) EACH(R(60), 796) EACH(R(1984), 50) EACH(R(1985), 50) EACH(R(65535), 2) \
  EACH(0, 150) EACH(256, 150) EACH(259, 150) EACH(261, 150) EACH(R(65536), 2)

/* A lot of this length and weight. */
#define LOT(words, often) {.length = (words), .weight = (often)},

/* Which of so many lots is drawn, by their weights. */
static inline size_t drawn(size_t count, unsigned (*weight)(size_t)) {
  unsigned x = below(10000);
  for (size_t i = 0; i < count; i++) {
    if (x < weight(i)) return i;
    x -= weight(i);
  }
  return 0;
}
#endif
