#ifndef ONE_BY_ONE_H
#define ONE_BY_ONE_H
#include <stddef.h>
#include <stdint.h>

/* What maybenot_core_calls must do, made by the other exported functions, one call after the other. */
uint64_t calls_one_by_one(uint64_t *block, size_t words, const uint64_t *calls, size_t calls_words, uint64_t *answers, size_t answers_words);
#endif
