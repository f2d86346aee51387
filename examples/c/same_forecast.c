/*
 * same_forecast FILE FILE: whether two saved blocks hold the same forecast, told by their packed forms.
 *
 * A file has the lent words of a block, 64 bits each, little-endian, as x86-64 writes them: 8 * (256 + 4R) bytes. Prints `same`
 * or `different`. Exit status: 0 same; 1 different; 2 not compared, with the reason on standard error: a file cannot be read
 * or is no accepted state, or the two have other lengths. Nothing is written to the files.
 *
 *     cc -O2 -Iinclude -o same_forecast examples/c/same_forecast.c target/staticlib/libmaybenot_core.a
 *
 * runs/bindings builds and tries it.
 */
#include "maybenot_core.h"

#include <errno.h>
#include <inttypes.h>
#include <stdio.h>
#include <stdlib.h>
#include <string.h>

#define MOST MAYBENOT_CORE_WORDS(MAYBENOT_CORE_MAX_RECORDS)
#define NOT_COMPARED 2

/* A saved block, its packed form, and how many words they have. */
struct saved {
    const char *name;
    size_t words;
    uint64_t block[MOST];
    uint64_t packed[MOST];
};

static struct saved one;
static struct saved other;

/* One byte more than the longest block has: a longer file is told by it. */
static unsigned char bytes[8 * MOST + 1];

static void stop(const char *name, const char *why)
{
    fprintf(stderr, "same_forecast: %s: %s\n", name, why);
    exit(NOT_COMPARED);
}

/* The bytes of a file, at most one more than there is room for a block. */
static size_t bytes_of(const char *name)
{
    FILE *file = fopen(name, "rb");
    size_t count;
    if (file == NULL) {
        stop(name, strerror(errno));
    }
    errno = 0;
    count = fread(bytes, 1, sizeof bytes, file);
    if (ferror(file)) {
        stop(name, errno != 0 ? strerror(errno) : "cannot be read");
    }
    fclose(file);
    return count;
}

static void load(struct saved *saved, const char *name)
{
    size_t count = bytes_of(name);
    size_t i;
    size_t k;
    if (count > 8 * MOST) {
        stop(name, "longer than any block");
    }
    if (count % 8 != 0) {
        stop(name, "not whole words of 8 bytes");
    }
    saved->name = name;
    saved->words = count / 8;
    for (i = 0; i < saved->words; i++) {
        saved->block[i] = 0;
        for (k = 0; k < 8; k++) {
            saved->block[i] |= (uint64_t)bytes[8 * i + k] << (8 * k);
        }
    }
}

static void pack(struct saved *saved)
{
    switch (maybenot_core_pack(saved->block, saved->words, saved->packed, saved->words)) {
    case MAYBENOT_CORE_OK:
        return;
    case MAYBENOT_CORE_REFUSED_LENGTH:
        stop(saved->name, "not 256 + 4R words, R from 1 to 65,535");
        return;
    case MAYBENOT_CORE_REFUSED_STATE:
        stop(saved->name, "no accepted state");
        return;
    default:
        stop(saved->name, "refused");
    }
}

int main(int count, char **names)
{
    int same;
    if (count != 3) {
        fprintf(stderr, "usage: same_forecast FILE FILE\n");
        return NOT_COMPARED;
    }
    load(&one, names[1]);
    load(&other, names[2]);
    pack(&one);
    pack(&other);
    if (one.words != other.words) {
        fprintf(stderr, "same_forecast: %s has %zu words, %s has %zu\n", one.name, one.words, other.name, other.words);
        return NOT_COMPARED;
    }
    same = memcmp(one.packed, other.packed, 8 * one.words) == 0;
    if (puts(same ? "same" : "different") == EOF || fflush(stdout) != 0) {
        stop("standard output", strerror(errno));
    }
    return same ? EXIT_SUCCESS : EXIT_FAILURE;
}
