/*
 * A tracer, told: it wants to know what a module may do with each word of a region.
 *
 * Word by word that is a lookup for each word. But a lookup also says how far its answer reaches, and so the tracer
 * goes on at the byte after the last one: one lookup for each stretch of one right. A stretch lies in the block of the
 * entry that decides, 4 MB, 4 KB or 64 bytes, and where the next block begins a new lookup says whether the right goes
 * on. Every walk here is held against the lookups word by word.
 */
#include "goleuthan.h"

#include <stdio.h>
#include <stdlib.h>

enum { D = 2, M = 2, L = 2, POOL = GOL_POOL_WORDS(D, M, L), SHAPE = GOL_SHAPE_WORDS };
enum { METER = 0, RADIO = 1 };
/* The results of a lookup, in their order. */
enum { RIGHT, ENTRY, LOADS, FIRST, LAST, RESULTS };

static const uint32_t ENOUGH = 0xFFFFFFFF;
static const char *const NAMES[] = {"the meter", "the radio"};
static const char *const RIGHTS[] = {"none", "read", "read and write", "execute and read"};

static const uint32_t shape[SHAPE] = {GOL_EIGHTS, D, M, L, 0};
static uint32_t pool[POOL];

static void must(int holds, const char *what) {
    if (!holds) {
        printf("not as promised: %s\n", what);
        exit(1);
    }
}

static void set(uint32_t domain, uint32_t start, uint32_t length, uint32_t right) {
    must(gol_change(pool, POOL, shape, SHAPE, domain, start, length, right, ENOUGH, NULL, 0) == GOL_DONE, "a change");
}

/* Each word of a stretch, as far as it lies in the region, has the right of the stretch. */
static uint32_t word_by_word(uint32_t domain, uint32_t from, uint32_t to, uint32_t right) {
    uint32_t words = to / 4 - from / 4 + 1;
    for (uint32_t word = 0; word < words; word++) {
        uint32_t one = 0;
        must(gol_lookup(pool, POOL, shape, SHAPE, domain, from + 4 * word, &one, 1) == GOL_DONE, "a lookup of a word");
        must(one == right, "a word of a stretch has its right");
    }
    return words;
}

/* Walks the bytes from `first` to `last`. It compares before it adds, so that a region may end with the memory. */
static void walk(uint32_t domain, uint32_t first, uint32_t last) {
    uint32_t lookups = 0, words = 0, next = first, found[RESULTS];
    printf("What %s may do from 0x%08X to 0x%08X:\n", NAMES[domain], first, last);
    for (;;) {
        must(gol_lookup(pool, POOL, shape, SHAPE, domain, next, found, RESULTS) == GOL_DONE, "a lookup");
        lookups++;
        printf("  0x%08X to 0x%08X, loads %u: %s\n", found[FIRST], found[LAST], found[LOADS], RIGHTS[found[RIGHT]]);
        must(found[FIRST] <= next && next <= found[LAST], "a stretch is around the word looked up");
        words += word_by_word(domain, next, found[LAST] < last ? found[LAST] : last, found[RIGHT]);
        if (found[LAST] >= last)
            break;
        next = found[LAST] + 1;
    }
    printf("  %u lookups for %u words\n", lookups, words);
}

int main(void) {
    must(gol_fresh(pool, POOL, shape, SHAPE) == GOL_DONE, "a fresh pool");
    set(METER, 0x00000000, 512 * 1024, GOL_EXECUTE); /* its program */
    set(METER, 0x20000000, 3 * 1024, GOL_WRITE);     /* its memory */
    set(METER, 0x20001010, 96, GOL_WRITE);           /* a buffer */
    set(METER, 0x20001070, 4, GOL_READ);             /* a clock */
    set(RADIO, 0xFFFFFFFC, 4, GOL_WRITE);            /* a register, the last word that there is */
    walk(METER, 0x00000000, 0x007FFFFF);
    walk(METER, 0x20000200, 0x2000109F);
    walk(RADIO, 0xFFFFFF40, 0xFFFFFFFF);

    uint32_t found[RESULTS] = {7, 7, 7, 7, 7};
    uint32_t number = gol_lookup(pool, POOL, shape, SHAPE, D, 0x20001010, found, RESULTS);
    printf("Of a domain that there is not: refused %u, from 0x%08X to 0x%08X\n", number, found[FIRST], found[LAST]);
    return 0;
}
