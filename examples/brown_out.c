/*
 * A brown-out, told: a supervisor gives two modules their rights, loses power in the middle of a change, and goes on.
 *
 * Domain 0 is a radio, domain 1 a logger. The radio owns a ring of packets, which the logger may read, and has a block
 * of settings: it may write the first 512 KB of them, but for one locked word, and read the others. The supervisor
 * lets the ring grow over all that the radio may write, the locked word too, and a little beyond. All places for
 * tables are in use, so the change must give up the leaf of the locked word, write a new leaf where it stood, and only
 * then lead to it. The power goes while it writes. No 512 KB of the settings has two rights then, so their middle
 * table is not wanted: the pool is sound but not settled, and is tidied before the change is made again.
 */
#include "goleuthan.h"

#include <stdio.h>
#include <stdlib.h>
#include <string.h>

enum { D = 2, M = 3, L = 3, POOL = GOL_POOL_WORDS(D, M, L), SHAPE = GOL_SHAPE_WORDS, RADIO = 0, LOGGER = 1 };

static const uint32_t CODE = 0x00000000, CODE_LENGTH = 0x80000;
static const uint32_t RING = 0x203FFF80, SHORT_RING = 0x80, LONG_RING = 0x80840;
static const uint32_t SETTINGS = 0x20400000, SETTINGS_LENGTH = 0x400000, WRITABLE = 0x80000, LOCKED = 0x20410000;
static const uint32_t ENOUGH = 0xFFFFFFFF;

static const char *const RIGHTS[] = {"none", "read", "read and write", "execute and read"};

static const uint32_t shape[SHAPE] = {GOL_EIGHTS, D, M, L, 0};

/* The pool stands in memory that keeps its words without power. */
static uint32_t pool[POOL];

static void must(int holds, const char *what) {
    if (!holds) {
        printf("not as promised: %s\n", what);
        exit(1);
    }
}

static void grant(uint32_t domain, uint32_t start, uint32_t length, uint32_t right) {
    uint32_t stores = 0;
    uint32_t number = gol_change(pool, POOL, shape, SHAPE, domain, start, length, right, ENOUGH, &stores, 1);
    printf("  domain %u: %s on %u bytes from 0x%08X: number %u, %u stores\n", domain, RIGHTS[right], length, start,
           number, stores);
    must(number == GOL_DONE, "the change is done");
}

/* Lets the ring grow, in a given pool and with a given allowance. */
static uint32_t grow(uint32_t *words, uint32_t allowance, uint32_t *stores) {
    return gol_change(words, POOL, shape, SHAPE, RADIO, RING, LONG_RING, GOL_WRITE, allowance, stores, 1);
}

static uint32_t right_in(const uint32_t *words, uint32_t domain, uint32_t address) {
    uint32_t right = 0;
    must(gol_lookup(words, POOL, shape, SHAPE, domain, address, &right, 1) == GOL_DONE, "the lookup is not refused");
    return right;
}

/* What a cut shows at one address: 0 the old right, 1 the new one. */
static int shown(const uint32_t *cut, uint32_t address) {
    uint32_t before = right_in(pool, RADIO, address), now = right_in(cut, RADIO, address);
    int covered = address - RING < LONG_RING;
    must(now == before || (covered && now == GOL_WRITE), "each word has its old right or its new one");
    must(right_in(cut, LOGGER, address) == right_in(pool, LOGGER, address), "another domain keeps its rights");
    return now != before;
}

/* Cuts the change after every number of stores, on copies, and looks up words around every edge. */
static uint32_t try_every_cut(void) {
    static uint32_t copy[POOL];
    const uint32_t past = SETTINGS + SETTINGS_LENGTH;
    const uint32_t edges[] = {RING, SETTINGS, LOCKED, SETTINGS + WRITABLE, RING + LONG_RING, past};
    uint32_t stores = 0, seen_old = 0, seen_new = 0;
    memcpy(copy, pool, sizeof pool);
    must(grow(copy, ENOUGH, &stores) == GOL_DONE, "there is room for the change");
    for (uint32_t allowance = 0; allowance < stores; allowance++) {
        uint32_t none = 1;
        memcpy(copy, pool, sizeof pool);
        must(grow(copy, allowance, &none) == GOL_CUT && none == 0, "a smaller allowance is a cut");
        for (size_t i = 0; i < sizeof edges / sizeof *edges; i++)
            for (uint32_t address = edges[i] - 64; address < edges[i] + 64; address += 4) {
                int is_new = shown(copy, address);
                seen_new += is_new;
                seen_old += !is_new;
            }
    }
    printf("  the change makes %u stores; it was cut after each number of them, on copies\n", stores);
    printf("  words looked up: %u times the old right, %u times the new one, never another\n", seen_old, seen_new);
    return stores;
}

static void show(const char *where, uint32_t address) {
    uint32_t found[3];
    must(gol_lookup(pool, POOL, shape, SHAPE, RADIO, address, found, 3) == GOL_DONE, "the lookup is not refused");
    printf("  0x%08X, %s: %s (loads: %u)\n", address, where, RIGHTS[found[0]], found[2]);
}

static void show_all(void) {
    show("the ring as it was", RING);
    show("the settings", SETTINGS);
    show("the locked word", LOCKED);
    show("the long ring's last word", RING + LONG_RING - 4);
    show("past the long ring", RING + LONG_RING);
    show("past the settings", SETTINGS + SETTINGS_LENGTH);
}

static void list(void) {
    uint32_t runs[4 * 16], total = 0;
    must(gol_list(pool, POOL, shape, SHAPE, 0, runs, sizeof runs / sizeof *runs, &total, 1) == GOL_DONE, "a listing");
    must(total <= 16, "the runs fit");
    for (uint32_t i = 0; i < total; i++)
        printf("  domain %u, 0x%08X to 0x%08X: %s\n", runs[4 * i], runs[4 * i + 1], runs[4 * i + 2],
               RIGHTS[runs[4 * i + 3]]);
}

static void set_rights(void) {
    printf("The supervisor makes a fresh table of %u words and sets rights:\n", (unsigned)POOL);
    must(gol_fresh(pool, POOL, shape, SHAPE) == GOL_DONE, "a fresh pool");
    grant(RADIO, CODE, CODE_LENGTH, GOL_EXECUTE);
    grant(LOGGER, CODE, CODE_LENGTH, GOL_EXECUTE);
    grant(RADIO, RING, SHORT_RING, GOL_WRITE);
    grant(LOGGER, RING, SHORT_RING, GOL_READ);
    grant(RADIO, SETTINGS, SETTINGS_LENGTH, GOL_READ);
    grant(RADIO, SETTINGS, WRITABLE, GOL_WRITE);
    grant(RADIO, LOCKED, 4, GOL_READ);
    show_all();
}

/* Makes the change up to the store after which the power goes. */
static void lose_power(uint32_t allowance) {
    uint32_t none;
    printf("The change begins. After %u stores the power goes.\n", allowance);
    must(grow(pool, allowance, &none) == GOL_CUT, "a cut");
    printf("The power is back. Each word has its old right or its new one:\n");
    show_all();
    printf("A table stands that no right wants, so that the change is refused:\n");
    printf("  the change again: number %u\n", grow(pool, ENOUGH, &none));
}

static void recover(void) {
    uint32_t stores = 0;
    printf("The supervisor tidies the table and makes the change again:\n");
    must(gol_tidy(pool, POOL, shape, SHAPE, ENOUGH, &stores, 1) == GOL_DONE, "a tidying");
    printf("  tidied: %u stores\n", stores);
    show_all();
    grant(RADIO, RING, LONG_RING, GOL_WRITE);
    show_all();
}

int main(void) {
    set_rights();
    printf("The ring is to grow from %u to %u bytes. What a loss of power could do:\n", SHORT_RING, LONG_RING);
    uint32_t stores = try_every_cut();
    lose_power(stores - 16); /* in the middle of the new leaf */
    recover();
    printf("The listing for the field engineer:\n");
    list();
    return 0;
}
