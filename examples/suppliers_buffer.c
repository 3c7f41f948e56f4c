/*
 * A supplier's buffer, told: a supervisor lets a supplier set rights on its own buffer, and on nothing else.
 *
 * Domain 0 is the supervisor, domain 1 a supplier's radio, domain 2 a meter and domain 3 a display. The supervisor
 * makes a region of the radio's buffer, with the radio as its owner. From then on the radio says who may do what with
 * the buffer, and is refused one word beyond it. It gives the meter an export of read: the meter may let others read,
 * may not let them write, and cannot set its own right. At last the radio passes the buffer on, and the export ends.
 */
#include "goleuthan.h"

#include <stdio.h>
#include <stdlib.h>

enum { D = 4, M = 3, L = 3, POOL = GOL_POOL_WORDS(D, M, L), SHAPE = GOL_SHAPE_WORDS };
enum { SUPERVISOR = 0, RADIO = 1, METER = 2, DISPLAY = 3 };

static const uint32_t BUFFER = 0x20001000, BUFFER_LENGTH = 256, ENOUGH = 0xFFFFFFFF;

static const char *const NAMES[] = {"the supervisor", "the radio", "the meter", "the display"};
static const char *const RIGHTS[] = {"none", "read", "read and write", "execute and read"};

static const uint32_t shape[SHAPE] = {GOL_EIGHTS, D, M, L, 0};
static uint32_t pool[POOL], regions[GOL_REGIONS_WORDS];

static void must(int holds, const char *what) {
    if (!holds) {
        printf("not as promised: %s\n", what);
        exit(1);
    }
}

/* A change that a domain asks the supervisor for, as a call through a gate would bring it. */
static void ask(uint32_t caller, uint32_t domain, uint32_t start, uint32_t length, uint32_t right) {
    uint32_t stores = 0;
    uint32_t number = gol_change_by(pool, POOL, shape, SHAPE, regions, GOL_REGIONS_WORDS, caller, domain, start, length,
                                    right, ENOUGH, &stores, 1);
    printf("  %s sets %s for %s on %u bytes from 0x%08X: ", NAMES[caller], RIGHTS[right], NAMES[domain], length, start);
    if (number == GOL_DONE)
        printf("done, %u stores\n", stores);
    else
        printf("refused %u\n", number);
}

static void show(uint32_t address) {
    printf("  0x%08X:", address);
    for (uint32_t domain = 0; domain < D; domain++) {
        uint32_t right = 0;
        must(gol_lookup(pool, POOL, shape, SHAPE, domain, address, &right, 1) == GOL_DONE, "a lookup");
        printf(" %s %s%s", NAMES[domain], RIGHTS[right], domain + 1 < D ? "," : "\n");
    }
}

static void owned(void) {
    printf("The supervisor makes a region of the radio's buffer:\n");
    uint32_t made = gol_make_region(D, regions, GOL_REGIONS_WORDS, SUPERVISOR, RADIO, BUFFER, BUFFER_LENGTH);
    must(made == GOL_DONE, "a region");
    printf("  region 0: owner %u, memory words 0x%08X to 0x%08X\n", regions[0], regions[1], regions[2] - 1);
    ask(RADIO, RADIO, BUFFER, BUFFER_LENGTH, GOL_WRITE);
    ask(RADIO, METER, BUFFER, BUFFER_LENGTH, GOL_READ);
    ask(RADIO, METER, BUFFER, BUFFER_LENGTH + 4, GOL_READ);
    ask(RADIO, METER, BUFFER - 4, 4, GOL_READ);
    ask(SUPERVISOR, METER, BUFFER, BUFFER_LENGTH, GOL_WRITE);
    ask(METER, METER, BUFFER, BUFFER_LENGTH, GOL_WRITE);
    show(BUFFER);
    show(BUFFER + BUFFER_LENGTH);
}

static void exported(void) {
    printf("The meter would let the display read, and may not:\n");
    ask(METER, DISPLAY, BUFFER, 64, GOL_READ);
    printf("The radio gives the meter an export of read:\n");
    uint32_t given = gol_give_export(D, regions, GOL_REGIONS_WORDS, RADIO, METER, GOL_READ, BUFFER, BUFFER_LENGTH);
    must(given == GOL_DONE, "an export");
    ask(METER, DISPLAY, BUFFER, 64, GOL_READ);
    ask(METER, DISPLAY, BUFFER, 64, GOL_WRITE);
    ask(METER, METER, BUFFER, 64, GOL_READ);
    ask(METER, DISPLAY, BUFFER + 64, BUFFER_LENGTH, GOL_READ);
    show(BUFFER);
}

static void passed(void) {
    printf("The radio passes the buffer to the display, and the export ends:\n");
    uint32_t number = gol_pass_region(D, regions, GOL_REGIONS_WORDS, RADIO, DISPLAY, BUFFER, BUFFER_LENGTH);
    must(number == GOL_DONE, "a region passed");
    ask(METER, RADIO, BUFFER, 64, GOL_NONE);
    ask(RADIO, METER, BUFFER, 64, GOL_NONE);
    ask(DISPLAY, METER, BUFFER, 64, GOL_NONE);
    show(BUFFER);
    number = gol_pass_region(D, regions, GOL_REGIONS_WORDS, RADIO, RADIO, BUFFER, BUFFER_LENGTH);
    printf("  the radio takes it back: refused %u\n", number);
}

int main(void) {
    must(gol_fresh(pool, POOL, shape, SHAPE) == GOL_DONE, "a fresh pool");
    owned();
    exported();
    passed();
    return 0;
}
