/* The README's first steps, whole. */
#include "goleuthan.h"

#include <stdio.h>

static uint32_t pool[GOL_POOL_WORDS(4, 8, 64)]; /* memory that keeps its words without power */
static const uint32_t shape[GOL_SHAPE_WORDS] = {GOL_EIGHTS, 4, 8, 64, 0};

int main(void) {
    uint32_t stores = 0, right = 0;
    gol_fresh(pool, 16384, shape, GOL_SHAPE_WORDS);
    gol_change(pool, 16384, shape, GOL_SHAPE_WORDS, 1, 0x1000, 64, GOL_WRITE, 0xFFFFFFFF, &stores, 1);
    printf("%u stores\n", stores);
    gol_lookup(pool, 16384, shape, GOL_SHAPE_WORDS, 1, 0x1004, &right, 1); /* right is 2: read and write */
    printf("right %u\n", right);
    gol_tidy(pool, 16384, shape, GOL_SHAPE_WORDS, 0xFFFFFFFF, &stores, 1); /* after a reset */
    printf("%u stores\n", stores);
    return 0;
}
