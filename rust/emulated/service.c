/*
 * The library as a service, for tests on a machine that cannot link it: takes calls from standard input, makes them, and
 * writes what they gave to standard output. All is in 32-bit words of the machine's order, which both sides share.
 *
 * A call is a head (the function, ten numbers, which of five lent memories are mutable, which are sent, their five
 * lengths) and the words of the memories that are sent; one that is not sent holds what it held. The answer is the
 * number, and the words of the mutable memories. The memories are 0 the pool, 1 buffer, gates, regions or runs, 2 the
 * call stack, 3 the results, 4 the shape.
 */
#include "goleuthan.h"

#include <stdint.h>
#include <stdio.h>
#include <stdlib.h>

enum { MEMORIES = 5, ROOM = 1 << 20, GUARDS = 64 };

struct head {
    uint32_t function, number[10], mutable_ones, sent, length[MEMORIES];
};

static uint32_t memory[MEMORIES][ROOM + GUARDS];

static const uint32_t GUARD = 0x47554152;

static void must(int holds, const char *what) {
    if (!holds) {
        fprintf(stderr, "service: %s\n", what);
        exit(1);
    }
}

static uint32_t call(const struct head *h) {
    const uint32_t *n = h->number;
    uint32_t *pool = memory[0], *state = memory[1], *stack = memory[2], *out = memory[3];
    const uint32_t *shape = memory[4];
    size_t words = h->length[0], state_len = h->length[1], stack_len = h->length[2], out_len = h->length[3];
    size_t shape_len = h->length[4];
    switch (h->function) {
    case 0:
        return gol_fresh(pool, words, shape, shape_len);
    case 1:
        return gol_change(pool, words, shape, shape_len, n[0], n[1], n[2], n[3], n[4], out, out_len);
    case 2:
        return gol_tidy(pool, words, shape, shape_len, n[0], out, out_len);
    case 3:
        return gol_lookup(pool, words, shape, shape_len, n[0], n[1], out, out_len);
    case 4:
        return gol_check(pool, words, shape, shape_len, state, state_len, n[0], n[1], n[2], n[3], out, out_len);
    case 5:
        return gol_list(pool, words, shape, shape_len, n[0], state, state_len, out, out_len);
    case 6:
        return gol_step(pool, words, shape, shape_len, state, state_len, stack, stack_len, n[0], n[1], out, out_len);
    case 7:
        return gol_flush_all(state, state_len);
    case 8:
        return gol_flush_domain(state, state_len, n[0]);
    case 9:
        return gol_flush_region(state, state_len, n[0], n[1], n[2]);
    case 10:
        return gol_set_switch_gate(n[0], state, state_len, n[1], n[2], n[3]);
    case 11:
        return gol_set_return_gate(n[0], state, state_len, n[1], n[2]);
    case 12:
        return gol_remove_gate(n[0], state, state_len, n[1], n[2]);
    case 13:
        return gol_make_region(n[0], state, state_len, n[1], n[2], n[3], n[4]);
    case 14:
        return gol_pass_region(n[0], state, state_len, n[1], n[2], n[3], n[4]);
    case 15:
        return gol_give_export(n[0], state, state_len, n[1], n[2], n[3], n[4], n[5]);
    case 16:
        return gol_change_by(pool, words, shape, shape_len, state, state_len, n[0], n[1], n[2], n[3], n[4], n[5], out,
                             out_len);
    default:
        must(0, "no such function");
        return 0;
    }
}

static void take(const struct head *h) {
    for (unsigned i = 0; i < MEMORIES; i++) {
        size_t length = h->length[i];
        must(length <= ROOM, "a memory is too long");
        if (h->sent >> i & 1)
            must(fread(memory[i], 4, length, stdin) == length, "a memory was not sent whole");
        for (unsigned k = 0; k < GUARDS; k++)
            memory[i][length + k] = GUARD;
    }
}

static void give(const struct head *h, uint32_t number) {
    fwrite(&number, 4, 1, stdout);
    for (unsigned i = 0; i < MEMORIES; i++) {
        for (unsigned k = 0; k < GUARDS; k++)
            must(memory[i][h->length[i] + k] == GUARD, "a word past a lent memory was written");
        if (h->mutable_ones >> i & 1)
            fwrite(memory[i], 4, h->length[i], stdout);
    }
    must(fflush(stdout) == 0, "the answer cannot be written");
}

int main(void) {
    struct head h;
    while (fread(&h, sizeof h, 1, stdin) == 1) {
        take(&h);
        give(&h, call(&h));
    }
    return 0;
}
