/*
 * A length of 0 lends nothing, and the pointer may then be NULL: where no result is wanted, where a pool, a shape or a
 * state is missing, and where only the number of runs is asked. Every call of the header is made so.
 */
#include "goleuthan.h"

#include <stdio.h>

enum { D = 2, M = 1, L = 1, POOL = GOL_POOL_WORDS(D, M, L), SHAPE = GOL_SHAPE_WORDS };

static const uint32_t shape[SHAPE] = {GOL_EIGHTS, D, M, L, 0};
static uint32_t pool[POOL], buffer[GOL_BUFFER_WORDS], gates[GOL_GATES_WORDS], stack[GOL_STACK_WORDS];
static uint32_t regions[GOL_REGIONS_WORDS];

/* A change that domain 0 asks for, with no room for results. */
static uint32_t change_by(uint32_t *words, size_t length, const uint32_t *said, size_t said_len, const uint32_t *list,
                          size_t list_len) {
    return gol_change_by(words, length, said, said_len, list, list_len, 0, 0, 0x1000, 64, GOL_EXECUTE, 0xFFFFFFFF,
                         NULL, 0);
}

/* Lends all that a call needs to be done, and no room for results. */
static void without_results(void) {
    gol_fresh(pool, POOL, shape, SHAPE);
    printf("change %u\n", gol_change(pool, POOL, shape, SHAPE, 0, 0x1000, 64, GOL_EXECUTE, 0xFFFFFFFF, NULL, 0));
    printf("change by %u\n", change_by(pool, POOL, shape, SHAPE, regions, GOL_REGIONS_WORDS));
    printf("tidy %u\n", gol_tidy(pool, POOL, shape, SHAPE, 0xFFFFFFFF, NULL, 0));
    printf("lookup %u\n", gol_lookup(pool, POOL, shape, SHAPE, 0, 0x1000, NULL, 0));
    printf("check %u\n",
           gol_check(pool, POOL, shape, SHAPE, buffer, GOL_BUFFER_WORDS, 0, GOL_FETCH, 4, 0x1000, NULL, 0));
    printf("step %u\n",
           gol_step(pool, POOL, shape, SHAPE, gates, GOL_GATES_WORDS, stack, GOL_STACK_WORDS, 0x1000, 0, NULL, 0));
    uint32_t runs = 0;
    printf("list %u\n", gol_list(pool, POOL, shape, SHAPE, 0, NULL, 0, &runs, 1));
    printf("runs %u\n", runs);
    printf("list %u\n", gol_list(pool, POOL, shape, SHAPE, 0, NULL, 0, NULL, 0));
}

/* Lends no pool: refused 1 by each call that takes one. */
static void without_pool(void) {
    printf("fresh %u\n", gol_fresh(NULL, 0, shape, SHAPE));
    printf("change %u\n", gol_change(NULL, 0, shape, SHAPE, 0, 0x1000, 64, GOL_READ, 1, NULL, 0));
    printf("change by %u\n", change_by(NULL, 0, shape, SHAPE, regions, GOL_REGIONS_WORDS));
    printf("tidy %u\n", gol_tidy(NULL, 0, shape, SHAPE, 1, NULL, 0));
    printf("lookup %u\n", gol_lookup(NULL, 0, shape, SHAPE, 0, 0, NULL, 0));
    printf("list %u\n", gol_list(NULL, 0, shape, SHAPE, 0, NULL, 0, NULL, 0));
    printf("check %u\n", gol_check(NULL, 0, shape, SHAPE, buffer, GOL_BUFFER_WORDS, 0, GOL_LOAD, 4, 0, NULL, 0));
    printf("step %u\n", gol_step(NULL, 0, shape, SHAPE, gates, GOL_GATES_WORDS, stack, GOL_STACK_WORDS, 0, 0, NULL, 0));
}

/* Lends no shape: refused 101 by each call that takes one, without a pool too. */
static void without_shape(void) {
    printf("fresh %u\n", gol_fresh(pool, POOL, NULL, 0));
    printf("change %u\n", gol_change(pool, POOL, NULL, 0, 0, 0x1000, 64, GOL_READ, 1, NULL, 0));
    printf("change by %u\n", change_by(pool, POOL, NULL, 0, regions, GOL_REGIONS_WORDS));
    printf("tidy %u\n", gol_tidy(pool, POOL, NULL, 0, 1, NULL, 0));
    printf("lookup %u\n", gol_lookup(NULL, 0, NULL, 0, 0, 0, NULL, 0));
    printf("list %u\n", gol_list(NULL, 0, NULL, 0, 0, NULL, 0, NULL, 0));
    printf("check %u\n", gol_check(NULL, 0, NULL, 0, buffer, GOL_BUFFER_WORDS, 0, GOL_LOAD, 4, 0, NULL, 0));
    printf("step %u\n", gol_step(NULL, 0, NULL, 0, gates, GOL_GATES_WORDS, stack, GOL_STACK_WORDS, 0, 0, NULL, 0));
}

/* Lends no state: refused 101 by each call that takes one. */
static void without_states(void) {
    printf("check %u\n", gol_check(pool, POOL, shape, SHAPE, NULL, 0, 0, GOL_LOAD, 4, 0, NULL, 0));
    printf("flush all %u\n", gol_flush_all(NULL, 0));
    printf("flush domain %u\n", gol_flush_domain(NULL, 0, 0));
    printf("flush region %u\n", gol_flush_region(NULL, 0, 0, 0, 4));
    printf("set switch gate %u\n", gol_set_switch_gate(D, NULL, 0, 0, 0, 1));
    printf("set return gate %u\n", gol_set_return_gate(D, NULL, 0, 0, 0));
    printf("remove gate %u\n", gol_remove_gate(D, NULL, 0, 0, 0));
    printf("step %u\n", gol_step(pool, POOL, shape, SHAPE, NULL, 0, stack, GOL_STACK_WORDS, 0, 0, NULL, 0));
    printf("step %u\n", gol_step(pool, POOL, shape, SHAPE, gates, GOL_GATES_WORDS, NULL, 0, 0, 0, NULL, 0));
    printf("make region %u\n", gol_make_region(D, NULL, 0, 0, 1, 0, 4));
    printf("pass region %u\n", gol_pass_region(D, NULL, 0, 0, 1, 0, 4));
    printf("give export %u\n", gol_give_export(D, NULL, 0, 0, 1, GOL_READ, 0, 4));
    printf("change by %u\n", change_by(pool, POOL, shape, SHAPE, NULL, 0));
}

int main(void) {
    without_results();
    without_pool();
    without_shape();
    without_states();
    return 0;
}
