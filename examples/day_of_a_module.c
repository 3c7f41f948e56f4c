/*
 * A day of a module, told: a counter calls a service of the supervisor through a gate and comes back, its accesses are
 * checked, a right is taken from it, and one is given to it from the middle of a word on.
 *
 * Domain 0 is the supervisor, domain 1 the counter, which counts what the panels give. Each executes its own code. The
 * counter writes its counts and reads the supervisor's clock. One address of the supervisor's code is open to it: a
 * switch gate stands there, and a return gate where the service ends.
 */
#include "goleuthan.h"

#include <stdio.h>
#include <stdlib.h>

enum { D = 2, M = 3, L = 2, POOL = GOL_POOL_WORDS(D, M, L), SHAPE = GOL_SHAPE_WORDS, SUPERVISOR = 0, COUNTER = 1 };

static const uint32_t SERVICES = 0x00000000, ENTRY = 0x00000400, INSIDE = 0x00000404, EXIT = 0x0000047C;
static const uint32_t PROGRAM = 0x00001000, CALL = 0x00001040, AFTER_CALL = 0x00001044, PAGE = 0x1000;
static const uint32_t COUNTS = 0x20000000, COUNTS_LENGTH = 256, CLOCK = 0x20001000, CLOCK_LENGTH = 8;
static const uint32_t TARIFF = 0x2000103E, TARIFF_LENGTH = 4;

static const uint32_t shape[SHAPE] = {GOL_EIGHTS, D, M, L, 0};
static uint32_t pool[POOL], buffer[GOL_BUFFER_WORDS], gates[GOL_GATES_WORDS], stack[GOL_STACK_WORDS];

static void must(int holds, const char *what) {
    if (!holds) {
        printf("not as promised: %s\n", what);
        exit(1);
    }
}

/* A change whose number of stores nobody asks for: no room for results is lent. */
static void grant(uint32_t domain, uint32_t start, uint32_t length, uint32_t right) {
    uint32_t number = gol_change(pool, POOL, shape, SHAPE, domain, start, length, right, 0xFFFFFFFF, NULL, 0);
    must(number == GOL_DONE, "the change is done");
}

/* Lays out the box: fresh tables, the rights, and the two gates. All states begin with zeros. */
static void lay_out(void) {
    must(gol_fresh(pool, POOL, shape, SHAPE) == GOL_DONE, "a fresh pool");
    grant(SUPERVISOR, SERVICES, PAGE, GOL_EXECUTE);
    grant(COUNTER, PROGRAM, PAGE, GOL_EXECUTE);
    grant(COUNTER, COUNTS, COUNTS_LENGTH, GOL_WRITE);
    grant(COUNTER, CLOCK, CLOCK_LENGTH, GOL_READ);
    must(gol_set_switch_gate(D, gates, GOL_GATES_WORDS, COUNTER, ENTRY, SUPERVISOR) == GOL_DONE, "a switch gate");
    must(gol_set_return_gate(D, gates, GOL_GATES_WORDS, SUPERVISOR, EXIT) == GOL_DONE, "a return gate");
    stack[33] = COUNTER;
}

/* One fetch; says what came of it, and which domain is current afterwards, how deep in calls. */
static void step(const char *what, uint32_t address, uint32_t target) {
    uint32_t pass = 0;
    uint32_t number =
        gol_step(pool, POOL, shape, SHAPE, gates, GOL_GATES_WORDS, stack, GOL_STACK_WORDS, address, target, &pass, 1);
    printf("  0x%08X, %s: ", address, what);
    if (number != GOL_DONE)
        printf("refused %u", number);
    else
        printf("%s", pass ? "pass" : "deny");
    printf("; domain %u, depth %u\n", stack[33], stack[32]);
}

/* One access of the counter, through the buffer. */
static void attempt(const char *what, uint32_t kind, uint32_t size, uint32_t address) {
    uint32_t out[2];
    uint32_t number =
        gol_check(pool, POOL, shape, SHAPE, buffer, GOL_BUFFER_WORDS, COUNTER, kind, size, address, out, 2);
    must(number == GOL_DONE, "the check is not refused");
    printf("  %s of %u at 0x%08X, %s: %s (loads: %u)\n", kind == GOL_LOAD ? "load" : "store", size, address, what,
           out[0] ? "pass" : "deny", out[1]);
}

static void morning(void) {
    printf("Morning. The counter runs and asks the supervisor to send its counts:\n");
    step("its own code", PROGRAM, 0);
    step("the supervisor's code, past the gate", INSIDE, 0);
    step("the switch gate", ENTRY, AFTER_CALL);
    step("the service", INSIDE, 0);
    step("the return gate, to another address", EXIT, CALL);
    step("the return gate", EXIT, AFTER_CALL);
    step("its own code again", AFTER_CALL, 0);
    step("the supervisor's code without a call", EXIT, 0);
}

static void noon(void) {
    printf("Noon. The counter reads the clock and writes its counts:\n");
    attempt("the clock", GOL_LOAD, 4, CLOCK);
    attempt("the clock, from a slot now", GOL_LOAD, 2, CLOCK + 6);
    attempt("the clock", GOL_STORE, 4, CLOCK);
    attempt("a count", GOL_STORE, 4, COUNTS + 8);
    attempt("the same count", GOL_LOAD, 1, COUNTS + 11);
}

static void afternoon(void) {
    printf("Afternoon. The supervisor takes the clock from the counter:\n");
    grant(COUNTER, CLOCK, CLOCK_LENGTH, GOL_NONE);
    attempt("the clock, by a stale slot", GOL_LOAD, 4, CLOCK);
    printf("It flushes the same region:\n");
    must(gol_flush_region(buffer, GOL_BUFFER_WORDS, COUNTER, CLOCK, CLOCK_LENGTH) == GOL_DONE, "a flush");
    attempt("the clock", GOL_LOAD, 4, CLOCK);
    attempt("a count, whose slot is left", GOL_LOAD, 4, COUNTS + 8);
}

/* The tariff lies in two words: both become the counter's to read, and the flush of the same bytes reaches both. */
static void dusk(void) {
    printf("Dusk. The counter gets the tariff to read, 4 bytes from the middle of a word on:\n");
    attempt("its first half, not yet", GOL_LOAD, 2, TARIFF);
    attempt("its second half, not yet", GOL_LOAD, 2, TARIFF + 2);
    grant(COUNTER, TARIFF, TARIFF_LENGTH, GOL_READ);
    must(gol_flush_region(buffer, GOL_BUFFER_WORDS, COUNTER, TARIFF, TARIFF_LENGTH) == GOL_DONE, "a flush");
    attempt("its first half", GOL_LOAD, 2, TARIFF);
    attempt("its second half", GOL_LOAD, 2, TARIFF + 2);
    attempt("the word after it", GOL_LOAD, 4, TARIFF + 6);
}

static void evening(void) {
    printf("Evening. The supervisor makes the pool fresh, and nobody has a right:\n");
    must(gol_fresh(pool, POOL, shape, SHAPE) == GOL_DONE, "a fresh pool");
    attempt("a count, by a stale slot", GOL_STORE, 4, COUNTS + 8);
    printf("It empties the buffer:\n");
    must(gol_flush_all(buffer, GOL_BUFFER_WORDS) == GOL_DONE, "a flush");
    attempt("a count", GOL_STORE, 4, COUNTS + 8);
    step("its own code", PROGRAM, 0);
}

int main(void) {
    lay_out();
    morning();
    noon();
    afternoon();
    dusk();
    evening();
    return 0;
}
