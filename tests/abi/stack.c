// How much stack the calls of include/robinrow.h take, library and all: each is made on a painted stack, many times over tables and
// states of all kinds, and the deepest byte that lost its paint counts. The last line has the most bytes of each call; the exit
// status is 1 where arrive, step or run take more than 2,048.
#define _GNU_SOURCE
#include <stdbool.h>
#include <stdio.h>
#include <stdlib.h>
#include <string.h>
#include <ucontext.h>

#include "../../include/robinrow.h"

enum { STACK = 65536, PAINT = 0xa5, TASKS = 128, ALLOWED = 2048, TURNS = 60, RECORDS = 20 };

// A CALL ON A STACK OF ITS OWN

static uint8_t stack[STACK] __attribute__((aligned(64)));
static ucontext_t outside, inside;
static void (*job)(void);

static void on_the_stack(void) {
    job();
    swapcontext(&inside, &outside);
}

// bytes from the top of the stack to the deepest that lost its paint
static size_t depth(void (*call)(void)) {
    memset(stack, PAINT, sizeof stack);
    getcontext(&inside);
    inside.uc_stack.ss_sp = stack;
    inside.uc_stack.ss_size = sizeof stack;
    inside.uc_link = NULL;
    makecontext(&inside, on_the_stack, 0);
    job = call;
    swapcontext(&outside, &inside);
    size_t i = 0;
    while (i < sizeof stack && stack[i] == PAINT) i++;
    return sizeof stack - i;
}

// THE CALLS

static robinrow_state state, scratch;
static uint8_t table[TASKS * ROBINROW_ROW_SIZE + 1], room[RECORDS * ROBINROW_RECORD_SIZE];
static size_t table_len, processors, room_len;
static uint64_t argument;
static uint32_t number;

static void nothing(void) { __asm__ volatile("" ::: "memory"); }
static void admit(void) { number = robinrow_admit(&state, table, table_len, processors, NULL); }
static void arrive(void) { number = robinrow_arrive(&state, argument); }
static void step(void) { number = robinrow_step(&state, argument, room, room_len); }
static void run(void) { number = robinrow_run(&state, argument, room, room_len, NULL); }
static void peek(void) { number = robinrow_peek(&state, &scratch, argument, room, room_len); }

enum { ADMIT, ARRIVE, STEP, RUN, PEEK, CALLS };
static void (*const all[CALLS])(void) = {admit, arrive, step, run, peek};
static const char *const names[CALLS] = {"admit", "arrive", "step", "run", "peek"};
static size_t base, most[CALLS];
static uint64_t made, seen[14];

static uint32_t measured(int call) {
    size_t here = depth(all[call]) - base;
    if (here > most[call]) most[call] = here;
    made++;
    seen[number]++;
    return number;
}

// TABLES AND STATES

static uint64_t random_state = 1;

static uint64_t any(void) { // splitmix64
    uint64_t z = (random_state += 0x9e3779b97f4a7c15u);
    z = (z ^ z >> 30) * 0xbf58476d1ce4e5b9u;
    z = (z ^ z >> 27) * 0x94d049bb133111ebu;
    return z ^ z >> 31;
}

static uint64_t below(uint64_t n) { return any() % n; }

// rows whose q divide a number of many divisors; shares small, whole, or to the last sub-tick
static void some_table(void) {
    static const uint32_t q[] = {1, 2, 3, 4, 6, 12, 60, 120, 360, 2520, 5040, 27720, 55440, 277200};
    size_t rows = below(4) ? 1 + below(TASKS) : TASKS;
    processors = 1 + below(16);
    for (size_t i = 0; i < rows; i++) {
        uint32_t shorter = q[below(14)], longer = shorter + (uint32_t)below(3) * shorter;
        uint32_t e = below(8) ? 1 + (uint32_t)below(1 + shorter * processors / rows) : shorter;
        if (e > shorter) e = shorter;
        if (below(2)) robinrow_put_row(table, i, longer, e, shorter);
        else robinrow_put_row(table, i, shorter, e, longer);
    }
    table_len = ROBINROW_ROW_SIZE * rows;
}

// q that keep Euclid's rule busy longest: neighbours of Fibonacci's numbers
static void euclid(void) {
    robinrow_put_row(table, 0, 17711, 1, 17711);
    robinrow_put_row(table, 1, 6765, 1, 6765);
    table_len = 2 * ROBINROW_ROW_SIZE;
    processors = 1;
    measured(ADMIT);
    robinrow_put_row(table, 0, 10946, 1, 10946);
    measured(ADMIT);
}

static void refused_tables(void) {
    some_table();
    table_len++;
    measured(ADMIT);
    table_len--;
    processors = 17;
    measured(ADMIT);
    processors = 16;
    robinrow_put_row(table, below(table_len / ROBINROW_ROW_SIZE), 5, 6, 5);
    measured(ADMIT);
    robinrow_put_row(table, below(table_len / ROBINROW_ROW_SIZE), 5, 0, 5);
    measured(ADMIT);
    robinrow_put_row(table, 0, 1048576, 1, 1048576);
    robinrow_put_row(table, 1, 1048575, 1, 1048575);
    table_len = 2 * ROBINROW_ROW_SIZE;
    measured(ADMIT);
}

static void steps(int call, uint64_t horizon, size_t len) {
    argument = horizon;
    room_len = len;
    measured(call);
}

static void refused_calls(void) {
    robinrow_state saved = state;
    argument = state.count + 1;
    measured(ARRIVE);
    argument = 1 + below(state.count);
    measured(ARRIVE); // most often 8 or 9
    for (int call = STEP; call < CALLS; call++) {
        steps(call, state.now / state.scale, sizeof room);
        steps(call, ROBINROW_CLOCK + 1, sizeof room);
        steps(call, ROBINROW_CLOCK, 47);
        ((uint8_t *)&state)[below(sizeof state)] ^= (uint8_t)(1u << below(8));
        argument = 1 + below(saved.count);
        measured(ARRIVE);
        steps(call, saved.now / saved.scale + 1, sizeof room);
        state = saved;
    }
}

// arrivals as they may come, steps and runs between them
static void course(void) {
    some_table();
    if (measured(ADMIT)) return;
    for (int turn = 0; turn < TURNS; turn++) {
        if (state.now % state.scale == 0)
            for (uint64_t task = 1; task <= state.count; task++)
                if (below(3)) {
                    argument = task;
                    measured(ARRIVE);
                }
        uint64_t tick = state.now / state.scale;
        int call = STEP + (int)below(3);
        steps(call, below(3) ? tick + 1 : tick + 1 + below(100), call == RUN ? sizeof room : ROBINROW_RECORD_SIZE);
        if (below(8) == 0) refused_calls();
    }
}

int main(int argc, char **argv) {
    base = depth(nothing);
    euclid();
    for (int turn = 0; turn < 20; turn++) refused_tables();
    for (uint64_t wanted = argc > 2 ? strtoull(argv[2], NULL, 10) : 50000; made < wanted;) course();
    bool within = most[ARRIVE] <= ALLOWED && most[STEP] <= ALLOWED && most[RUN] <= ALLOWED;
    printf("%s, %llu calls, answered by", argc > 1 ? argv[1] : "here", (unsigned long long)made);
    for (int i = 0; i < 14; i++) printf(" %d x %llu", i, (unsigned long long)seen[i]);
    printf("\n%s, bytes of stack:", argc > 1 ? argv[1] : "here");
    for (int call = ADMIT; call < CALLS; call++) printf(" %s %zu", names[call], most[call]);
    printf("%s\n", within ? "" : ": above 2048");
    return !within;
}
