// What the contenders of a benchmark run: a table, and a list of calls that are all taken, the same for each.
#ifndef SCENARIO_H
#define SCENARIO_H

#include <stddef.h>
#include <stdint.h>

typedef enum {
    LIGHT,    // two fifths of the processors, sporadic arrivals, some deadlines before the period's end
    FULL,     // every sub-tick of every processor, where there are more tasks than processors; periodic arrivals
    CRITICAL, // C events: one task more than processors, of equal shares and nearly the full load; the others small and seldom
    KINDS
} Kind;

extern const char *const kind_names[KINDS];

// Task 0: a step to the horizon, in ticks. Else the task arrives, at the tick that the horizon says.
typedef struct {
    uint32_t task, horizon;
} Call;

typedef struct {
    uint8_t table[1536];
    size_t table_len, m;
    const Call *calls;
    size_t len, steps; // steps among the calls
} Scenario;

// n tasks on m processors; len calls are written, or as many as the clock allows. 0, or the number by which the table is refused.
uint64_t scenario_make(Scenario *s, Kind kind, unsigned n, unsigned m, uint64_t seed, Call *calls, size_t len);

// A table for runs without an arrival, up to tick LONG: one task sleeps whose q is a tick, so that every plane is a tick long, and the
// n - 1 others, which arrive at 0, share the processors that it leaves. How many bytes.
enum { LONG = 5040 };
size_t long_table(uint8_t *table, unsigned n, unsigned m);

#endif
