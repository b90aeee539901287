// The same tables and calls four ways: (a) the proved work in place on a state that holds together, (b) the checked calls by
// value, (c) the calls from C on a struct, checked and in place, (d) plain C without checks. Nanoseconds a step, its arrivals
// counted in, and ratios to (d). Of (c) also what a call takes beyond its check and 1.2 times plain C.
#define _POSIX_C_SOURCE 199309L
#include <stdbool.h>
#include <stdio.h>
#include <string.h>

#include "../include/robinrow.h"
#include "nanoseconds.h"
#include "plain.h"
#include "scenario.h"

// bench_step
void held_calls(size_t, size_t, uint64_t, uint64_t *, bool *, uint64_t *, size_t *, size_t *, const uint64_t *, size_t, const uint32_t *, const uint32_t *,
    const uint64_t *, const uint16_t *, bool *, bool *, uint64_t *, uint64_t *, uint16_t *, uint64_t *, uint16_t *, uint16_t *, uint8_t *, size_t);
bool held_check_in_place(size_t, size_t, uint64_t, uint64_t, bool, uint64_t, size_t, size_t, const uint32_t *, const uint32_t *, const uint32_t *,
    const uint64_t *, const uint16_t *, bool *, const bool *, const uint64_t *, uint64_t *, uint16_t *, uint64_t *, uint16_t *, uint16_t *);
uint64_t public_calls(const uint8_t *, size_t, size_t, const uint64_t *, size_t, uint8_t *, size_t);

enum { CALLS = 20000, REPEATS = 7, SEEN = 64, RECORDS = 1000 };

// What a contender leaves: the present, and the last record. All four must leave the same.
typedef struct {
    uint64_t present;
    uint8_t record[48];
} Left;

#define COLUMNS(s) (s)->period, (s)->exec, (s)->deadline, (s)->share, (s)->order
#define MOMENT(s) (s)->count, (s)->m, (s)->scale, &(s)->now, (bool *)&(s)->going, &(s)->end, &(s)->running_len, &(s)->waiting_len
#define QUEUES(s) (s)->running_keys, (s)->running_tasks, (s)->waiting_keys, (s)->waiting_tasks, (s)->slots

static void in_plain_c(const Scenario *c, Left *left) {
    static Plain s;
    plain_admit(c->table, c->table_len, c->m, &s);
    for (size_t i = 0; i < c->len; i++) {
        if (c->calls[i].task) plain_arrive(&s, c->calls[i].task);
        else plain_step(&s, c->calls[i].horizon, left->record);
    }
    left->present = s.now;
}

// a call as one number: the task that arrives, or from 4,294,967,296 on the horizon
static uint64_t list[CALLS];

static void in_place(const Scenario *c, Left *left) {
    static Plain s;
    plain_admit(c->table, c->table_len, c->m, &s);
    held_calls(MOMENT(&s), list, c->len, s.period, s.deadline, s.share, s.order, (bool *)s.awake, (bool *)s.arrived, s.last, QUEUES(&s), left->record, 48);
    left->present = s.now;
}

static void by_public_calls(const Scenario *c, Left *left) {
    left->present = public_calls(c->table, c->table_len, c->m, list, c->len, left->record, 48);
}

static void from_c(const Scenario *c, Left *left) {
    static robinrow_state s;
    robinrow_admit(&s, c->table, c->table_len, c->m, NULL);
    for (size_t i = 0; i < c->len; i++) {
        if (c->calls[i].task) robinrow_arrive(&s, c->calls[i].task);
        else robinrow_step(&s, c->calls[i].horizon, left->record, 48);
    }
    left->present = s.now;
}

// The best of several runs, a call or a step of it.
static double best(void (*run)(const Scenario *, Left *), const Scenario *c, Left *left) {
    double least = 0;
    for (int i = 0; i < REPEATS; i++) {
        double from = nanoseconds();
        run(c, left);
        double took = nanoseconds() - from;
        if (i == 0 || took < least) least = took;
    }
    return least;
}

// The check alone, on states that lie apart along the calls.
static double one_check(const Scenario *c) {
    static Plain seen[SEEN], s;
    uint8_t record[48];
    size_t n = 0, good = 0, checks = 0;
    plain_admit(c->table, c->table_len, c->m, &s);
    for (size_t i = 0; i < c->len; i++) {
        if (i % (c->len / SEEN) == 0 && n < SEEN) seen[n++] = s;
        if (c->calls[i].task) plain_arrive(&s, c->calls[i].task);
        else plain_step(&s, c->calls[i].horizon, record);
    }
    double least = 0;
    for (int i = 0; i < REPEATS; i++) {
        double from = nanoseconds();
        for (int turn = 0; turn < 100; turn++)
            for (size_t j = 0; j < n; j++, checks++)
                good += held_check_in_place(seen[j].count, seen[j].m, seen[j].scale, seen[j].now, seen[j].going, seen[j].end, seen[j].running_len,
                    seen[j].waiting_len, COLUMNS(&seen[j]), (bool *)seen[j].awake, (bool *)seen[j].arrived, seen[j].last, QUEUES(&seen[j]));
        double took = (nanoseconds() - from) / (100.0 * (double)n);
        if (i == 0 || took < least) least = took;
    }
    return good == checks ? least : -1;
}

// RECORDS records in one run, plain and from C; nanoseconds a record of each, or a negative number where they differ.
static double one_run(unsigned n, unsigned m, double *plain_time) {
    static uint8_t table[1536], room[2][48 * RECORDS];
    static robinrow_state first, state;
    static Plain start, s;
    size_t len = long_table(table, n, m);
    plain_admit(table, len, m, &start);
    robinrow_admit(&first, table, len, m, NULL);
    for (unsigned task = 1; task < n; task++) {
        plain_arrive(&start, task);
        robinrow_arrive(&first, task);
    }
    double least = 0, least_plain = 0;
    for (int i = 0; i < REPEATS; i++) {
        s = start;
        double from = nanoseconds();
        size_t written = plain_run(&s, LONG, room[0], RECORDS);
        double took = nanoseconds() - from;
        if (i == 0 || took < least_plain) least_plain = took;
        state = first;
        uint64_t records = 0;
        from = nanoseconds();
        uint32_t answer = robinrow_run(&state, LONG, room[1], sizeof room[1], &records);
        took = nanoseconds() - from;
        if (i == 0 || took < least) least = took;
        if (written != RECORDS || answer || records != RECORDS || memcmp(room[0], room[1], sizeof room[0])) return -1;
    }
    *plain_time = least_plain / RECORDS;
    return least / RECORDS;
}

int main(void) {
    static const unsigned tasks[] = {8, 32, 128}, processors[] = {2, 4, 16};
    static Call calls[CALLS];
    printf("kind       n   m | (d) plain C | (a) in place | check a call, a row | (b) by value    | (c) from C       a call beyond check and 1.2 plain C\n");
    for (Kind kind = 0; kind < KINDS; kind++)
        for (int a = 0; a < 3; a++)
            for (int b = 0; b < 3; b++) {
                Scenario c;
                uint64_t refused = scenario_make(&c, kind, tasks[a], processors[b], 1, calls, CALLS);
                if (refused) {
                    printf("refused %u\n", (unsigned)refused);
                    return 1;
                }
                for (size_t i = 0; i < c.len; i++) list[i] = c.calls[i].task ? c.calls[i].task : 4294967296u + c.calls[i].horizon;
                Left left[4];
                double d = best(in_plain_c, &c, &left[0]), held = best(in_place, &c, &left[1]);
                double public = best(by_public_calls, &c, &left[2]), in_c = best(from_c, &c, &left[3]), check = one_check(&c);
                for (int i = 1; i < 4; i++)
                    if (left[i].present != left[0].present || memcmp(left[i].record, left[0].record, 48)) {
                        printf("contender %d differs\n", i);
                        return 1;
                    }
                if (check < 0) {
                    printf("a state does not hold together\n");
                    return 1;
                }
                double steps = (double)c.steps, beyond = (in_c - 1.2 * d) / (double)c.len - check;
                printf("%-8s %3u  %2u | %8.1f ns | %8.1f  %4.2f | %8.1f  %9.1f | %8.1f  %6.2f | %8.1f  %6.2f  %8.1f\n", kind_names[kind], tasks[a],
                    processors[b], d / steps, held / steps, held / d, check, check / tasks[a], public / steps, public / d, in_c / steps, in_c / d, beyond);
            }
    printf("\n%d records in one run  n   m | plain C | run from C\n", RECORDS);
    for (int a = 0; a < 3; a++)
        for (int b = 0; b < 3; b++) {
            double plain = 0, run = one_run(tasks[a], processors[b], &plain);
            if (run < 0) {
                printf("the runs differ\n");
                return 1;
            }
            printf("                       %3u  %2u | %7.1f | %7.1f  %4.2f\n", tasks[a], processors[b], plain, run, run / plain);
        }
    return 0;
}
