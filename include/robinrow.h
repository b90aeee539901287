/* Robinrow: a multiprocessor real-time scheduler (LRE-TL) over whole numbers, as a library for C (C99 or later) and C++.
 *
 * Link with librobinrow_c.a: `rt lib` in crates/robinrow_c leaves it for x86-64 in crates/robinrow_c/out, `bench/native robinrow_c
 * TARGET` for any machine in target/native. The library keeps nothing between calls, allocates nothing, and needs memcpy and memset
 * only: all that it knows is in the struct that the caller owns, and it works on it where it stands.
 *
 *     robinrow_state s;                              6,752 bytes: best static
 *     robinrow_admit(&s, table, len, m, &row);       the table is checked, the state is at instant 0
 *     robinrow_arrive(&s, task);                     a job of that task, at the present instant
 *     robinrow_step(&s, horizon, room, len);         to the next event or the horizon; one record
 *     robinrow_run(&s, horizon, room, len, &n);      step after step to the horizon; n records
 *     robinrow_peek(&s, &other, horizon, room, len); the record that such a step would write; s stays
 *
 * TIME. A tick is cut into L sub-ticks, L being the scale of the admitted table (the field scale). Horizons are ticks; the
 * present, keys and the instants in a record are sub-ticks.
 *
 * TABLE. Rows of 12 bytes: period p, execution e, relative deadline D, each 32 bits, least byte first, in ticks
 * (robinrow_put_row). Tasks are numbered from 1 in row order. At most 128 rows; p, e and D are each 1 to 1,048,576. Below, q is
 * the shorter of p and D.
 *
 * RECORD. 48 bytes: from and to, 64 bits each, then sixteen 16-bit slots: the task on each processor, or 0. Least byte first
 * (robinrow_from, robinrow_to, robinrow_task_on).
 *
 * NUMBERS. Every call gives one of these; nothing is undefined for any value of the arguments and any bytes in the struct.
 *
 *    0  all                    done
 *    1  admit                  m is 0 or above 16
 *    2  admit                  the table's length is 0, above 1,536, or not a multiple of 12
 *    3  admit                  a row has p, e or D out of range
 *    4  admit                  a row has e above q
 *    5  admit                  L is above 134,217,728
 *    6  admit                  the shares sum above m times L
 *    7  arrive                 the task number is 0 or above the row count
 *    8  arrive                 the present is no whole tick
 *    9  arrive                 the task arrived before, less than p ticks ago
 *   10  step, run, peek        the horizon is above 4,294,967,295
 *   11  step, run, peek        the horizon is not after the present
 *   12  step, run, peek        the room is under 48 bytes
 *   13  all but admit          the state does not hold together, or a flag (awake, arrived, going) is above 1
 *
 * Where several apply, admit looks for 1, 2, the first faulty row (3 before 4 in one row), 5, 6; arrive for 13, 7, 8, 9; step,
 * run and peek for 13, 12, 10, 11.
 *
 * WHAT A REFUSAL LEAVES. A table that is refused leaves a blank state, every field 0, which never holds together. Every other
 * refusal leaves the struct and the room as they were, byte for byte.
 *
 * ONLINE USE. A step commits: what it records is booked as run, and an arrival called after it is booked at its end. So on a live
 * system step after the time has passed, never before.
 *   - Who runs from now on, and until when, is robinrow_peek with a far horizon (ROBINROW_CLOCK): dispatch its slots, and set the
 *     timer to its `to`, which is to / L ticks. Round up to the timer's own unit; instants are absolute, so nothing adds up.
 *   - When the timer fires, that time has passed: robinrow_step with the same horizon books that same record. Peek again.
 *   - An arrival is at a whole tick a (one between two ticks is at the later). Where a is after the present, robinrow_run to the
 *     horizon a, which is one record where every timer was served; then robinrow_arrive; then peek again. All arrivals of one tick
 *     come before the next step or run.
 * examples/c/online.c is such a board.
 *
 * STACK. The most bytes that a call took, the inline function (gcc -O2) and the library together, by painting (tests/abi/stack):
 *
 *                admit   arrive     step      run
 *     x86-64       304    1,392    1,392    1,440
 *     aarch64      344    1,216    1,248    1,312
 *     riscv64      320    1,360    1,376    1,424
 *
 * The line of x86-64 is measured with rattle-kit-13f, the others were with rattle-kit-5b, on the library as it was then. robinrow_peek takes what robinrow_step takes,
 * within 16 bytes: its copy is in the state that the caller lends. Nothing recurses.
 *
 * BUFFERS. The struct needs the alignment that C gives it, the table and the room need none. Where a length is 0 the pointer is
 * not followed, but must not be null. The struct, the table and the room must not overlap, must be as long as said, and no other
 * thread may touch them meanwhile; `row` and `records` point into none of them. A null pointer is taken for `row` and for `records`,
 * and for nothing else.
 *
 * STORING. The struct may be copied, stored and handed back at any time; there is no pointer in it and no hidden padding. On every
 * machine that has an archive its bytes are the least byte first, so they may also go from one to another. A struct that was
 * changed by somebody else is met with 13 unless it still holds together.
 */
#ifndef ROBINROW_H
#define ROBINROW_H

#include <stddef.h>
#include <stdint.h>

#ifdef __cplusplus
extern "C" {
#endif

enum {
    ROBINROW_RECORD_SIZE = 48,
    ROBINROW_ROW_SIZE = 12,
    ROBINROW_MOST_TASKS = 128,
    ROBINROW_MOST_PROCESSORS = 16
};

/* The last tick of the clock, and so the farthest horizon. */
#define ROBINROW_CLOCK ((uint64_t)4294967295u)

/* Row i of the table is place i of each column, from 0; its task number is i + 1. The queues are binary heaps by key, then task
 * number. Places that nothing uses (rows past the count, places past a queue's length, the end of a closed plane, a last arrival
 * that never was) are not looked at, but a flag is 0 or 1 in every place. */
typedef struct robinrow_state {
    uint64_t share[128];          /* e times L / q */
    uint64_t last[128];           /* last arrival, in ticks */
    uint64_t running_keys[128];   /* instants at which running tasks have used up their amount */
    uint64_t waiting_keys[128];   /* instants at which waiting tasks become critical */
    uint64_t count;               /* rows in the table */
    uint64_t m;                   /* processors */
    uint64_t scale;               /* L, sub-ticks in a tick */
    uint64_t now;                 /* the present, in sub-ticks */
    uint64_t end;                 /* the end of the open plane, in ticks */
    uint64_t running;             /* how many run */
    uint64_t waiting;             /* how many wait */
    uint32_t period[128];         /* p */
    uint32_t exec[128];           /* e */
    uint32_t deadline[128];       /* D */
    uint16_t order[128];          /* rows in falling order of share, lower number first */
    uint16_t running_tasks[128];  /* task numbers, place by place with running_keys */
    uint16_t waiting_tasks[128];  /* task numbers, place by place with waiting_keys */
    uint16_t slots[16];           /* the task on each processor, or 0 */
    uint8_t awake[128];           /* flags: the task has a job */
    uint8_t arrived[128];         /* flags: the task ever arrived */
    uint8_t going;                /* flag: a plane is open */
    uint8_t spare[7];             /* the caller's: never read nor written */
} robinrow_state;

#define ROBINROW_ASSERT(name, what) typedef char robinrow_assert_##name[(what) ? 1 : -1]
ROBINROW_ASSERT(share, offsetof(robinrow_state, share) == 0);
ROBINROW_ASSERT(last, offsetof(robinrow_state, last) == 1024);
ROBINROW_ASSERT(running_keys, offsetof(robinrow_state, running_keys) == 2048);
ROBINROW_ASSERT(waiting_keys, offsetof(robinrow_state, waiting_keys) == 3072);
ROBINROW_ASSERT(count, offsetof(robinrow_state, count) == 4096);
ROBINROW_ASSERT(m, offsetof(robinrow_state, m) == 4104);
ROBINROW_ASSERT(scale, offsetof(robinrow_state, scale) == 4112);
ROBINROW_ASSERT(now, offsetof(robinrow_state, now) == 4120);
ROBINROW_ASSERT(end, offsetof(robinrow_state, end) == 4128);
ROBINROW_ASSERT(running, offsetof(robinrow_state, running) == 4136);
ROBINROW_ASSERT(waiting, offsetof(robinrow_state, waiting) == 4144);
ROBINROW_ASSERT(period, offsetof(robinrow_state, period) == 4152);
ROBINROW_ASSERT(exec, offsetof(robinrow_state, exec) == 4664);
ROBINROW_ASSERT(deadline, offsetof(robinrow_state, deadline) == 5176);
ROBINROW_ASSERT(order, offsetof(robinrow_state, order) == 5688);
ROBINROW_ASSERT(running_tasks, offsetof(robinrow_state, running_tasks) == 5944);
ROBINROW_ASSERT(waiting_tasks, offsetof(robinrow_state, waiting_tasks) == 6200);
ROBINROW_ASSERT(slots, offsetof(robinrow_state, slots) == 6456);
ROBINROW_ASSERT(awake, offsetof(robinrow_state, awake) == 6488);
ROBINROW_ASSERT(arrived, offsetof(robinrow_state, arrived) == 6616);
ROBINROW_ASSERT(going, offsetof(robinrow_state, going) == 6744);
ROBINROW_ASSERT(size, sizeof(robinrow_state) == 6752);
#undef ROBINROW_ASSERT

/* THE LIBRARY'S FUNCTIONS, on the struct's fields one by one; the inline ones below them are those to call. */

uint32_t robinrow_admit_in(const uint8_t *table, uint64_t table_len, uint64_t m_wanted, uint64_t *row, uint64_t *count, uint64_t *m,
    uint64_t *scale, uint64_t *now, uint8_t *going, uint64_t *end, uint64_t *running, uint64_t *waiting, uint32_t *period,
    uint32_t *exec, uint32_t *deadline, uint64_t *share, uint16_t *order, uint8_t *awake, uint8_t *arrived, uint64_t *last,
    uint64_t *running_keys, uint16_t *running_tasks, uint64_t *waiting_keys, uint16_t *waiting_tasks, uint16_t *slots);

uint32_t robinrow_arrive_in(uint64_t count, uint64_t m, uint64_t scale, uint64_t now, uint8_t going, uint64_t end, uint64_t *running,
    uint64_t *waiting, uint64_t task, const uint32_t *period, const uint32_t *exec, const uint32_t *deadline, const uint64_t *share,
    const uint16_t *order, uint8_t *awake, uint8_t *arrived, uint64_t *last, uint64_t *running_keys, uint16_t *running_tasks,
    uint64_t *waiting_keys, uint16_t *waiting_tasks, uint16_t *slots);

uint32_t robinrow_step_in(uint64_t count, uint64_t m, uint64_t scale, uint64_t *now, uint8_t *going, uint64_t *end, uint64_t *running,
    uint64_t *waiting, uint64_t horizon, const uint32_t *period, const uint32_t *exec, const uint32_t *deadline, const uint64_t *share,
    const uint16_t *order, uint8_t *awake, const uint8_t *arrived, const uint64_t *last, uint64_t *running_keys,
    uint16_t *running_tasks, uint64_t *waiting_keys, uint16_t *waiting_tasks, uint16_t *slots, uint8_t *room, uint64_t room_len);

uint32_t robinrow_run_in(uint64_t count, uint64_t m, uint64_t scale, uint64_t *now, uint8_t *going, uint64_t *end, uint64_t *running,
    uint64_t *waiting, uint64_t horizon, const uint32_t *period, const uint32_t *exec, const uint32_t *deadline, const uint64_t *share,
    const uint16_t *order, uint8_t *awake, const uint8_t *arrived, const uint64_t *last, uint64_t *running_keys,
    uint16_t *running_tasks, uint64_t *waiting_keys, uint16_t *waiting_tasks, uint16_t *slots, uint8_t *room, uint64_t room_len,
    uint64_t *records);

/* THE CALLS */

/* Makes the state of a table on m processors, at instant 0, with no task awake and no plane open, whatever the struct held. Gives
 * the number; the row counts from 1 and is 0 unless the number is 3 or 4. */
static inline uint32_t robinrow_admit(robinrow_state *s, const uint8_t *table, size_t len, size_t m, uint64_t *row) {
    uint64_t unasked;
    return robinrow_admit_in(table, len, m, row ? row : &unasked, &s->count, &s->m, &s->scale, &s->now, &s->going, &s->end, &s->running,
        &s->waiting, s->period, s->exec, s->deadline, s->share, s->order, s->awake, s->arrived, s->last, s->running_keys,
        s->running_tasks, s->waiting_keys, s->waiting_tasks, s->slots);
}

/* The task arrives at the present instant. Gives the number. */
static inline uint32_t robinrow_arrive(robinrow_state *s, uint64_t task) {
    return robinrow_arrive_in(s->count, s->m, s->scale, s->now, s->going, s->end, &s->running, &s->waiting, task, s->period, s->exec,
        s->deadline, s->share, s->order, s->awake, s->arrived, s->last, s->running_keys, s->running_tasks, s->waiting_keys,
        s->waiting_tasks, s->slots);
}

/* Runs to the next event or the horizon, whichever is first, and writes one record into the room; bytes of the room after the
 * 48th stay. Gives the number. */
static inline uint32_t robinrow_step(robinrow_state *s, uint64_t horizon, uint8_t room[], size_t len) {
    return robinrow_step_in(s->count, s->m, s->scale, &s->now, &s->going, &s->end, &s->running, &s->waiting, horizon, s->period, s->exec,
        s->deadline, s->share, s->order, s->awake, s->arrived, s->last, s->running_keys, s->running_tasks, s->waiting_keys,
        s->waiting_tasks, s->slots, room, len);
}

/* Step after step with one horizon, record after record, while the horizon lies ahead and 48 bytes of the room are left; bytes of
 * the room after the last record stay. Gives the number, and how many records were written: 0 where it is refused. */
static inline uint32_t robinrow_run(robinrow_state *s, uint64_t horizon, uint8_t room[], size_t len, uint64_t *records) {
    uint64_t unasked;
    return robinrow_run_in(s->count, s->m, s->scale, &s->now, &s->going, &s->end, &s->running, &s->waiting, horizon, s->period, s->exec,
        s->deadline, s->share, s->order, s->awake, s->arrived, s->last, s->running_keys, s->running_tasks, s->waiting_keys,
        s->waiting_tasks, s->slots, room, len, records ? records : &unasked);
}

/* What a step would answer and write as its record, the state untouched: a step on a copy in a second state that the caller lends.
 * Where the number is 0 that one is then the state after the step, else the copy. */
static inline uint32_t robinrow_peek(const robinrow_state *s, robinrow_state *scratch, uint64_t horizon, uint8_t room[], size_t len) {
    *scratch = *s;
    return robinrow_step(scratch, horizon, room, len);
}

/* NUMBERS AS BYTES, the least byte first on any machine */

/* Writes row i of a table, from 0: period, execution, deadline. */
static inline void robinrow_put_row(uint8_t table[], size_t i, uint32_t p, uint32_t e, uint32_t d) {
    unsigned k;
    for (k = 0; k < 4; k++) {
        table[ROBINROW_ROW_SIZE * i + k] = (uint8_t)(p >> 8 * k);
        table[ROBINROW_ROW_SIZE * i + 4 + k] = (uint8_t)(e >> 8 * k);
        table[ROBINROW_ROW_SIZE * i + 8 + k] = (uint8_t)(d >> 8 * k);
    }
}

static inline uint64_t robinrow_u64_at(const uint8_t *bytes) {
    uint64_t x = 0;
    unsigned k;
    for (k = 8; k > 0; k--) x = x << 8 | bytes[k - 1];
    return x;
}

/* When a record begins and ends, in sub-ticks. */
static inline uint64_t robinrow_from(const uint8_t record[]) { return robinrow_u64_at(record); }
static inline uint64_t robinrow_to(const uint8_t record[]) { return robinrow_u64_at(record + 8); }

/* The task on a processor, counted from 1 to 16, or 0 where it is idle. */
static inline unsigned robinrow_task_on(const uint8_t record[], unsigned processor) {
    return (unsigned)record[14 + 2 * processor] | (unsigned)record[15 + 2 * processor] << 8;
}

#ifdef __cplusplus
}
#endif

#endif
