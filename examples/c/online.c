/* Online use: a simulated board with two processors, one timer and sporadic arrivals. The scheduler is asked who runs and until
 * when (peek), and is told what has run only when that time has passed (step, run). At the end demand 3 is checked from what the
 * board did: q ticks after its arrival each job has run exactly e ticks. */
#include <inttypes.h>
#include <stdio.h>
#include <stdlib.h>

#include "robinrow.h"

enum { PROCESSORS = 2, TASKS = 5, UNTIL = 30, MOST_SLICES = 1000 };

/* period, execution, deadline; together they fill both processors */
static const uint32_t rows[TASKS][3] = {{4, 2, 4}, {6, 3, 6}, {5, 1, 3}, {12, 4, 12}, {3, 1, 3}};

/* When which task arrives, in the order of time. The arrival of task 1 at tick 7 is too soon after the one at 4. */
typedef struct {
    uint64_t tick;
    unsigned task;
    int taken;
} Arrival;
static Arrival arrivals[] = {
    {0, 1, 0}, {0, 2, 0}, {1, 3, 0}, {1, 5, 0}, {2, 4, 0}, {4, 1, 0}, {4, 5, 0}, {7, 1, 0}, {7, 5, 0}, {8, 2, 0}, {9, 3, 0},
    {10, 1, 0}, {11, 5, 0}, {14, 4, 0}, {14, 2, 0}, {15, 1, 0}, {16, 3, 0}, {17, 5, 0}, {19, 1, 0}, {21, 3, 0}, {22, 2, 0}, {23, 1, 0},
};
enum { ARRIVALS = sizeof arrivals / sizeof *arrivals };

/* THE BOARD: what ran, from one dispatch to the next; instants are sub-ticks */

typedef struct {
    uint64_t from, to;
    unsigned task_on[PROCESSORS];
} Slice;
static Slice ran[MOST_SLICES];
static unsigned slices;
static uint64_t board_time, timer;

static void dispatch(const uint8_t *record) {
    Slice *now = &ran[slices];
    timer = robinrow_to(record);
    now->from = board_time;
    printf("%4" PRIu64 ":", board_time);
    for (unsigned p = 0; p < PROCESSORS; p++) {
        now->task_on[p] = robinrow_task_on(record, p + 1);
        printf(" %u", now->task_on[p]);
    }
    printf(", timer at %" PRIu64 "\n", timer);
}

/* Time passes until the timer, the next arrival or the end of the example, and the processors work on what was dispatched. */
static void work(uint64_t next_arrival, uint64_t end) {
    board_time = timer < next_arrival ? timer : next_arrival;
    if (end < board_time) board_time = end;
    if (slices == MOST_SLICES) exit(2);
    ran[slices++].to = board_time;
}

/* THE SCHEDULER */

static robinrow_state state, scratch;

static void done(const char *call, uint32_t number) {
    if (number == 0) return;
    printf("%s: refused %" PRIu32 "\n", call, number);
    exit(1);
}

/* What the board did since the last booking is booked, now that it has passed, and is what the scheduler records. */
static void book(void) {
    uint8_t record[ROBINROW_RECORD_SIZE];
    const Slice *last = &ran[slices - 1];
    uint64_t records;
    if (board_time == timer) done("step", robinrow_step(&state, ROBINROW_CLOCK, record, sizeof record));
    else done("run", robinrow_run(&state, board_time / state.scale, record, sizeof record, &records)); /* a whole tick */
    int same = robinrow_from(record) == last->from && robinrow_to(record) == last->to && state.now == last->to;
    for (unsigned p = 0; p < PROCESSORS; p++) same = same && robinrow_task_on(record, p + 1) == last->task_on[p];
    if (!same) {
        printf("the record is not what the board did\n");
        exit(1);
    }
}

static void arrive(Arrival *a) {
    uint32_t number = robinrow_arrive(&state, a->task);
    a->taken = number == 0;
    if (number) printf("%4" PRIu64 ": task %u comes at tick %" PRIu64 ", refused %" PRIu32 "\n", board_time, a->task, a->tick, number);
}

/* DEMAND 3, from what the board did */

static uint64_t sub_ticks_of(unsigned task, uint64_t from, uint64_t to) {
    uint64_t sum = 0;
    for (unsigned i = 0; i < slices; i++)
        for (unsigned p = 0; p < PROCESSORS; p++)
            if (ran[i].task_on[p] == task && ran[i].from < to && ran[i].to > from)
                sum += (ran[i].to < to ? ran[i].to : to) - (ran[i].from > from ? ran[i].from : from);
    return sum;
}

static int never_twice(void) {
    for (unsigned i = 0; i < slices; i++)
        if (ran[i].task_on[0] && ran[i].task_on[0] == ran[i].task_on[1]) return 0;
    return 1;
}

static int check(uint64_t scale) {
    unsigned jobs = 0, exact = 0;
    for (const Arrival *a = arrivals; a < arrivals + ARRIVALS; a++) {
        const uint32_t *row = rows[a->task - 1];
        uint64_t q = row[0] < row[2] ? row[0] : row[2];
        if (!a->taken || a->tick + q > UNTIL) continue;
        jobs++;
        if (sub_ticks_of(a->task, a->tick * scale, (a->tick + q) * scale) == row[1] * scale) exact++;
    }
    printf("%u dispatches; %u of %u jobs ran exactly e ticks within q ticks of their arrival\n", slices, exact, jobs);
    return exact == jobs && jobs > 0 && never_twice();
}

int main(void) {
    uint8_t table[TASKS * ROBINROW_ROW_SIZE], record[ROBINROW_RECORD_SIZE];
    for (unsigned i = 0; i < TASKS; i++) robinrow_put_row(table, i, rows[i][0], rows[i][1], rows[i][2]);
    done("admit", robinrow_admit(&state, table, sizeof table, PROCESSORS, NULL));
    printf("a tick has %" PRIu64 " sub-ticks\n", state.scale);

    Arrival *next = arrivals, *last = arrivals + ARRIVALS;
    for (;;) {
        /* all arrivals of this instant, before anything runs on */
        while (next < last && next->tick * state.scale == board_time) arrive(next++);
        if (board_time == UNTIL * state.scale) break;
        done("peek", robinrow_peek(&state, &scratch, ROBINROW_CLOCK, record, sizeof record));
        dispatch(record);
        work(next < last ? next->tick * state.scale : UINT64_MAX, UNTIL * state.scale);
        book();
    }
    return check(state.scale) ? 0 : 1;
}
