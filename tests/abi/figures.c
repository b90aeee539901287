// The figures P1 to P10 and Table 1 of the build definition, through the library.
#include "figures.h"

#include <stdbool.h>
#include <stdio.h>

#include "../../include/robinrow.h"

enum { TASKS = 8, LINES = 12 };

typedef struct { uint32_t p, e, d; } Row;
typedef struct { uint32_t tick, task; } Arrival;
typedef struct { uint64_t to; uint16_t slots[16]; } Line; // begins where the one before ends

typedef struct {
    const char *name;
    uint32_t m;
    Row rows[TASKS];
    uint32_t answer, row; // of admission
    uint64_t scale;       // where the answer is 0
    Arrival arrivals[TASKS];
    uint32_t until;
    Line lines[LINES];
} Figure;

#define TABLE_1 {{7, 3, 7}, {16, 1, 16}, {19, 5, 19}, {5, 4, 5}, {26, 2, 26}, {26, 15, 26}, {29, 20, 29}, {17, 14, 17}}

static const Figure all[] = {
    {"P1", 2, {{4, 3, 4}, {6, 4, 6}, {3, 1, 3}, {4, 1, 4}}, 0, 0, 12, {{0, 1}, {0, 2}, {0, 3}, {0, 4}}, 3,
        {{24, {1, 2}}, {27, {1, 3}}, {36, {4, 3}}}},
    {"P2", 2, {{4, 3, 4}, {6, 4, 6}, {3, 1, 3}, {4, 1, 4}, {12, 1, 12}}, 6, 0, 0, {{0}}, 0, {{0}}},
    {"P3", 1, {{4, 2, 4}, {8, 4, 8}}, 0, 0, 8, {{0, 1}, {1, 2}}, 4, {{8, {1}}, {16, {1}}, {28, {2}}, {32, {0}}}},
    {"P4", 2, {{4, 2, 4}, {4, 2, 4}, {3, 3, 3}}, 0, 0, 12, {{0, 1}, {0, 2}, {1, 3}}, 3,
        {{12, {1, 2}}, {18, {3, 2}}, {24, {3, 1}}, {36, {3, 0}}}},
    {"P5", 1, {{1048576, 1, 1048576}, {127, 1, 127}}, 0, 0, 133169152, {{0}}, 0, {{0}}},
    {"P6", 1, {{1048576, 1, 1048576}, {129, 1, 129}}, 5, 0, 0, {{0}}, 0, {{0}}},
    {"P7", 1, {{9, 7, 7}}, 0, 0, 7, {{0}}, 0, {{0}}},
    {"P8", 1, {{9, 8, 7}}, 4, 1, 0, {{0}}, 0, {{0}}},
    {"P9", 1, {{5, 1, 2}}, 0, 0, 2, {{0, 1}, {5, 1}}, 6, {{2, {1}}, {4, {0}}, {8, {0}}, {10, {0}}, {11, {1}}, {12, {0}}}},
    {"Table 1", 4, TABLE_1, 0, 0, 68191760, {{0, 1}, {0, 2}, {0, 3}, {0, 4}, {0, 5}, {0, 6}, {0, 7}, {0, 8}}, 5,
        {{194833600, {8, 4, 7, 6}}, {235144000, {8, 4, 7, 1}}, {272767040, {8, 4, 3, 1}}, {280789600, {8, 5, 3, 1}},
            {298994640, {2, 5, 3, 1}}, {300868040, {2, 6, 3, 1}}, {302099525, {2, 0, 3, 1}}, {324870000, {0, 0, 3, 1}},
            {340958800, {0, 0, 0, 1}}}},
    {"Table 1 on three", 3, TABLE_1, 6, 0, 0, {{0}}, 0, {{0}}},
};

static robinrow_state state;

// steps to the tick; each record is the next line
static bool steps_to(uint64_t tick, uint64_t scale, const Line **line) {
    while (state.now < tick * scale) {
        uint8_t record[ROBINROW_RECORD_SIZE];
        uint64_t from = state.now;
        if (robinrow_step(&state, tick, record, sizeof record)) return false;
        if (robinrow_from(record) != from || robinrow_to(record) != (*line)->to || state.now != (*line)->to) return false;
        for (unsigned p = 1; p <= 16; p++)
            if (robinrow_task_on(record, p) != (*line)->slots[p - 1]) return false;
        ++*line;
    }
    return true;
}

static bool met(const Figure *f) {
    uint8_t table[TASKS * ROBINROW_ROW_SIZE];
    size_t n = 0;
    for (; n < TASKS && f->rows[n].p; n++) robinrow_put_row(table, n, f->rows[n].p, f->rows[n].e, f->rows[n].d);
    uint64_t row;
    if (robinrow_admit(&state, table, ROBINROW_ROW_SIZE * n, f->m, &row) != f->answer || row != f->row) return false;
    if (f->answer) return true;
    if (state.scale != f->scale) return false;
    const Line *line = f->lines;
    for (const Arrival *a = f->arrivals; a < f->arrivals + TASKS && a->task; a++)
        if (!steps_to(a->tick, f->scale, &line) || robinrow_arrive(&state, a->task)) return false;
    return steps_to(f->until, f->scale, &line) && line->to == 0;
}

// arrivals p - 1 ticks apart
static bool p10(void) {
    uint8_t table[ROBINROW_ROW_SIZE], record[ROBINROW_RECORD_SIZE];
    robinrow_put_row(table, 0, 3, 1, 3);
    if (robinrow_admit(&state, table, sizeof table, 1, NULL) || robinrow_arrive(&state, 1)) return false;
    while (state.now < 2 * 3)
        if (robinrow_step(&state, 2, record, sizeof record)) return false;
    return robinrow_arrive(&state, 1) == 9;
}

Figures figures(void) {
    Figures result = {0, 0};
    for (size_t i = 0; i < sizeof all / sizeof *all; i++, result.tried++)
        if (!met(&all[i])) {
            printf("figure %s is missed\n", all[i].name);
            result.missed++;
        }
    result.tried++;
    if (!p10()) {
        printf("figure P10 is missed\n");
        result.missed++;
    }
    return result;
}
