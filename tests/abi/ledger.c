// Demand 3 from the table, the arrivals and the records alone.
#include "ledger.h"

#include <string.h>

typedef unsigned __int128 Wide;

static uint64_t get(const uint8_t *from, unsigned bytes) {
    uint64_t x = 0;
    while (bytes--) x = x << 8 | from[bytes];
    return x;
}

void ledger_start(Ledger *l, const uint8_t *table, size_t len, size_t m, uint64_t scale) {
    memset(l, 0, sizeof *l);
    l->tasks = (unsigned)(len / 12);
    l->m = (unsigned)m;
    l->scale = scale;
    for (unsigned i = 1; i <= l->tasks; i++) {
        uint64_t p = get(table + 12 * (i - 1), 4), d = get(table + 12 * (i - 1) + 8, 4);
        l->task[i].e = get(table + 12 * (i - 1) + 4, 4);
        l->task[i].q = p < d ? p : d;
    }
}

void ledger_arrival(Ledger *l, unsigned task) {
    l->task[task].at_work = true;
    l->task[task].came = l->present / l->scale;
    l->task[task].ran = 0;
}

// the earliest of the tasks' limits: q after the arrival of who has a job, q from here for the others
static uint64_t plane_end(const Ledger *l) {
    uint64_t end = UINT64_MAX;
    for (unsigned i = 1; i <= l->tasks; i++) {
        uint64_t limit = (l->task[i].at_work ? l->task[i].came : l->plane) + l->task[i].q;
        if (limit < end) end = limit;
    }
    return end;
}

// each job has run e times the ticks elapsed, divided by q; after q ticks that is e, and the job is over
static const char *settle(Ledger *l) {
    l->plane_ends++;
    for (unsigned i = 1; i <= l->tasks; i++) {
        if (!l->task[i].at_work) continue;
        uint64_t elapsed = l->end - l->task[i].came;
        if ((Wide)l->task[i].ran * l->task[i].q != (Wide)l->task[i].e * elapsed * l->scale) return "at a plane end a job has not run e times the ticks elapsed, divided by q";
        if (elapsed < l->task[i].q) continue;
        if (elapsed > l->task[i].q || l->task[i].ran != l->task[i].e * l->scale) return "q ticks after its arrival a job has not run e ticks";
        l->task[i].at_work = false;
        l->whole++;
    }
    l->plane = l->end;
    return NULL;
}

const char *ledger_record(Ledger *l, const uint8_t record[48]) {
    uint64_t from = get(record, 8), to = get(record + 8, 8);
    if (from != l->present) return "a record does not begin where the last one ended";
    if (to <= from) return "a record shows no time";
    if (from == l->plane * l->scale) l->end = plane_end(l);
    if (to > l->end * l->scale) return "a record goes past a plane end";
    for (unsigned p = 0; p < 16; p++) {
        uint64_t task = get(record + 16 + 2 * p, 2);
        if (task == 0) continue;
        if (p >= l->m) return "a processor past m runs a task";
        if (task > l->tasks || !l->task[task].at_work) return "a task runs that has no job";
        for (unsigned other = 0; other < p; other++)
            if (get(record + 16 + 2 * other, 2) == task) return "a task runs on two processors";
        l->task[task].ran += to - from;
    }
    l->present = to;
    return to == l->end * l->scale ? settle(l) : NULL;
}
