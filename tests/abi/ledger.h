// Demand 3, kept as a ledger: a job for each arrival that was taken, and what the records say that it has run. It knows the table's
// rows, the arrivals that were answered by 0 and the bytes of the records, and looks at no state.
#ifndef LEDGER_H
#define LEDGER_H

#include <stdbool.h>
#include <stddef.h>
#include <stdint.h>

typedef struct {
    unsigned tasks, m;
    uint64_t scale;
    uint64_t present;         // where the last record ended, in sub-ticks
    uint64_t plane, end;      // the plane's two ends in ticks; its end stands once a record began there
    uint64_t whole, plane_ends; // jobs that got their e ticks by a + q, and plane ends at which the jobs were looked at
    struct {
        uint64_t e, q;
        bool at_work;      // it has a job, which came at the tick `came` and has run `ran` sub-ticks
        uint64_t came, ran;
    } task[129];
} Ledger;

void ledger_start(Ledger *l, const uint8_t *table, size_t len, size_t m, uint64_t scale);

// An arrival that was answered by 0.
void ledger_arrival(Ledger *l, unsigned task);

// The next record: NULL, or what it gets wrong.
const char *ledger_record(Ledger *l, const uint8_t record[48]);

#endif
