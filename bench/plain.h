// LRE-TL in plain C, the baseline of the benchmarks: binary heaps in place, and no check of the state or of a call.
#ifndef PLAIN_H
#define PLAIN_H

#include <stddef.h>
#include <stdint.h>

// Field by field the state of include/robinrow.h, on a machine that stores the least byte first.
typedef struct {
    uint32_t period[128], exec[128], deadline[128];
    uint64_t share[128], last[128], running_keys[128], waiting_keys[128];
    uint16_t order[128], running_tasks[128], waiting_tasks[128], slots[16];
    uint64_t count, m, scale, now, end, running_len, waiting_len;
    uint8_t awake[128], arrived[128], going;
} Plain;

// Number + 256 * row, as robinrow_admit; the state is blank where the table is refused.
uint64_t plain_admit(const uint8_t *table, size_t len, size_t m, Plain *s);

// The task is a row, may arrive, and the present is a whole tick.
void plain_arrive(Plain *s, unsigned task);

// The horizon lies ahead and within the clock; the record has 48 bytes.
void plain_step(Plain *s, uint64_t horizon, uint8_t *record);

// Step after step while the horizon lies ahead and records are left; how many were written.
size_t plain_run(Plain *s, uint64_t horizon, uint8_t *room, size_t records);

#endif
