// The build definition as plain C: every choice is a scan, sums have 128 bits, and nothing is taken from the crates.
#ifndef RULES_H
#define RULES_H

#include <stdbool.h>
#include <stddef.h>
#include <stdint.h>

enum { TASKS = 128, PROCESSORS = 16, RECORD = 48, STATE = 6752 };

typedef enum { ASLEEP, RUNNING, WAITING, RESTING } Condition;

typedef struct {
    uint64_t p, e, d, q, share;
    Condition condition;
    bool arrived;
    uint64_t last;      // its last arrival in ticks, where it arrived
    unsigned processor; // from 1, where it runs
    uint64_t left;      // its amount for this plane in sub-ticks, where it runs or waits
} Task;

typedef struct {
    unsigned tasks, m;
    uint64_t scale, now; // the present in sub-ticks
    bool open;
    uint64_t end; // the plane's end in ticks, where one is open
    Task task[TASKS + 1];
} World;

// The number, and the row where it is 3 or 4; the world is set where the number is 0.
uint32_t rules_admit(const uint8_t *table, size_t len, size_t m, World *w, uint32_t *row);

// The number; the world changes where it is 0.
uint32_t rules_arrive(World *w, uint64_t task);
uint32_t rules_step(World *w, uint64_t horizon, size_t room_len, uint8_t record[RECORD]);

// "A state that holds together": reads STATE bytes by the layout of include/robinrow.h, and sets the world where they do.
bool rules_hold(const uint8_t *bytes, World *w);

// Copies the rows that there are; the others mean nothing.
void rules_copy(World *to, const World *from);

// The two worlds are one, as far as the rules look.
bool rules_same(const World *a, const World *b);

#endif
