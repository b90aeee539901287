// Pop + push at 64 entries: the least leaves, and its task comes back with a later key.
#include "bare.h"

size_t c_push(u64 *, u16 *, size_t, u64, u16), rattle_push(u64 *, u16 *, size_t, u64, u16);
size_t c_pop(u64 *, u16 *, size_t), rattle_pop(u64 *, u16 *, size_t);

enum { ENTRIES = 64, TURNS = 2000000, REPEATS = 7 };

typedef struct { u64 keys[128]; u16 tasks[128]; } Queue;

// Both get the same keys: near enough to each other that some are equal.
static u64 seed;
static u64 later(void) {
    seed ^= seed << 13;
    seed ^= seed >> 7;
    seed ^= seed << 17;
    return 1 + seed % 1000;
}

#define TIMED(name, push, pop)                                      \
    static u64 name(Queue *q) {                                     \
        seed = 88172645463325252;                                   \
        size_t n = 0;                                               \
        for (u16 t = 1; t <= ENTRIES; t++)                          \
            n = push(q->keys, q->tasks, n, later(), t);             \
        u64 from = nanoseconds();                                   \
        for (int i = 0; i < TURNS; i++) {                           \
            u64 key = q->keys[0];                                   \
            u16 task = q->tasks[0];                                 \
            n = pop(q->keys, q->tasks, n);                          \
            n = push(q->keys, q->tasks, n, key + later(), task);    \
        }                                                           \
        return nanoseconds() - from;                                \
    }
TIMED(in_c, c_push, c_pop)
TIMED(in_rattle, rattle_push, rattle_pop)

int run(void) {
    static Queue c, r;
    u64 best_c = -1, best_r = -1;
    for (int i = 0; i < REPEATS; i++) {
        u64 t = in_c(&c);
        if (t < best_c) best_c = t;
        t = in_rattle(&r);
        if (t < best_r) best_r = t;
        for (int j = 0; j < 128; j++)
            if (c.keys[j] != r.keys[j] || c.tasks[j] != r.tasks[j]) {
                say("the two queues differ\n");
                return 1;
            }
    }
    say("C:      ");
    say_hundredths(best_c * 100 / TURNS);
    say(" ns per pop + push\nRattle: ");
    say_hundredths(best_r * 100 / TURNS);
    say(" ns per pop + push\nratio:  ");
    say_hundredths(best_r * 100 / best_c);
    say("\n");
    return 0;
}
