// The build definition as plain C, heading by heading.
#include "rules.h"

#include <string.h>

typedef unsigned __int128 Wide;

enum { LONGEST = 1048576, FINEST = 134217728 };
static const uint64_t CLOCK = 4294967295u;

static uint64_t get(const uint8_t *from, unsigned bytes) {
    uint64_t x = 0;
    while (bytes--) x = x << 8 | from[bytes];
    return x;
}

static void put(uint8_t *to, unsigned bytes, uint64_t x) {
    for (unsigned i = 0; i < bytes; i++) to[i] = (uint8_t)(x >> 8 * i);
}

static bool awake(const Task *t) { return t->condition != ASLEEP; }

// The table and the scale

static uint64_t common_divisor(uint64_t a, uint64_t b) {
    while (b) {
        uint64_t rest = a % b;
        a = b;
        b = rest;
    }
    return a;
}

static bool in_range(uint64_t x) { return x >= 1 && x <= LONGEST; }

uint32_t rules_admit(const uint8_t *table, size_t len, size_t m, World *w, uint32_t *row) {
    *row = 0;
    if (m == 0 || m > PROCESSORS) return 1;
    if (len == 0 || len > 12 * TASKS || len % 12) return 2;
    memset(w, 0, offsetof(World, task) + (len / 12 + 1) * sizeof(Task));
    w->m = (unsigned)m;
    w->tasks = (unsigned)(len / 12);
    for (unsigned i = 1; i <= w->tasks; i++) {
        Task *t = &w->task[i];
        const uint8_t *at = table + 12 * (i - 1);
        t->p = get(at, 4);
        t->e = get(at + 4, 4);
        t->d = get(at + 8, 4);
        t->q = t->p < t->d ? t->p : t->d;
        *row = i;
        if (!in_range(t->p) || !in_range(t->e) || !in_range(t->d)) return 3;
        if (t->e > t->q) return 4;
    }
    *row = 0;
    w->scale = 1;
    for (unsigned i = 1; i <= w->tasks; i++) {
        w->scale *= w->task[i].q / common_divisor(w->scale, w->task[i].q);
        if (w->scale > FINEST) return 5;
    }
    Wide sum = 0;
    for (unsigned i = 1; i <= w->tasks; i++) {
        w->task[i].share = w->task[i].e * (w->scale / w->task[i].q);
        sum += w->task[i].share;
    }
    return sum > (Wide)m * w->scale ? 6 : 0;
}

// Choices: 0 where there is nobody. Going up, a strict test leaves the lower number where keys are equal.

// a running task's key is the present plus its amount
static unsigned least_running(const World *w) {
    unsigned best = 0;
    for (unsigned i = 1; i <= w->tasks; i++)
        if (w->task[i].condition == RUNNING && (!best || w->task[i].left < w->task[best].left)) best = i;
    return best;
}

// a waiting task's key is the end minus its amount
static unsigned least_waiting(const World *w) {
    unsigned best = 0;
    for (unsigned i = 1; i <= w->tasks; i++)
        if (w->task[i].condition == WAITING && (!best || w->task[i].left > w->task[best].left)) best = i;
    return best;
}

static unsigned task_on(const World *w, unsigned processor) {
    for (unsigned i = 1; i <= w->tasks; i++)
        if (w->task[i].condition == RUNNING && w->task[i].processor == processor) return i;
    return 0;
}

static unsigned lowest_idle(const World *w) {
    for (unsigned p = 1; p <= w->m; p++)
        if (!task_on(w, p)) return p;
    return 0;
}

static void run_on(Task *t, unsigned processor) {
    t->condition = RUNNING;
    t->processor = processor;
}

static void off(Task *t, Condition to) {
    t->condition = to;
    t->processor = 0;
}

// task i takes the processor of the running task with the least key, which waits
static void displace(World *w, unsigned i) {
    Task *victim = &w->task[least_running(w)];
    unsigned processor = victim->processor;
    off(victim, WAITING);
    run_on(&w->task[i], processor);
}

// Planes and events

static void open_plane(World *w) {
    uint64_t tick = w->now / w->scale;
    w->end = UINT64_MAX;
    for (unsigned i = 1; i <= w->tasks; i++) {
        const Task *t = &w->task[i];
        uint64_t limit = (awake(t) ? t->last : tick) + t->q;
        if (limit < w->end) w->end = limit;
    }
    w->open = true;
    for (unsigned i = 1; i <= w->tasks; i++) {
        Task *t = &w->task[i];
        if (!awake(t)) continue;
        t->left = t->share * (w->end - tick);
        unsigned ahead = 0;
        for (unsigned j = 1; j <= w->tasks; j++)
            if (awake(&w->task[j]) && (w->task[j].share > t->share || (w->task[j].share == t->share && j < i))) ahead++;
        if (ahead < w->m) run_on(t, ahead + 1);
        else off(t, WAITING);
    }
}

static void close_plane(World *w) {
    for (unsigned i = 1; i <= w->tasks; i++) {
        Task *t = &w->task[i];
        if (awake(t)) off(t, t->last + t->q == w->end ? ASLEEP : RESTING);
        t->left = 0;
    }
    w->open = false;
}

static void b_events(World *w) {
    for (unsigned i = 1; i <= w->tasks; i++) {
        Task *t = &w->task[i];
        if (t->condition != RUNNING || t->left) continue;
        unsigned processor = t->processor, next = least_waiting(w);
        off(t, RESTING);
        if (next) run_on(&w->task[next], processor);
    }
}

static void c_events(World *w) {
    // more turns than tasks never come: the bound keeps a wrong world from turning for ever
    for (unsigned turn = 0; turn <= TASKS; turn++) {
        unsigned critical = least_waiting(w);
        if (!critical || w->task[critical].left < w->end * w->scale - w->now) return;
        displace(w, critical);
    }
}

uint32_t rules_step(World *w, uint64_t horizon, size_t room_len, uint8_t record[RECORD]) {
    if (room_len < RECORD) return 12;
    if (horizon > CLOCK) return 10;
    if (horizon * w->scale <= w->now) return 11;
    if (!w->open) open_plane(w);
    uint64_t end = w->end * w->scale, to = horizon * w->scale < end ? horizon * w->scale : end;
    for (unsigned i = 1; i <= w->tasks; i++) {
        const Task *t = &w->task[i];
        if (t->condition != RUNNING && t->condition != WAITING) continue;
        uint64_t key = t->condition == RUNNING ? w->now + t->left : end - t->left;
        if (key < to) to = key;
    }
    put(record, 8, w->now);
    put(record + 8, 8, to);
    for (unsigned p = 1; p <= PROCESSORS; p++) put(record + 14 + 2 * p, 2, p <= w->m ? task_on(w, p) : 0);
    for (unsigned i = 1; i <= w->tasks; i++)
        if (w->task[i].condition == RUNNING) w->task[i].left -= to - w->now;
    w->now = to;
    if (to == end) {
        close_plane(w);
    } else {
        b_events(w);
        c_events(w);
    }
    return 0;
}

uint32_t rules_arrive(World *w, uint64_t task) {
    if (task == 0 || task > w->tasks) return 7;
    if (w->now % w->scale) return 8;
    Task *t = &w->task[task];
    uint64_t tick = w->now / w->scale;
    if (t->arrived && tick - t->last < t->p) return 9;
    t->arrived = true;
    t->last = tick;
    t->condition = RESTING;
    if (!w->open) return 0;
    t->left = t->share * (w->end - tick);
    unsigned idle = lowest_idle(w);
    if (idle) run_on(t, idle);
    else if (t->share < w->scale) off(t, WAITING);
    else displace(w, (unsigned)task);
    return 0;
}

// A state that holds together. The offsets are those of the struct in include/robinrow.h, whose numbers are the least byte first.

enum {
    SHARE = 0, LAST = 1024, RUN_KEYS = 2048, WAIT_KEYS = 3072, COUNT = 4096, PROCS = 4104, SCALE = 4112, NOW = 4120, END = 4128,
    RUN_LEN = 4136, WAIT_LEN = 4144, PERIOD = 4152, EXEC = 4664, DEADLINE = 5176, ORDER = 5688, RUN_TASKS = 5944, WAIT_TASKS = 6200,
    SLOTS = 6456, AWAKE = 6488, ARRIVED = 6616, GOING = 6744
};

// "table, m, L and shares pass admission"
static bool table_holds(const uint8_t *s, World *w) {
    uint64_t n = get(s + COUNT, 8), m = get(s + PROCS, 8);
    if (n < 1 || n > TASKS) return false;
    uint8_t table[12 * TASKS];
    uint32_t row;
    for (unsigned i = 0; i < n; i++) {
        memcpy(table + 12 * i, s + PERIOD + 4 * i, 4);
        memcpy(table + 12 * i + 4, s + EXEC + 4 * i, 4);
        memcpy(table + 12 * i + 8, s + DEADLINE + 4 * i, 4);
    }
    if (rules_admit(table, 12 * n, m, w, &row)) return false;
    if (get(s + SCALE, 8) != w->scale) return false;
    for (unsigned i = 0; i < n; i++)
        if (get(s + SHARE + 8 * i, 8) != w->task[i + 1].share) return false;
    // the kept order: a row stands after as many rows as have a larger share, or an equal one and a lower number
    for (unsigned i = 0; i < n; i++) {
        unsigned rank = 0;
        for (unsigned j = 0; j < n; j++) {
            uint64_t mine = w->task[i + 1].share, other = w->task[j + 1].share;
            if (other > mine || (other == mine && j < i)) rank++;
        }
        if (get(s + ORDER + 2 * rank, 2) != i) return false;
    }
    return true;
}

static bool flags_hold(const uint8_t *s) {
    for (unsigned i = 0; i < TASKS; i++)
        if (s[AWAKE + i] > 1 || s[ARRIVED + i] > 1) return false;
    return s[GOING] <= 1;
}

// a queue: its order stands, and each of its tasks, awake and met nowhere else, gets the condition
static bool queue_holds(const uint8_t *s, unsigned keys, unsigned tasks, uint64_t len, Condition condition, World *w) {
    if (len > TASKS) return false;
    for (unsigned j = 0; j < len; j++) {
        uint64_t key = get(s + keys + 8 * j, 8), task = get(s + tasks + 2 * j, 2);
        if (j > 0) {
            unsigned up = (j - 1) / 2;
            uint64_t upper_key = get(s + keys + 8 * up, 8), upper_task = get(s + tasks + 2 * up, 2);
            if (key < upper_key || (key == upper_key && task < upper_task)) return false;
        }
        if (task < 1 || task > w->tasks || w->task[task].condition != RESTING) return false;
        w->task[task].condition = condition;
        w->task[task].left = key; // for now: the amount follows where the plane is looked at
    }
    return true;
}

// who runs is on one of the m processors, and nobody else is on one
static bool slots_hold(const uint8_t *s, World *w) {
    for (unsigned p = 0; p < PROCESSORS; p++) {
        uint64_t task = get(s + SLOTS + 2 * p, 2);
        if (task == 0) continue;
        if (p >= w->m || task > w->tasks) return false;
        Task *t = &w->task[task];
        if (t->condition != RUNNING || t->processor) return false;
        t->processor = p + 1;
    }
    for (unsigned i = 1; i <= w->tasks; i++)
        if (w->task[i].condition == RUNNING && !w->task[i].processor) return false;
    return true;
}

static bool closed_holds(const World *w) {
    if (w->now % w->scale) return false;
    for (unsigned i = 1; i <= w->tasks; i++) {
        const Task *t = &w->task[i];
        if (t->condition == RUNNING || t->condition == WAITING) return false;
        if (awake(t) && t->last + t->q <= w->now / w->scale) return false;
    }
    return true;
}

static bool open_holds(World *w) {
    Wide end = (Wide)w->end * w->scale;
    if (end <= w->now) return false;
    Wide remaining = end - w->now, amounts = 0, shares = 0;
    unsigned running = 0, waiting = 0;
    uint64_t next_tick = (w->now + w->scale - 1) / w->scale;
    for (unsigned i = 1; i <= w->tasks; i++) {
        Task *t = &w->task[i];
        uint64_t key = t->left;
        if (t->condition == RUNNING) {
            if (key <= w->now || key > end) return false;
            t->left = key - w->now;
            running++;
        }
        if (t->condition == WAITING) {
            if (key >= end || end - key >= remaining) return false;
            t->left = (uint64_t)(end - key);
            waiting++;
        }
        amounts += t->left;
        if (awake(t)) {
            shares += t->share;
            if ((Wide)t->last + t->q < w->end) return false;
        } else {
            Wide soonest = next_tick;
            if (t->arrived && (Wide)t->last + t->p > soonest) soonest = (Wide)t->last + t->p;
            if (soonest + t->q < w->end) return false;
        }
    }
    if (waiting && running < w->m) return false;
    // amounts at most shares times remaining / scale; at most 2^34 times 2^60
    return amounts * w->scale <= shares * remaining;
}

bool rules_hold(const uint8_t *s, World *w) {
    if (!flags_hold(s) || !table_holds(s, w)) return false;
    w->now = get(s + NOW, 8);
    w->open = s[GOING];
    w->end = get(s + END, 8);
    if (w->now > CLOCK * w->scale) return false;
    for (unsigned i = 1; i <= w->tasks; i++) {
        Task *t = &w->task[i];
        t->condition = s[AWAKE + i - 1] ? RESTING : ASLEEP;
        t->arrived = s[ARRIVED + i - 1];
        t->last = get(s + LAST + 8 * (i - 1), 8);
        if (awake(t) && !t->arrived) return false;
        if (t->arrived && (Wide)t->last * w->scale > w->now) return false;
    }
    return queue_holds(s, RUN_KEYS, RUN_TASKS, get(s + RUN_LEN, 8), RUNNING, w)
        && queue_holds(s, WAIT_KEYS, WAIT_TASKS, get(s + WAIT_LEN, 8), WAITING, w)
        && slots_hold(s, w) && (w->open ? open_holds(w) : closed_holds(w));
}

void rules_copy(World *to, const World *from) { memcpy(to, from, offsetof(World, task) + (from->tasks + 1) * sizeof(Task)); }

bool rules_same(const World *a, const World *b) {
    if (a->tasks != b->tasks || a->m != b->m || a->scale != b->scale || a->now != b->now || a->open != b->open) return false;
    if (a->open && a->end != b->end) return false;
    for (unsigned i = 1; i <= a->tasks; i++) {
        const Task *t = &a->task[i], *u = &b->task[i];
        if (t->p != u->p || t->e != u->e || t->d != u->d || t->share != u->share) return false;
        if (t->condition != u->condition || t->processor != u->processor) return false;
        if (t->arrived != u->arrived || (t->arrived && t->last != u->last)) return false;
        if ((t->condition == RUNNING || t->condition == WAITING) && t->left != u->left) return false;
    }
    return true;
}
