// The library against the plain rules: random tables, calls, states built from the clauses, damaged and hostile states.
// fuzz [SEED [CALLS]]: the same seed makes the same calls. The last line is "N passed, M failed", N and M counting calls.
#define _DEFAULT_SOURCE
#include <signal.h>
#include <stdarg.h>
#include <stdio.h>
#include <stdlib.h>
#include <string.h>
#include <sys/mman.h>
#include <unistd.h>

#include "../../bench/plain.h"
#include "../../include/robinrow.h"
#include "figures.h"
#include "ledger.h"
#include "rules.h"

enum { LONGEST = 1048576, MOST_RECORDS = 64, ROOM = 48 * MOST_RECORDS + 47, FAILURES_SHOWN = 10, LONGEST_WAIT = 60 };
static const uint64_t CLOCK = 4294967295u;

_Static_assert(sizeof(robinrow_state) == STATE, "the rules read the same struct");

// RANDOM NUMBERS

static uint64_t random_state; // drawn in one order, whatever the compiler

static uint64_t any(void) { // splitmix64
    uint64_t z = (random_state += 0x9e3779b97f4a7c15u);
    z = (z ^ z >> 30) * 0xbf58476d1ce4e5b9u;
    z = (z ^ z >> 27) * 0x94d049bb133111ebu;
    return z ^ z >> 31;
}

static uint64_t below(uint64_t n) { return any() % n; }
static uint64_t between(uint64_t a, uint64_t b) { return b <= a ? a : a + below(b - a + 1); }
static bool chance(unsigned percent) { return below(100) < percent; }
static uint64_t least(uint64_t a, uint64_t b) { return a < b ? a : b; }

// a number of any size: most of its upper bits may be 0
static uint64_t any_size(void) {
    uint64_t zeros = below(64);
    return any() >> zeros;
}

static void fill(uint8_t *at, size_t len) {
    for (size_t i = 0; i < len; i += 8) {
        uint64_t x = any();
        memcpy(at + i, &x, least(8, len - i));
    }
}

// MEMORY THAT ENDS WHERE A BUFFER ENDS: pages between two that may not be touched

typedef struct { uint8_t *from, *to; } Region;

static Region fenced(size_t size) {
    size_t page = (size_t)sysconf(_SC_PAGESIZE), inner = (size + page - 1) / page * page;
    uint8_t *at = mmap(NULL, inner + 2 * page, PROT_READ | PROT_WRITE, MAP_PRIVATE | MAP_ANONYMOUS, -1, 0);
    if (at == MAP_FAILED || mprotect(at, page, PROT_NONE) || mprotect(at + page + inner, page, PROT_NONE)) {
        perror("fenced memory");
        exit(2);
    }
    return (Region){at + page, at + page + inner};
}

// a buffer that touches the fence before it or the one after it
static uint8_t *buffer(Region r, size_t len) { return chance(50) ? r.from : r.to - len; }

static Region state_region, other_region, room_region, table_region;

// WHAT IS COUNTED

static uint64_t seed, calls, failed, refused_damage, taken_damage, built, plane_ends, jobs, wanted;

enum { ADMIT, ARRIVE, STEP, RUN, PEEK, CALLS };
static uint64_t seen[CALLS][16]; // by call and number
static const char *const names[] = {"admit", "arrive", "step", "run", "peek"};

static const char *origin; // where the present state comes from

static bool wrong(const char *format, ...) {
    failed++;
    printf("seed %llu, call %llu (%s): ", (unsigned long long)seed, (unsigned long long)calls, origin);
    va_list rest;
    va_start(rest, format);
    vprintf(format, rest);
    va_end(rest);
    printf("\n");
    return false;
}

// a call that crashes or does not come back
static void lost(int signal) {
    printf("seed %llu, after call %llu (%s): %s\n%llu passed, %llu failed\n", (unsigned long long)seed, (unsigned long long)calls, origin,
        signal == SIGALRM ? "a call does not come back" : "a call crashed", (unsigned long long)(calls - failed), (unsigned long long)(failed + 1));
    fflush(stdout);
    _exit(1);
}

static void counted(int call, uint64_t number) {
    if (++calls % 1024 == 0) alarm(LONGEST_WAIT);
    seen[call][number < 15 ? number : 15]++;
}

// THE PRESENT STATE: the library's struct, and the world that the rules see in its bytes

static robinrow_state *state;
static World world;
static bool holds;

// demand 3, from admission on, while no state is handed in by somebody else
static bool counting;
static Ledger ledger;

static bool rules_see(void) { return holds = rules_hold((const uint8_t *)state, &world); }

// a struct that touches the fence before it or the one after it
static robinrow_state *struct_in(Region r) { return (robinrow_state *)(void *)buffer(r, sizeof(robinrow_state)); }

typedef struct { const char *name; size_t at, width; } Field;
#define FIELD(name, width) {#name, offsetof(robinrow_state, name), width}
static const Field fields[] = {
    FIELD(share, 8), FIELD(last, 8), FIELD(running_keys, 8), FIELD(waiting_keys, 8), FIELD(count, 8), FIELD(m, 8), FIELD(scale, 8),
    FIELD(now, 8), FIELD(end, 8), FIELD(running, 8), FIELD(waiting, 8), FIELD(period, 4), FIELD(exec, 4), FIELD(deadline, 4), FIELD(order, 2),
    FIELD(running_tasks, 2), FIELD(waiting_tasks, 2), FIELD(slots, 2), FIELD(awake, 1), FIELD(arrived, 1), FIELD(going, 1), FIELD(spare, 1),
};

// every field, the spare bytes among them
static bool other_state(const char *call, const char *what, const robinrow_state *got, const robinrow_state *due) {
    const uint8_t *a = (const uint8_t *)got, *b = (const uint8_t *)due;
    if (memcmp(a, b, STATE) == 0) return false;
    size_t i = 0, k = sizeof fields / sizeof *fields - 1;
    while (a[i] == b[i]) i++;
    while (fields[k].at > i) k--;
    return !wrong("%s: %s, %s[%zu], byte %zu is %u and should be %u", call, what, fields[k].name, (i - fields[k].at) / fields[k].width, i, a[i], b[i]);
}

static bool differs(const char *call, const char *what, const uint8_t *got, const uint8_t *due, size_t len) {
    if (len == 0 || memcmp(got, due, len) == 0) return false;
    for (size_t i = 0; i < len; i++)
        if (got[i] != due[i]) return !wrong("%s: %s, byte %zu is %u and should be %u", call, what, i, got[i], due[i]);
    return false;
}

// a number that refuses: nothing has changed
static bool left_alone(const char *call, const robinrow_state *old, const uint8_t *room, const uint8_t *old_room, size_t room_len) {
    if (other_state(call, "a refusal changed the state", state, old)) return false;
    return !differs(call, "a refusal changed the room", room, old_room, room_len);
}

// the same fields in the struct of the plain heaps, and back; the spare bytes are no field
#define SAME_NAMES(COPY) \
    COPY(period) COPY(exec) COPY(deadline) COPY(share) COPY(last) COPY(running_keys) COPY(waiting_keys) COPY(order) COPY(running_tasks) \
    COPY(waiting_tasks) COPY(slots) COPY(count) COPY(m) COPY(scale) COPY(now) COPY(end) COPY(awake) COPY(arrived) COPY(going)

static void to_plain(Plain *to, const robinrow_state *from) {
#define COPY(field) memcpy(&to->field, &from->field, sizeof to->field);
    SAME_NAMES(COPY)
    to->running_len = from->running;
    to->waiting_len = from->waiting;
}

static void from_plain(robinrow_state *to, const Plain *from) {
    SAME_NAMES(COPY)
#undef COPY
    to->running = from->running_len;
    to->waiting = from->waiting_len;
}

// the state after a call that was done: it holds together, is the rules' next world, and has the fields of the plain heaps; the spare bytes stay
static bool arrived_at(const char *call, const World *next, const Plain *plain, const robinrow_state *old) {
    World now;
    if (!rules_hold((const uint8_t *)state, &now)) return wrong("%s: the state handed back does not hold together", call);
    if (!rules_same(&now, next)) return wrong("%s: the state handed back is not the rules' state", call);
    robinrow_state due = *old;
    from_plain(&due, plain);
    if (other_state(call, "against plain heaps", state, &due)) return false;
    rules_copy(&world, &now);
    return true;
}

// THE CALLS, each against the rules

static bool do_admit(const uint8_t *table, size_t len, size_t m) {
    uint8_t *lent = buffer(table_region, len);
    memcpy(lent, table, len);
    state = struct_in(state_region);
    fill((uint8_t *)state, STATE);
    robinrow_state old = *state;
    uint32_t row;
    uint32_t due = rules_admit(table, len, m, &world, &row);
    if (!due && (world.now || world.open)) abort();
    holds = due == 0;
    origin = "admission";
    uint64_t told = any();
    bool asked = chance(90);
    uint32_t got = robinrow_admit(state, lent, len, m, asked ? &told : NULL);
    counted(ADMIT, got);
    if (got != due || (asked && told != row)) return wrong("admit: gave %u row %llu, should give %u row %u", got, (unsigned long long)told, due, row);
    if (differs("admit", "the table was changed", lent, table, len)) return false;
    Plain plain;
    if (plain_admit(table, len, m, &plain) != due + 256 * (uint64_t)row) return wrong("admit: the plain heaps give another number than %u", due);
    if (due) {
        robinrow_state blank = {0};
        memcpy(blank.spare, old.spare, sizeof blank.spare);
        return !other_state("admit", "a refusal's state", state, &blank);
    }
    counting = true;
    ledger_start(&ledger, table, len, m, world.scale);
    World next;
    rules_copy(&next, &world);
    return arrived_at("admit", &next, &plain, &old);
}

static bool do_arrive(uint64_t task) {
    robinrow_state old = *state;
    World next;
    if (holds) rules_copy(&next, &world);
    uint32_t due = holds ? rules_arrive(&next, task) : 13;
    uint32_t got = robinrow_arrive(state, task);
    counted(ARRIVE, got);
    if (got != due) return wrong("arrive %llu: gave %u, should give %u", (unsigned long long)task, got, due);
    if (due) return left_alone("arrive", &old, NULL, NULL, 0);
    if (counting) ledger_arrival(&ledger, (unsigned)task);
    Plain plain;
    to_plain(&plain, &old);
    plain_arrive(&plain, (unsigned)task);
    return arrived_at("arrive", &next, &plain, &old);
}

static bool do_demand_3(const char *call, const uint8_t *record) {
    uint64_t ends = ledger.plane_ends, whole = ledger.whole;
    const char *broken = ledger_record(&ledger, record);
    plane_ends += ledger.plane_ends - ends;
    jobs += ledger.whole - whole;
    return !broken || wrong("%s: demand 3: %s", call, broken);
}

// the records that the rules give, against those in the room; how many they are
static bool do_records(int call, World *next, Plain *plain, uint64_t horizon, const uint8_t *room, size_t most, size_t *records) {
    *records = 0;
    while (*records < most && next->now < horizon * next->scale) {
        uint8_t record[RECORD], by_heaps[RECORD];
        rules_step(next, horizon, RECORD, record);
        plain_step(plain, horizon, by_heaps);
        const uint8_t *at = room + 48 * (*records)++;
        if (differs(names[call], "record", at, record, RECORD)) return false;
        if (differs(names[call], "record of the plain heaps", by_heaps, record, RECORD)) return false;
        if (counting && call != PEEK && !do_demand_3(names[call], at)) return false;
    }
    return true;
}

// the same run as calls of step with room for one record
static bool by_steps(const robinrow_state *old, uint64_t horizon, const uint8_t *room, size_t records) {
    robinrow_state *other = struct_in(other_region);
    *other = *old;
    for (size_t i = 0; i < records; i++) {
        uint8_t record[RECORD];
        uint32_t got = robinrow_step(other, horizon, record, RECORD);
        counted(STEP, got);
        if (got) return wrong("step %llu in place of run: gave %u", (unsigned long long)horizon, got);
        if (differs("run", "record against step's", room + 48 * i, record, RECORD)) return false;
    }
    return !other_state("run", "against step's", state, other);
}

static bool do_steps(int call, uint64_t horizon, size_t room_len) {
    uint8_t old_room[ROOM], *room = buffer(room_region, room_len);
    robinrow_state old = *state, *scratch = struct_in(other_region);
    fill(room, room_len);
    memcpy(old_room, room, room_len);
    World next;
    uint8_t first[RECORD];
    if (holds) rules_copy(&next, &world);
    uint32_t due = holds ? rules_step(&next, horizon, room_len, first) : 13, got;
    uint64_t told = any();
    bool asked = call == RUN && chance(90);
    if (call == PEEK) {
        fill((uint8_t *)scratch, STATE);
        got = robinrow_peek(state, scratch, horizon, room, room_len);
        if (other_state("peek", "the state was changed", state, &old)) return false;
    } else if (call == STEP) got = robinrow_step(state, horizon, room, room_len);
    else got = robinrow_run(state, horizon, room, room_len, asked ? &told : NULL);
    counted(call, got);
    if (got != due) return wrong("%s %llu, room %zu: gave %u, should give %u", names[call], (unsigned long long)horizon, room_len, got, due);
    if (due) {
        if (asked && told) return wrong("run: a refusal counts %llu records", (unsigned long long)told);
        if (call == PEEK && other_state("peek", "a refusal's second state", scratch, &old)) return false;
        return left_alone(names[call], &old, room, old_room, room_len);
    }
    size_t records;
    Plain plain;
    to_plain(&plain, &old);
    rules_copy(&next, &world);
    if (!do_records(call, &next, &plain, horizon, room, call == RUN ? room_len / 48 : 1, &records)) return false;
    if (asked && told != records) return wrong("run: counts %llu records, should count %zu", (unsigned long long)told, records);
    if (differs(names[call], "the rest of the room", room + 48 * records, old_room + 48 * records, room_len - 48 * records)) return false;
    if (call == PEEK) {
        from_plain(&old, &plain);
        return !other_state("peek", "the second state", scratch, &old);
    }
    if (!arrived_at(names[call], &next, &plain, &old)) return false;
    return call == STEP || !chance(25) || by_steps(&old, horizon, room, records);
}

// ARGUMENTS: mostly those that are taken, and the edges of those that are not

static uint64_t task_argument(void) {
    unsigned n = holds ? world.tasks : 4;
    if (chance(70)) { // one that may arrive, if it can be found
        for (int turn = 0; turn < 8; turn++) {
            unsigned i = (unsigned)between(1, n);
            const Task *t = &world.task[i];
            if (!holds || !t->arrived || world.now / world.scale - t->last >= t->p) return i;
        }
    }
    switch (below(12)) {
    case 0: return 0;
    case 1: return n + 1;
    case 2: return 65536 + between(0, n);
    case 3: return (between(1, 9) << 32) + n;
    case 4: return any_size();
    default: return between(1, n);
    }
}

static uint64_t horizon_argument(void) {
    if (!holds) return chance(50) ? between(0, 100) : any_size();
    uint64_t tick = world.now / world.scale;
    switch (below(20)) {
    case 0: return tick;
    case 1: return tick - 1;
    case 2: return CLOCK + between(0, 2);
    case 3: return any_size();
    case 4: return CLOCK;
    case 5: return world.open ? world.end : tick + 1;
    case 6: case 7: { // when some task may arrive again
        const Task *t = &world.task[between(1, world.tasks)];
        return t->last + t->p > tick ? t->last + t->p : tick + 1;
    }
    case 8: case 9: return tick + between(1, 2 * world.task[between(1, world.tasks)].q);
    case 10: return (between(0, 3) << 32) + tick + 1;
    case 11: case 12: case 13: return tick + 1;
    default: return tick + between(1, 6);
    }
}

static size_t room_argument(int call) {
    static const size_t edges[] = {0, 1, 47, 48, 49, 95, 96, 97};
    if (chance(15)) return edges[below(8)];
    return call != RUN ? 48 : between(48, chance(80) ? 400 : ROOM);
}

static bool any_call(void) {
    uint64_t kind = below(100);
    bool whole_tick = holds && world.now % world.scale == 0;
    if (kind < (whole_tick ? 45 : 5)) return do_arrive(task_argument());
    int call = kind < 80 ? STEP : kind < 93 ? RUN : PEEK;
    uint64_t horizon = horizon_argument();
    return do_steps(call, horizon, room_argument(call));
}

// TABLES

// the products that the periods and deadlines of a table divide: small ones, many divisors, and the edges of the scale
static const uint64_t bases[4][8] = {
    {1, 2, 3, 4, 6, 8, 10, 12},
    {12, 24, 60, 120, 360, 840, 2520, 5040},
    {64, 720, 5040, 27720, 55440, 360360, 720720, 1048576},
    {1048576, 133169152, 134217728, 131072000, 134053920, 129729600, 134217729, 134217727},
};
static uint32_t primes[4][8][32]; // of each base, 0 after the last

static void find_primes(void) {
    for (unsigned kind = 0; kind < 4; kind++)
        for (unsigned k = 0; k < 8; k++) {
            uint64_t x = bases[kind][k];
            unsigned found = 0;
            for (uint64_t f = 2; x > 1; f++)
                for (; x % f == 0; x /= f) primes[kind][k][found++] = (uint32_t)f;
        }
}

// some divisor, at most LONGEST
static uint64_t some_divisor(const uint32_t *prime) {
    uint64_t x = 1;
    unsigned percent = (unsigned)between(20, 100), n = 0;
    while (prime[n]) n++;
    bool large_first = chance(50);
    for (unsigned i = 0; i < n; i++) {
        uint64_t f = prime[large_first ? n - 1 - i : i];
        if (chance(percent) && x * f <= LONGEST) x *= f;
    }
    return x;
}

static void put_row(uint8_t *table, unsigned i, uint64_t p, uint64_t e, uint64_t d) {
    uint32_t row[3] = {(uint32_t)p, (uint32_t)e, (uint32_t)d};
    memcpy(table + 12 * i, row, 12);
}

// a table whose shares sum to at most m times the scale, and whose scale is too fine only for one of the bases: its length
static size_t fitting_table(uint8_t *table, size_t *processors) {
    unsigned kind = (unsigned)below(4), which = (unsigned)below(8), style = (unsigned)below(4);
    uint64_t base = bases[kind][which], m = between(1, kind == 0 ? 3 : kind == 1 ? 6 : 16);
    unsigned most = kind == 0 ? 6 : kind == 1 ? 20 : chance(80) ? 40 : 128, n = (unsigned)between(1, most), rows = 0;
    uint64_t budget = m * base;
    while (rows < n) {
        uint64_t q = some_divisor(primes[kind][which]), unit = base / q, want;
        switch (style) {
        case 0: want = below(2 * m * base / n + 1); break;  // together about the budget
        case 1: want = below(base + 1); break;              // until it is used up
        case 2: want = below(m * base / n / 2 + 1); break;  // a light load
        default: want = chance(30) ? base : m * base / n;   // whole processors, and equal shares
        }
        uint64_t e = want / unit;
        if (e < 1) e = 1;
        if (e > q) e = q;
        if (e * unit > budget) e = budget / unit;
        if (e == 0) break;
        budget -= e * unit;
        uint64_t other = chance(40) ? q : chance(50) ? q + below(4) : between(q, chance(50) ? 3 * q : LONGEST);
        if (other > LONGEST) other = LONGEST;
        if (chance(70)) put_row(table, rows++, other, e, q);
        else put_row(table, rows++, q, e, other);
    }
    // what is left of the budget, to the last sub-tick
    if (style != 2 && base <= LONGEST && chance(60))
        while (budget > 0 && rows < 128) {
            uint64_t e = least(budget, base);
            put_row(table, rows++, base, e, base);
            budget -= e;
        }
    if (rows == 0) put_row(table, rows++, 1, 1, 1);
    *processors = m;
    return 12 * (size_t)rows;
}

// makes a table that may be refused out of one that fits
static size_t spoilt_table(uint8_t *table, size_t len, size_t *m) {
    uint32_t row[3];
    for (uint64_t turns = between(1, 3); turns; turns--) {
        size_t i = below(len / 12 + (len < 12));
        memcpy(row, table + 12 * i, 12);
        unsigned k = (unsigned)below(3);
        switch (below(14)) {
        case 0: row[k] = 0; break;
        case 1: row[k] = LONGEST + (uint32_t)below(3); break;
        case 2: row[k] = (uint32_t)any_size(); break;
        case 3: row[1] = (row[0] < row[2] ? row[0] : row[2]) + (uint32_t)below(3); break;
        case 4: row[1]++; break; // over the budget, where it was full
        case 5: row[1] = row[0] < row[2] ? row[0] : row[2]; break;
        case 6: row[0] = row[2] = (uint32_t)between(1, LONGEST); break; // most often too fine a scale
        case 7: *m = *m > 1 ? *m - 1 : 1; break;
        case 8: *m = below(20); break;
        case 9: *m = any_size(); break;
        case 10: row[k] += (uint32_t)between(1, 3); break;
        case 11: len = len ? len - 1 : 1; break;
        case 12: len = chance(50) ? 0 : between(0, 1600); break;
        default: row[k] = (uint32_t)between(1, 2 * LONGEST); break;
        }
        memcpy(table + 12 * i, row, 12);
    }
    return len;
}

// STATES FROM THE CLAUSES: conditions, last arrivals, amounts and processors at random, as the clauses allow

typedef struct { unsigned len; uint64_t key[TASKS]; uint16_t task[TASKS]; } Heap;

static void enqueue(Heap *h, uint64_t key, uint16_t task) {
    unsigned i = h->len++;
    for (; i > 0; i = (i - 1) / 2) {
        unsigned up = (i - 1) / 2;
        if (h->key[up] < key || (h->key[up] == key && h->task[up] < task)) break;
        h->key[i] = h->key[up];
        h->task[i] = h->task[up];
    }
    h->key[i] = key;
    h->task[i] = task;
}

static void shuffled(unsigned *order, unsigned n) {
    for (unsigned i = 0; i < n; i++) {
        unsigned j = (unsigned)below(i + 1);
        order[i] = order[j];
        order[j] = i + 1;
    }
}

// writes the present world, whose table is in the state; unused places get anything where junk is set
static void write_state(bool junk) {
    robinrow_state s = *state;
    Heap running = {0}, waiting = {0};
    unsigned order[TASKS];
    shuffled(order, world.tasks);
    memset(s.slots, 0, sizeof s.slots);
    for (unsigned k = 0; k < world.tasks; k++) {
        const Task *t = &world.task[order[k]];
        if (t->condition == RUNNING) {
            enqueue(&running, world.now + t->left, (uint16_t)order[k]);
            s.slots[t->processor - 1] = (uint16_t)order[k];
        }
        if (t->condition == WAITING) enqueue(&waiting, world.end * world.scale - t->left, (uint16_t)order[k]);
    }
    for (unsigned i = 0; i < TASKS; i++) {
        bool row = i < world.tasks, used = row && world.task[i + 1].arrived;
        s.awake[i] = row ? world.task[i + 1].condition != ASLEEP : junk && chance(50);
        s.arrived[i] = row ? used : junk && chance(50);
        s.last[i] = used ? world.task[i + 1].last : junk ? any_size() : 0;
        s.running_keys[i] = i < running.len ? running.key[i] : junk ? any_size() : 0;
        s.running_tasks[i] = i < running.len ? running.task[i] : junk ? (uint16_t)any_size() : 0;
        s.waiting_keys[i] = i < waiting.len ? waiting.key[i] : junk ? any_size() : 0;
        s.waiting_tasks[i] = i < waiting.len ? waiting.task[i] : junk ? (uint16_t)any_size() : 0;
        if (junk && !row) {
            s.period[i] = (uint32_t)any_size();
            s.exec[i] = (uint32_t)any_size();
            s.deadline[i] = (uint32_t)any_size();
            s.share[i] = any_size();
            s.order[i] = (uint16_t)any_size();
        }
    }
    s.now = world.now;
    s.going = world.open;
    s.end = world.open ? world.end : junk ? any_size() : 0;
    s.running = running.len;
    s.waiting = waiting.len;
    if (junk) fill(s.spare, sizeof s.spare);
    *state = s;
}

// an amount out of a budget, by one of several tastes
static uint64_t some_amount(unsigned taste, uint64_t share, uint64_t remaining, uint64_t budget) {
    uint64_t most = least(remaining, budget);
    uint64_t fluid = (uint64_t)((unsigned __int128)share * remaining / world.scale);
    switch (taste) {
    case 0: return least(most, fluid);
    case 1: return between(0, most);
    case 2: return least(most, between(0, 3));
    case 3: return chance(50) ? most : least(most, remaining - least(remaining, between(0, 2)));
    default: return least(most, between(fluid / 2, 2 * fluid));
    }
}

// which clause a state is to miss by a hair; HELD misses none
enum { HELD, WAITS_ALL, OVER_SUM, IDLE_WHILE_WAITING, RUNS_PAST_END, USED_UP, LATE_END, NO_TIME, PAST_CLOCK, ARRIVES_LATER, STALE, MISSES };

static void plan_amounts(unsigned miss) {
    uint64_t remaining = world.end * world.scale - world.now, shares = 0;
    for (unsigned i = 1; i <= world.tasks; i++)
        if (world.task[i].condition != ASLEEP) shares += world.task[i].share;
    unsigned __int128 all = (unsigned __int128)shares * remaining / world.scale;
    uint64_t budget = all > UINT64_MAX / 2 ? UINT64_MAX / 2 : (uint64_t)all;
    if (miss == OVER_SUM) budget++;
    unsigned order[TASKS], processors[PROCESSORS], running = 0, taste = (unsigned)below(6);
    shuffled(order, world.tasks);
    shuffled(processors, world.m);
    if (chance(50))
        for (unsigned p = 0; p < world.m; p++) processors[p] = p + 1;
    for (int round = 0; round < 2; round++) // in the second round what is left goes to those who rest
        for (unsigned k = 0; k < world.tasks; k++) {
            Task *t = &world.task[order[k]];
            if (t->condition != RESTING || (round == 0 && chance(10))) continue;
            if (round == 1 && !chance(60)) continue;
            uint64_t amount = some_amount(round ? 1 : taste < 5 ? taste : (unsigned)below(5), t->share, remaining, budget);
            if (miss == WAITS_ALL) amount = least(budget, running < world.m ? between(1, 3) : remaining);
            else if (running == world.m) amount = least(amount, remaining - 1);
            if (miss == RUNS_PAST_END && running < world.m && budget > remaining && chance(30)) amount = remaining + 1;
            if (!amount) continue;
            t->left = amount;
            budget -= amount;
            if (running < world.m && !(miss == IDLE_WHILE_WAITING && running + 1 == world.m)) {
                t->condition = RUNNING;
                t->processor = processors[running++];
            } else {
                t->condition = WAITING;
            }
        }
    // sometimes to the last sub-tick of the sum
    if (miss == OVER_SUM || chance(40))
        for (unsigned i = 1; i <= world.tasks && budget; i++) {
            Task *t = &world.task[i];
            uint64_t most = t->condition == RUNNING ? remaining : t->condition == WAITING ? remaining - 1 : 0;
            uint64_t more = most > t->left ? least(most - t->left, budget) : 0;
            t->left += more;
            budget -= more;
        }
    if (miss == USED_UP)
        for (unsigned i = 1; i <= world.tasks; i++)
            if (world.task[i].condition == (chance(70) ? RUNNING : WAITING)) {
                world.task[i].left = 0;
                return;
            }
}

// puts a random state with the present table into the place of the present one
static bool build_state(void) {
    unsigned miss = chance(60) ? HELD : (unsigned)between(HELD + 1, MISSES - 1);
    uint64_t tick = chance(30) ? below(1000) : chance(80) ? below(CLOCK + 1) : CLOCK - below(3);
    if (miss == PAST_CLOCK) tick = CLOCK + below(2);
    uint64_t limit = UINT64_MAX, nearness = chance(50) ? below(4) : LONGEST;
    unsigned awake = (unsigned)below(101);
    world.open = chance(80) && (tick < CLOCK || miss == PAST_CLOCK);
    world.now = tick * world.scale;
    if ((world.open && chance(60)) || miss == NO_TIME) world.now += below(world.scale);
    uint64_t next_tick = (world.now + world.scale - 1) / world.scale;
    for (unsigned i = 1; i <= world.tasks; i++) {
        Task *t = &world.task[i];
        t->left = t->processor = 0;
        t->condition = chance(awake) ? RESTING : ASLEEP;
        t->arrived = t->condition != ASLEEP || chance(50);
        if (t->condition != ASLEEP) t->last = tick - least(tick, below(least(t->q, nearness + 1)));
        else t->last = chance(50) ? tick - least(tick, below(2 * t->p)) : below(tick + 1);
        if (miss == STALE && t->condition != ASLEEP && chance(20)) t->last = tick - least(tick, t->q);
        if (miss == ARRIVES_LATER && chance(20)) t->last = tick + 1;
        uint64_t mine = t->condition != ASLEEP ? t->last + t->q : next_tick + t->q;
        if (t->condition == ASLEEP && t->arrived && t->last + t->p > next_tick) mine = t->last + t->p + t->q;
        limit = least(limit, mine);
    }
    world.end = chance(60) ? limit : between(tick + 1, limit);
    if (miss == LATE_END) world.end = limit + 1;
    if (miss == NO_TIME) world.end = tick;
    if (world.open && world.end * world.scale > world.now) plan_amounts(miss);
    write_state(chance(50));
    built++;
    counting = false;
    origin = miss == HELD ? "built" : "built to miss";
    World w;
    rules_copy(&w, &world);
    rules_see();
    if (miss != HELD) {
        if (holds) taken_damage++;
        else refused_damage++;
        return true;
    }
    if (!holds) return wrong("a state built from the clauses does not hold together by the test's own check");
    if (!rules_same(&w, &world)) return wrong("a state built from the clauses is read as another");
    return true;
}

// DAMAGE: one field, by a little or a lot

static void swap(void *a, void *b, size_t size) {
    uint8_t x[8];
    memcpy(x, a, size);
    memmove(a, b, size);
    memcpy(b, x, size);
}

static uint64_t little(void) {
    static const int64_t by[] = {1, -1, 1, -1, 2, -2, 128, -128};
    return (uint64_t)by[below(8)];
}

static void damage(void) {
    robinrow_state *s = state;
    uint8_t *bytes = (uint8_t *)s;
    uint64_t *scalars[] = {&s->count, &s->m, &s->scale, &s->now, &s->end, &s->running, &s->waiting};
    bool run = chance(50);
    uint64_t *keys = run ? s->running_keys : s->waiting_keys, *len = run ? &s->running : &s->waiting;
    uint16_t *tasks = run ? s->running_tasks : s->waiting_tasks;
    uint64_t n = least(s->count, TASKS), used = least(*len, TASKS);
    uint64_t row = below(n ? n : 1), place = below(used ? used : 1), other = below(used ? used : 1);
    uint64_t byte = below(STATE), slot = below(PROCESSORS), bit = below(8);
    switch (below(31)) {
    case 0: bytes[byte] ^= (uint8_t)(1u << bit); break;
    case 1: bytes[byte] = (uint8_t)any(); break;
    case 2: case 3: case 4: keys[place] += little(); break;
    case 5: { // a key to an edge of the plane
        uint64_t end = s->end * s->scale, edge = chance(50) ? s->now : end;
        if (chance(50)) edge += little();
        if (chance(30)) edge = between(s->now + 1, end - 1);
        keys[place] = edge;
        break;
    }
    case 6: swap(&keys[place], &keys[other], 8); break;
    case 7: // two whole entries: valid where no order breaks
        swap(&keys[place], &keys[other], 8);
        swap(&tasks[place], &tasks[other], 2);
        break;
    case 8: swap(&tasks[place], &tasks[other], 2); break;
    case 9: tasks[place] = (uint16_t)(chance(80) ? between(0, n + 1) : any_size()); break; // another task, or none
    case 10: swap(&s->slots[slot], &s->slots[below(PROCESSORS)], 2); break;
    case 11: { // processors exchanged: valid
        uint64_t m = least(s->m, PROCESSORS);
        if (m) swap(&s->slots[slot % m], &s->slots[below(m)], 2);
        break;
    }
    case 12: s->slots[slot] = (uint16_t)(chance(80) ? between(0, n + 1) : any_size()); break;
    case 13: s->count += little(); break;
    case 14: s->m += little(); break;
    case 15: s->scale += chance(50) ? little() : s->scale; break;
    case 16: case 17: s->now += chance(50) ? little() : chance(50) ? s->scale : 0 - s->scale; break;
    case 18: case 19: s->end += chance(80) ? little() : any_size(); break;
    case 20: *len += little(); break;
    case 21: case 22: case 23: { // a flag, mostly turned into the other one
        uint8_t *flag = chance(30) ? &s->going : chance(50) ? &s->awake[row] : &s->arrived[row];
        *flag ^= chance(80) ? 1 : (uint8_t)(1u << bit);
        break;
    }
    case 24: case 25: s->last[row] += chance(70) ? little() : chance(50) ? 0 - between(1, 100) : any_size(); break;
    case 26: s->share[row] += little(); break;
    case 27: swap(&s->order[row], &s->order[below(n ? n : 1)], 2); break;
    case 28: { // a row's p, e or D
        uint64_t column = below(3);
        uint32_t *x = column == 0 ? &s->period[row] : column == 1 ? &s->exec[row] : &s->deadline[row];
        *x = chance(70) ? *x + (uint32_t)little() : (uint32_t)any_size();
        break;
    }
    case 29: { // a flag above 1, in a row or past the rows
        uint8_t *flag = chance(20) ? &s->going : chance(50) ? &s->awake[below(TASKS)] : &s->arrived[below(TASKS)];
        *flag = (uint8_t)between(2, 255);
        break;
    }
    default: *scalars[below(7)] = any_size(); break;
    }
}

// one task moves from one condition to another, so that several fields change together
static void condition_changed(void) {
    if (!holds || !world.open) return;
    Task *t = &world.task[between(1, world.tasks)];
    uint64_t remaining = world.end * world.scale - world.now;
    switch (below(5)) {
    case 0: t->condition = RESTING; t->left = t->processor = 0; break;
    case 1: t->condition = ASLEEP; t->left = t->processor = 0; break;
    case 2: if (t->condition == RUNNING || t->condition == WAITING) t->left = between(1, remaining); break;
    case 3: // on any processor, be it free or not
        t->condition = RUNNING;
        t->processor = (unsigned)between(1, world.m);
        if (!t->left) t->left = between(1, least(remaining, 5));
        break;
    default:
        t->condition = WAITING;
        t->processor = 0;
        if (!t->left) t->left = between(1, least(remaining, 5));
        break;
    }
    write_state(chance(50));
}

static void damaged(void) {
    if (chance(15)) condition_changed();
    else
        for (uint64_t turns = chance(70) ? 1 : between(2, 4); turns; turns--) damage();
    counting = false;
    origin = "damaged";
    if (rules_see()) taken_damage++;
    else refused_damage++;
}

static void hostile(void) {
    counting = false;
    origin = "hostile";
    robinrow_state *s = state;
    uint64_t *scalars[] = {&s->count, &s->m, &s->scale, &s->now, &s->end, &s->running, &s->waiting};
    unsigned kind = (unsigned)below(4);
    if (kind == 0) memset(s, 0, STATE);
    if (kind == 1) memset(s, 255, STATE);
    if (kind >= 2) fill((uint8_t *)s, STATE);
    if (kind == 3)
        for (unsigned i = 0; i < STATE; i++) ((uint8_t *)s)[i] &= 1;
    if (chance(50)) // counts and lengths within or just past their bounds, so that more is looked at
        for (unsigned i = 0; i < 7; i++) *scalars[i] = chance(50) ? between(0, 130) : any_size();
    if (chance(70)) {
        for (unsigned i = 0; i < TASKS; i++) {
            s->awake[i] &= 1;
            s->arrived[i] &= 1;
        }
        s->going &= 1;
    }
    rules_see();
}

// EPISODES

static bool more(void) { return calls < wanted; }

static bool walk(uint64_t steps) {
    for (; steps && more(); steps--)
        if (!any_call()) return false;
    return true;
}

// calls on a damaged copy; the state is put back unless the damaged one is to go on
static bool damaged_calls(void) {
    static World saved_world;
    static Ledger saved_ledger;
    robinrow_state saved = *state;
    bool saved_holds = holds, saved_counting = counting;
    const char *saved_origin = origin;
    rules_copy(&saved_world, &world);
    saved_ledger = ledger;
    damaged();
    if (!walk(between(1, holds ? 6 : 2))) return false;
    if (holds && chance(10)) return true;
    *state = saved;
    ledger = saved_ledger;
    rules_copy(&world, &saved_world);
    holds = saved_holds;
    counting = saved_counting;
    origin = saved_origin;
    return true;
}

// every task arrives as soon as it may: the fullest load that the table allows
static bool saturated(uint64_t turns) {
    for (; turns && more(); turns--) {
        uint64_t tick = world.now / world.scale, next = UINT64_MAX;
        for (unsigned i = 1; i <= world.tasks; i++) {
            const Task *t = &world.task[i];
            if (world.now % world.scale == 0 && (!t->arrived || tick - t->last >= t->p) && chance(95) && !do_arrive(i)) return false;
            next = least(next, t->arrived && t->last + t->p > tick ? t->last + t->p : tick + 1);
        }
        int call = chance(70) ? STEP : RUN;
        if (!do_steps(call, next, 48 * between(1, 5))) return false;
        if (chance(5) && !damaged_calls()) return false;
    }
    return true;
}

static void episode(void) {
    uint8_t table[12 * 128 + 100];
    size_t m;
    memset(table, 0, sizeof table);
    size_t len = fitting_table(table, &m);
    if (chance(30)) {
        uint8_t other[sizeof table];
        for (uint64_t turns = between(1, 6); turns; turns--) {
            size_t other_m = m;
            memcpy(other, table, sizeof table);
            size_t other_len = spoilt_table(other, len, &other_m);
            if (!do_admit(other, other_len, other_m)) return;
            if (!holds && chance(20) && !any_call()) return; // a blank state
        }
    }
    if (!do_admit(table, len, m) || !holds) return;
    uint64_t kind = below(100);
    if (kind < 30) {
        if (!saturated(between(1, 60))) return;
    } else if (kind < 60) {
        for (uint64_t turns = between(1, 20); turns && more(); turns--) {
            if (!walk(between(1, 8))) return;
            if (chance(60) && !damaged_calls()) return;
        }
    } else if (kind < 97) {
        for (uint64_t turns = between(1, 12); turns && more(); turns--) {
            if (!build_state() || !walk(holds ? between(1, 6) : 1)) return;
            for (uint64_t again = holds ? below(4) : 0; again; again--)
                if (!damaged_calls()) return;
            // a state with this table again, whatever became of the one before
            if (!do_admit(table, len, m)) return;
        }
    } else {
        for (uint64_t turns = between(1, 10); turns && more(); turns--) {
            hostile();
            if (!walk(1)) return;
        }
    }
}

int main(int argc, char **argv) {
    seed = argc > 1 ? strtoull(argv[1], NULL, 10) : 1;
    wanted = argc > 2 ? strtoull(argv[2], NULL, 10) : 200000;
    random_state = seed;
    find_primes();
    state_region = fenced(STATE);
    other_region = fenced(STATE);
    room_region = fenced(ROOM);
    table_region = fenced(12 * 128 + 100);
    signal(SIGSEGV, lost);
    signal(SIGBUS, lost);
    signal(SIGILL, lost);
    signal(SIGALRM, lost);
    alarm(LONGEST_WAIT);
    origin = "figures";
    Figures f = figures();
    printf("figures: %u of %u met\n", f.tried - f.missed, f.tried);
    calls = f.tried; // a figure counts as one
    failed = f.missed;
    while (more() && failed < FAILURES_SHOWN) {
        origin = "start";
        episode();
    }
    for (int call = ADMIT; call < CALLS; call++) {
        printf("%s:", names[call]);
        for (int number = 0; number < 16; number++)
            if (seen[call][number]) printf("  %d x %llu", number, (unsigned long long)seen[call][number]);
        printf("\n");
    }
    printf("%llu states built from the clauses; damaged or built to miss one: %llu held together, %llu did not\n",
        (unsigned long long)built, (unsigned long long)taken_damage, (unsigned long long)refused_damage);
    printf("demand 3, read off the records: %llu jobs had run e by q ticks after their arrival, %llu plane ends\n", (unsigned long long)jobs, (unsigned long long)plane_ends);
    printf("%llu passed, %llu failed\n", (unsigned long long)(calls - failed), (unsigned long long)failed);
    return failed != 0;
}
