#include "scenario.h"

#include <string.h>

#include "plain.h"

const char *const kind_names[KINDS] = {"light", "full", "critical"};

// Every q divides it, so it is the scale or a multiple of it.
enum { BASE = 5040, SELDOM = 200 };
static const uint32_t divisors[] = {60, 72, 80, 84, 90, 105, 112, 120, 126, 140, 144, 168, 180, 210, 240, 252, 280, 315, 336, 360, 420, 504, 560, 630, 720, 840};

static uint64_t random_state;

static uint64_t below(uint64_t n) {
    random_state ^= random_state << 13;
    random_state ^= random_state >> 7;
    random_state ^= random_state << 17;
    return random_state % n;
}

static void put_row(Scenario *s, unsigned i, uint32_t p, uint32_t e, uint32_t d) {
    uint32_t row[3] = {p, e, d};
    memcpy(s->table + 12 * i, row, 12);
}

// about this share of BASE, as the execution of a row with this q
static uint32_t execution(uint64_t share, uint32_t q) {
    uint64_t e = share * q / BASE;
    return (uint32_t)(e < 1 ? 1 : e > q ? q : e);
}

static void light_table(Scenario *s, unsigned n, unsigned m) {
    for (unsigned i = 0; i < n; i++) {
        uint32_t q = divisors[below(sizeof divisors / sizeof *divisors)];
        uint64_t each = 2 * (uint64_t)m * BASE / (5 * n), share = each / 2 + below(each + 1);
        put_row(s, i, q + (below(3) ? 0 : (uint32_t)below(q)), execution(share > BASE ? BASE : share, q), q);
    }
}

// the last rows have q = BASE, so that what is left is theirs to the last sub-tick
static void full_table(Scenario *s, unsigned n, unsigned m) {
    uint64_t left = (uint64_t)(n > m ? m : n) * BASE;
    for (unsigned i = 0; i < n; i++) {
        unsigned later = n - i - 1;
        // each later row takes one BASE at most and one sub-tick at least
        uint64_t most = left - later < BASE ? left - later : BASE, floor = left > (uint64_t)later * BASE ? left - (uint64_t)later * BASE : 1;
        uint64_t share = left / (n - i) / 2 + below(left / (n - i) + 1);
        if (share < floor) share = floor;
        if (share > most) share = most;
        uint32_t q = later < m ? BASE : divisors[below(sizeof divisors / sizeof *divisors)], e = execution(share, q);
        if (e * (uint64_t)(BASE / q) > most || e * (uint64_t)(BASE / q) < floor) {
            q = BASE;
            e = (uint32_t)share;
        }
        put_row(s, i, q, e, q);
        left -= e * (uint64_t)(BASE / q);
    }
}

// a critical task keeps its processor to the plane's end, so a plane has at most m C events: the small tasks sleep most of the time
static void critical_table(Scenario *s, unsigned n, unsigned m) {
    unsigned heavy = n > m ? m + 1 : n;
    uint64_t small = n > heavy ? BASE / 4 / (n - heavy) + 1 : 0, left = (uint64_t)(n > m ? m : n) * BASE - small * (n - heavy);
    for (unsigned i = 0; i < n; i++) {
        uint64_t share = i < heavy ? left / (heavy - i) : small;
        put_row(s, i, i < heavy ? BASE : SELDOM * BASE, (uint32_t)share, BASE);
        if (i < heavy) left -= share;
    }
}

uint64_t scenario_make(Scenario *s, Kind kind, unsigned n, unsigned m, uint64_t seed, Call *calls, size_t len) {
    static Plain plain;
    random_state = seed * 2 + 88172645463325251u;
    s->m = m;
    s->table_len = 12 * (size_t)n;
    s->calls = calls;
    s->len = s->steps = 0;
    (kind == LIGHT ? light_table : kind == FULL ? full_table : critical_table)(s, n, m);
    uint64_t answer = plain_admit(s->table, s->table_len, m, &plain);
    if (answer) return answer & 255;

    uint64_t next[128];
    for (unsigned i = 0; i < n; i++) next[i] = kind == LIGHT || plain.period[i] > BASE ? below(plain.period[i]) : 0;
    while (s->len < len) {
        uint64_t tick = UINT64_MAX;
        for (unsigned i = 0; i < n; i++)
            if (next[i] < tick) tick = next[i];
        if (tick > UINT32_MAX) break; // the clock's end
        while (plain.now < tick * plain.scale && s->len < len) {
            uint8_t record[48];
            plain_step(&plain, tick, record);
            calls[s->len++] = (Call){0, (uint32_t)tick};
            s->steps++;
        }
        for (unsigned i = 0; i < n && s->len < len; i++) {
            if (next[i] != tick) continue;
            plain_arrive(&plain, i + 1);
            calls[s->len++] = (Call){i + 1, (uint32_t)tick};
            next[i] = tick + plain.period[i] + (kind == LIGHT ? below(plain.period[i]) : 0);
        }
    }
    return 0;
}

size_t long_table(uint8_t *table, unsigned n, unsigned m) {
    uint32_t each = LONG * (m - 1) / (n - 1), e = each < 1 ? 1 : each > LONG ? LONG : each;
    for (unsigned i = 0; i < n; i++) {
        uint32_t row[3] = {i + 1 < n ? LONG : 1, i + 1 < n ? e : 1, i + 1 < n ? LONG : 1};
        memcpy(table + 12 * i, row, 12);
    }
    return 12 * (size_t)n;
}
