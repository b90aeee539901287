// A text to its listing: the program's loop, from the text on, and the formatting alone, each against plain C on the same records.
// The plain C gets the table's bytes and reads no text.
#define _POSIX_C_SOURCE 199309L
#include <stdio.h>
#include <string.h>

#include "nanoseconds.h"
#include "plain.h"
#include "scenario.h"

// bench_step
size_t record_lines(uint8_t *, size_t, const uint8_t *, size_t, size_t, size_t);
uint64_t public_lines(const uint8_t *, size_t, uint8_t *);

enum { PART = 474, REPEATS = 7 };

static uint8_t *put_decimal(uint8_t *out, uint64_t x) {
    uint8_t digits[20];
    int n = 0;
    do digits[n++] = (uint8_t)('0' + x % 10);
    while (x /= 10);
    while (n) *out++ = digits[--n];
    return out;
}

static size_t plain_lines(uint8_t *out, const uint8_t *room, size_t n, size_t m) {
    uint8_t *at = out;
    for (; n; n--, room += 48) {
        uint64_t instants[2];
        uint16_t slots[16];
        memcpy(instants, room, 16);
        memcpy(slots, room + 16, 32);
        at = put_decimal(at, instants[0]);
        *at++ = ' ';
        at = put_decimal(at, instants[1]);
        for (size_t p = 0; p < m; p++) {
            *at++ = ' ';
            at = put_decimal(at, slots[p]);
        }
        *at++ = '\n';
    }
    return (size_t)(at - out);
}

static uint8_t table[1536], room[48 * PART], lines[65536], plain_out[65536];
static char text[65536];

// The text of the table, of arrivals of all tasks but the last, and of the tick to run to; its length.
static size_t write_text(size_t len, unsigned n, unsigned m) {
    char *at = text + sprintf(text, "processors %u\n", m);
    for (size_t row = 0; row < len; row += 12) {
        uint32_t number[3];
        memcpy(number, table + row, 12);
        at += sprintf(at, "task %u %u %u\n", number[0], number[1], number[2]);
    }
    for (unsigned task = 1; task < n; task++) at += sprintf(at, "arrive 0 %u\n", task);
    at += sprintf(at, "until %llu\n", (unsigned long long)LONG);
    return (size_t)(at - text);
}

// The whole run, part by part; how many records.
static size_t plain_text(size_t len, unsigned n, unsigned m, size_t *last) {
    static Plain s;
    size_t records = 0, part;
    plain_admit(table, len, m, &s);
    for (unsigned task = 1; task < n; task++) plain_arrive(&s, task);
    while (s.now < LONG * s.scale) {
        part = plain_run(&s, LONG, room, PART);
        *last = plain_lines(plain_out, room, part, m);
        records += part;
    }
    return records;
}

#define BEST(time, call)                                  \
    do {                                                  \
        for (int turn = 0; turn < REPEATS; turn++) {      \
            double from = nanoseconds();                  \
            call;                                         \
            double took = nanoseconds() - from;           \
            if (turn == 0 || took < time) time = took;    \
        }                                                 \
    } while (0)

int main(void) {
    static const unsigned tasks[] = {8, 32, 128}, processors[] = {2, 4, 16};
    printf("  n   m  lines | a listing: plain C, the program's loop | lines alone: plain C, put_records   (ns a line, ratio)\n");
    for (int a = 0; a < 3; a++)
        for (int b = 0; b < 3; b++) {
            unsigned n = tasks[a], m = processors[b];
            size_t len = long_table(table, n, m), records = 0, last = 0, bytes = 0;
            double plain = 0, loop = 0, plain_alone = 0, alone = 0;
            BEST(plain, records = plain_text(len, n, m, &last));
            size_t size = write_text(len, n, m);
            BEST(loop, public_lines((const uint8_t *)text, size, lines));
            if (memcmp(lines, plain_out, last)) {
                printf("the texts differ\n");
                return 1;
            }
            static Plain s;
            plain_admit(table, len, m, &s);
            for (unsigned task = 1; task < n; task++) plain_arrive(&s, task);
            plain_run(&s, LONG, room, PART);
            BEST(plain_alone, last = plain_lines(plain_out, room, PART, m));
            BEST(alone, bytes = record_lines(lines, sizeof lines, room, sizeof room, PART, m));
            if (bytes != last || memcmp(lines, plain_out, last)) {
                printf("the lines differ\n");
                return 1;
            }
            printf("%3u  %2u  %5zu | %6.1f  %6.1f  %4.2f | %6.1f  %6.1f  %4.2f\n", n, m, records, plain / (double)records, loop / (double)records,
                loop / plain, plain_alone / PART, alone / PART, alone / plain_alone);
        }
    return 0;
}
