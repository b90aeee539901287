// The start of a benchmark, its clock and its lines, by the system's calls alone.
#include "bare.h"

#ifdef __aarch64__
enum { WRITE = 64, EXIT = 93, CLOCK = 113 };
__asm__(".globl _start\n_start: bl start\n");

static long call(long number, long a, long b, long c) {
    register long x8 __asm__("x8") = number, x0 __asm__("x0") = a, x1 __asm__("x1") = b, x2 __asm__("x2") = c;
    __asm__ volatile("svc 0" : "+r"(x0) : "r"(x8), "r"(x1), "r"(x2) : "memory");
    return x0;
}
#else
enum { WRITE = 1, EXIT = 60, CLOCK = 228 };
__asm__(".globl _start\n_start: call start\n");

static long call(long number, long a, long b, long c) {
    __asm__ volatile("syscall" : "+a"(number) : "D"(a), "S"(b), "d"(c) : "rcx", "r11", "memory");
    return number;
}
#endif

u64 nanoseconds(void) {
    u64 t[2];
    call(CLOCK, 1, (long)t, 0);
    return t[0] * 1000000000 + t[1];
}

void say(const char *text) {
    size_t n = 0;
    while (text[n]) n++;
    call(WRITE, 1, (long)text, n);
}

void say_hundredths(u64 x) {
    char digits[24];
    size_t i = sizeof digits - 1;
    digits[i] = 0;
    for (int place = 0; place < 4 || x; place++) {
        if (place == 2) digits[--i] = '.';
        else { digits[--i] = '0' + x % 10; x /= 10; }
    }
    say(digits + i);
}

void start(void) {
    call(EXIT, run(), 0, 0);
}
