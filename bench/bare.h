// What a benchmark needs of the machine, with no C library: numbers, a start, a clock, a line of text.
typedef unsigned long size_t;
typedef unsigned long u64;
typedef unsigned short u16;

// The benchmark itself; what it gives is the program's exit status.
int run(void);

u64 nanoseconds(void);
void say(const char *text);

// x / 100, with two places.
void say_hundredths(u64 x);
