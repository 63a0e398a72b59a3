/*
 * The stack that each call takes, in bytes: prints the most over series, sets, rooms and sheets of every kind, and
 * fails where that is more than the header says. The call runs on a stack of its own, painted before; the lowest byte
 * that is painted over tells its depth, so it is measured and not proved.
 */
#define _XOPEN_SOURCE 700
#include <stdio.h>
#include <string.h>
#include <ucontext.h>

#include "dramulenz.h"

enum { POINTS = 4096, STACK = 1 << 17, PAINT = 0xa5 };
enum { MARK, CHECK, WRITE, ROOT, CALLS };

static const struct {
    const char *name;
    size_t said; /* by the header */
} calls[CALLS] = {
    {"dramulenz_mark", 47000}, {"dramulenz_check", 52000}, {"dramulenz_write", 45000}, {"dramulenz_root", 100}};

/* What is called next, and its answer. Nothing of it lies on the painted stack. */
static int call;
static uint8_t values[8 * (POINTS + 1)];
static size_t values_len;
static uint32_t set;
static uint8_t bytes[16390]; /* the marks or the sheet */
static size_t bytes_len;
static uint64_t answer;

static uint8_t stack[STACK];
static uint8_t *top;
static ucontext_t here, there;
static size_t most[CALLS];

static void make_call(void)
{
    top = (uint8_t *)__builtin_frame_address(0);
    switch (call) {
    case MARK: answer = dramulenz_mark(values, values_len, 28.0, 25.0, 22.0, set, bytes, bytes_len); break;
    case CHECK: answer = dramulenz_check(values, values_len, 28.0, 25.0, 22.0, set, bytes, bytes_len); break;
    case WRITE: answer = dramulenz_write(values, values_len, 28.0, 25.0, 22.0, set, bytes, bytes_len); break;
    case ROOT: answer = (uint64_t)dramulenz_root((double)values_len); break;
    }
}

static void measure(int which, size_t len)
{
    uint8_t *low = stack;
    call = which;
    bytes_len = len;
    memset(stack, PAINT, STACK);
    getcontext(&there);
    there.uc_stack.ss_sp = stack;
    there.uc_stack.ss_size = STACK;
    there.uc_link = &here;
    makecontext(&there, make_call, 0);
    swapcontext(&here, &there);
    while (*low == PAINT)
        low++;
    if (most[which] < (size_t)(top - low))
        most[which] = (size_t)(top - low);
}

/* All calls for the values, with room enough and too little, and with sheets true and false. */
static void measure_all(void)
{
    size_t len;
    measure(ROOT, 0);
    measure(MARK, 0);
    measure(MARK, 2 * POINTS);
    measure(WRITE, 3);
    measure(WRITE, sizeof bytes);
    len = (size_t)(answer >> 8);
    measure(CHECK, len);
    if (len > 0) {
        measure(CHECK, len - 1);
        bytes[len - 1] ^= 1;
        measure(CHECK, len);
        bytes[len - 1] = 0xff;
        measure(CHECK, len);
    }
    memcpy(bytes, "\x80\x20\x01\x00", 4); /* no mark among 4,096 points, by set 1 */
    measure(CHECK, 4);
    measure(CHECK, 0);
}

/* In each `turn` values the first `high` of them are `peak`, and the others 25. */
static void fill(int turn, int high, double peak)
{
    int i;
    for (i = 0; i <= POINTS; i++) {
        double v = i % turn < high ? peak : 25.0;
        memcpy(values + 8 * i, &v, 8);
    }
}

int main(void)
{
    static const struct {
        int turn, high;
        double peak;
    } series[] = {{1, 1, 29.0}, {1, 1, 26.5}, {1, 0, 0.0}, {2, 1, 29.0}, {9, 8, 29.0}, {300, 1, 29.0}, {1, 1, 1.0 / 0.0}};
    static const uint32_t sets[] = {0, 1, 4, 255, 256, 305, 511, 512};
    static const size_t lens[] = {8 * POINTS, 8 * POINTS + 8, 8 * POINTS - 1, 8, 0};
    int within = 1;
    size_t i, j, k;
    for (i = 0; i < sizeof series / sizeof *series; i++) {
        fill(series[i].turn, series[i].high, series[i].peak);
        for (j = 0; j < sizeof sets / sizeof *sets; j++) {
            set = sets[j];
            for (k = 0; k < sizeof lens / sizeof *lens; k++) {
                values_len = lens[k];
                measure_all();
            }
        }
    }
    for (i = 0; i < CALLS; i++) {
        printf("%-16s %6lu bytes of stack\n", calls[i].name, (unsigned long)most[i]);
        within = within && most[i] <= calls[i].said;
    }
    if (!within)
        fprintf(stderr, "stack.c: more than include/dramulenz.h says\n");
    return !within;
}
