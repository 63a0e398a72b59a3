/*
 * The floating-point mode, as C meets it: dramulenz_mode tells it, another mode than the default one is a hazard, and
 * <fenv.h> averts that as the header says. host/test builds this twice: plain, and with -ffast-math, by which the
 * process begins with subnormals flushed.
 */
#include <fenv.h>
#include <stdio.h>

#include "dramulenz.h"

#ifdef __FAST_MATH__
enum { FLUSHES = 1 };
#else
enum { FLUSHES = 0 };
#endif

enum { ACCEPTED = 0, WRONG = 11 };

/* 2^-1074, above the limits 0, 0, 0 unless it is flushed: it is then on them. */
static const uint8_t value[8] = {1};
static const uint8_t true_sheet[] = {1, 1, 1, 0, 1};
static const uint8_t false_sheet[] = {1, 1, 0};

static int failures = 0;

static void expect(int holds, const char *what)
{
    if (!holds) {
        fprintf(stderr, "mode.c%s: not so: %s\n", FLUSHES ? ", -ffast-math" : "", what);
        failures++;
    }
}

/* The number that a sheet of the value is answered with. */
static int checked(const uint8_t *sheet, size_t len)
{
    return (int)(dramulenz_check(value, sizeof value, 0.0, 0.0, 0.0, 1, sheet, len) & 0xff);
}

/* In whatever mode this is called: by the header's way, both sheets are answered rightly and the mode is left. */
static void expect_safety(void)
{
    int mode = dramulenz_mode();
    int of_true, of_false, inside;
    fenv_t kept;
    fegetenv(&kept);
    fesetenv(FE_DFL_ENV);
    inside = dramulenz_mode();
    of_true = checked(true_sheet, sizeof true_sheet);
    of_false = checked(false_sheet, sizeof false_sheet);
    fesetenv(&kept);
    expect(inside == 0, "FE_DFL_ENV is the default mode");
    expect(of_true == ACCEPTED, "in it the true sheet is accepted");
    expect(of_false == WRONG, "in it the false sheet is refused");
    expect(dramulenz_mode() == mode, "the mode is put back");
}

int main(void)
{
    static const int others[] = {FE_DOWNWARD, FE_UPWARD, FE_TOWARDZERO};
    size_t i;

    expect(dramulenz_mode() == FLUSHES, "the mode at the start is told");
    expect_safety();
    if (FLUSHES) {
        /* The hazard itself. Were it gone, the header would ask for more than is needed. */
        expect(checked(true_sheet, sizeof true_sheet) == WRONG, "flushing, the true sheet is refused");
        expect(checked(false_sheet, sizeof false_sheet) == ACCEPTED, "flushing, the false sheet is accepted");
    }

    fesetenv(FE_DFL_ENV);
    for (i = 0; i < sizeof others / sizeof *others; i++) {
        fesetround(others[i]);
        expect(dramulenz_mode() == 1, "another rounding is told");
        expect_safety();
        fesetround(FE_TONEAREST);
        expect(dramulenz_mode() == 0, "the default rounding is told");
    }
    return failures != 0;
}
