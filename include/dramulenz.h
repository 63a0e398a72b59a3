/*
 * Dramulenz for C and C++: marking a series by the nine run tests, writing and checking mark sheets, and the nearest
 * square root. Link with libtwin.a, which `rt lib` in crates/twin_c proves and writes there as out/libtwin_c.a (x86-64 Linux).
 *
 * Bytes. `values` has eight bytes a value, the bits of a double with the low byte first; any eight bytes are a value,
 * and each NaN pattern is a NaN. Marks are two bytes a point, low byte first, with test b in bit b:
 *
 *     0 beyond a limit             3 fourteen alternating             6 fifteen within one sigma
 *     1 nine on one side           4 two of three beyond two sigma    7 eight beyond one sigma
 *     2 six in a trend             5 four of five beyond one sigma    8 eight on one side
 *
 * `set` has the tests that are asked for in the same bits: 1 is shewhart, 255 nelson, 305 western_electric.
 *
 * Answers. dramulenz_root answers a double, +0.0 where it refuses. The others answer a word whose bits 0 to 7 are a
 * number:
 *
 *     0 done                                       6 the lent room is shorter than needed
 *     2 values_len is not a multiple of eight      9 the bytes are no sheet
 *     3 a limit or a value is not finite          10 the sheet names another number of points or another set
 *     4 the set is over 511                       11 the sheet states wrong marks
 *     5 there are more than 4,096 values
 *
 * What a caller must pass. Each pointer and the length after it are one array of bytes: memory of that many bytes, all
 * of them initialised (those of `marks` and of the sheet's room too, though none is read there). Until the call returns it
 * stays where it is, nobody else writes it, and nobody else reads it where the call writes to it. The array that a call
 * writes to shares no byte with the other one; two arrays that are only read may. No length is 2^63 or more. Where the
 * length is 0 nothing is read or written through the pointer, and it may be NULL or anything else; NULL with any other
 * length is not allowed. The floating-point mode of the thread is the default one: round to nearest, subnormals kept, no
 * exception trapped. Its stack has room for the call. There is no other condition: every length, every content, every
 * set and every double, NaNs and infinities too, has its answer.
 *
 * The mode. A process begins in the default one. But a program that is linked with -ffast-math flushes subnormals, as
 * may one that loads a library which is, and fesetround has it round otherwise. Answers may then be wrong, and
 * dramulenz_check may accept a false sheet. dramulenz_mode() tells. Who does not know the mode sets the default one, by
 * <fenv.h> (with glibc, link with -lm):
 *
 *     fenv_t kept;
 *     fegetenv(&kept);
 *     fesetenv(FE_DFL_ENV);
 *     answer = dramulenz_check(..);
 *     fesetenv(&kept);
 *
 * That this ends the flushing too was tried with glibc 2.36; with another C library ask dramulenz_mode() before the call.
 *
 * The stack. dramulenz_mark takes up to 47,000 bytes of it, dramulenz_write up to 45,000, dramulenz_check up to 52,000
 * and dramulenz_root up to 100: measured, not proved. host/c/stack.c measures it again.
 *
 * The functions keep nothing between calls and allocate nothing. Of the C library the archive needs memcpy and memset.
 */
#ifndef DRAMULENZ_H
#define DRAMULENZ_H

#include <stddef.h>
#include <stdint.h>

#ifdef __cplusplus
extern "C" {
#endif

/*
 * Marks every point: two bytes a point at the front of `marks`, with test b of the set in bit b exactly where the window
 * of the test that ends at the point fits and shows the test's pattern.
 *
 * Gives 0. Bytes of `marks` past the last one written are untouched, an odd one at the end too.
 *
 * Refuses in this order, with all of `marks` as it came: 2, 5, 4, 3 for the limits, 3 for the values, and 6 where
 * marks_len is less than two bytes a point.
 */
uint64_t dramulenz_mark(const uint8_t *values, size_t values_len, double ucl, double cl, double lcl, uint32_t set,
                        uint8_t *marks, size_t marks_len);

/*
 * Checks the bytes of a mark sheet, whoever made them, against a series, its limits and a set. Writes nothing.
 *
 * Gives 0 exactly if they are the one sheet that dramulenz_write writes for these.
 *
 * Refuses in this order: 2, 5, 4, 3 for the limits, 3 for the values, 9, 10, 11. All bits that are not named are zero.
 *
 *     at 9    bits 8 and up    the place of the first byte of the number at fault, or of the first byte left over
 *     at 11   bits 8 to 23     the first position with wrong marks
 *             bits 24 to 39    the right marks there
 *             bits 40 to 55    the marks that the sheet states there
 */
uint64_t dramulenz_check(const uint8_t *values, size_t values_len, double ucl, double cl, double lcl, uint32_t set,
                         const uint8_t *sheet, size_t sheet_len);

/*
 * Writes the one mark sheet of a series, its limits and a set at the front of `sheet`.
 *
 * Gives the sheet's length in bits 8 and up, with 0 in bits 0 to 7. Bytes of `sheet` past the last one written are
 * untouched. No sheet is longer than 16,390 bytes.
 *
 * Refuses in this order, with all of `sheet` as it came and with zero in bits 8 and up: 2, 5, 4, 3 for the limits, 3 for
 * the values, and 6 where sheet_len is less than the sheet's length.
 */
uint64_t dramulenz_write(const uint8_t *values, size_t values_len, double ucl, double cl, double lcl, uint32_t set,
                         uint8_t *sheet, size_t sheet_len);

/*
 * The square root of x, rounded to the nearest double; the root of +0.0 and of -0.0 is the same zero.
 *
 * Refuses a NaN, an infinity and x below zero, and gives +0.0 then. Of all that it takes, +0.0 alone has that root.
 */
double dramulenz_root(double x);

/*
 * Whether the thread's floating-point mode is another than the default one: 0 where it is the default one, else 1. It
 * makes no difference which exceptions have been raised before.
 *
 * Where it cannot tell it gives 1: on a machine that is neither x86-64 nor aarch64, and with a compiler that does not
 * take GNU's __asm__.
 */
static inline int dramulenz_mode(void)
{
    /* The control word is read, since a compiler may work out arithmetic itself, in the default mode. "memory" keeps the
     * reading between the calls that it stands between. */
#if defined(__GNUC__) && defined(__x86_64__)
    uint32_t word;
    __asm__ __volatile__("stmxcsr %0" : "=m"(word) : : "memory");
    return (word & 0xFFC0) != 0x1F80;
#elif defined(__GNUC__) && defined(__aarch64__)
    uint64_t word;
    __asm__ __volatile__("mrs %0, fpcr" : "=r"(word) : : "memory");
    return word != 0;
#else
    return 1;
#endif
}

#ifdef __cplusplus
}
#endif

#endif
