/* The driver of tests/panel with a root of its own in the library's place, in plain C: Newton's steps in whole numbers, and a last
 * correction. It is right, but for the one fault that L1_FAULT names, if it names one. tests/self.sh sees that the check of roots tells each
 * fault. */
#include "l1.h"

static struct l1_word wrong_sqrt(uint64_t b);

#define l1_sqrt wrong_sqrt
#include "../panel/driver.c"
#undef l1_sqrt
#include "fault.h"

#define MINUS 10000000000ul
#define FIRST 10000000ul
#define LAST 99999999ul

/* The root of n, cut to a whole number. */
static uint64_t cut(uint64_t n)
{
    uint64_t r = 0, bit;
    for (bit = 1ul << 31; bit; bit /= 2)
        if ((r + bit) * (r + bit) <= n)
            r += bit;
    return r;
}

/* The first guess, in units of the root's last digit: 1 + .22 times the leading part, and under an odd exponent that times the root of
 * ten. */
static uint64_t guess(uint64_t m, int odd)
{
    uint64_t x = m * 22 / 100 + (has("guess-without-its-1") ? 0 : FIRST);
    return odd && !has("odd-exponents-unscaled") ? x * 31622777 / FIRST : x;
}

/* Three steps from there: they come to the root, cut, or to one more. */
static uint64_t stepped(uint64_t n, uint64_t x)
{
    int left = has("one-step-too-few") ? 2 : 3;
    while (left--)
        x = (n / x + x) / 2;
    return x;
}

/* The whole number nearest the root of n, where x is that or next to it. */
static uint64_t corrected(uint64_t n, uint64_t x)
{
    uint64_t above = (2 * x + 1) * (2 * x + 1), below = (2 * x - 1) * (2 * x - 1);

    if (above < 4 * n + 2 * has("half-way-up") && !has("never-one-up"))
        return x + 1;
    return below > 4 * n && !has("never-one-down") ? x - 1 : x;
}

/* The eight digits for the root of n, which is the leading part m moved up. */
static uint64_t digits(uint64_t n, uint64_t m, int odd)
{
    uint64_t x = stepped(n, guess(m, odd));

    if (has("cut"))
        return cut(n);
    if (has("always-up"))
        return cut(n) + 1;
    if (has("ninth-digit-5-down"))
        return (cut(100 * n) + 4) / 10;
    if (has("rounded-twice"))
        return ((cut(400 * n) + 1) / 2 + 5) / 10;
    if (has("no-last-correction"))
        return x;
    if (has("last-leading-part-up") && m == LAST && odd)
        return LAST + 1;
    x = corrected(n, x);
    return x - (has("squares-one-less") && x * x == n);
}

/* 0 where b has a root, else the stop number. */
static uint64_t refusal(uint64_t b)
{
    uint64_t m = b % MINUS / 100, e = b % 100;

    if ((has("minus-zero-as-26") && b == MINUS) || (has("26-before-24") && b >= MINUS))
        return 26;
    if (b == 0)
        return has("zero-refused") ? 24 : 0;
    if (b >= 2 * MINUS || (m < FIRST && !has("no-number-let-in")) || (has("first-leading-part-refused") && m == FIRST))
        return 24;
    if (b >= MINUS && !has("minus-let-in"))
        return 26;
    return (has("exponent-00-refused") && e == 0) || (has("exponent-99-refused") && e == 99) ? 27 : 0;
}

static struct l1_word wrong_sqrt(uint64_t b)
{
    uint64_t word = has("not-a-word-let-in") ? b % (2 * MINUS) : b, number = refusal(word);
    uint64_t m = word % MINUS / 100, e = word % 100, odd = e % 2, x;

    if (number || !m)
        return (struct l1_word){number, 0};
    if (has("even-as-odd"))
        odd = 1;
    if (has("odd-as-even"))
        odd = 0;
    x = digits(m * (odd ? LAST + 1 : FIRST), m, odd != 0);
    e = (e + 50 - odd) / 2;
    if ((has("exponent-rounded-up") && odd) || x > LAST)
        e++;
    if (has("exponent-one-off-for-odd") && odd)
        e--;
    return (struct l1_word){0, (x > LAST ? FIRST : x) * 100 + e};
}
