/* Asks the C face for roots, and holds each answer R, of eight digits, against what nearest means: four times the number that R is the root
 * of lies between the squares of 2 R - 1 and 2 R + 1. That number is the leading part, moved up by seven places under an even exponent and by
 * eight under an odd one. With no argument these are the roots of the first 100,000 leading parts and of the last, and of a few under each
 * exponent; the argument all has every leading part tried, 180,000,000 roots. Writes a line for each of the first ten wrong answers, and a
 * last line with the counts. */
#include "l1.h"

int printf(const char *format, ...);
int strcmp(const char *a, const char *b);

#define FIRST 10000000ul
#define LAST 99999999ul
#define AT_AN_END 100000
#define EXPONENTS 100

static uint64_t tried, wrong;

/* Whether the answer is the root of the leading part m under the exponent a. */
static int is_root(struct l1_word r, uint64_t m, uint64_t a)
{
    uint64_t root = r.word / 100, odd = a % 2, four_n = 4 * m * (odd ? 100000000 : 10000000);

    return r.number == 0 && root >= FIRST && root <= LAST && (2 * root - 1) * (2 * root - 1) < four_n &&
           four_n < (2 * root + 1) * (2 * root + 1) && r.word % 100 == (a - odd + 50) / 2;
}

static void ask(uint64_t m, uint64_t a)
{
    struct l1_word r = l1_sqrt(100 * m + a);

    tried++;
    if (is_root(r, m, a))
        return;
    wrong++;
    if (wrong <= 10)
        printf("roots: root of %lu: %lu %lu\n", 100 * m + a, r.number, r.word);
}

/* The leading parts from one to another, under an even exponent and an odd one. */
static void ask_all(uint64_t from, uint64_t to)
{
    uint64_t m;
    for (m = from; m <= to; m++) {
        ask(m, 50);
        ask(m, 51);
    }
}

/* The ends, a square with its neighbours for either kind of exponent, and where 1 + .22 times the leading part is farthest below its
 * root. */
static void ask_each_exponent(void)
{
    static const uint64_t parts[] = {FIRST, FIRST + 1, 24999999, 25000000, 25000001, 39999999, 40000000, 40000001, 45454545, LAST - 1, LAST};
    uint64_t a;
    size_t i;

    for (a = 0; a < EXPONENTS; a++)
        for (i = 0; i < sizeof parts / sizeof *parts; i++)
            ask(parts[i], a);
}

int main(int words, char **word)
{
    if (words == 2 && !strcmp(word[1], "all"))
        ask_all(FIRST, LAST);
    else if (words == 1) {
        ask_all(FIRST, FIRST + AT_AN_END - 1);
        ask_all(LAST - AT_AN_END + 1, LAST);
        ask_each_exponent();
    } else {
        printf("roots: say nothing, or all\n");
        return 2;
    }
    printf("roots: %lu roots, %lu wrong\n", tried, wrong);
    return wrong != 0;
}
