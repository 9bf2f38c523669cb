/* The driver of tests/panel with block moves and address tests of its own in the library's place, in plain C: right, but for the one fault that
 * L1_FAULT names, if it names one. tests/self.sh sees that the check of sessions tells each fault. */
#include "stepped.h"

#define MINUS 10000000000ul

/* An order of these kinds, with its addresses as done; and the machine before it. */
struct order {
    uint64_t code, minus, stored_a, a, b, c;
    uint64_t cell[CELLS], at;
    uint8_t mark[CELLS];
};

static const struct order *taken(const uint64_t *cell, const uint8_t *mark, const uint64_t *numbers)
{
    static struct order order, *o = &order;
    uint64_t at = numbers[0], w;
    size_t i;

    if (at < 1 || at >= CELLS || !mark[at])
        return 0;
    w = cell[at];
    o->minus = w >= MINUS;
    o->code = w % MINUS / 1000000000;
    o->stored_a = w / 1000000 % 1000;
    o->a = o->stored_a + o->minus * numbers[1];
    o->b = w / 1000 % 1000 + o->minus * numbers[2];
    o->c = w % 1000 + o->minus * numbers[3];
    if (o->code < 6 || o->a >= CELLS || o->b >= CELLS || o->c >= CELLS || (o->code == 9 && o->a == 0))
        return 0;
    for (i = 0; i < CELLS; i++) {
        o->cell[i] = cell[i];
        o->mark[i] = mark[i];
    }
    o->at = at;
    return o;
}

/* Whether n cells from b on begin at 000 or go past 999. */
static int is_outside(uint64_t b, uint64_t n, int from)
{
    int low = b == 0 && !has(from ? "from-000" : "to-000"), past = has(from ? "source-to-1000" : "destination-to-1000");
    return low || b + n > CELLS + (uint64_t)past;
}

static int is_foreign(const struct order *o, uint64_t b)
{
    uint64_t i;
    for (i = b; i < b + o->a; i++)
        if (i >= CELLS || !o->mark[i])
            return 1;
    return 0;
}

static int holds_no_number(const struct order *o)
{
    uint64_t i;
    for (i = o->b; i < o->b + o->a; i++)
        if (o->cell[i] && o->cell[i] % MINUS < 1000000000)
            return 1;
    return 0;
}

/* Moves the block, and answers 2; or a refusal. */
static uint64_t move(const struct order *o, uint64_t *cell, uint8_t *mark)
{
    uint64_t n = has("block-by-the-stored-a") && o->minus ? o->stored_a : o->a, i, k, w;
    int bad = is_outside(o->b, n, 1) || is_outside(o->c, n, 0), foreign = is_foreign(o, o->b);
    int first_on = has("from-the-first-on"), last_on = has("from-the-last-on");

    if (has("21-before-20") && foreign)
        return 21;
    if (bad)
        return 20;
    if (has("one-source-cell-asked-for"))
        foreign = !o->mark[o->b];
    if (has("destination-asked-for"))
        foreign |= is_foreign(o, o->c);
    if (foreign && !has("stores-before-21"))
        return 21;
    if (has("numbers-alone") && holds_no_number(o))
        return 24;
    if (has("a-word-short"))
        n--;
    for (i = 0; i < n; i++) {
        k = last_on ? n - 1 - i : i;
        w = first_on || last_on ? cell[o->b + k] : o->b + k < CELLS ? o->cell[o->b + k] : 0;
        if (!o->mark[o->b + k] && has("stores-before-21"))
            return 21;
        if (w == MINUS && has("minus-zero-lost"))
            w = 0;
        if (o->c + k < CELLS) {
            cell[o->c + k] = w;
            mark[o->c + k] |= !has("not-marked");
        }
        if (has("source-given-up"))
            mark[o->b + k] = o->b + k >= o->c && o->b + k < o->c + n;
    }
    if (has("first-word-in-000"))
        cell[0] = o->cell[o->b];
    if (has("last-word-in-000"))
        cell[0] = o->cell[o->b + o->a - 1];
    return 2;
}

/* The named address of a word. */
static uint64_t address(uint64_t code, uint64_t w)
{
    return code == 6 ? w / 1000000 % 1000 : code == 7 ? w / 1000 % 1000 : w % 1000;
}

/* Says where the test goes, and answers 2; or a refusal. */
static uint64_t test(const struct order *o, uint64_t *at)
{
    uint64_t code = o->code, w = o->cell[o->a], x;
    int equal;

    if (o->a == 0 && !has("test-of-000"))
        return 20;
    if (!o->mark[o->a] && !has("test-of-a-foreign-cell"))
        return 21;
    if ((has("b-asked-for") && !o->mark[o->b]) || (has("c-asked-for") && !o->mark[o->c]))
        return 21;
    if ((has("a-for-b") && code == 7) || (has("a-for-c") && code == 8))
        code = 6;
    if ((has("b-for-a") && code == 6) || (has("b-for-c") && o->code == 8))
        code = 7;
    if ((has("c-for-a") && o->code == 6) || (has("c-for-b") && o->code == 7))
        code = 8;
    x = address(code, w);
    if (has("two-digits"))
        x %= 100;
    equal = x == o->b || (has("at-least") && x > o->b) || (has("b-of-a-cell") && x == o->cell[o->b] % 1000);
    if (has("minus-unequal") && w >= MINUS)
        equal = 0;
    if (has("equal-to-c"))
        equal = !equal;
    *at = equal ? o->at + 1 : o->c;
    return 2;
}

static void replace(const struct order *o, uint64_t *cell, uint8_t *mark, uint8_t *out, uint64_t *numbers, struct l1_ended *r)
{
    size_t i;

    if (o->code == 9 && r->written && has("a-not-traced"))
        for (i = 0; i < 11; i++)
            out[41 + i] = i ? '0' : '+';
    for (i = 0; i < CELLS; i++) {
        cell[i] = o->cell[i];
        mark[i] = o->mark[i];
    }
    numbers[0] = o->at;
    if (o->code == 9) {
        r->number = has("23") ? 23 : move(o, cell, mark);
        if (r->number == 2)
            numbers[0] += !has("location-stays");
    } else {
        r->number = has("test-23") ? 23 : test(o, &numbers[0]);
    }
    r->count = r->number == 2 && !has("not-counted");
}
