/* The driver of tests/panel with address changes of its own in the library's place, in plain C: right, but for the one fault that L1_FAULT
 * names, if it names one. tests/self.sh sees that the check of sessions tells each fault. */
#include "stepped.h"

#define MINUS 10000000000l
#define TO_NINE 1000000000l
/* What change answers where the digits are too many or below zero: 20, told apart from that for B. */
#define NO_DIGITS 1020

/* An order of these kinds, 5 for SET, 6 for ADD and 7 for SUB; what the address that it changes is worth; its B and C, and the whole of
 * it, as done; and the machine before it. */
struct order {
    long kind, worth, c, stored_c;
    uint64_t b, stored_b, done;
    uint64_t cell[CELLS], at, counter, tracing;
    uint8_t mark[CELLS];
};

static const struct order *taken(const uint64_t *cell, const uint8_t *mark, const uint64_t *numbers)
{
    static struct order order, *o = &order;
    uint64_t at = numbers[0], w, minus, o2, c;
    size_t i;

    if (at < 1 || at >= CELLS || !mark[at])
        return 0;
    w = cell[at];
    minus = w >= MINUS;
    o2 = w / 1000000 % 1000 + minus * numbers[1];
    o->stored_b = w / 1000 % 1000;
    o->stored_c = (long)(w % 1000);
    o->b = o->stored_b + minus * numbers[2];
    c = w % 1000 + minus * numbers[3];
    if (w % MINUS >= TO_NINE || o2 >= CELLS || o->b >= CELLS || c >= CELLS)
        return 0;
    o->worth = o2 % 10 ? 1 : o2 % 100 ? 1000 : 1000000;
    o->kind = (long)(o2 % 10 ? o2 : o2 % 100 ? o2 / 10 : o2 / 100);
    if (o->kind < 5 || o->kind > 7)
        return 0;
    o->c = (long)c;
    o->done = minus * MINUS + o2 * 1000000 + o->b * 1000 + c;
    for (i = 0; i < CELLS; i++) {
        o->cell[i] = cell[i];
        o->mark[i] = mark[i];
    }
    o->at = at;
    o->counter = numbers[4];
    o->tracing = numbers[8];
    return o;
}

/* d and what is added to it, within the digits below m; what goes beyond them is lost. */
static long within(long d, long by, long m)
{
    return d - d % m + (d % m + by + m) % m;
}

/* How much the order adds to the digits d of a word. */
static long added(const struct order *o, long d, int minus)
{
    long worth = o->worth, c = has("c-of-the-stored-order") ? o->stored_c : o->c, by;

    if (has("a-for-b") && worth == 1000)
        worth = 1000000;
    else if (has("b-for-c") && worth == 1)
        worth = 1000;
    else if (has("c-for-a") && worth == 1000000)
        worth = 1;
    by = c * worth;
    if (o->kind == 5)
        return by - d / worth % 1000 * worth;
    if (o->kind == 7 && !has("add-for-sub"))
        by = -by;
    return has("toward-minus") && minus ? -by : by;
}

/* The digits that the order makes of d; they may be below zero, or more than ten. */
static long digits_behind(const struct order *o, long d, int minus)
{
    long by = added(o, d, minus), m = 1000 * o->worth;

    if (has("wraps-within-the-address") || (has("carry-lost") && by > 0) || (has("borrow-lost") && by < 0) ||
        (has("minus-words-wrap") && minus) || (has("wraps-while-tracing") && o->tracing))
        return within(d, by, m);
    if (has("carry-to-the-next-alone"))
        return within(d, by, 1000 * m);
    if (has("not-into-o1") || (has("c-not-into-o1") && o->worth == 1))
        return within(d, by, TO_NINE);
    if ((has("overflow-wrapped") && by > 0) || (has("below-zero-wrapped") && by < 0))
        return within(d, by, MINUS);
    return d + by;
}

/* Whether the digits x that the order makes of d are refused. */
static int is_refused(const struct order *o, long d, long x)
{
    if ((has("20-at-9999999999") && o->kind == 6 && x == MINUS - 1) || (has("20-at-zero") && o->kind == 7 && x == 0) ||
        (has("20-for-any-carry") && o->kind != 5 && d / o->worth / 1000 != x / o->worth / 1000) ||
        (has("20-for-o1-changed") && d / TO_NINE != x / TO_NINE) ||
        (has("set-judged") && o->kind == 5 && d + o->c * o->worth >= MINUS))
        return 1;
    if (has("into-the-sign") || (has("through-zero") && x < 0) || (has("10000000000-let-in") && x == MINUS))
        return 0;
    return x < 0 || x >= MINUS;
}

/* Changes the word at B, and answers 2; or a refusal. */
static uint64_t change(const struct order *o, uint64_t b, uint64_t *cell, uint8_t *mark)
{
    uint64_t w = has("own-word-as-done") && b == o->at ? o->done : o->cell[b];
    long minus = w >= MINUS, d = (long)(w % MINUS), x = digits_behind(o, d, minus != 0);
    int refused = is_refused(o, d, x);

    if (b == 0 && !has("b-000-let-in"))
        return 20;
    if (has("20-before-21") && refused)
        return NO_DIGITS;
    if (!o->mark[b] && !has("foreign-let-in"))
        return 21;
    if (has("numbers-alone") && w && w % MINUS < TO_NINE)
        return 24;
    if (refused)
        return NO_DIGITS;
    if (has("through-zero") && x < 0) {
        x = -x;
        minus = !minus;
    }
    if (has("sign-lost") || (has("minus-zero-lost") && x == 0))
        minus = 0;
    cell[b] = (uint64_t)(minus * MINUS + x + 2 * MINUS) % (2 * MINUS);
    mark[b] = 1;
    return 2;
}

/* What is told, and left, of an order that is refused for its digits; out has its trace card, if it has one. */
static void refuse(const struct order *o, uint64_t *cell, uint8_t *out, uint64_t *numbers, struct l1_ended *r)
{
    long d = (long)(o->cell[o->b] % MINUS);
    size_t i;

    r->number = has("told-as-21") ? 21 : 20;
    r->count = has("counted-with-20");
    numbers[0] += has("location-moves-with-20");
    if (has("stored-before-20"))
        cell[o->b] = o->cell[o->b] - (uint64_t)d + (uint64_t)within(d, added(o, d, 0), MINUS);
    if (has("counter-taken-back") || has("card-taken-back"))
        numbers[4] = o->counter;
    if (has("card-taken-back")) {
        for (i = 0; i < r->written; i++)
            out[i] = 0xA5;
        r->written = 0;
    }
}

static void replace(const struct order *o, uint64_t *cell, uint8_t *mark, uint8_t *out, uint64_t *numbers, struct l1_ended *r)
{
    size_t i;

    for (i = 0; i < CELLS; i++) {
        cell[i] = o->cell[i];
        mark[i] = o->mark[i];
    }
    numbers[0] = o->at;
    r->number = change(o, has("b-of-the-stored-order") ? o->stored_b : o->b, cell, mark);
    r->count = r->number == 2;
    numbers[0] += r->count;
    if (r->number == NO_DIGITS)
        refuse(o, cell, out, numbers, r);
}
