/* The driver of tests/panel with a rule of lost digits of its own in the library's place, in plain C: right, but for the one fault that
 * L1_FAULT names, if it names one. The library still reckons the sums and does the orders, one by one; what is told of the digits, and the
 * stop for them, is of this file. tests/self.sh sees that the checks of numbers and of sessions tell each fault. */
#include "l1.h"

static struct l1_sum wrong_add(uint64_t a, uint64_t b);
static struct l1_sum wrong_sub(uint64_t a, uint64_t b);
static struct l1_ended wrong_run(uint64_t *drum, size_t cells, uint8_t *marks, size_t marks_len, const uint8_t *deck, size_t deck_len,
                                 uint8_t *out, size_t room, uint64_t *state, size_t state_len, uint64_t budget, uint64_t stop);

#define l1_add wrong_add
#define l1_sub wrong_sub
#define l1_run wrong_run
#include "../panel/driver.c"
#undef l1_add
#undef l1_sub
#undef l1_run
#include "fault.h"

#define MINUS 10000000000ul
#define CELLS 1000
#define STATE 9

/* How many digits went in a sum or a difference w of a and b. */
static uint64_t lost(uint64_t a, uint64_t b, uint64_t w)
{
    uint64_t x = a % 100, y = b % 100, z = w % 100, most = x > y ? x : y;

    if (has("smaller-exponent"))
        most = x < y ? x : y;
    if (has("first-exponent"))
        most = x;
    if (has("second-exponent"))
        most = y;
    if (!a || !b || (!w && !has("zero-result")))
        return 0;
    if (has("below-zero"))
        return most - z;
    return most > z ? most - z : 0;
}

/* Whether w is the larger operand, a power of ten, from which the other one was taken. */
static int is_taken_back(uint64_t a, uint64_t b, uint64_t w, int subtracted)
{
    uint64_t larger = a % 100 > b % 100 ? a : b;
    return a && b && (a >= MINUS) == ((b >= MINUS) ^ !subtracted) && w % MINUS == larger % MINUS && w % MINUS / 100 == 10000000;
}

static struct l1_sum told(uint64_t a, uint64_t b, struct l1_sum r, int subtracted)
{
    if (r.number) {
        r.lost = (r.number == 24 && has("told-with-24")) || (r.number == 27 && has("told-with-27"));
        return r;
    }
    r.lost = lost(a, b, r.word);
    if (has("before-rounding") && is_taken_back(a, b, r.word, subtracted))
        r.lost = 1;
    if ((has("above-two-alone") && r.lost < 3) || (has("add-alone") && subtracted) || (has("sub-alone") && !subtracted))
        r.lost = 0;
    if (has("at-most-seven") && r.lost > 7)
        r.lost = 7;
    return r;
}

static struct l1_sum wrong_add(uint64_t a, uint64_t b)
{
    return told(a, b, l1_add(a, b), 0);
}

static struct l1_sum wrong_sub(uint64_t a, uint64_t b)
{
    return told(a, b, l1_sub(a, b), 1);
}

/* An order that may stop the run: its code, whether it is a minus order, the words at A and B, the address C; and what the cells that it
 * stores in hold before. */
struct sum {
    uint64_t code, minus, a, b, c, cell, cell_000;
    uint8_t mark;
};

/* Whether the order at the location is such a one. */
static int is_sum(const uint64_t *cell, const uint8_t *mark, const uint64_t *numbers, struct sum *s)
{
    uint64_t at = numbers[0], w, a, b;

    if (at < 1 || at >= CELLS || !mark[at])
        return 0;
    w = cell[at];
    s->minus = w >= MINUS;
    s->code = w % MINUS / 1000000000;
    a = w / 1000000 % 1000 + s->minus * numbers[1];
    b = w / 1000 % 1000 + s->minus * numbers[2];
    s->c = w % 1000 + s->minus * numbers[3];
    if (s->code < 1 || s->code > (has("products-too") ? 5 : 2) || a >= CELLS || b >= CELLS || s->c >= CELLS)
        return 0;
    s->a = cell[a];
    s->b = cell[b];
    s->cell = cell[s->c];
    s->mark = mark[s->c];
    s->cell_000 = cell[0];
    return 1;
}

/* Whether the run stops behind an order that is done, with the result w. */
static int is_stop(const struct sum *s, uint64_t w, const uint64_t *numbers, uint64_t stop)
{
    if ((has("add-alone") && s->code == 2) || (has("sub-alone") && s->code == 1) || (has("plus-orders-alone") && s->minus) ||
        (has("not-traced") && numbers[7]) || (has("not-while-tracing") && numbers[8]) || (has("traced-alone") && !numbers[7]) ||
        (has("switch-of-1") && stop != 1))
        return 0;
    return lost(s->a, s->b, w) > (has("two-stops") ? 1 : has("three-does-not") ? 3 : 2);
}

/* Tells of a stop. */
static void end(struct l1_ended *r, const struct sum *s, uint64_t *cell, uint8_t *mark, uint64_t *numbers, uint64_t budget)
{
    r->number = has("told-as-01") ? 1 : 3;
    r->shown = has("shows-nothing") ? 0 : has("shows-an-operand") ? s->a : cell[0];
    if (has("02-at-the-end") && r->count == budget)
        r->number = 2, r->shown = 0;
    if (has("not-counted"))
        r->count--;
    if (has("location-stays"))
        numbers[0]--;
    if (has("0-behind-999") && numbers[0] == CELLS)
        numbers[0] = 0;
    if (has("not-stored-at-c") && s->c)
        cell[s->c] = s->cell, mark[s->c] = s->mark;
    if (has("not-stored-at-000") && s->c)
        cell[0] = s->cell_000;
}

static struct l1_ended wrong_run(uint64_t *drum, size_t cells, uint8_t *marks, size_t marks_len, const uint8_t *deck, size_t deck_len,
                                 uint8_t *out, size_t room, uint64_t *state, size_t state_len, uint64_t budget, uint64_t stop)
{
    struct l1_ended all = {2, 0, 0, 0, 0}, one;
    struct sum s;
    int looks = cells == CELLS && marks_len == CELLS && state_len == STATE, may_stop, more = 0;

    /* On RUN all is left to the library, and so is a long run. */
    if (budget < 1 || budget > 1000 || (!stop && !has("on-run")))
        return l1_run(drum, cells, marks, marks_len, deck, deck_len, out, room, state, state_len, budget, stop);
    while (all.count < budget) {
        may_stop = looks && is_sum(drum, marks, state, &s);
        one = l1_run(drum, cells, marks, marks_len, deck, deck_len, out + all.written, room - all.written, state, state_len, 1,
                     may_stop ? 0 : stop);
        all.count += one.count;
        all.written += one.written;
        if (one.number == 27 && may_stop && has("before-27"))
            one.number = 3;
        if (one.number != 2) {
            all.number = one.number;
            all.place = one.place;
            all.shown = one.shown;
            return all;
        }
        if (more)
            break;
        if (may_stop && is_stop(&s, drum[0], state, stop)) {
            end(&all, &s, drum, marks, state, budget);
            if (!has("one-order-more"))
                break;
            more = 1;
        }
    }
    return all;
}
