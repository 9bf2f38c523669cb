/* The driver of tests/panel with runs that are done order by order: the library does every order, and what it left of one that the file at hand
 * takes for its own is then put aside for what that file makes of it. A long run is left to the library. */
#include "l1.h"
#include "fault.h"

#define CELLS 1000
#define STATE 9

/* The order at the location with the machine before it, if it is one of the file's own, else null. */
struct order;
static const struct order *taken(const uint64_t *cell, const uint8_t *mark, const uint64_t *numbers);

/* What the file makes of the order, in place of what the library made of it; out has its trace card, if it has one. */
static void replace(const struct order *o, uint64_t *cell, uint8_t *mark, uint8_t *out, uint64_t *numbers, struct l1_ended *r);

static struct l1_ended wrong_run(uint64_t *drum, size_t cells, uint8_t *marks, size_t marks_len, const uint8_t *deck, size_t deck_len,
                                 uint8_t *out, size_t room, uint64_t *state, size_t state_len, uint64_t budget, uint64_t stop)
{
    struct l1_ended all = {2, 0, 0, 0, 0}, one;
    const struct order *o;
    int looks = cells == CELLS && marks_len == CELLS && state_len == STATE;

    if (budget < 1 || budget > 1000)
        return l1_run(drum, cells, marks, marks_len, deck, deck_len, out, room, state, state_len, budget, stop);
    while (all.count < budget) {
        o = looks ? taken(drum, marks, state) : 0;
        one = l1_run(drum, cells, marks, marks_len, deck, deck_len, out + all.written, room - all.written, state, state_len, 1, stop);
        if (o && (one.number == 2 || one.number == 20 || one.number == 21))
            replace(o, drum, marks, out + all.written, state, &one);
        all.count += one.count;
        all.written += one.written;
        if (one.number != 2) {
            all.number = one.number;
            all.place = one.place;
            all.shown = one.shown;
            return all;
        }
        if (!one.count)
            return all;
    }
    return all;
}

#define l1_run wrong_run
#include "../panel/driver.c"
#undef l1_run
