/* The driver of tests/panel with a check of decks of its own in the library's place, in plain C: right, but for the one fault that
 * L1_FAULT names, if it names one. Load and run are the library's; what refuses a deck there is of this file too. tests/self.sh sees that the
 * checks of decks and of sessions tell each fault. */
#include "l1.h"

static struct l1_place wrong_deck(const uint8_t *deck, size_t deck_len);
static struct l1_place wrong_load(uint64_t *drum, size_t cells, uint8_t *marks, size_t marks_len, const uint8_t *deck, size_t deck_len,
                                  uint64_t *state, size_t state_len, uint64_t traced);
static struct l1_ended wrong_run(uint64_t *drum, size_t cells, uint8_t *marks, size_t marks_len, const uint8_t *deck, size_t deck_len,
                                 uint8_t *out, size_t room, uint64_t *state, size_t state_len, uint64_t budget, uint64_t stop);

#define l1_deck wrong_deck
#define l1_load wrong_load
#define l1_run wrong_run
#include "../panel/driver.c"
#undef l1_deck
#undef l1_load
#undef l1_run
#include "fault.h"

#define LONGEST 65536
#define STATE 9

/* A card of a known kind: as many of its bytes as there are, how long it is when it is whole, its words, of which T has none, and whether
 * T has come before it. */
struct card {
    const uint8_t *bytes;
    size_t held, whole, words;
    int behind_t;
};

static int is_digit(uint8_t byte)
{
    return byte >= '0' && byte <= '9';
}

static int is_sign(uint8_t byte)
{
    return byte == '+' || byte == '-';
}

/* Whether the byte at an offset of a card is the digit or the sign that is due. */
static int fits(const struct card *c, size_t i)
{
    uint8_t byte = has("seven-bits") ? c->bytes[i] & 127 : c->bytes[i];
    size_t behind = 8 + 11 * c->words;

    if (c->words && i >= 8 && i < behind && (i - 8) % 11 == 0)
        return is_sign(byte) || (has("digit-for-a-sign") && is_digit(byte));
    if ((has("any-card-number") && c->words && i < 5) || (has("any-problem-number") && i >= c->whole - 3))
        return 1;
    return is_digit(byte) || (has("sign-for-a-digit") && is_sign(byte)) || (has("58-for-a-digit") && byte == 58) ||
           (has("47-for-a-digit") && byte == 47) || (has("space-for-a-digit") && byte == ' ');
}

/* The offset of the byte of a card that does not fit, or 0. */
static size_t misfit(const struct card *c)
{
    size_t i, found = 0;
    for (i = 1; i < c->held && i < c->whole; i++)
        if (!fits(c, i) && (!found || has("last-bad-byte")))
            found = i;
    return found;
}

/* The offset of the field of a card that is out of range, or 0; and whether that is for its last cell. */
static size_t out_of_range(const struct card *c, int *last)
{
    size_t field = c->words ? 5 : 1, value = 0, i;

    for (i = field; i < field + 3; i++) {
        if (i >= c->held || !is_digit(c->bytes[i]))
            return 0;
        value = 10 * value + (size_t)(c->bytes[i] - '0');
    }
    *last = value && value + c->words > (has("last-cell-refused") ? 999 : 1000);
    if ((has("first-order-not-judged") && !c->words) || (has("location-000-let-in") && c->words && !value) ||
        (has("past-999-let-in") && *last) || (has("location-behind-t-not-judged") && c->words && c->behind_t))
        return 0;
    return !value || *last ? field : 0;
}

/* Whether the line of a number holds of a card, and the offset in it that is told. */
static int holds(uint64_t number, const struct card *c, size_t *told)
{
    int last = 0;

    *told = 0;
    switch (number) {
    case 17:
        return !c->words && c->behind_t && !has("second-t-let-in");
    case 14:
        if (has("14-at-the-end"))
            *told = c->held;
        return c->held < c->whole;
    case 15:
        *told = misfit(c);
        if (!*told)
            return 0;
        if (has("15-at-the-kind"))
            *told = 0;
        return 1;
    default:
        *told = out_of_range(c, &last);
        if (!*told)
            return 0;
        if (has("16-at-the-kind") || (has("past-999-at-the-kind") && last) || (has("first-order-at-the-kind") && !c->words))
            *told = 0;
        if (has("16-at-the-last-digit"))
            *told += 2;
        if (has("past-999-at-the-last-word") && last)
            *told = 8 + 11 * (c->words - 1);
        return 1;
    }
}

/* The numbers of one card in the order of their lines. */
static const uint8_t *lines(void)
{
    static const struct {
        const char *fault;
        uint8_t numbers[4];
    } orders[] = {
        {"17-behind-14", {14, 17, 15, 16}}, {"17-behind-15", {15, 17, 14, 16}}, {"17-behind-16", {16, 17, 14, 15}},
        {"15-before-14", {17, 15, 14, 16}}, {"16-before-14", {17, 16, 14, 15}}, {"16-before-15", {17, 14, 16, 15}},
    };
    static const uint8_t right[4] = {17, 14, 15, 16};
    size_t i;
    for (i = 0; i < sizeof orders / sizeof *orders; i++)
        if (has(orders[i].fault))
            return orders[i].numbers;
    return right;
}

/* The first line that holds of a card, or 0; its place is an offset in the card. */
static struct l1_place of_card(const struct card *c)
{
    const uint8_t *numbers = lines();
    size_t i, told;
    for (i = 0; i < 4; i++)
        if (holds(numbers[i], c, &told))
            return (struct l1_place){numbers[i], told};
    return (struct l1_place){0, 0};
}

/* The length of a card of a kind, or 0 for a kind that no deck holds. */
static size_t length_of(uint8_t kind)
{
    if (has("x-and-z-let-in") && (kind == 'X' || kind == 'Z'))
        return kind == 'X' ? 77 : 24;
    if (kind == 'T')
        return 7;
    return kind >= '1' && kind <= '5' ? 11 + 11 * (size_t)(kind - '0') : 0;
}

/* The first card with a fault, or 0; and whether a T has come before it. */
static struct l1_place of_cards(const uint8_t *bytes, size_t length, int *t)
{
    struct l1_place told = {0, 0}, found;
    size_t at = 0;

    while (at < length) {
        struct card c = {bytes + at, length - at, length_of(bytes[at]), 0, *t};
        if (!c.whole)
            return told.number ? told : (struct l1_place){has("13-as-11") ? 11 : 13, at};
        if (bytes[at] >= '1' && bytes[at] <= '5')
            c.words = (size_t)(bytes[at] - '0');
        found = bytes[at] == 'X' || bytes[at] == 'Z' ? told : of_card(&c);
        if (found.number) {
            told = (struct l1_place){found.number, at + found.place};
            if (!has("later-card"))
                return told;
        }
        *t |= bytes[at] == 'T';
        at += c.whole;
    }
    return told;
}

static struct l1_place wrong_deck(const uint8_t *bytes, size_t length)
{
    struct l1_place too_long = {11, has("11-at-the-length") ? length : LONGEST}, told;
    int t = 0;

    if (length > LONGEST - (has("65536-too-long") ? 1 : 0) && !has("11-behind-the-cards"))
        return too_long;
    told = of_cards(bytes, length, &t);
    if (told.number && !(has("18-before-a-bad-card") && !t))
        return told;
    if (length > LONGEST)
        return too_long;
    if (t || (has("empty-deck-let-in") && !length))
        return (struct l1_place){0, 0};
    return (struct l1_place){18, has("18-at-0") ? 0 : length};
}

static int is_of_deck(uint64_t number)
{
    return number == 11 || (number >= 13 && number <= 18);
}

/* What is told of a deck at an entry: `first` is what the library says there of a deck without cards, so that only 10 comes before it. */
static struct l1_place at_entry(uint64_t first, const uint8_t *deck, size_t deck_len, size_t state_len)
{
    struct l1_place told = wrong_deck(deck, deck_len);
    if (first == 10 && !(told.number && has("deck-before-drum")))
        return (struct l1_place){10, 0};
    if (told.number && state_len != STATE && has("state-before-deck"))
        return (struct l1_place){12, 0};
    return told;
}

static const uint8_t no_card[1];

static struct l1_place wrong_load(uint64_t *drum, size_t cells, uint8_t *marks, size_t marks_len, const uint8_t *deck, size_t deck_len,
                                  uint64_t *state, size_t state_len, uint64_t traced)
{
    struct l1_place r = l1_load(drum, cells, marks, marks_len, no_card, 0, state, state_len, traced);
    struct l1_place told = at_entry(r.number, deck, deck_len, state_len);

    if (told.number) {
        if (has("11-at-load") && is_of_deck(told.number))
            told.number = 11;
        return told;
    }
    r = l1_load(drum, cells, marks, marks_len, deck, deck_len, state, state_len, traced);
    return is_of_deck(r.number) ? told : r;
}

static struct l1_ended wrong_run(uint64_t *drum, size_t cells, uint8_t *marks, size_t marks_len, const uint8_t *deck, size_t deck_len,
                                 uint8_t *out, size_t room, uint64_t *state, size_t state_len, uint64_t budget, uint64_t stop)
{
    struct l1_ended r = l1_run(drum, cells, marks, marks_len, no_card, 0, out, room, state, state_len, budget, stop);
    struct l1_place told = at_entry(r.number, deck, deck_len, state_len);

    if (!told.number)
        r = l1_run(drum, cells, marks, marks_len, deck, deck_len, out, room, state, state_len, budget, stop);
    if (!told.number && !is_of_deck(r.number))
        return r;
    if (has("11-at-run") && is_of_deck(told.number))
        told.number = 11;
    if (has("place-0-at-run"))
        told.place = 0;
    return (struct l1_ended){told.number, told.place, 0, 0, 0};
}
