/* The driver of tests/panel with a making of its own in the library's place, in plain C: right, but for the one fault that L1_FAULT names,
 * if it names one. tests/self.sh sees that the check of makings tells each of them. */
#include "l1.h"

static struct l1_made wrong_make(const uint64_t *drum, size_t cells, const uint8_t *marks, size_t marks_len, uint8_t *out, size_t room,
                                 uint64_t first, uint64_t problem);

#define l1_make wrong_make
#include "../panel/driver.c"
#include "fault.h"

#define LAST 999
#define LARGEST 19999999999ul

static uint8_t cards[16384];
static size_t cards_end;

static void put_byte(char byte)
{
    cards[cards_end++] = (uint8_t)byte;
}

static void put_digits(uint64_t number, size_t width)
{
    size_t i;
    for (i = width; i > 0; i--, number /= 10)
        cards[cards_end + i - 1] = (uint8_t)('0' + number % 10);
    cards_end += width;
}

static void put_card(const uint64_t *words, size_t location, size_t count, uint64_t card, uint64_t problem)
{
    size_t i;

    put_byte((char)('0' + count));
    put_digits(has("card-numbers-of-a-byte") ? card % 256 : card, 4);
    put_digits(location, 3);
    for (i = 0; i < count; i++) {
        uint64_t digits = words[i] % 10000000000ul;
        put_byte(words[i] < 10000000000ul || (has("no-minus-zero") && !digits) ? '+' : '-');
        put_digits(digits, 10);
    }
    put_digits(has("problem-on-the-last-card-alone") ? 0 : problem, 3);
}

/* Whether a cell goes on a card. */
static int is_taken(const uint64_t *drum, const uint8_t *marks, size_t cell)
{
    if (cell == LAST && has("without-999"))
        return 0;
    if (marks[cell])
        return 1;
    return has("unmarked-let-in") && cell > 1 && cell < LAST && marks[cell - 1] && marks[cell + 1] && drum[cell] <= LARGEST;
}

static void put_cards(const uint64_t *drum, const uint8_t *marks, uint64_t first, uint64_t problem)
{
    size_t cell = has("with-000") ? 0 : 1, most = has("cards-of-four") ? 4 : 5;
    uint64_t card = has("numbered-from-0") ? 0 : 1;

    cards_end = 0;
    while (cell <= LAST) {
        size_t run = 0, count;
        while (cell + run <= LAST && is_taken(drum, marks, cell + run))
            run++;
        if (has("rest-first") && run % most) {
            put_card(drum + cell, cell, run % most, card++, problem);
            cell += run % most;
            run -= run % most;
        }
        for (; run; run -= count, cell += count) {
            count = run < most ? run : most;
            put_card(drum + cell, cell, count, card++, problem);
        }
        cell++;
    }
    put_byte('T');
    put_digits(first, 3);
    put_digits(problem, 3);
}

static int is_ten(const uint64_t *drum, size_t cells, const uint8_t *marks, size_t marks_len)
{
    size_t i;

    if (cells != 1000 && !(cells > 1000 && has("long-drum")))
        return 1;
    if (marks_len != 1000 && !(marks_len > 1000 && has("long-marks")))
        return 1;
    for (i = has("000-not-judged") ? 1 : 0; i < 1000; i++) {
        if (marks[i] > 1 && !has("any-mark"))
            return 1;
        if ((marks[i] || has("unmarked-judged")) && drum[i] > LARGEST - (has("largest-word") ? 1 : 0))
            return !has("any-number");
    }
    return 0;
}

static int is_twelve(const uint8_t *marks, uint64_t first, uint64_t problem)
{
    if (has("first-of-16-bits"))
        first %= 1ul << 16;
    if (has("first-of-32-bits"))
        first %= 1ul << 32;
    if (has("problem-of-16-bits"))
        problem %= 1ul << 16;
    if (has("problem-of-32-bits"))
        problem %= 1ul << 32;
    if ((first == 0 && !has("first-0")) || (first > LAST && !(first == 1000 && has("first-1000"))))
        return 1;
    if (problem > 999 && !(problem == 1000 && has("problem-1000")))
        return 1;
    return has("first-marked") && !marks[first];
}

static struct l1_made wrong_make(const uint64_t *drum, size_t cells, const uint8_t *marks, size_t marks_len, uint8_t *out, size_t room,
                                 uint64_t first, uint64_t problem)
{
    const struct l1_made ten = {10, 0}, twelve = {12, 0}, twenty_two = {22, 0};

    if (has("12-before-10") && is_twelve(marks, first, problem))
        return twelve;
    if (has("22-before-10") && room < sizeof "T001000" - 1)
        return twenty_two;
    if (is_ten(drum, cells, marks, marks_len))
        return ten;
    put_cards(drum, marks, first, problem);
    if (has("22-before-12") && cards_end > room)
        return twenty_two;
    if (is_twelve(marks, first, problem))
        return twelve;
    if (cards_end > room || (has("room-to-spare") && cards_end == room)) {
        if (has("written-then-refused"))
            memcpy(out, cards, room);
        return (struct l1_made){22, has("length-told-with-22") ? cards_end : 0};
    }
    memcpy(out, cards, cards_end);
    if (has("byte-past-the-deck") && cards_end < room)
        out[cards_end] = 0;
    if (has("drum-changed"))
        ((uint64_t *)drum)[0] = 0;
    if (has("marks-changed"))
        ((uint8_t *)marks)[0] = 1;
    return (struct l1_made){0, has("first-order-card-not-told") ? cards_end - 7 : cards_end};
}
