/* A table of calls of the C face with what the paper says of each: P1 to P10 of its table, the turns of its rules, roots, decks, the paper's
 * session, runs that stop for lost digits, block moves and address tests, address changes, calls that are refused at their entry, and decks
 * made of drums. Writes a line for each wrong answer, and a last line with the counts. */
#include "l1.h"

int printf(const char *format, ...);

static int tried, wrong;

/* One call and what it must answer. */
static void expect(const char *what, uint64_t number, uint64_t value, uint64_t must_number, uint64_t must_value)
{
    tried++;
    if (number == must_number && value == must_value)
        return;
    wrong++;
    printf("panel: %s: %lu %lu, and it must be %lu %lu\n", what, number, value, must_number, must_value);
}

#define MINUS 10000000000ul
#define ONE 1000000050ul
#define TWO 2000000050ul
#define THREE 3000000050ul

typedef struct l1_sum sum_of(uint64_t a, uint64_t b);
typedef struct l1_word of_two(uint64_t a, uint64_t b);
typedef struct l1_word of_one(uint64_t b);

static const struct {
    const char *what;
    sum_of *call;
    uint64_t a, b, number, word, lost;
} sums[] = {
    {"P1, 1 + 1", l1_add, ONE, ONE, 0, TWO, 0},
    {"P2, 1 - 1", l1_sub, ONE, ONE, 0, 0, 0},
    {"P5, a sum that carries", l1_add, 9999999950, 5000000042, 0, 1000000051, 0},
    {"P6, a sum that carries out of range", l1_add, 9999999999, 5000000091, 27, 0, 0},

    {"0 + 0", l1_add, 0, 0, 0, 0, 0},
    {"0 - 0", l1_sub, 0, 0, 0, 0, 0},
    {"0 + 3", l1_add, 0, THREE, 0, THREE, 0},
    {"3 - 0", l1_sub, THREE, 0, 0, THREE, 0},
    {"1 + -1", l1_add, ONE, MINUS + ONE, 0, 0, 0},
    {"-1 + -1", l1_add, MINUS + ONE, MINUS + ONE, 0, MINUS + TWO, 0},
    {"0 - 1", l1_sub, 0, ONE, 0, MINUS + ONE, 0},
    {"1 - -1", l1_sub, ONE, MINUS + ONE, 0, TWO, 0},
    {"1 - 3", l1_sub, ONE, THREE, 0, MINUS + TWO, 0},

    {"1 - 0.9", l1_sub, ONE, 9000000049, 0, 1000000049, 1},
    {"1 - 0.99", l1_sub, ONE, 9900000049, 0, 1000000048, 2},
    {"1 - 0.999", l1_sub, ONE, 9990000049, 0, 1000000047, 3},
    {"0.999 - 1", l1_sub, 9990000049, ONE, 0, MINUS + 1000000047, 3},
    {"-0.999 + 1", l1_add, MINUS + 9990000049, ONE, 0, 1000000047, 3},
    {"1 + 0.999", l1_add, ONE, 9990000049, 0, 1999000050, 0},
    {"1.2345678 - 1.2345600", l1_sub, 1234567850, 1234560050, 0, 7800000044, 6},
    {"-1.2345678 - -1.2345600", l1_sub, MINUS + 1234567850, MINUS + 1234560050, 0, MINUS + 7800000044, 6},
    {"1.2345678 - -1.2345600", l1_sub, 1234567850, MINUS + 1234560050, 0, 2469127850, 0},
    {"the last digit of eight is left", l1_add, 1000000150, MINUS + ONE, 0, 1000000043, 7},
    {"the last digit of nine is left", l1_sub, ONE, 9999999949, 0, 1000000042, 8},
    {"equals, with the highest exponent", l1_sub, 1234567899, 1234567899, 0, 0, 0},
    {"9.9999999 - 9", l1_sub, 9999999950, 9000000050, 0, 9999999049, 1},
    {"a sum that rises", l1_add, 9999999950, 9999999950, 0, 2000000051, 0},
    {"a difference at the lowest exponent", l1_sub, 1234567806, 1234560006, 0, 7800000000, 6},
    {"a difference just below it", l1_sub, 1234567805, 1234560005, 27, 0, 0},

    {"half a unit below one", l1_sub, ONE, 5000000041, 0, ONE, 0},
    {"a little more below one", l1_sub, ONE, 5000000141, 0, 9999999949, 1},
    {"a little less than P6", l1_add, 9999999999, 4999999991, 0, 9999999999, 0},
    {"an operand far below the other", l1_add, 1000000099, 9999999900, 0, 1000000099, 0},
    {"a difference below the range", l1_sub, 1000000100, 1000000000, 27, 0, 0},

    {"minus zero first", l1_add, MINUS, ONE, 24, 0, 0},
    {"minus zero second", l1_sub, ONE, MINUS, 24, 0, 0},
    {"the largest word", l1_sub, 19999999999, 19999999999, 0, 0, 0},
    {"above the largest word", l1_add, 20000000000, ONE, 24, 0, 0},
    {"one in two signs", l1_add, 2 * MINUS + ONE, ONE, 24, 0, 0},
};

static const struct {
    const char *what;
    of_two *call;
    uint64_t a, b, number, word;
} twos[] = {
    {"P3, 1 / 3", l1_div, ONE, THREE, 0, 3333333349},
    {"P4, 2 / 3", l1_div, TWO, THREE, 0, 6666666749},
    {"P7, a product below the range", l1_mpy, 1000000000, 1000000049, 27, 0},
    {"P8, 0 / 0", l1_div, 0, 0, 25, 0},
    {"P9, code 5 on 2 and 3", l1_ngmpy, TWO, THREE, 0, MINUS + 6000000050},

    {"0 times -1", l1_mpy, 0, MINUS + ONE, 0, 0},
    {"code 5 on 0 and 1", l1_ngmpy, 0, ONE, 0, 0},
    {"code 5 on -2 and 3", l1_ngmpy, MINUS + TWO, THREE, 0, 6000000050},
    {"-2 times -3", l1_mpy, MINUS + TWO, MINUS + THREE, 0, 6000000050},
    {"1 / -3", l1_div, ONE, MINUS + THREE, 0, MINUS + 3333333349},
    {"0 / 3", l1_div, 0, THREE, 0, 0},
    {"1 / 0", l1_div, ONE, 0, 25, 0},

    {"a product's half, upward", l1_mpy, 1000000150, 1500000050, 0, 1500000250},
    {"a product's half, downward", l1_mpy, MINUS + 1000000150, 1500000050, 0, MINUS + 1500000250},
    {"in range by rounding", l1_mpy, 1000000100, 9999999049, 0, 1000000000},
    {"the lowest quotient", l1_div, 1000000000, 1000000050, 0, 1000000000},
    {"a quotient below the range", l1_div, 1000000000, 1000000051, 27, 0},
    {"a quotient above the range", l1_div, 1000000099, 1000000049, 27, 0},
    {"a product above the range", l1_ngmpy, 9999999999, 9999999999, 27, 0},

    {"a first digit of zero", l1_mpy, 999999999, ONE, 24, 0},
    {"a first digit of zero, minus", l1_ngmpy, ONE, MINUS + 999999999, 24, 0},
    {"the number before zero divisor", l1_div, 1, 0, 24, 0},
    {"above the largest word, second", l1_mpy, ONE, 20000000000, 24, 0},
    {"the largest of 64 bits", l1_div, ONE, 18446744073709551615ul, 24, 0},
};

static const struct {
    const char *what;
    of_one *call;
    uint64_t b, number, word;
} ones[] = {
    {"P10, root of 2", l1_sqrt, TWO, 0, 1414213650},

    {"root of 0", l1_sqrt, 0, 0, 0},
    {"root of 4", l1_sqrt, 4000000050, 0, TWO},
    {"root of 10", l1_sqrt, 1000000051, 0, 3162277750},
    {"root of the lowest", l1_sqrt, 1000000000, 0, 1000000025},
    {"root of -1", l1_sqrt, MINUS + ONE, 26, 0},
    {"root of the largest word", l1_sqrt, 19999999999, 26, 0},
    {"root of minus zero", l1_sqrt, MINUS, 24, 0},
    {"root of a first digit of zero", l1_sqrt, 999999999, 24, 0},
    {"root of a first digit of zero, minus", l1_sqrt, MINUS + 999999999, 24, 0},
    {"root of an exponent alone", l1_sqrt, 50, 24, 0},
    {"root of no word", l1_sqrt, 2 * MINUS + ONE, 24, 0},
    {"root of the largest of 64 bits", l1_sqrt, 18446744073709551615ul, 24, 0},
    {"magnitude of 0", l1_abs, 0, 0, 0},
    {"magnitude of 1", l1_abs, ONE, 0, ONE},
    {"magnitude of -1", l1_abs, MINUS + ONE, 0, ONE},
    {"magnitude of the largest word", l1_abs, 19999999999, 0, 9999999999},
    {"magnitude of minus zero", l1_abs, MINUS, 24, 0},
    {"magnitude of no word", l1_abs, 20000000000, 24, 0},
};

/* Roots, each worked out apart from this library and seen to be right by squares. R is the root in units of its last digit, and n what it
 * is the root of: the leading part moved up by seven places under an even exponent, and by eight under an odd one. */
static const struct {
    uint64_t b, word;
} roots[] = {
    /* Both ends of the leading part under an even exponent, and under an odd one. */
    {1000000050, 1000000050}, {1000000150, 1000000050}, {1000000250, 1000000150},
    {9999999750, 3162277650}, {9999999850, 3162277650}, {9999999950, 3162277650},
    {1000000051, 3162277750}, {1000000151, 3162277850}, {1000000251, 3162278050},
    {9999999751, 9999999850}, {9999999851, 9999999950}, {9999999951, 9999999950},

    /* The same under the lowest exponents and the highest. */
    {1000000000, 1000000025}, {9999999900, 3162277625}, {1000000001, 3162277725}, {9999999901, 9999999925},
    {1000000098, 1000000074}, {9999999998, 3162277674}, {1000000099, 3162277774}, {9999999999, 9999999974},

    /* Squares, each with its two neighbours, under even exponents and under odd ones. */
    {1002000950, 1001000050}, {1002001050, 1001000050}, {1002001150, 1001000050},
    {3999999950, 2000000050}, {4000000050, 2000000050}, {4000000150, 2000000050},
    {9998243950, 3162000050}, {9998244050, 3162000050}, {9998244150, 3162000050},
    {1000456851, 3162999850}, {1000456951, 3163000050}, {1000457051, 3163000250},
    {2499999951, 4999999950}, {2500000051, 5000000050}, {2500000151, 5000000150},
    {9998000051, 9998999950}, {9998000151, 9999000050}, {9998000251, 9999000150},

    /* Every n that is R (R + 1), which is as near half way as one comes from below, but for two at the ends above. */
    {1661682050, 1289062450}, {2927307350, 1710937550}, {3999999850, 1999999950}, {4000000250, 2000000050},
    {5239806950, 2289062450}, {7349182450, 2710937550}, {8999999750, 2999999950}, {9000000350, 3000000050},
    {7588043351, 8710937550},

    /* Every n that is 8 more than the product of R and the number before it, which is as near as one comes from above. */
    {1099634050, 1048634450}, {1657149450, 1287303250}, {2933330550, 1712696950}, {3807827950, 1951365750},
    {4196902750, 2048634450}, {5231755750, 2287303250}, {7358724250, 2712696950}, {8710559250, 2951365750},
    {9294171450, 3048634450}, {1080636251, 3287303250}, {4506029951, 6712696950}, {8012694751, 8951365750},

    /* Where 1 + .22 times the leading part is farthest below its root; and the first and the last for which three of Newton's steps from
     * that guess, in whole numbers, come to one more than R. */
    {4545454550, 2132007250}, {4545454551, 6741998650}, {1000001051, 3162279250}, {1012999451, 3182765150},
};

static void root_once(uint64_t b, uint64_t word)
{
    static char what[] = "root of +0000000000";
    struct l1_word r = l1_sqrt(b);
    size_t i;

    for (i = sizeof what - 2; what[i] != '+'; i--, b /= 10)
        what[i] = (char)('0' + b % 10);
    expect(what, r.number, r.word, 0, word);
}

#define CARDS "30001101+1200201202+0410202202+000020200000720002200+1000000050+2000000050007"
#define ONE_WORD "10001001+0000000000007"
#define TWO_WORDS "+0000000000-0000000000"
#define FOUR_WORDS TWO_WORDS TWO_WORDS
#define SIX_WORDS TWO_WORDS FOUR_WORDS

static const struct {
    const char *what, *deck;
    uint64_t number, place;
} decks[] = {
    {"the deck of the paper's session", CARDS "T101007", 0, 0},
    {"a first-order card alone", "T001000", 0, 0},
    {"a card behind the first-order card", "T999999" ONE_WORD, 0, 0},
    {"the last cell", "10000999-9999999999000T101007", 0, 0},
    {"the last five cells", "50000995" FOUR_WORDS "-0000000000000T101007", 0, 0},
    {"the last two cells, behind the first-order card", "T101007" "20000998" TWO_WORDS "000", 0, 0},

    {"a kind of 0", "0" "T101007", 13, 0},
    {"a kind of 6", "T101007" "6", 13, 7},
    {"a line end", "T101007\n", 13, 7},
    {"a small t", ONE_WORD "t101007", 13, 22},
    {"a trace card", "X0001101" SIX_WORDS "007T101007", 13, 0},
    {"a trace card that is cut short", "X", 13, 0},
    {"a stop card", "T101007" "Z000103000003+3000000050", 13, 7},
    {"a kind of 177, which is 1 and the highest bit", "\261" "0001001+0000000000007", 13, 0},

    {"a first-order card that is cut short", ONE_WORD "T10100", 14, 22},
    {"the kind of a first-order card alone", "T", 14, 0},
    {"a data card that is cut short", "T101007" "10001001+000000000000", 14, 7},
    {"the kind of a data card alone", ONE_WORD "5", 14, 22},
    {"a card of five words with the length of four", "50001001" FOUR_WORDS "007", 14, 0},
    {"cut short, with a byte that does not fit", "1000x001", 14, 0},
    {"cut short, with location 000", "10001000+0000000000", 14, 0},

    {"a letter in a card number", "1000a001+0000000000007T101007", 15, 4},
    {"a space in a location", "10001 01+0000000000007T101007", 15, 5},
    {"a space for a sign", "10001001 0000000000007T101007", 15, 8},
    {"a digit for a sign", "1000100100000000000007T101007", 15, 8},
    {"a sign for a digit", "10001001++000000000007T101007", 15, 9},
    {"no sign in a second word", "20001001+000000000000000000000007T101007", 15, 19},
    {"a letter in a word of the second card", ONE_WORD "10001001+00000000x0007T101007", 15, 39},
    {"a letter in a problem number", "10001001+000000000000bT101007", 15, 21},
    {"a point in a first order", "T1.1007", 15, 2},
    {"a line end for the last digit", "T10100\n", 15, 6},
    {"the byte below the digits", "T/01007", 15, 1},
    {"the byte above the digits", "T10100:", 15, 6},
    {"a digit with the highest bit", "T10\2610007", 15, 3},
    {"two bytes that do not fit", "10001001-00x0000000y07T101007", 15, 11},
    {"a sign that does not fit before a digit", "10001001*00x0000000007T101007", 15, 8},
    {"a bad byte behind location 000", "10001000+00x0000000007T101007", 15, 11},
    {"a bad byte before a location past 999", "2a001999" TWO_WORDS "007T101007", 15, 1},
    {"a bad byte behind first order 000", "T00000a", 15, 6},

    {"location 000", "10001000+0000000000007T101007", 16, 5},
    {"location 000 behind the first-order card", "T101007" "10001000+0000000000007", 16, 12},
    {"two words past cell 999", "20001999" TWO_WORDS "007T101007", 16, 5},
    {"four words past cell 999", ONE_WORD "40001997" FOUR_WORDS "007T101007", 16, 27},
    {"five words past cell 999", "T101007" "50001996" FOUR_WORDS "+0000000000007", 16, 12},
    {"first order 000", "T000007", 16, 1},
    {"first order 000 behind a card", ONE_WORD "T000007", 16, 23},

    {"two first-order cards", "T101007T101007", 17, 7},
    {"a second first-order card behind a card", "T101007" ONE_WORD "T101007", 17, 29},
    {"a second first-order card that is cut short", "T101007T", 17, 7},
    {"a second first-order card with a letter", "T101007Txxxxxx", 17, 7},
    {"a second first-order card of 000", "T101007T000000", 17, 7},

    {"no card", "", 18, 0},
    {"no first-order card", CARDS, 18, 77},

    {"a fault before a second first-order card", "T101007" "10001000+0000000000007" "T101007", 16, 12},
    {"a second first-order card before a fault", "T101007" "T101007" "10001000+0000000000007", 17, 7},
    {"16 in one card, 13 in the next", "10001000+0000000000007" "?", 16, 5},
    {"15 in one card, 14 in the next", "T101007" "10001001+000000000x007" "1000", 15, 25},
    {"a bad first-order card, and another", "T000007" "T101007", 16, 1},
    {"a bad card, and no first-order card", ONE_WORD "10001000+0000000000007", 16, 27},
};

static size_t length(const char *text)
{
    size_t n = 0;
    while (text[n])
        n++;
    return n;
}

#define LONGEST 65536
#define COUNT(table) (sizeof(table) / sizeof(table)[0])

/* Decks of one-word cards behind a first-order card, with some bytes of the last card left out, at the longest length and past it. */
static void long_decks(void)
{
    static uint8_t deck[LONGEST + 22];
    const char *first = "T101007", *card = ONE_WORD;
    size_t n = length(first), k = length(card), i;
    struct l1_place r;

    for (i = 0; i < sizeof deck; i++)
        deck[i] = (uint8_t)(i < n ? first[i] : card[(i - n) % k]);
    size_t whole = n + (LONGEST - n) / k * k;
    r = l1_deck(deck, whole);
    expect("the most one-word cards", r.number, r.place, 0, 0);
    r = l1_deck(deck, LONGEST);
    expect("the longest deck, its last card cut short", r.number, r.place, 14, whole);
    r = l1_deck(deck, LONGEST + 1);
    expect("a byte more", r.number, r.place, 11, LONGEST);
    r = l1_deck(deck, whole + k);
    expect("a card more", r.number, r.place, 11, LONGEST);
    r = l1_deck(deck + n, whole - n);
    expect("the most one-word cards, and no first-order card", r.number, r.place, 18, whole - n);
    deck[whole - 1] = 'x';
    r = l1_deck(deck, whole);
    expect("a letter in the last byte of all", r.number, r.place, 15, whole - 1);
    deck[0] = '?';
    r = l1_deck(deck, LONGEST);
    expect("a bad kind before it", r.number, r.place, 13, 0);
    r = l1_deck(deck, LONGEST + 1);
    expect("the length before all cards", r.number, r.place, 11, LONGEST);
}

/* ---- load and run. Cells that no card names are foreign, and hold numbers that are no words. */

#define CELLS 1000
#define ROOM 160
#define STATE 9
#define FOREIGN 18446744073709551615ul
#define UNTOUCHED 0xA5

static uint64_t drum[CELLS + 1], state[STATE + 1];
static uint8_t marks[CELLS + 1], out[ROOM];
static const char *const session = CARDS "T101007";

static void clear(void)
{
    size_t i;

    for (i = 0; i <= CELLS; i++) {
        drum[i] = FOREIGN - i;
        marks[i] = 0;
    }
    for (i = 0; i < ROOM; i++)
        out[i] = UNTOUCHED;
    for (i = 0; i <= STATE; i++)
        state[i] = FOREIGN - i;
}

static struct l1_place load(const char *deck, size_t cells, size_t numbers, uint64_t traced)
{
    return l1_load(drum, cells, marks, CELLS, (const uint8_t *)deck, length(deck), state, numbers, traced);
}

static struct l1_ended run(const char *deck, size_t cells, size_t numbers, size_t room, uint64_t budget, uint64_t stop)
{
    return l1_run(drum, cells, marks, CELLS, (const uint8_t *)deck, length(deck), out, room, state, numbers, budget, stop);
}

static void expect_state(const char *what, const uint64_t *must)
{
    size_t i;
    for (i = 0; i < STATE; i++)
        expect(what, i, state[i], i, must[i]);
}

/* That the output holds a text, and what it held before behind it. */
static void expect_out(const char *what, const char *text)
{
    size_t i, n = length(text), same = 0;
    for (i = 0; i < ROOM; i++)
        same += out[i] == (i < n ? (uint8_t)text[i] : UNTOUCHED);
    expect(what, 0, same, 0, ROOM);
}

static void expect_ended(const char *what, struct l1_ended r, uint64_t number, uint64_t place, uint64_t count, uint64_t shown,
                         uint64_t written)
{
    expect(what, r.number, r.place, number, place);
    expect(what, r.count, r.shown, count, shown);
    expect(what, r.written, 0, written, 0);
}

/* That nothing lent has changed since clear, but for the cells and marks up to a place. */
static void expect_untouched(const char *what, size_t from)
{
    size_t i, changed = 0;
    for (i = from; i <= CELLS; i++)
        changed += drum[i] != FOREIGN - i || marks[i] != 0;
    for (i = 0; i <= STATE; i++)
        changed += state[i] != FOREIGN - i;
    expect(what, 0, changed, 0, 0);
    expect_out(what, "");
}

static void paper_session(void)
{
    static const uint64_t loaded[STATE] = {101, 0, 0, 0, 0, 7, 84, 0, 0};
    static const uint64_t ended[STATE] = {103, 0, 0, 0, 1, 7, 84, 0, 0};
    const char *what = "the paper's session";
    struct l1_place l;
    struct l1_ended r;
    size_t i, owned = 0, kept = 0;

    clear();
    l = load(session, CELLS, STATE, 0);
    expect(what, l.number, l.place, 0, 0);
    expect_state(what, loaded);
    expect(what, marks[0], drum[0], 1, 0);
    expect(what, marks[202], drum[202], 0, FOREIGN - 202);
    r = run(session, CELLS, STATE, ROOM, 1, 1);
    expect_ended("its first order", r, 2, 0, 1, 0, 0);
    r = run(session, CELLS, STATE, ROOM, 999999, 1);
    expect_ended("its other two", r, 0, 0, 2, THREE, 22);
    expect_out(what, "10001202+3000000050007");
    expect_state(what, ended);
    expect(what, marks[202], drum[202], 1, THREE);
    for (i = 0; i < CELLS; i++) {
        owned += marks[i];
        kept += drum[i] == FOREIGN - i;
    }
    expect(what, owned, kept, 7, CELLS - 7);
}

/* The numbers of a stop, of a switch and of a mode that are neither 0 nor 1. */
static void switches(void)
{
    static const char *const paused = "10000001+0200000003000T001000";
    static const uint64_t traced[STATE] = {1, 0, 0, 0, 0, 0, 29, 1, 1};
    struct l1_ended r;

    clear();
    load(paused, CELLS, STATE, 256);
    expect_state("a traced load", traced);
    load(paused, CELLS, STATE, 0);
    r = run(paused, CELLS, STATE, ROOM, 1, 0);
    expect_ended("the switch on RUN", r, 2, 0, 1, 0, 0);
    load(paused, CELLS, STATE, 0);
    r = run(paused, CELLS, STATE, ROOM, 1, 4294967296ul);
    expect_ended("the switch on STOP", r, 1, 0, 1, 0, 0);
    expect("the switch on STOP", 0, state[0], 0, 3);
    load(paused, CELLS, STATE, 0);
    state[7] = 2;
    r = run(paused, CELLS, STATE, ROOM, 1, 0);
    expect_ended("a mode of 2", r, 12, 0, 0, 0, 0);
    expect("a mode of 2", 7, state[7], 7, 2);
    state[7] = 1;
    state[8] = 2;
    r = run(paused, CELLS, STATE, ROOM, 1, 0);
    expect_ended("tracing of 2", r, 12, 0, 0, 0, 0);
    state[7] = 0;
    state[8] = 1;
    r = run(paused, CELLS, STATE, ROOM, 1, 0);
    expect_ended("tracing in plain mode", r, 12, 0, 0, 0, 0);
    state[8] = 0;
    r = run(paused, CELLS, STATE, ROOM, 1000000, 0);
    expect_ended("a budget of a million", r, 12, 0, 0, 0, 0);
    r = run(paused, CELLS, STATE, ROOM, 0, 0);
    expect_ended("no budget", r, 2, 0, 0, 0, 0);
}

/* A deck of one order on the numbers in 200 and 201, and behind it a stop that shows cell 202. */
#define NEAR(order, a, b) "20000101" order "+0000202000007" "20000200" a b "007" "T101007"
#define SIX_GONE NEAR("+2200201202", "+1234567850", "+1234560050")

/* Sums that lose their digits, with the switch on STOP and on RUN. */
static void losses(void)
{
    static const struct {
        const char *what, *deck;
        uint64_t budget, stop, number, count, shown, location;
    } all[] = {
        {"six digits gone", SIX_GONE, 9, 1, 3, 1, 7800000044, 102},
        {"by the last order of the budget", SIX_GONE, 1, 1, 3, 1, 7800000044, 102},
        {"with no budget", SIX_GONE, 0, 1, 2, 0, 0, 101},
        {"a switch of more than 32 bits", SIX_GONE, 9, 4294967296ul, 3, 1, 7800000044, 102},
        {"on RUN", SIX_GONE, 9, 0, 0, 2, 7800000044, 102},
        {"on RUN, with a budget of one", SIX_GONE, 1, 0, 2, 1, 0, 102},
        {"three digits gone in a sum", NEAR("+1200201202", "-9990000049", "+1000000050"), 9, 1, 3, 1, 1000000047, 102},
        {"a result below zero", NEAR("+2201200202", "+1000000050", "+9990000049"), 9, 1, 3, 1, MINUS + 1000000047, 102},
        {"two digits gone", NEAR("+2200201202", "+1000000050", "+9900000049"), 9, 1, 0, 2, 1000000048, 102},
        {"nothing left", NEAR("+2200201202", "+1234567850", "+1234567850"), 9, 1, 0, 2, 0, 102},
        {"a product", NEAR("+3200201202", "+1000000040", "+1000000040"), 9, 1, 0, 2, 1000000030, 102},
        {"into 000 alone", NEAR("+2200201000", "+1234567850", "+1234560050"), 9, 1, 3, 1, 7800000044, 102},
        {"over the order itself", NEAR("+2200201101", "+1234567850", "+1234560050"), 9, 1, 3, 1, 7800000044, 102},
        {"at the lowest exponent", NEAR("+2200201202", "+1234567806", "+1234560006"), 9, 1, 3, 1, 7800000000, 102},
        {"just below it", NEAR("+2200201202", "+1234567805", "+1234560005"), 9, 1, 27, 0, 0, 101},
        {"at 999", "10000999+2200201202007" "20000200+1234567850+1234560050007" "T999007", 9, 1, 3, 1, 7800000044, 1000},
    };
    static const char *const what = "a traced run that stops for lost digits";
    static const uint64_t ended[STATE] = {102, 0, 0, 0, 1, 7, 73, 1, 1};
    struct l1_ended r;
    size_t i;

    for (i = 0; i < COUNT(all); i++) {
        clear();
        load(all[i].deck, CELLS, STATE, 0);
        r = run(all[i].deck, CELLS, STATE, ROOM, all[i].budget, all[i].stop);
        expect_ended(all[i].what, r, all[i].number, 0, all[i].count, all[i].shown, 0);
        expect(all[i].what, 0, state[0], 0, all[i].location);
        if (all[i].number == 3)
            expect(all[i].what, marks[0], drum[0], 1, all[i].shown);
    }
    clear();
    load(SIX_GONE, CELLS, STATE, 1);
    r = run(SIX_GONE, CELLS, STATE, ROOM, 9, 1);
    expect_ended(what, r, 3, 0, 1, 7800000044, 77);
    expect_out(what, "X0001101+2200201202+2200201202+0000000000+1234567850+1234560050+0000000000007");
    expect_state(what, ended);
    expect(what, marks[202], drum[202], 1, 7800000044);
    r = run(SIX_GONE, CELLS, STATE, ROOM, 9, 1);
    expect_ended("the run that goes on", r, 0, 0, 1, 7800000044, 77);
    expect_out("the run that goes on", "X0002102+0000202000+0000202000+0000000000+0000000000+7800000044+7800000044007");
}

/* A deck of one order in 500, made anew for each; all other cells are foreign. */
static char lone[] = "10000500+0000000000007T500007";

static void set_lone(uint64_t order)
{
    size_t i;
    lone[8] = order < MINUS ? '+' : '-';
    for (i = 18; i > 8; i--, order /= 10)
        lone[i] = (char)('0' + order % 10);
    clear();
    load(lone, CELLS, STATE, 0);
}

/* One move of n words, all of whose words are the job's: each cell behind it. Every other cell of the drum is the job's or is not. */
static void move_once(size_t n, size_t b, size_t c)
{
    static uint64_t words[CELLS];
    static uint8_t owned[CELLS];
    struct l1_ended r;
    size_t i, same = 0;

    set_lone(9000000000ul + n * 1000000 + b * 1000 + c);
    for (i = 1; i < CELLS; i++)
        if (i != 500 && ((b <= i && i < b + n) || i % 7 == 3)) {
            drum[i] = i % 5 == 0 ? MINUS : i % 5 == 1 ? i : MINUS + ONE + i * 100;
            marks[i] = 1;
        }
    for (i = 0; i < CELLS; i++) {
        words[i] = drum[i];
        owned[i] = marks[i];
    }
    r = run(lone, CELLS, STATE, ROOM, 1, 1);
    expect_ended("a block move", r, 2, 0, 1, 0, 0);
    for (i = 0; i < CELLS; i++) {
        size_t from = c <= i && i < c + n ? i - c + b : i;
        same += drum[i] == words[from] && marks[i] == owned[from];
    }
    expect("the cells behind a block move", state[0], same, 501, CELLS);
}

/* Block moves of every overlap at both ends of the drum and around the order itself, and of all cells; then refusals, and address tests. */
static void moves(void)
{
    static const struct {
        const char *what;
        uint64_t order, number, location;
    } all[] = {
        {"a block move from 000", 9001000500, 20, 500},
        {"a block move to 000", 9001500000, 20, 500},
        {"a block that ends at 1000", 9002999500, 20, 500},
        {"a block that would end at 1000", 9002500999, 20, 500},
        {"the longest block a cell up", 9999001002, 20, 500},
        {"the longest block", 9999001001, 21, 500},
        {"a foreign block that would end at 1000", 9002600999, 20, 500},
        {"a foreign cell moved", 9001501500, 21, 500},
        {"a block whose last cell is foreign", 9002500600, 21, 500},
        {"a foreign destination", 9001500999, 2, 501},
        {"an order onto itself", 9001500500, 2, 501},
        {"MOVE 000 to 000", 9000500000, 2, 501},
        {"MOVE 000 with a minus, and a clear box", MINUS + 9000500999, 2, 501},
        {"TR A of its own address, equal", 6500500009, 2, 501},
        {"TR A, unequal", 6500501009, 2, 9},
        {"TR B of its own address, equal", 7500500009, 2, 501},
        {"TR B of its own address, which B always is", 7500123009, 2, 501},
        {"TR C of its own address, equal", 8500009009, 2, 501},
        {"TR C, unequal", 8500500009, 2, 9},
        {"TR A with a minus", MINUS + 6500500009, 2, 501},
        {"TR C to 000", 8500001000, 2, 0},
        {"TR A of cell 000", 6000000009, 20, 500},
        {"TR B of a foreign cell", 7501000009, 21, 500},
    };
    size_t n, far, i;

    for (n = 1; n <= 6; n++)
        for (far = 0; far <= n + 1; far++) {
            move_once(n, 1, 1 + far);
            move_once(n, 1 + far, 1);
            move_once(n, CELLS - n, CELLS - n - far);
            move_once(n, CELLS - n - far, CELLS - n);
            move_once(n, 499, 499 + far);
            move_once(n, 499 + far, 499);
        }
    move_once(999, 1, 1);
    move_once(998, 1, 2);
    move_once(998, 2, 1);
    for (i = 0; i < COUNT(all); i++) {
        struct l1_ended r;
        set_lone(all[i].order);
        r = run(lone, CELLS, STATE, ROOM, 1, 1);
        expect_ended(all[i].what, r, all[i].number, 0, all[i].number == 2, 0, 0);
        expect(all[i].what, 0, state[0], 0, all[i].location);
    }
}

/* The number of a word as a listing has it. */
static uint64_t word(const char *text)
{
    uint64_t w = 0;
    size_t i;
    for (i = 1; text[i]; i++)
        if (text[i] != ' ')
            w = 10 * w + (uint64_t)(text[i] - '0');
    return text[0] == '-' ? MINUS + w : w;
}

/* One address change, plain or traced. The word at B is `before`, or a foreign number where that is null, and `behind` afterwards, or as it
 * was; the cell is foreign where the answer is 21. All cells, marks and numbers of the state are compared; some of the other cells are the
 * job's. */
static void change_once(const char *order, const char *before, uint64_t number, const char *behind, uint64_t traced)
{
    static char what[] = "+0 000 000 000 of +0 000 000 000";
    static uint64_t words[CELLS];
    static uint8_t owned[CELLS];
    uint64_t must[STATE] = {number == 2 ? 501 : 500, 0, 0, 0, traced, 7, 29, traced, traced};
    size_t b = word(order) / 1000 % 1000, i, cells = 0, numbers = 0;
    struct l1_ended r;

    for (i = 0; i < 14; i++) {
        what[i] = order[i];
        what[18 + i] = before ? before[i] : '?';
    }
    set_lone(word(order));
    load(lone, CELLS, STATE, traced);
    for (i = 1; i < CELLS; i++)
        if (i % 7 == 2) {
            drum[i] = i % 5 == 0 ? MINUS : i % 5 == 1 ? 9999999999ul : MINUS + ONE + i * 100;
            marks[i] = 1;
        }
    if (before)
        drum[b] = word(before);
    marks[b] = number != 21;
    for (i = 0; i < CELLS; i++) {
        words[i] = drum[i];
        owned[i] = marks[i];
    }
    if (behind)
        words[b] = word(behind);
    r = run(lone, CELLS, STATE, ROOM, 1, 1);
    expect_ended(what, r, number, 0, number == 2, 0, 77 * traced);
    for (i = 0; i < CELLS; i++)
        cells += drum[i] == words[i] && marks[i] == owned[i];
    for (i = 0; i < STATE; i++)
        numbers += state[i] == must[i];
    expect(what, numbers, cells, STATE, CELLS);
}

/* Address changes, plain and traced: ADD and SUB of each address, with no carry, with one through each number of addresses, and at both ends
 * of ten digits; SET, which has none; and every kind of B. Then orders that are done as changed, and two that the loop box makes. */
static void changes(void)
{
    static const struct {
        const char *order, *before;
        uint64_t number;
        const char *behind;
    } all[] = {
        {"+0 006 600 001", "+1 234 567 123", 2, "+1 234 567 124"},
        {"+0 006 600 999", "+0 000 000 000", 2, "+0 000 000 999"},
        {"+0 006 600 000", "+9 999 999 999", 2, 0},
        {"+0 006 600 001", "+1 234 567 999", 2, "+1 234 568 000"},
        {"+0 006 600 999", "+1 234 567 999", 2, "+1 234 568 998"},
        {"+0 006 600 001", "+1 234 999 999", 2, "+1 235 000 000"},
        {"+0 006 600 999", "+1 234 999 001", 2, "+1 235 000 000"},
        {"+0 006 600 001", "+1 999 999 999", 2, "+2 000 000 000"},
        {"+0 006 600 999", "+0 999 999 999", 2, "+1 000 000 998"},
        {"+0 006 600 001", "+9 999 999 998", 2, "+9 999 999 999"},
        {"+0 006 600 999", "+9 999 999 000", 2, "+9 999 999 999"},
        {"+0 006 600 001", "+9 999 999 999", 20, 0},
        {"+0 006 600 999", "+9 999 999 001", 20, 0},
        {"+0 006 600 001", "-1 234 567 123", 2, "-1 234 567 124"},
        {"+0 006 600 001", "-1 234 567 999", 2, "-1 234 568 000"},
        {"+0 006 600 001", "-8 999 999 999", 2, "-9 000 000 000"},
        {"+0 006 600 999", "-9 999 999 000", 2, "-9 999 999 999"},
        {"+0 006 600 001", "-9 999 999 999", 20, 0},
        {"+0 006 600 001", "-0 000 000 000", 2, "-0 000 000 001"},
        {"+0 006 600 000", "-0 000 000 000", 2, 0},

        {"+0 060 600 001", "+1 234 567 890", 2, "+1 234 568 890"},
        {"+0 060 600 999", "-0 000 000 000", 2, "-0 000 999 000"},
        {"+0 060 600 000", "-9 999 999 999", 2, 0},
        {"+0 060 600 001", "+1 234 999 890", 2, "+1 235 000 890"},
        {"+0 060 600 999", "-1 234 999 890", 2, "-1 235 998 890"},
        {"+0 060 600 001", "+1 999 999 890", 2, "+2 000 000 890"},
        {"+0 060 600 001", "-0 999 999 999", 2, "-1 000 000 999"},
        {"+0 060 600 999", "+9 999 000 999", 2, "+9 999 999 999"},
        {"+0 060 600 001", "-9 999 998 999", 2, "-9 999 999 999"},
        {"+0 060 600 001", "+9 999 999 000", 20, 0},
        {"+0 060 600 999", "-9 999 001 000", 20, 0},

        {"+0 600 600 001", "+1 234 567 890", 2, "+1 235 567 890"},
        {"+0 600 600 999", "-0 000 000 000", 2, "-0 999 000 000"},
        {"+0 600 600 000", "+9 999 999 999", 2, 0},
        {"+0 600 600 001", "+1 999 567 890", 2, "+2 000 567 890"},
        {"+0 600 600 999", "-1 999 567 890", 2, "-2 998 567 890"},
        {"+0 600 600 999", "+0 001 000 000", 2, "+1 000 000 000"},
        {"+0 600 600 999", "+9 000 999 999", 2, "+9 999 999 999"},
        {"+0 600 600 001", "-9 998 999 999", 2, "-9 999 999 999"},
        {"+0 600 600 001", "+9 999 000 000", 20, 0},
        {"+0 600 600 999", "-9 001 000 000", 20, 0},

        {"+0 007 600 001", "+1 234 567 124", 2, "+1 234 567 123"},
        {"+0 007 600 999", "+9 999 999 999", 2, "+9 999 999 000"},
        {"+0 007 600 000", "+0 000 000 000", 2, 0},
        {"+0 007 600 001", "+1 234 567 000", 2, "+1 234 566 999"},
        {"+0 007 600 999", "+1 234 567 998", 2, "+1 234 566 999"},
        {"+0 007 600 001", "+1 234 000 000", 2, "+1 233 999 999"},
        {"+0 007 600 999", "+1 234 000 998", 2, "+1 233 999 999"},
        {"+0 007 600 001", "+2 000 000 000", 2, "+1 999 999 999"},
        {"+0 007 600 999", "+1 000 000 000", 2, "+0 999 999 001"},
        {"+0 007 600 001", "+0 000 000 001", 2, "+0 000 000 000"},
        {"+0 007 600 999", "+0 000 000 999", 2, "+0 000 000 000"},
        {"+0 007 600 001", "+0 000 000 000", 20, 0},
        {"+0 007 600 999", "+0 000 000 998", 20, 0},
        {"+0 007 600 001", "-1 234 567 124", 2, "-1 234 567 123"},
        {"+0 007 600 001", "-1 234 567 000", 2, "-1 234 566 999"},
        {"+0 007 600 001", "-9 000 000 000", 2, "-8 999 999 999"},
        {"+0 007 600 001", "-0 000 000 001", 2, "-0 000 000 000"},
        {"+0 007 600 999", "-0 000 000 999", 2, "-0 000 000 000"},
        {"+0 007 600 001", "-0 000 000 000", 20, 0},
        {"+0 007 600 000", "-0 000 000 000", 2, 0},

        {"+0 070 600 001", "+1 234 568 890", 2, "+1 234 567 890"},
        {"+0 070 600 999", "-9 999 999 999", 2, "-9 999 000 999"},
        {"+0 070 600 000", "-0 000 000 999", 2, 0},
        {"+0 070 600 001", "+1 234 000 890", 2, "+1 233 999 890"},
        {"+0 070 600 999", "-1 234 998 890", 2, "-1 233 999 890"},
        {"+0 070 600 001", "+2 000 000 890", 2, "+1 999 999 890"},
        {"+0 070 600 001", "-1 000 000 000", 2, "-0 999 999 000"},
        {"+0 070 600 999", "+0 000 999 000", 2, "+0 000 000 000"},
        {"+0 070 600 001", "-0 000 001 000", 2, "-0 000 000 000"},
        {"+0 070 600 001", "+0 000 000 999", 20, 0},
        {"+0 070 600 999", "-0 000 998 999", 20, 0},

        {"+0 700 600 001", "+1 235 567 890", 2, "+1 234 567 890"},
        {"+0 700 600 999", "-9 999 999 999", 2, "-9 000 999 999"},
        {"+0 700 600 000", "+0 000 999 999", 2, 0},
        {"+0 700 600 001", "+2 000 567 890", 2, "+1 999 567 890"},
        {"+0 700 600 999", "-2 998 567 890", 2, "-1 999 567 890"},
        {"+0 700 600 999", "+1 000 000 000", 2, "+0 001 000 000"},
        {"+0 700 600 999", "+0 999 000 000", 2, "+0 000 000 000"},
        {"+0 700 600 001", "-0 001 000 000", 2, "-0 000 000 000"},
        {"+0 700 600 001", "+0 000 999 999", 20, 0},
        {"+0 700 600 999", "-0 998 999 999", 20, 0},

        {"+0 500 600 000", "+9 999 999 999", 2, "+9 000 999 999"},
        {"+0 500 600 999", "-9 999 999 999", 2, 0},
        {"+0 500 600 999", "-0 000 000 000", 2, "-0 999 000 000"},
        {"+0 050 600 000", "-9 999 999 999", 2, "-9 999 000 999"},
        {"+0 050 600 999", "+9 999 000 999", 2, "+9 999 999 999"},
        {"+0 050 600 000", "-0 000 999 000", 2, "-0 000 000 000"},
        {"+0 005 600 000", "+9 999 999 999", 2, "+9 999 999 000"},
        {"+0 005 600 999", "+0 000 000 000", 2, "+0 000 000 999"},
        {"+0 005 600 000", "-0 000 000 999", 2, "-0 000 000 000"},

        {"+0 006 001 001", "+1 234 567 999", 2, "+1 234 568 000"},
        {"+0 070 999 001", "-1 234 000 890", 2, "-1 233 999 890"},
        {"+0 006 999 001", "-9 999 999 999", 20, 0},
        {"+0 006 500 999", "+0 006 500 999", 2, "+0 006 501 998"},
        {"+0 600 500 600", "+0 600 500 600", 2, "+1 200 500 600"},
        {"+0 070 500 501", "+0 070 500 501", 2, "+0 069 999 501"},
        {"-0 007 500 501", "-0 007 500 501", 2, "-0 007 500 000"},
        {"+0 700 500 700", "+0 700 500 700", 2, "+0 000 500 700"},
        {"+0 700 500 701", "+0 700 500 701", 20, 0},

        {"+0 500 000 001", "+0 000 000 000", 20, 0},
        {"+0 060 000 001", "+0 000 000 000", 20, 0},
        {"+0 006 000 000", "+9 999 999 999", 20, 0},
        {"+0 007 000 001", "-0 000 000 001", 20, 0},
        {"+0 005 600 001", 0, 21, 0},
        {"+0 600 600 999", 0, 21, 0},
        {"+0 007 600 000", 0, 21, 0},
        {"+0 600 600 001", "+9 999 999 999", 21, 0},
        {"+0 060 600 001", "-9 999 999 999", 21, 0},
        {"+0 006 600 001", "+1 234 567 890", 21, 0},
        {"+0 700 600 001", "-0 000 000 000", 21, 0},
        {"+0 007 999 001", "+0 000 000 000", 21, 0},
    };
#define CHANGED(order, next) "20000500" order next "007" "10000600+2000000050007" "T500007"
    static const struct {
        const char *what, *deck;
        uint64_t number, count, location;
        size_t cell;
        uint64_t word;
    } done[] = {
        {"0 999 becomes ADD", CHANGED("+0600501001", "+0999600601"), 2, 2, 502, 601, TWO},
        {"ADD becomes 0 999", CHANGED("+0700501001", "+1000600601"), 23, 1, 501, 501, 999600601},
        {"TR C becomes MOVE", CHANGED("+0006501601", "+8999999999"), 2, 2, 502, 600, 0},
        {"TR EXP becomes TR", CHANGED("+0060501001", "+0202999600"), 2, 2, 600, 501, 203000600},
        {"a MOVE from 601 becomes one from 600", CHANGED("+0007501001", "+9001601000"), 2, 2, 502, 999, TWO},
        {"ADD A becomes ADD, and is done again", CHANGED("+0600500400", "+0203000500"), 2, 3, 501, 400, 1000500400},
    };
    static const char *const full = "10000500-0005599000007" "10000600-9999999999007" "T500007";
    static const uint64_t left[STATE] = {500, 1, 1, 1, 2, 7, 51, 1, 1};
    const char *what = "a refused sum that is traced";
    struct l1_ended r;
    size_t i;

    for (i = 0; i < COUNT(all); i++) {
        change_once(all[i].order, all[i].before, all[i].number, all[i].behind, 0);
        change_once(all[i].order, all[i].before, all[i].number, all[i].behind, 1);
    }
    for (i = 0; i < COUNT(done); i++) {
        clear();
        load(done[i].deck, CELLS, STATE, 0);
        r = run(done[i].deck, CELLS, STATE, ROOM, done[i].count + (done[i].number != 2), 1);
        expect_ended(done[i].what, r, done[i].number, 0, done[i].count, 0, 0);
        expect(done[i].what, marks[done[i].cell], drum[done[i].cell], 1, done[i].word);
        expect(done[i].what, 0, state[0], 0, done[i].location);
    }
    clear();
    load(full, CELLS, STATE, 1);
    state[1] = state[2] = state[3] = 1;
    r = run(full, CELLS, STATE, ROOM, 9, 1);
    expect_ended(what, r, 20, 0, 0, 0, 77);
    expect_out(what, "X0001500-0005599000-0006600001+0001001001+0000000000-9999999999+0000000000007");
    r = run(full, CELLS, STATE, ROOM, 9, 1);
    expect_ended(what, r, 20, 0, 0, 0, 77);
    expect_out(what, "X0002500-0005599000-0006600001+0001001001+0000000000-9999999999+0000000000007");
    expect_state(what, left);
    expect(what, drum[500], drum[600], MINUS + 5599000, 19999999999);
    what = "a minus order that changes itself as it is stored";
    set_lone(MINUS + 5499998);
    state[1] = state[2] = state[3] = 1;
    r = run(lone, CELLS, STATE, ROOM, 1, 1);
    expect_ended(what, r, 2, 0, 1, 0, 0);
    expect(what, state[0], drum[500], 501, MINUS + 5500997);
}

/* Check 10 before the numbers of the deck, and these before 12, in both calls, with nothing changed. */
static void refusals(void)
{
    static const struct {
        const char *what, *deck;
        size_t cells, numbers;
        uint64_t number, place;
    } all[] = {
        {"a short drum, an unknown kind, a short state", "T101007?", CELLS - 1, STATE - 1, 10, 0},
        {"a short drum, a byte that does not fit", "T10x007", CELLS - 1, STATE, 10, 0},
        {"a long drum, no card", "", CELLS + 1, STATE, 10, 0},
        {"a long drum", CARDS "T101007", CELLS + 1, STATE, 10, 0},
        {"an unknown kind", "T101007?", CELLS, STATE, 13, 7},
        {"an unknown kind, no state", "T101007?", CELLS, 0, 13, 7},
        {"a card that is cut short", ONE_WORD "T10100", CELLS, STATE, 14, 22},
        {"a card that is cut short, a long state", ONE_WORD "T10100", CELLS, STATE + 1, 14, 22},
        {"a byte that does not fit", CARDS "T10x007", CELLS, STATE, 15, 80},
        {"a byte that does not fit, a short state", CARDS "T10x007", CELLS, STATE - 1, 15, 80},
        {"a last cell past 999", "T101007" "20001999" TWO_WORDS "007", CELLS, STATE, 16, 12},
        {"location 000, no state", "10001000+0000000000007T101007", CELLS, 0, 16, 5},
        {"first order 000", CARDS "T000007", CELLS, STATE, 16, 78},
        {"a second first-order card", CARDS "T101007" CARDS "T101007", CELLS, STATE, 17, 161},
        {"a second first-order card, a long state", CARDS "T101007T", CELLS, STATE + 1, 17, 84},
        {"no first-order card", CARDS, CELLS, STATE, 18, 77},
        {"no card, no state", "", CELLS, 0, 18, 0},
        {"a short state", CARDS "T101007", CELLS, STATE - 1, 12, 0},
        {"a long state", CARDS "T101007", CELLS, STATE + 1, 12, 0},
        {"no state", CARDS "T101007", CELLS, 0, 12, 0},
    };
    size_t i;

    for (i = 0; i < COUNT(all); i++) {
        clear();
        struct l1_place l = load(all[i].deck, all[i].cells, all[i].numbers, 1);
        expect(all[i].what, l.number, l.place, all[i].number, all[i].place);
        expect_untouched(all[i].what, 0);
        struct l1_ended r = run(all[i].deck, all[i].cells, all[i].numbers, ROOM, 1, 1);
        expect_ended(all[i].what, r, all[i].number, all[i].place, 0, 0, 0);
        expect_untouched(all[i].what, 0);
    }
    clear();
    struct l1_ended r = run(session, CELLS, STATE, ROOM, 1, 1);
    expect_ended("a state that no run may have", r, 12, 0, 0, 0, 0);
    expect_untouched("a state that no run may have", 0);
    drum[5] = 20000000000ul;
    marks[5] = 1;
    struct l1_place l = load(session, CELLS, STATE, 0);
    expect("a marked cell that holds no word", l.number, l.place, 10, 0);
    expect_untouched("a marked cell that holds no word", 6);
    drum[5] = 0;
    marks[5] = 2;
    l = load(session, CELLS, STATE, 0);
    expect("a mark of 2", l.number, l.place, 10, 0);
    expect_untouched("a mark of 2", 6);
}

/* The same with a deck that is too long, and has no good card. */
static void long_refusals(void)
{
    static const uint8_t deck[LONGEST + 1];
    static const struct {
        const char *what;
        size_t cells, numbers;
        uint64_t number, place;
    } all[] = {
        {"a short drum, a deck that is too long", CELLS - 1, STATE, 10, 0},
        {"a deck that is too long", CELLS, STATE, 11, LONGEST},
        {"a deck that is too long, a short state", CELLS, STATE - 1, 11, LONGEST},
    };
    size_t i;

    for (i = 0; i < COUNT(all); i++) {
        clear();
        struct l1_place l = l1_load(drum, all[i].cells, marks, CELLS, deck, sizeof deck, state, all[i].numbers, 0);
        expect(all[i].what, l.number, l.place, all[i].number, all[i].place);
        struct l1_ended r = l1_run(drum, all[i].cells, marks, CELLS, deck, sizeof deck, out, ROOM, state, all[i].numbers, 1, 1);
        expect_ended(all[i].what, r, all[i].number, all[i].place, 0, 0, 0);
        expect_untouched(all[i].what, 0);
    }
}

/* ---- decks made of drums. */

#define ALL 13196

static uint64_t drum_before[CELLS + 1];
static uint8_t marks_before[CELLS + 1], made[ALL + 1];

/* Marks the cells from one to another; each holds its own location as its digits. */
static void own(size_t from, size_t to)
{
    size_t i;
    for (i = from; i <= to; i++) {
        drum[i] = i;
        marks[i] = 1;
    }
}

/* Makes a deck in room bytes, and sees that drum and marks stay, as do the bytes behind the deck. */
static struct l1_made make(const char *what, size_t cells, size_t marks_len, size_t room, uint64_t first, uint64_t problem)
{
    size_t i, changed = 0;
    struct l1_made r;

    for (i = 0; i <= CELLS; i++) {
        drum_before[i] = drum[i];
        marks_before[i] = marks[i];
    }
    for (i = 0; i <= ALL; i++)
        made[i] = UNTOUCHED;
    r = l1_make(drum, cells, marks, marks_len, made, room, first, problem);
    for (i = 0; i <= CELLS; i++)
        changed += drum[i] != drum_before[i] || marks[i] != marks_before[i];
    for (i = r.written; i <= ALL; i++)
        changed += made[i] != UNTOUCHED;
    expect(what, 0, changed, 0, 0);
    return r;
}

/* The deck with first order 101 and problem number 7: it just fits its room, and does not fit a byte less. */
static void expect_made(const char *what, const char *deck)
{
    size_t i, n = length(deck), same = 0;
    struct l1_made r = make(what, CELLS, CELLS, n, 101, 7);

    expect(what, r.number, r.written, 0, n);
    for (i = 0; i < n; i++)
        same += made[i] == (uint8_t)deck[i];
    expect(what, 0, same, 0, n);
    r = make(what, CELLS, CELLS, n - 1, 101, 7);
    expect(what, r.number, r.written, 22, 0);
}

/* That the deck made last, before the untouched bytes, ends with a text. */
static void expect_end(const char *what, const char *text)
{
    size_t i, n = length(text), end = ALL + 1, same = 0;
    while (end > n && made[end - 1] == UNTOUCHED)
        end--;
    for (i = 0; i < n; i++)
        same += made[end - n + i] == (uint8_t)text[i];
    expect(what, 0, same, 0, n);
}

static void makes(void)
{
    static const struct {
        const char *what;
        size_t from, to, then_from, then_to;
        const char *deck;
    } all[] = {
        {"no cell", 1, 0, 1, 0, "T101007"},
        {"cell 000 alone", 0, 0, 1, 0, "T101007"},
        {"cell 999 alone", 999, 999, 1, 0, "10001999+0000000999007T101007"},
        {"cells 000 to 004", 0, 4, 1, 0, "40001001+0000000001+0000000002+0000000003+0000000004007T101007"},
        {"five cells at both ends", 1, 5, 995, 999,
         "50001001+0000000001+0000000002+0000000003+0000000004+0000000005007"
         "50002995+0000000995+0000000996+0000000997+0000000998+0000000999007T101007"},
        {"six cells at both ends", 1, 6, 994, 999,
         "50001001+0000000001+0000000002+0000000003+0000000004+0000000005007" "10002006+0000000006007"
         "50003994+0000000994+0000000995+0000000996+0000000997+0000000998007" "10004999+0000000999007T101007"},
        {"a gap of one cell", 500, 501, 503, 503, "20001500+0000000500+0000000501007" "10002503+0000000503007T101007"},
    };
    static const struct {
        const char *what;
        size_t cells, marks_len, room;
        uint64_t first, problem, number;
    } refused[] = {
        {"a short drum, and all else wrong", CELLS - 1, CELLS, 0, 0, 1000, 10},
        {"a long drum", CELLS + 1, CELLS, ALL, 101, 7, 10},
        {"no drum", 0, CELLS, ALL, 101, 7, 10},
        {"short marks", CELLS, CELLS - 1, ALL, 101, 7, 10},
        {"long marks", CELLS, CELLS + 1, ALL, 101, 7, 10},
        {"first order 000, and no room", CELLS, CELLS, 0, 0, 7, 12},
        {"first order 1000", CELLS, CELLS, ALL, 1000, 7, 12},
        {"a first order of more than 32 bits", CELLS, CELLS, ALL, 4294967397ul, 7, 12},
        {"the largest first order", CELLS, CELLS, ALL, FOREIGN, 7, 12},
        {"problem number 1000", CELLS, CELLS, ALL, 101, 1000, 12},
        {"the largest problem number", CELLS, CELLS, 0, 101, FOREIGN, 12},
        {"no room", CELLS, CELLS, 0, 101, 7, 22},
        {"a byte too few", CELLS, CELLS, 28, 999, 999, 22},
    };
    struct l1_made r;
    size_t i;

    for (i = 0; i < COUNT(all); i++) {
        clear();
        own(all[i].from, all[i].to);
        own(all[i].then_from, all[i].then_to);
        expect_made(all[i].what, all[i].deck);
    }
    for (i = 0; i < COUNT(refused); i++) {
        clear();
        own(5, 5);
        r = make(refused[i].what, refused[i].cells, refused[i].marks_len, refused[i].room, refused[i].first, refused[i].problem);
        expect(refused[i].what, r.number, r.written, refused[i].number, 0);
    }
    clear();
    load(session, CELLS, STATE, 0);
    expect_made("the paper's deck comes back", session);
    run(session, CELLS, STATE, ROOM, 999999, 1);
    expect_made("the drum behind the paper's session", "30001101+1200201202+0410202202+0000202000007"
                "30002200+1000000050+2000000050+3000000050007T101007");
    clear();
    own(1, 5);
    drum[1] = MINUS;
    drum[2] = 19999999999ul;
    drum[3] = 9999999999ul;
    drum[4] = MINUS + 999999999;
    drum[5] = 0;
    expect_made("words that are no numbers", "50001001-0000000000-9999999999+9999999999-0999999999+0000000000007T101007");
    drum[4] = 20000000000ul;
    r = make("above the largest word", CELLS, CELLS, ALL, 101, 7);
    expect("above the largest word", r.number, r.written, 10, 0);
    clear();
    own(1, 999);
    r = make("all cells", CELLS, CELLS, ALL + 1, 1, 0);
    expect("all cells", r.number, r.written, 0, ALL);
    expect_end("all cells", "40200996+0000000996+0000000997+0000000998+0000000999000T001000");
    for (i = 2; i < CELLS; i += 2)
        marks[i] = 0;
    r = make("every second cell", CELLS, CELLS, ALL, 999, 999);
    expect("every second cell", r.number, r.written, 0, 500 * 22 + 7);
    expect_end("every second cell", "10499997+000000099799910500999+0000000999999T999999");
    marks[0] = 1;
    drum[0] = FOREIGN;
    r = make("a marked cell 000 that holds no word", CELLS, CELLS, ALL, 101, 7);
    expect("a marked cell 000 that holds no word", r.number, r.written, 10, 0);
    drum[0] = 0;
    marks[999] = 2;
    r = make("a mark of 2 at 999", CELLS, CELLS, ALL, 101, 7);
    expect("a mark of 2 at 999", r.number, r.written, 10, 0);
}

int main(void)
{
    size_t i;

    for (i = 0; i < COUNT(sums); i++) {
        struct l1_sum r = sums[i].call(sums[i].a, sums[i].b);
        expect(sums[i].what, r.number, r.word, sums[i].number, sums[i].word);
        expect(sums[i].what, r.number, r.lost, sums[i].number, sums[i].lost);
    }
    for (i = 0; i < COUNT(twos); i++) {
        struct l1_word r = twos[i].call(twos[i].a, twos[i].b);
        expect(twos[i].what, r.number, r.word, twos[i].number, twos[i].word);
    }
    for (i = 0; i < COUNT(ones); i++) {
        struct l1_word r = ones[i].call(ones[i].b);
        expect(ones[i].what, r.number, r.word, ones[i].number, ones[i].word);
    }
    for (i = 0; i < COUNT(roots); i++)
        root_once(roots[i].b, roots[i].word);
    for (i = 0; i < COUNT(decks); i++) {
        struct l1_place r = l1_deck((const uint8_t *)decks[i].deck, length(decks[i].deck));
        expect(decks[i].what, r.number, r.place, decks[i].number, decks[i].place);
    }
    long_decks();
    paper_session();
    switches();
    losses();
    moves();
    changes();
    refusals();
    long_refusals();
    makes();
    printf("panel: %d cases, %d wrong\n", tried, wrong);
    return wrong != 0;
}
