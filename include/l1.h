/* The C face of the L1 library: word arithmetic, the check of a deck, load and run on a drum that the caller lends, and a deck made of
 * such a drum.
 *
 * Every function here takes any operands at all, answers, and keeps nothing between calls. What each answers is proved of the
 * library. What nothing can check is the caller's to see to:
 *   - each pointer is valid for the length that stands beside it (a count of elements, not of bytes), is aligned for its type, and
 *     is not null, also where the length is 0;
 *   - no two runs that are lent to one call overlap, and nothing else reads or writes them while the call runs.
 *
 * A word is ten decimal digits and a sign in one 64-bit number: the digits, plus 10,000,000,000 for minus. The largest word is
 * 19,999,999,999, and minus zero, 10,000,000,000, is a word. A number of the machine is the word 0, or a word of either sign whose
 * first eight digits M are at least 10,000,000; with a for its last two digits it is worth M times 10 to the power a - 57. So
 * 1,000,000,050 is one, and 11,000,000,050 is minus one.
 *
 * The library is x86-64 code: link a program with libpanel.a. */
#ifndef L1_H
#define L1_H

#include <stddef.h>
#include <stdint.h>

#ifdef __cplusplus
extern "C" {
#endif

/* What arithmetic answers: 0 and the word, or the stop number of the refusal and 0. */
struct l1_word {
    uint64_t number; /* 0, or 24, 25, 26 or 27 */
    uint64_t word;   /* the result, a number of the machine; 0 with a refusal */
};

/* What a sum and a difference answer: the same, and how many digits went. */
struct l1_sum {
    uint64_t number; /* 0, or 24 or 27 */
    uint64_t word;   /* the result, a number of the machine; 0 with a refusal */
    uint64_t lost;   /* the larger exponent of a and b less the result's, 0 where that is below zero; 0 where a, b or the result is
                        zero; 0 with a refusal. From 3 on the order would stop a run, with 3, if the switch is on STOP */
};

/* What the check of a deck answers: 0 and 0, or the number of the first fault and its place. A place is an offset in the deck. The length
 * is judged first, then the cards one by one; of a card's faults the first in the order 13, 17, 14, 15, 16 is told, and no card behind it
 * is looked at. */
struct l1_place {
    uint64_t number; /* 0 for a good deck, or
                        11: the deck is longer than 65,536 bytes;
                        13: a card is of no kind that a deck may hold, 1 to 5 and T;
                        14: a card is cut short by the end of the deck;
                        15: a byte is not the digit or the sign that is due;
                        16: a location or a first order is 000, or the last cell of a card is past 999;
                        17: a first-order card is a second one, whatever follows its kind;
                        18: all cards are good, and none is a first-order card */
    uint64_t place;  /* with 13, 14 and 17: that of the card's kind;
                        with 15: that of the byte, the first from the left in its card;
                        with 16: that of the first byte of the location or of the first order;
                        with 11: 65,536; with 18: the deck's length; with 0: 0 */
};

/* Arithmetic on two words. The exact result is rounded once to eight digits, a half away from zero; zero is always the word 0.
 * Either operand may be any 64-bit number. Stop numbers: 24, an operand is not a number of the machine, one above 19,999,999,999
 * among them; 27, the exponent after rounding is below 00 or above 99; for l1_div also 25, b is 0. Of these 24 comes first. */
struct l1_sum l1_add(uint64_t a, uint64_t b);    /* a + b */
struct l1_sum l1_sub(uint64_t a, uint64_t b);    /* a - b */
struct l1_word l1_mpy(uint64_t a, uint64_t b);   /* a times b */
struct l1_word l1_div(uint64_t a, uint64_t b);   /* a divided by b */
struct l1_word l1_ngmpy(uint64_t a, uint64_t b); /* a times b, with the other sign */

/* The number nearest the root of b. Stop numbers: 24, b is not a number of the machine; 26, b is below zero. */
struct l1_word l1_sqrt(uint64_t b);

/* b with a plus sign. Stop number: 24, b is not a number of the machine. */
struct l1_word l1_abs(uint64_t b);

/* Whether the deck_len bytes at deck keep the card rules. The bytes are only read. */
struct l1_place l1_deck(const uint8_t *deck, size_t deck_len);

/* The state of the machine is nine numbers, which the caller keeps and both calls read and replace in place:
 *   0       location of the next order
 *   1 2 3   the loop box: the counts A, B and C
 *   4       card counter
 *   5       problem number
 *   6       reader: the offset in the deck of the next card for READ
 *   7       mode: 0 plain, 1 traced
 *   8       tracing: 1 while it is on, else 0
 *
 * Drum and marks are two runs of 1,000, a cell each. A mark is 1 where the job owns the cell, else 0. The number in a cell that is not
 * marked is never looked at and never changed, unless an order or a card stores there and so marks it. */

/* Loads a deck: stores the words of the cards before the first-order card, makes cell 000 zero, marks every cell that it stores in,
 * and sets all nine numbers of the state, in plain mode where traced is 0 and in traced mode where it is any other number.
 * Answers 0 and 0 when that is done. Else nothing that was lent is changed, the state included, and the answer is the first of
 *   10 and 0: the drum or the marks are not 1,000 long, a mark is above 1, or a marked cell holds more than 19,999,999,999;
 *   11, or 13 to 18, and the place, as l1_deck tells them: the deck breaks a card rule;
 *   12 and 0: state_len is not 9.
 * The numbers that the state holds before the call are not judged. */
struct l1_place l1_load(uint64_t *drum, size_t cells, uint8_t *marks, size_t marks_len, const uint8_t *deck, size_t deck_len,
                        uint64_t *state, size_t state_len, uint64_t traced);

/* What a run answers. */
struct l1_ended {
    uint64_t number;  /* how it ended: 0 or 1 for the stops that an order asks for, 2 where the budget is used, 3 where the switch is on
                         STOP and the sum or the difference in front of the location has lost more than two digits, 10 to 18
                         where nothing was begun, 20 to 29 where the order at the location was refused and undone */
    uint64_t place;   /* with 11, and with 13 to 18, the place that l1_deck tells, else 0 */
    uint64_t count;   /* the orders completed in this call, an order that stopped the run among them */
    uint64_t shown;   /* the word that a stop shows, as a number, which with 3 is the result; 0 but for the stops 0, 1 and 3 */
    uint64_t written; /* how many bytes at the start of the output hold cards of this call; the bytes past them are as before */
};

/* Runs orders from the location on, at most budget of them, with the PROGRAMMED STOP switch on RUN where stop is 0 and on STOP where
 * it is any other number. Cards for READ come from the deck behind the reader; cards punched and trace cards go to the room bytes at
 * out. Drum, marks and state are left so that a later call goes on; after 3 too the result is stored and the order counted, and the
 * next call begins with the order behind it. Where nothing is begun, nothing that was lent is changed, and the
 * number is the first of 10 and the numbers of the deck, as for l1_load, and
 *   12: state_len is not 9, or the state or the budget is not one that a run may have: budget above 999,999, location above 1000, a
 *       count above 999, card counter above 9999, problem number above 999, mode above 1, tracing above mode, cell 000 not marked, or
 *       the reader neither at the start of a card behind the first-order card nor at the end of the deck.
 *
 * Why the order at the location was refused:
 *   20: the location is 0 or 1000; of a minus order, an address with its count of the loop box is above 999; in PCH and READ B is 000 or
 *       above C; in SET, ADD and SUB of an address B is 000; in TR SUBR C is 000; in MOVE with A from 001 one of the two blocks of A
 *       cells, from B and from C, begins at 000 or goes past 999; in TR A, TR B and TR C A is 000; behind 21, in ADD and SUB of an
 *       address, the sum is more than the ten digits of the word at B hold, or less than zero;
 *   21: the order's cell is not marked, or a cell whose word it uses: of MOVE with A from 001 one of the block from B, of TR A, TR B
 *       and TR C that at A. A cell that is only stored in, gone to or shown need not be marked;
 *   22: the trace card, or the cards of PCH, do not fit the room that is left; 23: the code is not built;
 *   24: an operand is not a number; 25: a zero divisor; 26: the root of a number below zero; 27: the result is out of range;
 *   28: the next card does not fit READ's block; 29: no card is left for it. */
struct l1_ended l1_run(uint64_t *drum, size_t cells, uint8_t *marks, size_t marks_len, const uint8_t *deck, size_t deck_len,
                       uint8_t *out, size_t room, uint64_t *state, size_t state_len, uint64_t budget, uint64_t stop);

/* What the making of a deck answers. */
struct l1_made {
    uint64_t number;  /* 0 for a deck that is made; 10, 12 or 22 where nothing is written */
    uint64_t written; /* how many bytes at the start of the output are the deck, 0 with a refusal; the bytes past them are as before */
};

/* Makes a load deck of a drum: the words of the marked cells 001 to 999 in ascending order, each run of neighbouring ones on cards of
 * five words with the rest on the last, numbered from 0001, and behind these a first-order card that names first. All bear the number
 * problem. Loaded on a drum with all marks 0, such a deck gives the same marks and the same marked words, cell 000 aside. It is written
 * to the room bytes at out; 13,196 are enough for any drum. Drum and marks are only read, and the cell at first need not be marked.
 * Answers 0 and the deck's length when that is done. Else nothing is written, and the answer is 0 for written and the first of
 *   10: as for l1_load;
 *   12: first is not 1 to 999, or problem is above 999;
 *   22: the deck does not fit the room. */
struct l1_made l1_make(const uint64_t *drum, size_t cells, const uint8_t *marks, size_t marks_len, uint8_t *out, size_t room,
                       uint64_t first, uint64_t problem);

#ifdef __cplusplus
}
#endif

#endif
