/* The yardstick: an interpreter of the same rules as one would write it in C, for speed and with nothing proved. It is written from
 * the rules and shares no code with the library. tests/all holds it to the second program as it holds the library, so that both are
 * known to do the same work. */
#include "plain.h"

enum { OK = 0, BUDGET = 2, DRUM = 10, TOO_LONG, STATE, KIND, CUT, BYTE, LOCATION, SECOND_T, NO_T };
enum { ADDRESS = 20, FOREIGN, ROOM, CODE, OPERAND, ZERO, ROOT, RANGE, UNFIT, NO_CARD };

#define CELLS 1000
#define MINUS 10000000000u
#define MOST 19999999999u
#define E8 100000000u
#define DECK_MOST 65536

/* The nine numbers of the state, by name. */
struct state {
    uint64_t at, box[3], counter, problem, reader, mode, tracing;
};

/* What a run works on. */
struct run {
    uint64_t *drum;
    uint8_t *marks;
    const uint8_t *deck;
    size_t deck_len;
    uint8_t *out;
    size_t room, written;
    struct state s;
    uint64_t stop, shown;
};

static const uint64_t ten[] = {1, 10, 100, 1000, 10000, 100000, 1000000, 10000000, 100000000, 1000000000, 10000000000u};

/* ---- arithmetic ---- */

static int is_number(uint64_t w)
{
    return w == 0 || (w <= MOST && w % MINUS >= 1000000000u);
}

/* The word of a sign, eight digits (or ten to the eighth, after rounding up) and an exponent. */
static int pack(int minus, uint64_t m, int e, uint64_t *word)
{
    if (m == E8) {
        m /= 10;
        e++;
    }
    if (e < 0 || e > 99)
        return RANGE;
    *word = (minus ? MINUS : 0) + m * 100 + (uint64_t)e;
    return OK;
}

/* v units of the exponent e, rounded to eight digits. */
static int round_off(int minus, uint64_t v, int e, uint64_t *word)
{
    int p = 0;
    uint64_t unit = 1;
    if (v == 0) {
        *word = 0;
        return OK;
    }
    while (v < 10000000) {
        v *= 10;
        e--;
    }
    while (v / unit >= E8) {
        unit *= 10;
        p++;
    }
    if (p > 0)
        v = (v + unit / 2) / unit;
    return pack(minus, v, e + p, word);
}

static int add(uint64_t a, uint64_t b, int turned, uint64_t *word)
{
    int s = a >= MINUS, t = (b >= MINUS) ^ turned, i;
    uint64_t m = a % MINUS / 100, n = b % MINUS / 100, swap;
    int x = (int)(a % 100), y = (int)(b % 100);
    if (n == 0) {
        *word = a;
        return OK;
    }
    if (m == 0) {
        *word = (t ? MINUS : 0) + b % MINUS;
        return OK;
    }
    if (x < y) {
        swap = m, m = n, n = swap;
        i = x, x = y, y = i;
        i = s, s = t, t = i;
    }
    if (x - y >= 10)
        return pack(s, m, x, word);
    m *= ten[x - y];
    if (s == t)
        return round_off(s, m + n, y, word);
    return m >= n ? round_off(s, m - n, y, word) : round_off(t, n - m, y, word);
}

/* How many digits went in a sum or a difference w of a and b. */
static uint64_t lost(uint64_t a, uint64_t b, uint64_t w)
{
    uint64_t most = a % 100 > b % 100 ? a % 100 : b % 100;
    return a && b && w && most > w % 100 ? most - w % 100 : 0;
}

static int multiply(uint64_t a, uint64_t b, int turned, uint64_t *word)
{
    int minus = (a >= MINUS) ^ (b >= MINUS) ^ turned;
    uint64_t p = (a % MINUS / 100) * (b % MINUS / 100);
    int e = (int)(a % 100) + (int)(b % 100) - 57;
    if (p == 0) {
        *word = 0;
        return OK;
    }
    if (p >= 1000000000000000u)
        return pack(minus, (p + E8 / 2) / E8, e + 8, word);
    return pack(minus, (p + E8 / 20) / (E8 / 10), e + 7, word);
}

static int divide(uint64_t a, uint64_t b, uint64_t *word)
{
    int minus = (a >= MINUS) ^ (b >= MINUS);
    uint64_t m = a % MINUS / 100, n = b % MINUS / 100, q;
    int e = (int)(a % 100) - (int)(b % 100) + 57;
    if (n == 0)
        return ZERO;
    if (m == 0) {
        *word = 0;
        return OK;
    }
    if (m < n) {
        m *= E8;
        e -= 8;
    } else {
        m *= E8 / 10;
        e -= 7;
    }
    q = m / n;
    if (2 * (m % n) >= n)
        q++;
    return pack(minus, q, e, word);
}

static int root(uint64_t b, uint64_t *word)
{
    uint64_t n = b % MINUS / 100, r;
    int e = (int)(b % 100) - 57;
    if (b >= MINUS)
        return ROOT;
    if (b == 0) {
        *word = 0;
        return OK;
    }
    if (e % 2 != 0) {
        n *= E8 / 10;
        e -= 7;
    } else {
        n *= E8;
        e -= 8;
    }
    r = (uint64_t)__builtin_sqrt((double)n);
    while (r * r > n)
        r--;
    while ((r + 1) * (r + 1) <= n)
        r++;
    if (n - r * r > r)
        r++;
    return pack(0, r, e / 2 + 57, word);
}

/* ---- cards ---- */

static uint8_t *put_digits(uint8_t *to, uint64_t x, int n)
{
    for (int i = n - 1; i >= 0; i--) {
        to[i] = (uint8_t)('0' + x % 10);
        x /= 10;
    }
    return to + n;
}

static void put_card(uint8_t *to, int kind, const struct state *s, uint64_t at, const uint64_t *words, int n)
{
    *to++ = (uint8_t)kind;
    to = put_digits(to, s->counter, 4);
    to = put_digits(to, at, 3);
    for (int i = 0; i < n; i++) {
        *to++ = words[i] < MINUS ? '+' : '-';
        to = put_digits(to, words[i], 10);
    }
    put_digits(to, s->problem, 3);
}

static uint64_t digits(const uint8_t *from, int n)
{
    uint64_t x = 0;
    for (int i = 0; i < n; i++)
        x = 10 * x + (from[i] - (uint64_t)'0');
    return x;
}

static uint64_t word_of(const uint8_t *card, int i)
{
    const uint8_t *from = card + 8 + 11 * i;
    return digits(from + 1, 10) + (*from == '-' ? MINUS : 0);
}

/* Whether a sign is due at a place of a card of n words, which is none of T. */
static int is_sign(size_t i, size_t n)
{
    return n && i >= 8 && i < 8 + 11 * n && (i - 8) % 11 == 0;
}

/* What is wrong with the card at a place, or OK; and the place to tell, or that behind the card. */
static int check_card(const uint8_t *deck, size_t len, size_t at, int second, size_t *place)
{
    const uint8_t *card = deck + at;
    size_t n = *card == 'T' ? 0 : (size_t)(*card - '0'), size = n ? 11 + 11 * n : 7, i;
    uint64_t location;
    *place = at;
    if (*card != 'T' && (*card < '1' || *card > '5'))
        return KIND;
    if (*card == 'T' && second)
        return SECOND_T;
    if (len - at < size)
        return CUT;
    for (i = 1; i < size; i++) {
        *place = at + i;
        if (is_sign(i, n) ? card[i] != '+' && card[i] != '-' : card[i] < '0' || card[i] > '9')
            return BYTE;
    }
    *place = at + (n ? 5 : 1);
    location = digits(deck + *place, 3);
    if (location < 1 || location + (n ? n : 1) > CELLS)
        return LOCATION;
    *place = at + size;
    return OK;
}

/* The check of a deck: OK and the place behind the first-order card, or what is wrong and the place to tell. */
static int check_deck(const uint8_t *deck, size_t len, size_t *place)
{
    size_t at = 0, behind = 0;
    int no;
    *place = DECK_MOST;
    if (len > DECK_MOST)
        return TOO_LONG;
    while (at < len) {
        no = check_card(deck, len, at, behind != 0, place);
        if (no)
            return no;
        if (deck[at] == 'T')
            behind = *place;
        at = *place;
    }
    *place = behind ? behind : len;
    return behind ? OK : NO_T;
}

static void store_card(uint64_t *drum, uint8_t *marks, const uint8_t *card)
{
    uint64_t location = digits(card + 5, 3);
    for (int i = 0; i < card[0] - '0'; i++) {
        drum[location + (uint64_t)i] = word_of(card, i);
        marks[location + (uint64_t)i] = 1;
    }
}

/* ---- entry ---- */

static int drum_fits(const uint64_t *drum, size_t cells, const uint8_t *marks, size_t marks_len)
{
    if (cells != CELLS || marks_len != CELLS)
        return 0;
    for (int i = 0; i < CELLS; i++)
        if (marks[i] > 1 || (marks[i] && drum[i] > MOST))
            return 0;
    return 1;
}

static int state_fits(const struct run *r, size_t behind, uint64_t budget)
{
    const struct state *s = &r->s;
    size_t at = behind;
    if (budget > 999999 || s->at > 1000 || s->box[0] > 999 || s->box[1] > 999 || s->box[2] > 999 || s->counter > 9999 ||
        s->problem > 999 || s->mode > 1 || s->tracing > s->mode || !r->marks[0])
        return 0;
    while (at < s->reader && at < r->deck_len)
        at += 11 + 11 * (size_t)(r->deck[at] - '0');
    return at == s->reader;
}

/* The entry of both calls: what refuses it, with the place to tell, or OK and the place behind the first-order card. */
static struct l1_place enter(const uint64_t *drum, size_t cells, const uint8_t *marks, size_t marks_len, const uint8_t *deck,
                             size_t deck_len, size_t state_len)
{
    struct l1_place told = {DRUM, 0};
    if (!drum_fits(drum, cells, marks, marks_len))
        return told;
    told.number = (uint64_t)check_deck(deck, deck_len, &told.place);
    if (told.number == OK && state_len != 9) {
        told.number = STATE;
        told.place = 0;
    }
    return told;
}

struct l1_place plain_load(uint64_t *drum, size_t cells, uint8_t *marks, size_t marks_len, const uint8_t *deck, size_t deck_len,
                           uint64_t *state, size_t state_len, uint64_t traced)
{
    struct l1_place told = enter(drum, cells, marks, marks_len, deck, deck_len, state_len);
    size_t behind = told.place, at = 0;
    if (told.number)
        return told;
    told.place = 0;
    for (; deck[at] != 'T'; at += 11 + 11 * (size_t)(deck[at] - '0'))
        store_card(drum, marks, deck + at);
    drum[0] = 0;
    marks[0] = 1;
    state[0] = digits(deck + at + 1, 3);
    state[1] = state[2] = state[3] = state[4] = 0;
    state[5] = digits(deck + at + 4, 3);
    state[6] = behind;
    state[7] = state[8] = traced != 0;
    return told;
}

/* ---- orders ---- */

static uint64_t shown(const struct run *r, uint64_t a)
{
    return r->marks[a] ? r->drum[a] : 0;
}

static void store(struct run *r, uint64_t a, uint64_t w)
{
    r->drum[a] = w;
    r->marks[a] = 1;
}

static void next_card(struct state *s)
{
    s->counter = s->counter == 9999 ? 0 : s->counter + 1;
}

static int trace(struct run *r, uint64_t w, uint64_t x)
{
    struct state *s = &r->s;
    uint64_t a = x % MINUS / 1000000 % 1000, words[6];
    if (r->room - r->written < 77)
        return ROOM;
    words[0] = w;
    words[1] = x;
    words[2] = s->box[0] * 1000000 + s->box[1] * 1000 + s->box[2];
    words[3] = x % MINUS >= 1000000000u && a ? shown(r, a) : 0;
    words[4] = shown(r, x / 1000 % 1000);
    words[5] = r->drum[0];
    next_card(s);
    put_card(r->out + r->written, 'X', s, s->at, words, 6);
    r->written += 77;
    return OK;
}

/* Codes 1 to 5. A stop puts 100 and its number, here and below. */
static int reckon(struct run *r, uint64_t o1, uint64_t a, uint64_t b, uint64_t c)
{
    uint64_t x = r->drum[a], y = r->drum[b], w;
    int no;
    if (!r->marks[a] || !r->marks[b])
        return FOREIGN;
    if (!is_number(x) || !is_number(y))
        return OPERAND;
    switch (o1) {
    case 1:
        no = add(x, y, 0, &w);
        break;
    case 2:
        no = add(x, y, 1, &w);
        break;
    case 3:
        no = multiply(x, y, 0, &w);
        break;
    case 4:
        no = divide(x, y, &w);
        break;
    default:
        no = multiply(x, y, 1, &w);
    }
    if (no)
        return no;
    store(r, c, w);
    store(r, 0, w);
    r->s.at++;
    if (r->stop && o1 <= 2 && lost(x, y, w) > 2) {
        r->shown = w;
        return 103;
    }
    return OK;
}

/* Orders of one operand: SQRT, ABS and MOVE 000. */
static int one(struct run *r, uint64_t o2, uint64_t b, uint64_t c)
{
    uint64_t y = r->drum[b], w = y;
    int no;
    if (!r->marks[b])
        return FOREIGN;
    if (o2 && !is_number(y))
        return OPERAND;
    if (o2 == 300) {
        no = root(y, &w);
        if (no)
            return no;
    } else if (o2 == 350) {
        w = y % MINUS;
    }
    store(r, c, w);
    store(r, 0, w);
    r->s.at++;
    return OK;
}

/* MOVE of a block of a words, which the block that it goes to may overlap. */
static int move(struct run *r, uint64_t a, uint64_t b, uint64_t c)
{
    if (b == 0 || c == 0 || b + a > CELLS || c + a > CELLS)
        return ADDRESS;
    if (__builtin_memchr(r->marks + b, 0, a))
        return FOREIGN;
    __builtin_memmove(r->drum + c, r->drum + b, a * sizeof *r->drum);
    __builtin_memset(r->marks + c, 1, a);
    r->s.at++;
    return OK;
}

/* TR A, TR B and TR C, codes 6 to 8. */
static int compare(struct run *r, uint64_t o1, uint64_t a, uint64_t b, uint64_t c)
{
    uint64_t w = r->drum[a], x;
    if (a == 0)
        return ADDRESS;
    if (!r->marks[a])
        return FOREIGN;
    x = o1 == 6 ? w / 1000000 % 1000 : o1 == 7 ? w / 1000 % 1000 : w % 1000;
    r->s.at = x == b ? r->s.at + 1 : c;
    return OK;
}

/* SET, ADD and SUB of the address that is worth `unit` in the word. ADD and SUB go through all ten digits. */
static int change(struct run *r, int how, uint64_t unit, uint64_t b, uint64_t c)
{
    uint64_t w, d, by = c * unit;
    if (b == 0)
        return ADDRESS;
    if (!r->marks[b])
        return FOREIGN;
    w = r->drum[b];
    d = w % MINUS;
    switch (how) {
    case 5:
        w = w - d / unit % 1000 * unit + by;
        break;
    case 6:
        if (d + by >= MINUS)
            return ADDRESS;
        w += by;
        break;
    default:
        if (d < by)
            return ADDRESS;
        w -= by;
    }
    r->drum[b] = w;
    r->s.at++;
    return OK;
}

static int loop(struct run *r, int x, int y, int z, uint64_t b, uint64_t c)
{
    struct state *s = &r->s;
    uint64_t most = 0;
    s->box[0] += (uint64_t)x;
    s->box[1] += (uint64_t)y;
    s->box[2] += (uint64_t)z;
    if (x)
        most = s->box[0];
    if (y && s->box[1] > most)
        most = s->box[1];
    if (z && s->box[2] > most)
        most = s->box[2];
    if (most < b) {
        s->at = c;
    } else {
        s->box[0] = s->box[1] = s->box[2] = 0;
        s->at++;
    }
    return OK;
}

static int punch(struct run *r, uint64_t b, uint64_t c)
{
    uint64_t a, n = c + 1 - b, cards;
    if (b == 0 || b > c)
        return ADDRESS;
    for (a = b; a <= c; a++)
        if (!r->marks[a])
            return FOREIGN;
    cards = (n + 4) / 5;
    if (r->room - r->written < 11 * (cards + n))
        return ROOM;
    for (; n > 0; b += 5) {
        int k = n < 5 ? (int)n : 5;
        next_card(&r->s);
        put_card(r->out + r->written, '0' + k, &r->s, b, r->drum + b, k);
        r->written += 11 + 11 * (size_t)k;
        n -= (uint64_t)k;
    }
    r->s.at++;
    return OK;
}

static int read_block(struct run *r, uint64_t b, uint64_t c)
{
    size_t at = r->s.reader;
    uint64_t next = b;
    if (b == 0 || b > c)
        return ADDRESS;
    while (next != c + 1) {
        uint64_t n;
        if (at == r->deck_len)
            return NO_CARD;
        n = (uint64_t)(r->deck[at] - '0');
        if (digits(r->deck + at + 5, 3) != next || next + n > c + 1)
            return UNFIT;
        next += n;
        at += 11 + 11 * n;
    }
    r->s.at++;
    while (r->s.reader < at) {
        store_card(r->drum, r->marks, r->deck + r->s.reader);
        r->s.reader += 11 + 11 * (size_t)(r->deck[r->s.reader] - '0');
    }
    return OK;
}

/* Orders with O1 zero. */
static int by_code(struct run *r, uint64_t o2, uint64_t b, uint64_t c)
{
    struct state *s = &r->s;
    uint64_t w;
    switch (o2) {
    case 0:
        r->shown = shown(r, b);
        return 100;
    case 200:
        s->at = c;
        if (!r->stop)
            return OK;
        r->shown = shown(r, b);
        return 101;
    case 201:
        s->at = r->drum[0] > MINUS ? c : b;
        return OK;
    case 202:
        s->at = r->drum[0] % 100 >= b ? c : s->at + 1;
        return OK;
    case 203:
        s->at = c;
        return OK;
    case 204:
        if (c == 0)
            return ADDRESS;
        if (!r->marks[c])
            return FOREIGN;
        w = r->drum[c] % MINUS;
        store(r, c, w - w % 1000 + b);
        s->at = c;
        return OK;
    case 1:
    case 10:
    case 11:
    case 100:
    case 101:
    case 110:
    case 111:
        return loop(r, o2 >= 100, o2 / 10 % 10 == 1, o2 % 10 == 1, b, c);
    case 500:
    case 600:
    case 700:
        return change(r, (int)(o2 / 100), 1000000, b, c);
    case 50:
    case 60:
    case 70:
        return change(r, (int)(o2 / 10), 1000, b, c);
    case 5:
    case 6:
    case 7:
        return change(r, (int)o2, 1, b, c);
    case 300:
    case 350:
        return one(r, o2, b, c);
    case 400:
        return read_block(r, b, c);
    case 410:
        if (!s->mode)
            return punch(r, b, c);
        break;
    case 452:
        store(r, s->at, 454000000);
        s->tracing = s->mode;
        break;
    case 450:
        s->tracing = s->mode;
        break;
    case 451:
        s->tracing = 0;
        break;
    case 454:
        break;
    default:
        return CODE;
    }
    s->at++;
    return OK;
}

static int step(struct run *r)
{
    struct state *s = &r->s;
    uint64_t w, x, o1, a, b, c;
    if (s->at == 0 || s->at > 999)
        return ADDRESS;
    if (!r->marks[s->at])
        return FOREIGN;
    w = x = r->drum[s->at];
    o1 = w % MINUS / 1000000000u;
    a = w / 1000000 % 1000;
    b = w / 1000 % 1000;
    c = w % 1000;
    if (w >= MINUS) {
        a += s->box[0];
        b += s->box[1];
        c += s->box[2];
        if (a > 999 || b > 999 || c > 999)
            return ADDRESS;
        x = MINUS + o1 * 1000000000u + a * 1000000 + b * 1000 + c;
    }
    if (s->tracing) {
        int no = trace(r, w, x);
        if (no)
            return no;
    }
    if (o1 == 0)
        return by_code(r, a, b, c);
    if (o1 <= 5)
        return reckon(r, o1, a, b, c);
    if (o1 <= 8)
        return compare(r, o1, a, b, c);
    return a == 0 ? one(r, 0, b, c) : move(r, a, b, c);
}

struct l1_ended plain_run(uint64_t *drum, size_t cells, uint8_t *marks, size_t marks_len, const uint8_t *deck, size_t deck_len,
                          uint8_t *out, size_t room, uint64_t *state, size_t state_len, uint64_t budget, uint64_t stop)
{
    struct l1_place entered = enter(drum, cells, marks, marks_len, deck, deck_len, state_len);
    struct l1_ended told = {entered.number, entered.place, 0, 0, 0};
    struct run r = {drum, marks, deck, deck_len, out, room, 0, {0}, stop, 0};
    if (told.number)
        return told;
    told.number = STATE;
    told.place = 0;
    __builtin_memcpy(&r.s, state, sizeof r.s);
    if (!state_fits(&r, entered.place, budget))
        return told;
    told.number = BUDGET;
    while (told.count < budget) {
        int no = step(&r);
        if (no == OK) {
            told.count++;
            continue;
        }
        if (no >= 100) {
            told.count++;
            no -= 100;
        }
        told.number = (uint64_t)no;
        break;
    }
    told.shown = r.shown;
    told.written = r.written;
    __builtin_memcpy(state, &r.s, sizeof r.s);
    return told;
}
