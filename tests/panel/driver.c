/* Makes the calls that a stream of cases asks for, and writes the answers: the library's side of the comparison with the second
 * program, whose README has the formats. The one argument says what the cases are: numbers, roots, decks, sessions, codes or makes. All that
 * is lent lies between guards, and each answer says whether a call has touched one; the argument guards has that tried. */
#include "l1.h"

long read(int file, void *to, size_t most);
long write(int file, const void *from, size_t most);
void *realloc(void *old, size_t size);
void *memcpy(void *to, const void *from, size_t n);
void *memset(void *to, int byte, size_t n);
int strcmp(const char *a, const char *b);
void _exit(int status) __attribute__((noreturn));

#define HELD (1ul << 20)

static uint8_t in[HELD], out[HELD];
static size_t in_at, in_end, out_end;

static void say(const char *words)
{
    size_t n = 0;
    while (words[n])
        n++;
    if (write(2, words, n) != (long)n)
        _exit(3);
}

static void quit(const char *why)
{
    say(why);
    _exit(2);
}

static void flush(void)
{
    size_t at = 0;
    while (at < out_end) {
        long n = write(1, out + at, out_end - at);
        if (n <= 0)
            quit("driver: the answers cannot be written\n");
        at += (size_t)n;
    }
    out_end = 0;
}

/* Reads n bytes; 0 where the input is at its end. */
static int take(void *to, size_t n)
{
    size_t got = 0;
    while (got < n) {
        if (in_at == in_end) {
            long more = read(0, in, HELD);
            if (more < 0)
                quit("driver: the cases cannot be read\n");
            if (more == 0 && got == 0)
                return 0;
            if (more == 0)
                quit("driver: the cases end within one\n");
            in_at = 0;
            in_end = (size_t)more;
        }
        size_t part = in_end - in_at < n - got ? in_end - in_at : n - got;
        memcpy((uint8_t *)to + got, in + in_at, part);
        in_at += part;
        got += part;
    }
    return 1;
}

static void put(uint64_t number)
{
    if (HELD - out_end < sizeof number)
        flush();
    memcpy(out + out_end, &number, sizeof number);
    out_end += sizeof number;
}

static void numbers(void)
{
    static struct l1_sum (*const sums[])(uint64_t, uint64_t) = {l1_add, l1_sub};
    static struct l1_word (*const twos[])(uint64_t, uint64_t) = {l1_mpy, l1_div, l1_ngmpy};
    static struct l1_word (*const ones[])(uint64_t) = {l1_sqrt, l1_abs};
    struct {
        uint64_t operation, a, b;
    } asked;

    while (take(&asked, sizeof asked)) {
        struct l1_word r;
        if (asked.operation < 2) {
            struct l1_sum s = sums[asked.operation](asked.a, asked.b);
            put(s.number);
            put(s.word);
            put(s.lost);
            continue;
        }
        if (asked.operation < 5)
            r = twos[asked.operation - 2](asked.a, asked.b);
        else if (asked.operation < 7)
            r = ones[asked.operation - 5](asked.a);
        else
            quit("driver: no such operation\n");
        put(r.number);
        put(r.word);
    }
}

/* Bytes that are lent to a call, with a guard before them and one behind. */
struct lent {
    uint8_t *at;
    size_t held, length;
    const char *name;
};

/* What lies on the bench. Drum and state are runs of 64-bit numbers. */
static struct lent drum = {.name = "drum"}, marks = {.name = "marks"}, deck = {.name = "deck"}, output = {.name = "output"},
                   state = {.name = "state"};
static struct lent *const bench[] = {&drum, &marks, &deck, &output, &state};

#define RUNS (sizeof bench / sizeof *bench)
#define GUARD 64

/* What the byte i of a guard holds; no two are the same. */
static uint8_t guard(size_t i)
{
    return (uint8_t)(0xC3 + 29 * i);
}

/* Makes the length n, with both guards as they must be. A pointer that is lent is never null, not even at length 0, and is aligned for a
 * number. */
static void stretch(struct lent *l, size_t n)
{
    size_t i;

    if (!l->at || l->held < n) {
        uint8_t *all = realloc(l->at ? l->at - GUARD : 0, n + 2 * GUARD);
        if (!all)
            quit("driver: no memory\n");
        l->at = all + GUARD;
        l->held = n;
    }
    l->length = n;
    for (i = 0; i < GUARD; i++) {
        (l->at - GUARD)[i] = guard(i);
        (l->at + n)[i] = guard(i);
    }
}

/* FNV-1a of 64 bits. */
static uint64_t digest(const struct lent *l)
{
    uint64_t d = 0xCBF29CE484222325ul;
    size_t i;
    for (i = 0; i < l->length; i++)
        d = (d ^ l->at[i]) * 0x100000001B3ul;
    return d;
}

/* The digest of the deck as it was set: no call may write there. */
static uint64_t deck_as_set;

/* Says in words where a call has written, so often at most. */
static int to_tell = 10;

static void tell(const char *where, const char *name)
{
    if (to_tell == 0)
        return;
    to_tell--;
    say("driver: a call has written ");
    say(where);
    say(name);
    say("\n");
}

static int is_touched(const uint8_t *at)
{
    size_t i;
    for (i = 0; i < GUARD; i++)
        if (at[i] != guard(i))
            return 1;
    return 0;
}

/* What a call has touched that it must not: 0 for nothing, the odd number 2 r + 1 for the guard before run r of the bench, 2 r + 2 for the
 * one behind it, and 2 RUNS + 1 for the deck itself. */
static uint64_t touched(void)
{
    size_t r;
    for (r = 0; r < RUNS; r++) {
        if (!bench[r]->at)
            continue;
        if (is_touched(bench[r]->at - GUARD)) {
            tell("before the ", bench[r]->name);
            return 2 * r + 1;
        }
        if (is_touched(bench[r]->at + bench[r]->length)) {
            tell("behind the ", bench[r]->name);
            return 2 * r + 2;
        }
    }
    if (digest(&deck) != deck_as_set) {
        tell("into the ", deck.name);
        return 2 * RUNS + 1;
    }
    return 0;
}

static void take_all(struct lent *l, size_t n)
{
    stretch(l, n);
    if (n && !take(l->at, n))
        quit("driver: the cases end within one\n");
}

static void take_deck(size_t n)
{
    take_all(&deck, n);
    deck_as_set = digest(&deck);
}

static void decks(void)
{
    uint32_t length;

    while (take(&length, sizeof length)) {
        take_deck(length);
        struct l1_place r = l1_deck(deck.at, deck.length);
        put(r.number);
        put(r.place);
        put(touched());
    }
}

static uint64_t number(void)
{
    uint64_t n;
    if (!take(&n, sizeof n))
        quit("driver: the cases end within one\n");
    return n;
}

static uint64_t *numbers_of(const struct lent *l)
{
    return (uint64_t *)(void *)l->at;
}

static size_t count_of(const struct lent *l)
{
    return l->length / sizeof(uint64_t);
}

static void take_numbers(struct lent *l)
{
    take_all(l, number() * sizeof(uint64_t));
}

/* A drum and marks that are told by a rule and its exceptions. */
static void take_sparse(void)
{
    size_t cells = number(), i, n;
    uint64_t fill = number();

    stretch(&drum, cells * sizeof(uint64_t));
    for (i = 0; i < cells; i++)
        numbers_of(&drum)[i] = fill * (i + 1);
    for (n = number(); n; n--) {
        i = number();
        numbers_of(&drum)[i] = number();
    }
    stretch(&marks, number());
    memset(marks.at, 0, marks.length);
    for (n = number(); n; n--) {
        i = number();
        marks.at[i] = (uint8_t)number();
    }
}

static void put_bench(void)
{
    size_t i;
    put(touched());
    for (i = 0; i < count_of(&state); i++)
        put(numbers_of(&state)[i]);
    put(digest(&drum));
    put(digest(&marks));
}

static void load(void)
{
    struct l1_place r = l1_load(numbers_of(&drum), count_of(&drum), marks.at, marks.length, deck.at, deck.length,
                                numbers_of(&state), count_of(&state), number());
    put(r.number);
    put(r.place);
    put_bench();
}

static void run(void)
{
    stretch(&output, number());
    uint64_t budget = number(), stop = number();
    memset(output.at, 0xA5, output.length);
    struct l1_ended r = l1_run(numbers_of(&drum), count_of(&drum), marks.at, marks.length, deck.at, deck.length,
                               output.at, output.length, numbers_of(&state), count_of(&state), budget, stop);
    put(r.number);
    put(r.place);
    put(r.count);
    put(r.shown);
    put(r.written);
    put(digest(&output));
    put_bench();
}

/* How many bytes of the output are the deck that was made last. */
static size_t made;

/* Before a making no byte of the output is one that a card can hold, and none is as its neighbour. The answer has them all, filled up with
 * zeros to whole numbers. */
static void make(void)
{
    size_t i, room = number();
    uint64_t first = number(), problem = number(), eight;

    stretch(&output, room);
    for (i = 0; i < room; i++)
        output.at[i] = (uint8_t)(0x80 | 29 * i);
    struct l1_made r = l1_make(numbers_of(&drum), count_of(&drum), marks.at, marks.length, output.at, room, first, problem);
    made = r.written < room ? r.written : room;
    put(r.number);
    put(r.written);
    for (i = 0; i < room; i += sizeof eight) {
        eight = 0;
        memcpy(&eight, output.at + i, room - i < sizeof eight ? room - i : sizeof eight);
        put(eight);
    }
    put_bench();
}

/* Puts what was made last on the bench as the deck. */
static void take_made(void)
{
    stretch(&deck, made);
    memcpy(deck.at, output.at, made);
    deck_as_set = digest(&deck);
}

static void sessions(void)
{
    uint64_t tag;

    while ((tag = number()) != 0)
        switch (tag) {
        case 1:
            take_numbers(&drum);
            take_all(&marks, number());
            take_numbers(&state);
            take_deck(0);
            break;
        case 2:
            take_deck(number());
            break;
        case 3:
            load();
            break;
        case 4:
            run();
            break;
        case 5:
            take_numbers(&state);
            break;
        case 6:
            break;
        case 7:
            take_sparse();
            take_numbers(&state);
            take_deck(0);
            break;
        case 8:
            make();
            break;
        case 9:
            take_made();
            break;
        default:
            quit("driver: no such message\n");
        }
}

/* Changes one bit at each place that no call may touch, and sees that this is told. */
static void guards(void)
{
    size_t r, i;

    to_tell = 0;
    for (r = 0; r < RUNS; r++)
        stretch(bench[r], 8 * r);
    memset(deck.at, '1', deck.length);
    deck_as_set = digest(&deck);
    if (touched() != 0)
        quit("driver: a guard is told that was not touched\n");
    for (r = 0; r < RUNS; r++)
        for (i = 0; i < 2 * GUARD; i++) {
            uint8_t *at = i < GUARD ? bench[r]->at - GUARD + i : bench[r]->at + bench[r]->length + (i - GUARD);
            *at ^= 0x10;
            if (touched() != 2 * r + 1 + i / GUARD)
                quit("driver: a guard that was touched is not told\n");
            *at ^= 0x10;
        }
    for (i = 0; i < deck.length; i++) {
        deck.at[i] ^= 1;
        if (touched() != 2 * RUNS + 1)
            quit("driver: a deck that was changed is not told\n");
        deck.at[i] ^= 1;
    }
    static const char told[] = "guards: each place that no call may touch was touched, and told\n";
    memcpy(out, told, sizeof told - 1);
    out_end = sizeof told - 1;
}

int main(int words, char **word)
{
    if (words == 2 && (!strcmp(word[1], "numbers") || !strcmp(word[1], "roots")))
        numbers();
    else if (words == 2 && !strcmp(word[1], "decks"))
        decks();
    else if (words == 2 && (!strcmp(word[1], "sessions") || !strcmp(word[1], "codes") || !strcmp(word[1], "makes")))
        sessions();
    else if (words == 2 && !strcmp(word[1], "guards"))
        guards();
    else
        quit("driver: say numbers, roots, decks, sessions, codes, makes or guards\n");
    flush();
    return 0;
}
