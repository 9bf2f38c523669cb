/* The replica's front panel in a terminal. It reads commands, a line each, and writes an answer to each; `help` lists them. A command
 * may also stand behind the program's name, and then it is the only one: `front session examples/sum.deck`.
 *
 * Every call of include/l1.h is made here once, in its plainest form: arithmetic in `reckon`, the deck check in `check`, load and run,
 * with all that they want lent to them, in `session`, and a deck of the drum in `make`. */
#include "l1.h"

int open(const char *path, int flags, ...);
int close(int file);
long read(int file, void *to, size_t most);
int printf(const char *format, ...);
int fflush(void *file);
int isatty(int file);
size_t strlen(const char *text);
int strcmp(const char *a, const char *b);
int strncmp(const char *a, const char *b, size_t most);
void *memset(void *to, int byte, size_t n);

#define COUNT(table) (sizeof(table) / sizeof(table)[0])
#define MINUS 10000000000ul

static const char help[] =
    "add A B, sub A B, mpy A B, div A B, ngmpy A B   arithmetic; a word is a sign and ten digits, +1000000050 is 1\n"
    "sqrt B, abs B                                   root and magnitude\n"
    "deck FILE                                       whether the bytes of a file are a deck\n"
    "session FILE [traced] [stop] [lines] [budget=N] loads a deck on an empty drum and runs it: with trace cards, with the\n"
    "                                                PROGRAMMED STOP switch on STOP, a card a line, N orders (999999) at most\n"
    "make FIRST [PROBLEM]                            a load deck of the cells that the last session owns; the problem number is the\n"
    "                                                session's where none is typed\n"
    "help, quit\n";

/* Says what is wrong with a command. */
static int wrong(const char *what, const char *which)
{
    printf("%s: %s\n", what, which);
    return 0;
}

/* ---- Words and numbers, as they are typed and shown. */

/* Digits as a number; 0 where there are none, or more than 64 bits are sure to hold, or where something else stands among them. */
static int digits(const char *text, uint64_t *number)
{
    size_t i;

    *number = 0;
    for (i = 0; text[i] >= '0' && text[i] <= '9'; i++)
        *number = *number * 10 + (uint64_t)(text[i] - '0');
    return i > 0 && i < 20 && !text[i];
}

static int word(const char *text, uint64_t *number)
{
    if ((text[0] != '+' && text[0] != '-') || strlen(text) != 11 || !digits(text + 1, number))
        return wrong("not a sign and ten digits", text);
    if (text[0] == '-')
        *number += MINUS;
    return 1;
}

static char sign_of(uint64_t number)
{
    return number < MINUS ? '+' : '-';
}

/* ---- Arithmetic. */

static const struct {
    const char *name;
    struct l1_sum (*sum)(uint64_t a, uint64_t b);
    struct l1_word (*of_two)(uint64_t a, uint64_t b);
    struct l1_word (*of_one)(uint64_t b);
} operations[] = {
    {"add", l1_add, 0, 0},
    {"sub", l1_sub, 0, 0},
    {"mpy", 0, l1_mpy, 0},
    {"div", 0, l1_div, 0},
    {"ngmpy", 0, l1_ngmpy, 0},
    {"sqrt", 0, 0, l1_sqrt},
    {"abs", 0, 0, l1_abs},
};

static const char *reason(uint64_t number)
{
    switch (number) {
    case 24:
        return "an operand is not a number";
    case 25:
        return "the divisor is zero";
    case 26:
        return "the root of a negative number";
    default:
        return "the result is out of range";
    }
}

/* One operation on the words that are typed behind its name. Where digits went in a sum, how many stands behind it. */
static int reckon(size_t which, char **typed, int count)
{
    uint64_t a, b, lost = 0;
    struct l1_word r;

    if (operations[which].of_one) {
        if (count != 1)
            return wrong("one word is wanted behind", operations[which].name);
        if (!word(typed[0], &b))
            return 0;
        r = operations[which].of_one(b);
    } else {
        if (count != 2)
            return wrong("two words are wanted behind", operations[which].name);
        if (!word(typed[0], &a) || !word(typed[1], &b))
            return 0;
        if (operations[which].sum) {
            struct l1_sum s = operations[which].sum(a, b);
            r = (struct l1_word){s.number, s.word};
            lost = s.lost;
        } else {
            r = operations[which].of_two(a, b);
        }
    }
    if (r.number)
        printf("%lu, %s", r.number, reason(r.number));
    else
        printf("%c%010lu", sign_of(r.word), r.word % MINUS);
    if (lost)
        printf(", digits lost: %lu", lost);
    printf("\n");
    return 1;
}

/* ---- Decks. One byte more than the longest deck is read, so that a longer file is told as too long. */

#define LONGEST 65536

static uint8_t deck[LONGEST + 1];
static size_t deck_len;

static int read_deck(const char *path)
{
    int file = open(path, 0);
    long n = -1;

    deck_len = 0;
    if (file >= 0) {
        while (deck_len < sizeof deck && (n = read(file, deck + deck_len, sizeof deck - deck_len)) > 0)
            deck_len += (size_t)n;
        close(file);
    }
    return n >= 0 || wrong("the file cannot be read", path);
}

static int check(char **typed, int count)
{
    if (count != 1)
        return wrong("one file is wanted behind", "deck");
    if (!read_deck(typed[0]))
        return 0;
    struct l1_place r = l1_deck(deck, deck_len);
    if (r.number)
        printf("%lu %lu\n", r.number, r.place);
    else
        printf("good\n");
    return 1;
}

/* ---- Sessions. The library keeps nothing: drum, marks, state and room for the output are ours, and are lent to each call. */

#define CELLS 1000
#define STATE 9
#define ROOM (8ul << 20)

static uint64_t drum[CELLS], state[STATE];
static uint8_t marks[CELLS], out[ROOM];

/* How a session is to be run. */
struct choice {
    uint64_t traced, stop, lines, budget;
};

static int choose(char **typed, int count, struct choice *c)
{
    int i;

    c->traced = c->stop = c->lines = 0;
    c->budget = 999999;
    for (i = 0; i < count; i++)
        if (!strcmp(typed[i], "traced"))
            c->traced = 1;
        else if (!strcmp(typed[i], "stop"))
            c->stop = 1;
        else if (!strcmp(typed[i], "lines"))
            c->lines = 1;
        else if (strncmp(typed[i], "budget=", 7) || !digits(typed[i] + 7, &c->budget))
            return wrong("not traced, stop, lines or budget=N", typed[i]);
    return 1;
}

/* The bytes of a card that the library wrote, by its kind: 1 to 5, or X with six words. */
static size_t card_size(uint8_t kind)
{
    return 11 + 11 * (kind == 'X' ? 6 : (size_t)(kind - '0'));
}

static void show_cards(size_t written, uint64_t lines)
{
    size_t at, size;

    for (at = 0; at < written; at += size) {
        size = lines ? card_size(out[at]) : written;
        printf("%.*s%s", (int)size, (const char *)out + at, lines ? "\n" : "");
    }
}

/* Loads a deck on an empty drum and runs it; the cards, then the Z card. Where load or run refuses to begin, its number and place. */
static int session(char **typed, int count)
{
    struct choice c;

    if (count < 1)
        return wrong("a file is wanted behind", "session");
    if (!choose(typed + 1, count - 1, &c) || !read_deck(typed[0]))
        return 0;
    memset(drum, 0, sizeof drum);
    memset(marks, 0, sizeof marks);
    memset(state, 0, sizeof state);
    struct l1_place l = l1_load(drum, CELLS, marks, CELLS, deck, deck_len, state, STATE, c.traced);
    if (l.number) {
        printf("%lu %lu", l.number, l.place);
        return 1;
    }
    struct l1_ended r = l1_run(drum, CELLS, marks, CELLS, deck, deck_len, out, ROOM, state, STATE, c.budget, c.stop);
    if (r.number >= 10 && r.number <= 18) {
        printf("%lu %lu", r.number, r.place);
        return 1;
    }
    show_cards(r.written, c.lines);
    printf("Z%02lu%04lu%06lu%c%010lu", r.number, state[0], r.count, sign_of(r.shown), r.shown % MINUS);
    return 1;
}

/* The deck of the drum that the last session left, or the number of its refusal and 0. */
static int make(char **typed, int count)
{
    uint64_t first, problem = state[5];

    if (count < 1 || count > 2)
        return wrong("one number or two are wanted behind", "make");
    if (!digits(typed[0], &first))
        return wrong("not a number", typed[0]);
    if (count == 2 && !digits(typed[1], &problem))
        return wrong("not a number", typed[1]);
    struct l1_made m = l1_make(drum, CELLS, marks, CELLS, out, ROOM, first, problem);
    if (m.number)
        printf("%lu 0", m.number);
    else
        printf("%.*s", (int)m.written, (const char *)out);
    return 1;
}

/* ---- Commands. */

/* Does one command, which has at least one word. The answer to session and to make is bytes for a file and ends with no line end; in a
 * dialogue one is added. Says 0 where something was wrong with the command. */
static int command(char **typed, int count, int dialogue)
{
    size_t i;
    int done;

    for (i = 0; i < COUNT(operations); i++)
        if (!strcmp(typed[0], operations[i].name))
            return reckon(i, typed + 1, count - 1);
    if (!strcmp(typed[0], "deck"))
        return check(typed + 1, count - 1);
    if (!strcmp(typed[0], "session") || !strcmp(typed[0], "make")) {
        done = typed[0][0] == 's' ? session(typed + 1, count - 1) : make(typed + 1, count - 1);
        if (done && dialogue)
            printf("\n");
        return done;
    }
    if (!strcmp(typed[0], "help"))
        return printf("%s", help) > 0;
    return wrong("no such command, help lists them", typed[0]);
}

#define LONGEST_LINE 1024
#define MOST_WORDS 16

/* The next line of the input, without its end and cut at the longest; its whole length, or -1 behind the last. */
static long next_line(char *line)
{
    static uint8_t held[4096];
    static long at, end;
    long length = 0;

    for (;;) {
        if (at == end) {
            end = read(0, held, sizeof held);
            at = 0;
            if (end <= 0) {
                end = 0;
                line[length < LONGEST_LINE ? length : LONGEST_LINE] = 0;
                return length ? length : -1;
            }
        }
        if (held[at] == '\n')
            break;
        if (length < LONGEST_LINE)
            line[length] = (char)held[at];
        length++;
        at++;
    }
    at++;
    line[length < LONGEST_LINE ? length : LONGEST_LINE] = 0;
    return length;
}

/* Cuts a line into its words; how many there are, and one more than the most where there are more. */
static int cut(char *line, char **typed)
{
    int count = 0;

    for (;;) {
        while (*line == ' ' || *line == '\t' || *line == '\r')
            *line++ = 0;
        if (!*line || count > MOST_WORDS)
            return count;
        if (count < MOST_WORDS)
            typed[count] = line;
        count++;
        while (*line && *line != ' ' && *line != '\t' && *line != '\r')
            line++;
    }
}

static void dialogue(void)
{
    static char line[LONGEST_LINE + 1];
    char *typed[MOST_WORDS];
    int asks = isatty(0), count;
    long length;

    for (;;) {
        if (asks)
            printf("l1> ");
        fflush(0);
        length = next_line(line);
        if (length < 0)
            return;
        count = cut(line, typed);
        if (length > LONGEST_LINE || count > MOST_WORDS)
            printf("a command has at most %d bytes and %d words\n", LONGEST_LINE, MOST_WORDS);
        else if (count && !strcmp(typed[0], "quit"))
            return;
        else if (count)
            command(typed, count, 1);
    }
}

int main(int words, char **given)
{
    int done = 1;

    if (words > 1)
        done = command(given + 1, words - 1, 0);
    else
        dialogue();
    return fflush(0) || !done ? 2 : 0;
}
