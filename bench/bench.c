/* Orders a second of the library and of the yardstick, on one workload: a deck that goes round without end. Arguments: the deck, then
 * `plain` or `traced`. Both are given the same calls in turn, and after each pair of calls everything that they answered and were lent
 * is compared. The best of several rounds is told, in the processor's time, since what else the machine does only adds to it. With a
 * third argument, a number of orders, there is one round of so many and nothing is told: for who counts the instructions of the calls. */
#include "plain.h"

long read(int file, void *to, size_t most);
long write(int file, const void *from, size_t most);
int open(const char *path, int how, ...);
int memcmp(const void *a, const void *b, size_t n);
void *memset(void *to, int byte, size_t n);
int strcmp(const char *a, const char *b);
struct timespec {
    long seconds, nanoseconds;
};
int clock_gettime(int clock, struct timespec *now);
void _exit(int status) __attribute__((noreturn));

#define PROCESSOR_TIME 2
#define ROUNDS 9
#define ROOM 7700000ul
#define TRACED_ORDERS 100000
#define PLAIN_ORDERS 999999

typedef struct l1_place load_call(uint64_t *, size_t, uint8_t *, size_t, const uint8_t *, size_t, uint64_t *, size_t, uint64_t);
typedef struct l1_ended run_call(uint64_t *, size_t, uint8_t *, size_t, const uint8_t *, size_t, uint8_t *, size_t, uint64_t *, size_t,
                                 uint64_t, uint64_t);

/* One of the two machines, with all that it is lent. */
struct machine {
    load_call *load;
    run_call *run;
    uint64_t drum[1000], state[9];
    uint8_t marks[1000], out[ROOM];
    struct l1_ended ended;
    uint64_t best;
};

static struct machine ours = {.load = l1_load, .run = l1_run}, yardstick = {.load = plain_load, .run = plain_run};
static uint8_t deck[65536];
static size_t deck_len;

static void say(const char *text)
{
    size_t n = 0;
    while (text[n])
        n++;
    if (write(1, text, n) != (long)n)
        _exit(3);
}

static void say_number(uint64_t x)
{
    char text[32];
    int at = 31;
    text[at] = 0;
    do {
        text[--at] = (char)('0' + x % 10);
        x /= 10;
    } while (x > 0);
    say(text + at);
}

static uint64_t number_in(const char *text)
{
    uint64_t x = 0;
    while (*text)
        x = 10 * x + (uint64_t)(*text++ - '0');
    return x;
}

static void fail(const char *why)
{
    say(why);
    _exit(1);
}

static uint64_t now(void)
{
    struct timespec t;
    clock_gettime(PROCESSOR_TIME, &t);
    return (uint64_t)t.seconds * 1000000000u + (uint64_t)t.nanoseconds;
}

static void prepare(struct machine *m, int traced)
{
    memset(m->drum, 0, sizeof m->drum);
    memset(m->marks, 0, sizeof m->marks);
    memset(m->state, 0, sizeof m->state);
    m->best = ~0ul;
    if (m->load(m->drum, 1000, m->marks, 1000, deck, deck_len, m->state, 9, (uint64_t)traced).number)
        fail("bench: the deck is not loaded\n");
}

static void once(struct machine *m, uint64_t budget)
{
    uint64_t before = now(), took;
    m->ended = m->run(m->drum, 1000, m->marks, 1000, deck, deck_len, m->out, ROOM, m->state, 9, budget, 0);
    took = now() - before;
    if (took < m->best)
        m->best = took;
    if (m->ended.number != 2 || m->ended.count != budget)
        fail("bench: the deck does not go round without end\n");
}

int main(int words, char **word)
{
    int file, traced, rounds;
    long n;
    uint64_t budget;

    if (words != 3 && words != 4)
        fail("bench: a deck, plain or traced, and a number of orders or none\n");
    traced = strcmp(word[2], "traced") == 0;
    rounds = words == 4 ? 1 : ROUNDS;
    budget = words == 4 ? number_in(word[3]) : traced ? TRACED_ORDERS : PLAIN_ORDERS;
    file = open(word[1], 0);
    while ((n = read(file, deck + deck_len, sizeof deck - deck_len)) > 0)
        deck_len += (size_t)n;
    prepare(&ours, traced);
    prepare(&yardstick, traced);
    for (int i = 0; i < rounds; i++) {
        once(&ours, budget);
        once(&yardstick, budget);
        if (memcmp(&ours.ended, &yardstick.ended, sizeof ours.ended) || memcmp(ours.drum, yardstick.drum, sizeof ours.drum) ||
            memcmp(ours.marks, yardstick.marks, sizeof ours.marks) || memcmp(ours.state, yardstick.state, sizeof ours.state) ||
            memcmp(ours.out, yardstick.out, ROOM))
            fail("bench: the two machines differ\n");
    }
    if (words == 4)
        return 0;
    say_number(budget * 1000000 / (ours.best / 1000));
    say(" ");
    say_number(budget * 1000000 / (yardstick.best / 1000));
    say("\n");
    return 0;
}
