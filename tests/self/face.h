/* A library behind the C face that answers every call with the one number ANSWER, and does nothing. */
#include "l1.h"

#define SUM(name)                                                                                                                      \
    struct l1_sum name(uint64_t a, uint64_t b)                                                                                         \
    {                                                                                                                                  \
        (void)a, (void)b;                                                                                                              \
        return (struct l1_sum){ANSWER, 0, 0};                                                                                          \
    }

#define OF_TWO(name)                                                                                                                   \
    struct l1_word name(uint64_t a, uint64_t b)                                                                                        \
    {                                                                                                                                  \
        (void)a, (void)b;                                                                                                              \
        return (struct l1_word){ANSWER, 0};                                                                                            \
    }

#define OF_ONE(name)                                                                                                                   \
    struct l1_word name(uint64_t b)                                                                                                    \
    {                                                                                                                                  \
        (void)b;                                                                                                                       \
        return (struct l1_word){ANSWER, 0};                                                                                            \
    }

SUM(l1_add)
SUM(l1_sub)
OF_TWO(l1_mpy)
OF_TWO(l1_div)
OF_TWO(l1_ngmpy)
OF_ONE(l1_sqrt)
OF_ONE(l1_abs)

struct l1_place l1_deck(const uint8_t *deck, size_t deck_len)
{
    (void)deck, (void)deck_len;
    return (struct l1_place){ANSWER, 0};
}

struct l1_place l1_load(uint64_t *drum, size_t cells, uint8_t *marks, size_t marks_len, const uint8_t *deck, size_t deck_len,
                        uint64_t *state, size_t state_len, uint64_t traced)
{
    (void)drum, (void)cells, (void)marks, (void)marks_len, (void)deck, (void)deck_len, (void)state, (void)state_len, (void)traced;
    return (struct l1_place){ANSWER, 0};
}

struct l1_ended l1_run(uint64_t *drum, size_t cells, uint8_t *marks, size_t marks_len, const uint8_t *deck, size_t deck_len,
                       uint8_t *out, size_t room, uint64_t *state, size_t state_len, uint64_t budget, uint64_t stop)
{
    (void)drum, (void)cells, (void)marks, (void)marks_len, (void)deck, (void)deck_len, (void)out, (void)room, (void)state;
    (void)state_len, (void)budget, (void)stop;
    return (struct l1_ended){ANSWER, 0, 0, 0, 0};
}

struct l1_made l1_make(const uint64_t *drum, size_t cells, const uint8_t *marks, size_t marks_len, uint8_t *out, size_t room,
                       uint64_t first, uint64_t problem)
{
    (void)drum, (void)cells, (void)marks, (void)marks_len, (void)out, (void)room, (void)first, (void)problem;
    return (struct l1_made){ANSWER, 0};
}
