/* The yardstick: load and run of the same rules, written in plain C with nothing proved. Signatures and answers are those of
 * include/l1.h. */
#ifndef PLAIN_H
#define PLAIN_H

#include "l1.h"

struct l1_place plain_load(uint64_t *drum, size_t cells, uint8_t *marks, size_t marks_len, const uint8_t *deck, size_t deck_len,
                           uint64_t *state, size_t state_len, uint64_t traced);
struct l1_ended plain_run(uint64_t *drum, size_t cells, uint8_t *marks, size_t marks_len, const uint8_t *deck, size_t deck_len,
                          uint8_t *out, size_t room, uint64_t *state, size_t state_len, uint64_t budget, uint64_t stop);

#endif
