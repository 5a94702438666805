/* What the rules for history sizes need of a task file, and the limit between the library's two ways. */
#ifndef TASK_H
#define TASK_H

#include <stddef.h>
#include <stdint.h>

enum {
    MOST_REGISTERS = 6,
    MOST_STATES = 16,
    HEADER = 1,
    STATE = 2,
    EDGE = 3,
    PAIR = 4,
    HISTORY = 5,
    END = 15,
    EDGE_BODY = 5,
    HISTORY_AT = 8 /* where the size stands in a position */
};

/* Bytes of a kind's body; none if it does not exist, so that its byte alone is passed over. */
size_t body_bytes(uint8_t kind);

/* Of a file whose records are in order as far as the pairs: where the next record begins, which states the history's size or
 * is another. */
size_t after_pairs(const uint8_t *task, size_t length);

/* Of such a file: the left model's registers, the states and their register sets of both models, the start position with the
 * size as it is stated, or 13. */
struct start {
    uint8_t registers;
    uint8_t states[2];
    uint8_t sets[2][MOST_STATES];
    uint8_t position[HISTORY_AT + 1];
};
void read_start(struct start *start, const uint8_t *task, size_t length);

/* The numbers that the two readers of a position hold together, shared ones counted as one. The states exist. */
unsigned held_together(const struct start *start, const uint8_t *position);

/* While the library explores, it has a bit for each key that a position of the task could have, if these fit: 40 to an entry.
 * Otherwise it chains what it finds. This is the fewest entries in which they fit. A key has both states, a digit in base 8
 * for each left register, and a size from the start's up to 13. The task is read. */
size_t limit_entries(const struct start *start);

#endif
