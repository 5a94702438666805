#include "task.h"
#include "../../include/nuldopa.h"
#include <string.h>

size_t body_bytes(uint8_t kind)
{
    switch (kind) {
    case HEADER:
    case STATE:
        return 3;
    case EDGE:
        return EDGE_BODY;
    case PAIR:
        return 2;
    case HISTORY:
        return 1;
    default:
        return 0;
    }
}

size_t after_pairs(const uint8_t *task, size_t length)
{
    size_t at = 0;
    while (at < length && task[at] >= HEADER && task[at] <= PAIR)
        at += 1 + body_bytes(task[at]);
    return at;
}

void read_start(struct start *start, const uint8_t *task, size_t length)
{
    size_t model = 0, end = after_pairs(task, length);
    memset(start, 0, sizeof *start);
    for (size_t at = 0; at < end; at += 1 + body_bytes(task[at])) {
        const uint8_t *body = task + at + 1;
        if (task[at] == HEADER) {
            model = at > 0;
            if (model == 0)
                start->registers = body[0];
            start->states[model] = body[1];
            start->position[model] = body[2];
        } else if (task[at] == STATE) {
            start->sets[model][body[0]] = body[1];
        } else if (task[at] == PAIR) {
            start->position[1 + body[0]] = body[1];
        }
    }
    start->position[HISTORY_AT] = end + 1 < length && task[end] == HISTORY ? task[end + 1] : NULDOPA_MOST_SEEN;
}

static int is_partner(const uint8_t *position, uint8_t right)
{
    return memchr(position + 2, right, MOST_REGISTERS) != NULL;
}

unsigned held_together(const struct start *start, const uint8_t *position)
{
    uint8_t left = start->sets[0][position[0]], right = start->sets[1][position[1]];
    unsigned held = 0;
    for (uint8_t i = 1; i <= MOST_REGISTERS; i++) {
        held += left >> (i - 1) & 1;
        held += (right >> (i - 1) & 1) && !is_partner(position, i);
    }
    return held;
}

size_t limit_entries(const struct start *start)
{
    enum { BITS_AN_ENTRY = 40, PARTNERS = 8 };
    size_t sizes = (size_t)(NULDOPA_MOST_SEEN + 1 - start->position[HISTORY_AT]);
    size_t keys = (size_t)start->states[0] * start->states[1] * sizes;
    for (uint8_t i = 0; i < start->registers; i++)
        keys *= PARTNERS;
    return (keys + BITS_AN_ENTRY - 1) / BITS_AN_ENTRY;
}
