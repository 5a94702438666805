/* An input of the fuzzer: a head of five bytes, the bytes of a task and, if the checker is called, those of a proposed
 * certificate.
 *
 * | byte | to call the comparer             | to call the checker |
 * |------|----------------------------------|---------------------|
 * | 0    | bit 0 is 0                       | bit 0 is 1          |
 * | 1, 2 | choice of the table              | length of the task  |
 * | 3, 4 | choice of the certificate buffer | any                 |
 *
 * Bit 1 of byte 0 says which edge of a page the buffers stand against: 0 with their end, 1 with their start.
 *
 * A choice says how many bytes are lent: below 8000 hexadecimal, its last 11 bits (0 and odd counts too); from there on,
 * what is needed and up to 16 bytes less or 15 more, by its last 5 bits. From C000 on, up to as many less or more than, for
 * the certificate buffer, what is always enough beside the table; for the table, the limit between the library's two ways
 * (`task.h`): that many entries, one fewer and one more are among these. Numbers of two bytes have their high byte first. */
#ifndef INPUT_H
#define INPUT_H

#include "lent.h"

enum {
    HEAD_BYTES = 5,
    MOST_INPUT_BYTES = 8192,
    CHOICE_OF_NEEDED = 0x8000,
    CHOICE_OF_ENOUGH = 0xc000, /* for the certificate buffer */
    CHOICE_OF_LIMIT = 0xc000,  /* for the table */
    SMALL_SIZES = 2048,
    NEAR_SIZES = 32,
    NEAR_BELOW = 16
};

struct input {
    int calls_checker;
    enum edge edge;
    unsigned table_choice, certificate_choice;
    const uint8_t *task;
    size_t task_length;
    const uint8_t *proposed; /* if the checker is called */
    size_t proposed_length;
};

/* Whether the bytes are long enough for a head; a task's length past the end counts as the end. */
int input_read(struct input *input, const uint8_t *bytes, size_t length);

/* The input's length in bytes, or 0 if it is above most. The task and the certificate may stand in the bytes' own place. */
size_t input_write(const struct input *input, uint8_t *bytes, size_t most);

size_t chosen_size(unsigned choice, size_t needed);

#endif
