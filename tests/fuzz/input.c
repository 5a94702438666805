#include "input.h"
#include <string.h>

static unsigned two_bytes(const uint8_t *bytes)
{
    return (unsigned)bytes[0] << 8 | bytes[1];
}

static void write_two_bytes(uint8_t *bytes, size_t number)
{
    bytes[0] = (uint8_t)(number >> 8);
    bytes[1] = (uint8_t)number;
}

int input_read(struct input *input, const uint8_t *bytes, size_t length)
{
    if (length < HEAD_BYTES)
        return 0;
    size_t rest = length - HEAD_BYTES, listed = two_bytes(bytes + 1);
    input->calls_checker = bytes[0] & 1;
    input->edge = bytes[0] & 2 ? AT_START : AT_END;
    input->table_choice = two_bytes(bytes + 1);
    input->certificate_choice = two_bytes(bytes + 3);
    input->task = bytes + HEAD_BYTES;
    input->task_length = input->calls_checker && listed < rest ? listed : rest;
    input->proposed = input->task + input->task_length;
    input->proposed_length = rest - input->task_length;
    return 1;
}

size_t input_write(const struct input *input, uint8_t *bytes, size_t most)
{
    static uint8_t whole[MOST_INPUT_BYTES];
    size_t proposed_length = input->calls_checker ? input->proposed_length : 0;
    size_t length = HEAD_BYTES + input->task_length + proposed_length;
    if (length > most || length > sizeof whole)
        return 0;
    whole[0] = (uint8_t)(input->calls_checker | (input->edge == AT_START ? 2 : 0));
    write_two_bytes(whole + 1, input->calls_checker ? input->task_length : input->table_choice);
    write_two_bytes(whole + 3, input->certificate_choice);
    memcpy(whole + HEAD_BYTES, input->task, input->task_length);
    memcpy(whole + HEAD_BYTES + input->task_length, input->proposed, proposed_length);
    memcpy(bytes, whole, length);
    return length;
}

size_t chosen_size(unsigned choice, size_t needed)
{
    if (choice < CHOICE_OF_NEEDED)
        return choice % SMALL_SIZES;
    size_t near = needed + choice % NEAR_SIZES;
    return near > NEAR_BELOW ? near - NEAR_BELOW : 0;
}
