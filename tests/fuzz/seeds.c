/* seeds FOLDER TASK...: writes inputs of the fuzzer into the folder, seven for each task file: one for the comparers, its
 * lent sizes by turns exact, near what is needed and small; one whose buffer is just what is always enough beside an exact
 * table, and three with such a buffer beside a table at the limit between the library's ways, with an entry fewer and with
 * one more; and for the checkers one with each comparer's certificate. Then seven more with a history size, 0 to 14 by turns,
 * in the place of the file's own. */
#include "../../include/nuldopa.h"
#include "input.h"
#include "task.h"
#include <stdio.h>
#include <stdlib.h>

enum { ENTRIES = 4000, SIZES = NULDOPA_MOST_SEEN + 2, HISTORY_BYTES = 3 };

static uint8_t task[MOST_INPUT_BYTES + HISTORY_BYTES], bytes[MOST_INPUT_BYTES];
static uint8_t table[ENTRIES * NULDOPA_ENTRY_BYTES], certificate[NULDOPA_MOST_CERTIFICATE_BYTES(sizeof table)];

static size_t read_file(const char *name)
{
    FILE *file = fopen(name, "rb");
    if (file == NULL) {
        perror(name);
        exit(1);
    }
    size_t length = fread(task, 1, MOST_INPUT_BYTES, file);
    fclose(file);
    return length;
}

/* An input that is too long is left out. */
static void write_input(const char *folder, int number, const char *what, const struct input *input)
{
    char name[4096];
    size_t length = input_write(input, bytes, sizeof bytes);
    if (length == 0)
        return;
    snprintf(name, sizeof name, "%s/%05d-%s", folder, number, what);
    FILE *file = fopen(name, "wb");
    if (file == NULL || fwrite(bytes, 1, length, file) != length || fclose(file) != 0) {
        perror(name);
        exit(1);
    }
}

static unsigned choice(int number)
{
    return number % 3 == 0 ? CHOICE_OF_NEEDED + NEAR_BELOW
                           : (unsigned)(number % 3 == 1 ? CHOICE_OF_NEEDED : 0) + (unsigned)number * 7;
}

static void write_at_limit(const char *folder, int number, struct input *input)
{
    input->table_choice = CHOICE_OF_LIMIT + NEAR_BELOW;
    write_input(folder, number, "compare-at-limit", input);
    input->table_choice -= NULDOPA_ENTRY_BYTES;
    write_input(folder, number, "compare-below-limit", input);
    input->table_choice += 2 * NULDOPA_ENTRY_BYTES;
    write_input(folder, number, "compare-above-limit", input);
}

static void write_checked(const char *folder, int number, const char *what, struct input *input,
                          nuldopa_compare_function *compare)
{
    struct nuldopa_answer answer =
        compare(task, input->task_length, table, sizeof table, certificate, sizeof certificate);
    input->proposed = certificate;
    input->proposed_length = answer.length;
    write_input(folder, number, what, input);
}

static void write_inputs(const char *folder, int number, size_t task_length)
{
    struct input input = {.edge = number % 2 == 0 ? AT_END : AT_START, .task = task, .task_length = task_length};
    input.table_choice = choice(number);
    input.certificate_choice = choice(number / 3);
    write_input(folder, number, "compare", &input);
    input.table_choice = CHOICE_OF_NEEDED + NEAR_BELOW;
    input.certificate_choice = CHOICE_OF_ENOUGH + NEAR_BELOW;
    write_input(folder, number, "compare-enough", &input);
    write_at_limit(folder, number, &input);
    input.calls_checker = 1;
    write_checked(folder, number, "check", &input, nuldopa_compare);
    write_checked(folder, number, "check-one-way", &input, nuldopa_compare_one_way);
}

/* The task up to its pairs, with this history size and an end. Returns its length. */
static size_t with_history(size_t length, uint8_t size)
{
    size_t at = after_pairs(task, length);
    if (at > length)
        at = length;
    task[at] = HISTORY;
    task[at + 1] = size;
    task[at + 2] = END;
    return at + HISTORY_BYTES;
}

int main(int count, char **arguments)
{
    if (count < 3) {
        fprintf(stderr, "usage: seeds FOLDER TASK...\n");
        return 2;
    }
    int files = count - 2;
    for (int i = 0; i < files; i++) {
        size_t length = read_file(arguments[i + 2]);
        write_inputs(arguments[1], i, length);
        write_inputs(arguments[1], files + i, with_history(length, (uint8_t)(i % SIZES)));
    }
    return 0;
}
