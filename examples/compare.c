/* Prints what the program `compare` prints, for the task file named on the command line, and writes the certificate's bytes
 * to a second file where one is named; after the word `--one-way` what `compare_one_way` prints. Builds in the repository's
 * folder, after `.ci/build exports_c`, with
 *
 *     gcc -std=c11 -O2 -Wall -Wextra -I include examples/compare.c -L target/staticlib -lexports -o target/compare-c
 */
#include "nuldopa.h"
#include <inttypes.h>
#include <stdio.h>
#include <string.h>

/* As much as `compare` lends, whose buffer a long certificate outgrows; NULDOPA_MOST_CERTIFICATE_BYTES(sizeof table) would be
 * enough for each. */
enum { TASK_BYTES = 4096, ENTRIES = 4000, CERTIFICATE_BYTES = 64000 };

static uint8_t task[TASK_BYTES + 1]; /* one more, so that a longer file shows */
static uint8_t table[ENTRIES * NULDOPA_ENTRY_BYTES];
static uint8_t certificate[CERTIFICATE_BYTES];

static void print_bytes(const uint8_t *bytes, size_t count)
{
    for (size_t i = 0; i < count; i++)
        printf(" %d", bytes[i]);
}

static const char *name_of(uint32_t verdict)
{
    switch (verdict) {
    case NULDOPA_EQUAL:
        return "EQUAL";
    case NULDOPA_DIFFER:
        return "DIFFER";
    case NULDOPA_FOLLOWS:
        return "FOLLOWS";
    default:
        return "FALLS SHORT";
    }
}

/* Whether the certificate lists positions that are never lost. */
static int keeps(uint32_t verdict)
{
    return verdict == NULDOPA_EQUAL || verdict == NULDOPA_FOLLOWS;
}

/* A position's bytes; for a lost one then side, edge and case, and rounds. */
static void print_record(const uint8_t *record)
{
    enum { ATTACK_BYTES = 3 };
    int kept = keeps(record[0]);
    size_t shown = kept ? NULDOPA_POSITION_BYTES : NULDOPA_POSITION_BYTES + ATTACK_BYTES;
    printf(kept ? "KEPT" : "LOST");
    print_bytes(record + 1, shown);
    if (!kept) {
        uint32_t rounds = 0;
        for (size_t i = 1 + shown; i < NULDOPA_LOST_BYTES; i++)
            rounds = rounds << 8 | record[i];
        printf(" %" PRIu32, rounds);
    }
    printf("\n");
}

static void print_answer(struct nuldopa_answer answer)
{
    size_t record_bytes = keeps(answer.verdict) ? NULDOPA_KEPT_BYTES : NULDOPA_LOST_BYTES;
    if (answer.refusal != 0) {
        printf("REFUSED %" PRIu32 "\n", answer.refusal);
        return;
    }
    printf("%s %" PRIu32 " %" PRIu32 "\n", name_of(answer.verdict), answer.positions, answer.rounds);
    for (size_t at = 0; at < answer.length; at += record_bytes)
        print_record(certificate + at);
}

/* After a refusal the length is 0, and so the file is empty. */
static int write_certificate(const char *name, size_t length)
{
    FILE *file = fopen(name, "wb");
    if (file == NULL)
        return 0;
    size_t written = fwrite(certificate, 1, length, file);
    return fclose(file) == 0 && written == length;
}

static int cannot(const char *what, const char *name)
{
    fprintf(stderr, "%s cannot be %s\n", name, what);
    return 1;
}

int main(int count, char **arguments)
{
    int one_way = count > 1 && strcmp(arguments[1], "--one-way") == 0;
    count -= one_way;
    arguments += one_way;
    if (count != 2 && count != 3) {
        fprintf(stderr, "usage: compare-c [--one-way] TASKFILE [CERTIFICATEFILE]\n");
        return 1;
    }
    FILE *file = fopen(arguments[1], "rb");
    if (file == NULL)
        return cannot("read", arguments[1]);
    size_t length = fread(task, 1, sizeof task, file);
    int unread = ferror(file);
    fclose(file);
    if (unread)
        return cannot("read", arguments[1]);
    if (length > TASK_BYTES) {
        printf("TOO LONG\n");
        return 0;
    }
    struct nuldopa_answer answer = (one_way ? nuldopa_compare_one_way : nuldopa_compare)(
        task, length, table, sizeof table, certificate, sizeof certificate);
    print_answer(answer);
    if (count == 3 && !write_certificate(arguments[2], answer.length))
        return cannot("written", arguments[2]);
    return 0;
}
