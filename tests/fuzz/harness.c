/* What 01 and 02 fix of every answer and of every byte lent, checked on the inputs that libFuzzer makes (`input.h`). What is
 * not so ends the program, and libFuzzer keeps the input.
 *
 * The comparer of each game is called twice: with the entries that `compare` lends and a certificate buffer that is always
 * enough, and with what the input chooses. The first answer determines the second. The checker is asked about the
 * certificate that was written, and about one a little different. In the other mode it is asked about the input's
 * certificate. What it accepts is compared with the comparer's verdict. And the answers of the two games are compared. */
#include "../../include/nuldopa.h"
#include "edit.h"
#include "input.h"
#include "task.h"
#include "traps.h"
#include <stdio.h>
#include <stdlib.h>
#include <string.h>

enum {
    ATTACK_AT = 1 + NULDOPA_POSITION_BYTES, /* in a record: side, edge, case; then rounds */
    ROUNDS_AT = ATTACK_AT + 3,
    WHOLE_ENTRIES = 4000,
    WHOLE_TABLE = WHOLE_ENTRIES * NULDOPA_ENTRY_BYTES,
    WHOLE_CERTIFICATE = NULDOPA_MOST_CERTIFICATE_BYTES(WHOLE_TABLE),
    MOST_LIMIT_ENTRIES = 80000, /* larger tables are not lent for the limit's sake */
    MOST_CHOSEN_TABLE = MOST_LIMIT_ENTRIES * NULDOPA_ENTRY_BYTES + NEAR_SIZES
};

static const uint32_t never_lost = UINT32_MAX;

static void must(int holds, const char *what, int line)
{
    if (!holds) {
        fprintf(stderr, "fuzz: harness.c, line %d: not so: %s\n", line, what);
        abort();
    }
}
#define MUST(condition) must((condition) != 0, #condition, __LINE__)

/* Which way the library explores, and how its table stands to the limit between both (`task.h`). */
enum { CHAINS, BITS, WAYS };
enum { AT_LIMIT, BELOW_LIMIT, ABOVE_LIMIT, FAR_FROM_LIMIT, PLACES };

enum { REFUSALS = 16, DIGITS = 33, ROUNDS = 64, SEEN_BEFORE = 7, CASES = 9, EDGES = 64, SIZES = NULDOPA_MOST_SEEN + 1 };

/* For libFuzzer: an input that brings an outcome of a game not seen before is worth keeping. Counts of positions, of records
 * and of rounds too many stand by their binary digits. */
struct outcomes {
    uint8_t compared[REFUSALS];
    uint8_t checked[REFUSALS][DIGITS];  /* by records */
    uint8_t kept[DIGITS][DIGITS];       /* by positions and records */
    uint8_t lost[ROUNDS][DIGITS];       /* by positions */
    uint8_t attacks[2][EDGES][CASES];   /* in certificates */
    uint8_t sizes[SIZES][2];            /* of histories at the start, lost and kept */
    uint8_t accepted[REFUSALS][DIGITS]; /* by what the comparer then answers, and rounds too many */
    uint8_t explored[WAYS][PLACES][REFUSALS];
};
static volatile struct outcomes outcomes[2] __attribute__((section("__libfuzzer_extra_counters")));

/* For people: how often the comparer gave a verdict, the checker accepted a proposal (both at 0), and each refusal; and how
 * often it explored each way, and with a table at the limit. */
struct totals {
    unsigned long compared[REFUSALS], proposed[REFUSALS];
    unsigned long ways[WAYS], places[PLACES];
};
static struct totals totals[2];

/* A game: its functions, its verdicts, the last side that attacks, and what has been seen of it. */
struct game {
    const char *name;
    nuldopa_compare_function *compare;
    nuldopa_check_function *check;
    uint32_t kept, lost;
    uint8_t last_side;
    volatile struct outcomes *outcomes;
    struct totals *totals;
};
static const struct game equality = {
    "both sides attack", nuldopa_compare, nuldopa_check, NULDOPA_EQUAL, NULDOPA_DIFFER, 2, &outcomes[0], &totals[0]};
static const struct game one_way = {
    "one-way", nuldopa_compare_one_way, nuldopa_check_one_way, NULDOPA_FOLLOWS, NULDOPA_FALLS_SHORT, 1, &outcomes[1],
    &totals[1]};

static void print_counts(const char *name, const char *which, const unsigned long *counts)
{
    fprintf(stderr, "fuzz: %s, %s: %lu", name, which, counts[0]);
    for (int refusal = 1; refusal < REFUSALS; refusal++)
        if (counts[refusal] > 0)
            fprintf(stderr, ", refusal %d: %lu", refusal, counts[refusal]);
    fprintf(stderr, "\n");
}

static void print_ways(const struct game *game)
{
    const struct totals *t = game->totals;
    fprintf(stderr, "fuzz: %s, explored by bits: %lu, by chains: %lu, at the limit: %lu, an entry below: %lu, above: %lu\n",
            game->name, t->ways[BITS], t->ways[CHAINS], t->places[AT_LIMIT], t->places[BELOW_LIMIT], t->places[ABOVE_LIMIT]);
}

static void report_game(const struct game *game)
{
    print_counts(game->name, "verdicts", game->totals->compared);
    print_counts(game->name, "proposals accepted", game->totals->proposed);
    print_ways(game);
}

static void report(void)
{
    report_game(&equality);
    report_game(&one_way);
}

static void seen(volatile uint8_t *counter)
{
    if (*counter < UINT8_MAX)
        ++*counter;
}

static size_t binary_digits(size_t number)
{
    size_t digits = 0;
    for (; number > 0; number >>= 1)
        digits++;
    return digits;
}

/* A call of a game's comparer, with what it was lent. */
struct comparison {
    const struct game *game;
    struct lent task, table, certificate;
    uint8_t fill;
    struct nuldopa_answer answer;
};

/* The whole comparison of each game; the chosen one is that of the game whose turn it is. */
static struct comparison whole_equality = {.game = &equality, .fill = 0xa5};
static struct comparison whole_one_way = {.game = &one_way, .fill = 0xa5};
static struct comparison chosen = {.fill = 0x5a};

/* A call of the checker likewise. */
struct check {
    struct lent task, certificate;
    struct nuldopa_answer answer;
};

static struct check check;

static uint32_t rounds_at(const uint8_t *bytes)
{
    return (uint32_t)bytes[0] << 24 | (uint32_t)bytes[1] << 16 | (uint32_t)bytes[2] << 8 | bytes[3];
}

static const uint8_t *entry(const struct comparison *c, size_t number)
{
    return c->table.bytes + number * NULDOPA_ENTRY_BYTES;
}

static uint32_t entry_rounds(const struct comparison *c, size_t number)
{
    return rounds_at(entry(c, number) + NULDOPA_POSITION_BYTES);
}

static uint32_t record_rounds(const uint8_t *record)
{
    return record_bytes(record[0]) == NULDOPA_KEPT_BYTES ? never_lost : rounds_at(record + ROUNDS_AT);
}

static int is_kept(const struct comparison *c)
{
    return c->answer.verdict == c->game->kept;
}

static int only_refusal(struct nuldopa_answer a)
{
    return a.verdict == 0 && a.positions == 0 && a.rounds == 0 && a.length == 0;
}

static int is_of_certificate(uint32_t refusal)
{
    return refusal == NULDOPA_CERTIFICATE_ILL_FORMED || refusal == NULDOPA_CERTIFICATE_NOT_ACCEPTED;
}

static int same_answer(struct nuldopa_answer a, struct nuldopa_answer b)
{
    return a.refusal == b.refusal && a.verdict == b.verdict && a.positions == b.positions && a.rounds == b.rounds &&
           a.length == b.length;
}

static int is_as_lent(const struct lent *lent, const uint8_t *bytes)
{
    return lent_guards_hold(lent) && (lent->length == 0 || memcmp(lent->bytes, bytes, lent->length) == 0);
}

/* Refusal 15 is given exactly where the size is above 13 or less than the numbers held together at the start. */
static void expect_history(uint32_t refusal, const struct lent *task)
{
    struct start start;
    if (nuldopa_is_of_a_record(refusal) && refusal != NULDOPA_BAD_HISTORY)
        return;
    read_start(&start, task->bytes, task->length);
    uint8_t size = start.position[HISTORY_AT];
    int exists = size <= NULDOPA_MOST_SEEN && size >= held_together(&start, start.position);
    MUST(exists == (refusal != NULDOPA_BAD_HISTORY));
}

/* 1 to 10 and 15 change no buffer; 11 and 12 fill the table with zeros and leave the certificate buffer. */
static void expect_refusal(const struct comparison *c)
{
    uint32_t refusal = c->answer.refusal;
    MUST(nuldopa_is_of_a_record(refusal) || refusal == NULDOPA_TABLE_TOO_SMALL || refusal == NULDOPA_BUFFER_TOO_SMALL);
    MUST(only_refusal(c->answer));
    uint8_t then = nuldopa_is_of_a_record(refusal) ? c->fill : 0;
    MUST(all_are(c->table.bytes, c->table.length, then));
    MUST(all_are(c->certificate.bytes, c->certificate.length, c->fill));
}

/* A position's history is no smaller than what its readers hold together. */
static void expect_size(const struct start *start, const uint8_t *position)
{
    MUST(position[HISTORY_AT] <= NULDOPA_MOST_SEEN);
    MUST(position[HISTORY_AT] >= held_together(start, position));
}

/* The start is reached, and a history that has grown has grown by one each time. */
static void expect_sizes(const struct comparison *c)
{
    struct start start;
    uint8_t reached[NULDOPA_MOST_SEEN + 1] = {0};
    int start_reached = 0;
    read_start(&start, c->task.bytes, c->task.length);
    for (size_t i = 0; i < c->answer.positions; i++) {
        expect_size(&start, entry(c, i));
        reached[entry(c, i)[HISTORY_AT]] = 1;
        start_reached |= memcmp(entry(c, i), start.position, NULDOPA_POSITION_BYTES) == 0;
    }
    MUST(start_reached);
    for (uint8_t size = 0; size <= NULDOPA_MOST_SEEN; size++)
        MUST(!reached[size] || size == start.position[HISTORY_AT] || (size > 0 && reached[size - 1]));
    seen(&c->game->outcomes->sizes[start.position[HISTORY_AT]][c->answer.verdict == c->game->kept]);
}

/* The positions reached, rising, then zeros. */
static void expect_table(const struct comparison *c)
{
    size_t filled = c->answer.positions * (size_t)NULDOPA_ENTRY_BYTES;
    MUST(c->answer.positions >= 1);
    MUST(filled <= c->table.length);
    for (size_t i = 1; i < c->answer.positions; i++)
        MUST(memcmp(entry(c, i - 1), entry(c, i), NULDOPA_POSITION_BYTES) < 0);
    MUST(all_are(c->table.bytes + filled, c->table.length - filled, 0));
    expect_sizes(c);
}

/* From an entry on, the one of the record's position. Where the start is kept every position never lost is listed, so it
 * passes over none. */
static size_t entry_listed(const struct comparison *c, size_t number, const uint8_t *record)
{
    while (number < c->answer.positions && memcmp(entry(c, number), record + 1, NULDOPA_POSITION_BYTES) != 0) {
        MUST(!is_kept(c) || entry_rounds(c, number) != never_lost);
        number++;
    }
    MUST(number < c->answer.positions);
    return number;
}

/* Side, edge and case are 0 in rounds 0; otherwise each exists, and the side attacks in this game. A number seen before, case
 * 7, is one that neither reader holds. */
static void expect_attack(const struct comparison *c, const uint8_t *record)
{
    struct start start;
    const uint8_t *position = record + 1, *attack = record + ATTACK_AT;
    if (record_rounds(record) == 0) {
        MUST(all_are(attack, 3, 0));
        return;
    }
    MUST(attack[0] >= 1 && attack[0] <= c->game->last_side);
    MUST(attack[1] < EDGES);
    MUST(attack[2] < CASES);
    read_start(&start, c->task.bytes, c->task.length);
    MUST(attack[2] != SEEN_BEFORE || position[HISTORY_AT] > held_together(&start, position));
    seen(&c->game->outcomes->attacks[attack[0] - 1][attack[1]][attack[2]]);
}

/* Records of the verdict's kind, rising, with the rounds of the table. Of lost ones only the start has the answer's rounds,
 * since attacks lead to fewer. */
static void expect_records(const struct comparison *c)
{
    size_t number = 0, bytes = record_bytes(c->answer.verdict), with_answer = 0;
    for (const uint8_t *record = c->certificate.bytes; record < c->certificate.bytes + c->answer.length; record += bytes) {
        MUST(record[0] == c->answer.verdict);
        number = entry_listed(c, number, record);
        MUST(record_rounds(record) == entry_rounds(c, number));
        if (!is_kept(c)) {
            expect_attack(c, record);
            MUST(record_rounds(record) <= c->answer.rounds);
            with_answer += record_rounds(record) == c->answer.rounds;
        }
        number++;
    }
    for (; number < c->answer.positions; number++)
        MUST(!is_kept(c) || entry_rounds(c, number) != never_lost);
    MUST(with_answer == !is_kept(c));
}

/* The most records that the certificate can have: one for each position that is never lost, or for each that is lost. */
static size_t most_records(const struct comparison *c)
{
    size_t count = 0;
    for (size_t i = 0; i < c->answer.positions; i++)
        count += (entry_rounds(c, i) == never_lost) == is_kept(c);
    return count;
}

static void expect_certificate(const struct comparison *c)
{
    MUST(c->answer.length <= c->certificate.length);
    MUST(c->answer.length >= record_bytes(c->answer.verdict));
    MUST(c->answer.length % record_bytes(c->answer.verdict) == 0);
    MUST(c->answer.length / record_bytes(c->answer.verdict) <= most_records(c));
    MUST(all_are(c->certificate.bytes + c->answer.length, c->certificate.length - c->answer.length, c->fill));
    expect_records(c);
}

static void seen_verdict(const struct comparison *c)
{
    struct nuldopa_answer a = c->answer;
    size_t positions = binary_digits(a.positions), records = binary_digits(a.length / record_bytes(a.verdict));
    if (is_kept(c))
        seen(&c->game->outcomes->kept[positions][records]);
    else
        seen(&c->game->outcomes->lost[a.rounds < ROUNDS ? a.rounds : ROUNDS - 1][positions]);
}

static void expect_verdict(const struct comparison *c)
{
    MUST(is_kept(c) || c->answer.verdict == c->game->lost);
    MUST(is_kept(c) ? c->answer.rounds == 0 : c->answer.rounds <= c->answer.positions);
    expect_table(c);
    expect_certificate(c);
    seen_verdict(c);
}

static int place_beside(size_t entries, size_t limit)
{
    if (entries == limit)
        return AT_LIMIT;
    if (entries + 1 == limit)
        return BELOW_LIMIT;
    return entries == limit + 1 ? ABOVE_LIMIT : FAR_FROM_LIMIT;
}

static size_t limit_of(const struct lent *task)
{
    struct start start;
    read_start(&start, task->bytes, task->length);
    return limit_entries(&start);
}

/* The task is read. */
static void seen_way(const struct comparison *c)
{
    size_t limit = limit_of(&c->task), entries = c->table.length / NULDOPA_ENTRY_BYTES;
    int way = entries >= limit ? BITS : CHAINS, place = place_beside(entries, limit);
    seen(&c->game->outcomes->explored[way][place][c->answer.refusal]);
    c->game->totals->ways[way]++;
    c->game->totals->places[place]++;
}

static void compare(struct comparison *c, const struct input *input, enum edge edge, size_t table, size_t certificate)
{
    const struct game *game = c->game;
    lent_copied(&c->task, edge, input->task, input->task_length);
    lent_filled(&c->table, edge, table, c->fill);
    lent_filled(&c->certificate, edge, certificate, c->fill);
    c->answer = game->compare(c->task.bytes, c->task.length, c->table.bytes, c->table.length, c->certificate.bytes,
                              c->certificate.length);
    MUST(is_as_lent(&c->task, input->task));
    MUST(lent_guards_hold(&c->table));
    MUST(lent_guards_hold(&c->certificate));
    MUST(c->answer.refusal != NULDOPA_BUFFER_TOO_SMALL || certificate < NULDOPA_MOST_CERTIFICATE_BYTES(table));
    expect_history(c->answer.refusal, &c->task);
    if (c->answer.refusal != 0)
        expect_refusal(c);
    else
        expect_verdict(c);
    if (!nuldopa_is_of_a_record(c->answer.refusal))
        seen_way(c);
    seen(&game->outcomes->compared[c->answer.refusal]);
    game->totals->compared[c->answer.refusal]++;
}

/* The records of an accepted certificate rise, and have histories that can be. */
static void expect_accepted(const struct check *made)
{
    struct start start;
    const uint8_t *records = made->certificate.bytes;
    size_t bytes = record_bytes(made->answer.verdict);
    read_start(&start, made->task.bytes, made->task.length);
    for (size_t at = 0; at < made->certificate.length; at += bytes) {
        expect_size(&start, records + at + 1);
        MUST(at == 0 || memcmp(records + at - bytes + 1, records + at + 1, NULDOPA_POSITION_BYTES) < 0);
    }
}

/* Acceptance has a verdict and rounds, a refusal nothing but its number; 11 and 12 are not given. */
static void expect_checked(const struct game *game, struct nuldopa_answer a)
{
    if (a.refusal == 0) {
        MUST(a.verdict == game->kept || a.verdict == game->lost);
        MUST(a.verdict == game->lost || a.rounds == 0);
        MUST(a.positions == 0 && a.length == 0);
    } else {
        MUST(only_refusal(a));
        MUST(nuldopa_is_of_a_record(a.refusal) || is_of_certificate(a.refusal));
    }
}

static struct nuldopa_answer checked(const struct game *game, const struct input *input, const uint8_t *certificate,
                                     size_t length)
{
    lent_copied(&check.task, input->edge, input->task, input->task_length);
    lent_copied(&check.certificate, input->edge, certificate, length);
    check.answer = game->check(check.task.bytes, check.task.length, check.certificate.bytes, check.certificate.length);
    MUST(is_as_lent(&check.task, input->task));
    MUST(is_as_lent(&check.certificate, certificate));
    expect_checked(game, check.answer);
    expect_history(check.answer.refusal, &check.task);
    if (check.answer.refusal == 0)
        expect_accepted(&check);
    seen(&game->outcomes->checked[check.answer.refusal][binary_digits(length / NULDOPA_KEPT_BYTES)]);
    return check.answer;
}

static void compare_whole(struct comparison *whole, const struct input *input)
{
    compare(whole, input, AT_END, WHOLE_TABLE, WHOLE_CERTIFICATE);
}

/* The game's checker accepts what its comparer wrote, with the same verdict and rounds; cut by a byte it meets 13, and so it
 * does in the other game. */
static void check_own(const struct comparison *whole, const struct input *input)
{
    const struct game *other = whole->game == &equality ? &one_way : &equality;
    struct nuldopa_answer own = checked(whole->game, input, whole->certificate.bytes, whole->answer.length);
    MUST(own.refusal == 0);
    MUST(own.verdict == whole->answer.verdict);
    MUST(own.rounds == whole->answer.rounds);
    own = checked(whole->game, input, whole->certificate.bytes, whole->answer.length - 1);
    MUST(own.refusal == NULDOPA_CERTIFICATE_ILL_FORMED);
    own = checked(other, input, whole->certificate.bytes, whole->answer.length);
    MUST(own.refusal == NULDOPA_CERTIFICATE_ILL_FORMED);
}

/* The checker refuses a task for the comparer's reason; an empty certificate meets 14. */
static void check_empty(const struct comparison *whole, const struct input *input)
{
    uint32_t refusal = whole->answer.refusal;
    uint32_t expected = nuldopa_is_of_a_record(refusal) ? refusal : NULDOPA_CERTIFICATE_NOT_ACCEPTED;
    MUST(checked(whole->game, input, input->task, 0).refusal == expected);
}

/* What is refused with these sizes, by what the whole comparison needed. */
static uint32_t refusal_with(const struct comparison *whole, size_t table, size_t certificate)
{
    if (whole->answer.refusal != 0)
        return whole->answer.refusal;
    if (table / NULDOPA_ENTRY_BYTES < whole->answer.positions)
        return NULDOPA_TABLE_TOO_SMALL;
    return certificate < whole->answer.length ? NULDOPA_BUFFER_TOO_SMALL : 0;
}

/* Whether a table at the limit, or with an entry more, can be lent. Where the whole table is too small, one with more entries
 * might do. */
static int limit_fits(const struct comparison *whole, size_t limit)
{
    return limit < (whole->answer.refusal == 0 ? MOST_LIMIT_ENTRIES : WHOLE_ENTRIES);
}

/* The bytes near which a table's size is chosen: what is needed, or the limit. */
static size_t near_bytes(const struct comparison *whole, const struct input *input)
{
    size_t entries = whole->answer.positions;
    if (input->table_choice >= CHOICE_OF_LIMIT && !nuldopa_is_of_a_record(whole->answer.refusal) &&
        limit_fits(whole, limit_of(&whole->task)))
        entries = limit_of(&whole->task);
    return entries * NULDOPA_ENTRY_BYTES;
}

/* Neither the sizes nor what the buffers held before have any influence on a verdict. */
static void compare_chosen(const struct comparison *whole, const struct input *input)
{
    size_t needed = whole->answer.positions * (size_t)NULDOPA_ENTRY_BYTES;
    size_t table = chosen_size(input->table_choice, near_bytes(whole, input));
    size_t certificate =
        chosen_size(input->certificate_choice, input->certificate_choice < CHOICE_OF_ENOUGH
                                                   ? whole->answer.length
                                                   : NULDOPA_MOST_CERTIFICATE_BYTES(table));
    chosen.game = whole->game;
    compare(&chosen, input, input->edge, table, certificate);
    MUST(chosen.answer.refusal == refusal_with(whole, table, certificate));
    if (chosen.answer.refusal == 0) {
        MUST(same_answer(chosen.answer, whole->answer));
        MUST(memcmp(chosen.table.bytes, whole->table.bytes, needed) == 0);
        MUST(memcmp(chosen.certificate.bytes, whole->certificate.bytes, whole->answer.length) == 0);
    }
}

/* The comparer agrees with what was accepted, in no more rounds, unless the positions outnumber its entries. */
static void expect_agreement(const struct comparison *whole, struct nuldopa_answer accepted)
{
    struct nuldopa_answer answer = whole->answer;
    MUST(answer.refusal == 0 || answer.refusal == NULDOPA_TABLE_TOO_SMALL);
    if (answer.refusal == 0) {
        MUST(answer.verdict == accepted.verdict);
        MUST(answer.rounds <= accepted.rounds);
    }
    seen(&whole->game->outcomes->accepted[answer.refusal][binary_digits(accepted.rounds - answer.rounds)]);
}

/* A number that depends on every byte of the task (FNV-1a). */
static uint32_t number_of(const struct input *input)
{
    uint32_t number = 2166136261U;
    for (size_t i = 0; i < input->task_length; i++)
        number = (number ^ input->task[i]) * 16777619U;
    return number;
}

/* The certificate that the comparer wrote, with a change that follows from the task. */
static void check_edited(const struct comparison *whole, const struct input *input)
{
    static uint8_t edited[WHOLE_CERTIFICATE];
    memcpy(edited, whole->certificate.bytes, whole->answer.length);
    size_t length = edit_certificate(edited, whole->answer.length, number_of(input));
    struct nuldopa_answer answer = checked(whole->game, input, edited, length);
    whole->game->totals->proposed[answer.refusal]++;
    if (answer.refusal == 0)
        expect_agreement(whole, answer);
    else
        MUST(is_of_certificate(answer.refusal));
}

static void try_comparer(struct comparison *whole, const struct input *input)
{
    compare_whole(whole, input);
    compare_chosen(whole, input);
    check_empty(whole, input);
    if (whole->answer.refusal == 0) {
        check_own(whole, input);
        check_edited(whole, input);
    }
}

/* Both games read the same tasks and reach the same positions. Who attacks on one side alone, and wins by fewer end marks,
 * needs at least as many rounds. So EQUAL gives FOLLOWS. */
static void expect_games_agree(void)
{
    const struct comparison *both = &whole_equality, *left = &whole_one_way;
    MUST(left->answer.refusal == both->answer.refusal);
    MUST(left->answer.positions == both->answer.positions);
    for (size_t i = 0; i < left->answer.positions; i++) {
        MUST(memcmp(entry(left, i), entry(both, i), NULDOPA_POSITION_BYTES) == 0);
        MUST(entry_rounds(left, i) >= entry_rounds(both, i));
    }
    MUST(both->answer.verdict != NULDOPA_EQUAL || left->answer.verdict == NULDOPA_FOLLOWS);
}

/* The refusal of the input's certificate, or 0. */
static uint32_t try_checker(struct comparison *whole, const struct input *input)
{
    struct nuldopa_answer answer = checked(whole->game, input, input->proposed, input->proposed_length);
    whole->game->totals->proposed[answer.refusal]++;
    if (is_of_certificate(answer.refusal))
        return answer.refusal;
    compare_whole(whole, input);
    if (answer.refusal == 0)
        expect_agreement(whole, answer);
    else
        MUST(whole->answer.refusal == answer.refusal);
    return answer.refusal;
}

/* No kind belongs to both games, so one of them meets 13 unless the task is refused or there is no record. */
static void expect_one_game(const struct input *input, uint32_t refusal, uint32_t refusal_one_way)
{
    if (!nuldopa_is_of_a_record(refusal) && input->proposed_length > 0)
        MUST(refusal == NULDOPA_CERTIFICATE_ILL_FORMED || refusal_one_way == NULDOPA_CERTIFICATE_ILL_FORMED);
    else
        MUST(refusal == refusal_one_way);
}

static void open_comparison(struct comparison *c, size_t table)
{
    lent_open(&c->task, MOST_INPUT_BYTES);
    lent_open(&c->table, table);
    lent_open(&c->certificate, NULDOPA_MOST_CERTIFICATE_BYTES(table) + NEAR_SIZES);
}

int LLVMFuzzerInitialize(int *count, char ***arguments);
int LLVMFuzzerTestOneInput(const uint8_t *bytes, size_t length);

int LLVMFuzzerInitialize(int *count, char ***arguments)
{
    (void)count;
    open_comparison(&whole_equality, WHOLE_TABLE);
    open_comparison(&whole_one_way, WHOLE_TABLE);
    open_comparison(&chosen, MOST_CHOSEN_TABLE);
    lent_open(&check.task, MOST_INPUT_BYTES);
    lent_open(&check.certificate, WHOLE_CERTIFICATE);
    traps_set((*arguments)[0]);
    atexit(report);
    return 0;
}

int LLVMFuzzerTestOneInput(const uint8_t *bytes, size_t length)
{
    struct input input;
    if (length > MOST_INPUT_BYTES || !input_read(&input, bytes, length))
        return 0;
    if (input.calls_checker) {
        uint32_t refusal = try_checker(&whole_equality, &input);
        expect_one_game(&input, refusal, try_checker(&whole_one_way, &input));
    } else {
        try_comparer(&whole_equality, &input);
        try_comparer(&whole_one_way, &input);
        expect_games_agree();
    }
    return 0;
}
