/* The C header, through the static library: what calls return, what buffers then hold, and which pointers and lengths the
 * careful functions refuse. The last line is "N passed, M failed". */
#include "../include/nuldopa.h"
#include <stdio.h>
#include <string.h>

static int passed, failed;

static void expect(int holds, const char *what, int line)
{
    if (holds) {
        passed++;
    } else {
        failed++;
        printf("line %d: not so: %s\n", line, what);
    }
}
#define EXPECT(condition) expect((condition) != 0, #condition, __LINE__)

/* The linker puts these before the library's functions (--wrap), to see what they are given. */
static int nulls_passed_on;

#define SEEN_COMPARE(name) \
    nuldopa_compare_function __real_##name, __wrap_##name; \
    struct nuldopa_answer __wrap_##name(const uint8_t *task, size_t task_length, uint8_t *table, size_t table_length, \
                                        uint8_t *certificate, size_t certificate_length) \
    { \
        nulls_passed_on += task == NULL || table == NULL || certificate == NULL; \
        return __real_##name(task, task_length, table, table_length, certificate, certificate_length); \
    }
SEEN_COMPARE(nuldopa_compare)
SEEN_COMPARE(nuldopa_compare_one_way)

#define SEEN_CHECK(name) \
    nuldopa_check_function __real_##name, __wrap_##name; \
    struct nuldopa_answer __wrap_##name(const uint8_t *task, size_t task_length, const uint8_t *certificate, \
                                        size_t certificate_length) \
    { \
        nulls_passed_on += task == NULL || certificate == NULL; \
        return __real_##name(task, task_length, certificate, certificate_length); \
    }
SEEN_CHECK(nuldopa_check)
SEEN_CHECK(nuldopa_check_one_way)

/* A game by its verdicts, with its plain functions or the careful ones: where there is nothing else to refuse, these do the
 * same. */
struct game {
    uint8_t kept, lost;
    nuldopa_compare_function *compare;
    nuldopa_check_function *check;
};
static const struct game plain = {NULDOPA_EQUAL, NULDOPA_DIFFER, nuldopa_compare, nuldopa_check};
static const struct game careful = {NULDOPA_EQUAL, NULDOPA_DIFFER, nuldopa_try_compare, nuldopa_try_check};
static const struct game plain_one_way = {NULDOPA_FOLLOWS, NULDOPA_FALLS_SHORT, nuldopa_compare_one_way,
                                          nuldopa_check_one_way};
static const struct game careful_one_way = {NULDOPA_FOLLOWS, NULDOPA_FALLS_SHORT, nuldopa_try_compare_one_way,
                                            nuldopa_try_check_one_way};

/* Marked cases 1 and 2: P against P, and P against G, which has kind 2 at byte 39; and G against P, with kind 2 at byte 15. */
static uint8_t equal_task[] = {
    1, 1, 2, 0, 2, 0, 0, 0, 2, 1, 1, 0, 3, 0, 0, 1, 1, 1, 3, 1, 1, 0, 1, 1, /* P */
    1, 1, 2, 0, 2, 0, 0, 0, 2, 1, 1, 0, 3, 0, 0, 1, 1, 1, 3, 1, 1, 0, 1, 1, /* P */
    15};
static uint8_t differing_task[sizeof equal_task], exchanged_task[sizeof equal_task];

/* Case 2 with a history of size 0. */
static uint8_t scratch_task[sizeof equal_task + 2];

/* Bytes of the table of cases 1 and 2, and of their certificates. */
enum { TABLE = 26, KEPT = 20, LOST = 17 };

/* Certificates of cases 1 and 2 in either game, but for their kinds. */
static uint8_t kept_certificate[] = {0, 0, 0, 0, 0, 0, 0, 0, 0, 13, 0, 1, 1, 1, 0, 0, 0, 0, 0, 13};
static uint8_t lost_certificate[] = {0, 0, 0, 0, 0, 0, 0, 0, 0, 13, 1, 0, 7, 0, 0, 0, 1};

static void put_kinds(uint8_t kept, uint8_t lost)
{
    kept_certificate[0] = kept_certificate[NULDOPA_KEPT_BYTES] = kept;
    lost_certificate[0] = lost;
}

static const uint8_t kept_table[] = {0, 0, 0, 0, 0, 0, 0, 0, 13, 255, 255, 255, 255,
                                      1, 1, 1, 0, 0, 0, 0, 0, 13, 255, 255, 255, 255};

/* Lent buffers, filled with 165 before each call; what is lent stands at their start. */
static uint8_t table[64], certificate[64];

static void fill(void)
{
    memset(table, 165, sizeof table);
    memset(certificate, 165, sizeof certificate);
}

static int all(const uint8_t *bytes, size_t count, uint8_t value)
{
    while (count > 0)
        if (bytes[--count] != value)
            return 0;
    return 1;
}

static int untouched(void)
{
    return all(table, sizeof table, 165) && all(certificate, sizeof certificate, 165);
}

static int is(struct nuldopa_answer a, uint32_t refusal, uint32_t verdict, uint32_t positions, uint32_t rounds,
              size_t length)
{
    return a.refusal == refusal && a.verdict == verdict && a.positions == positions && a.rounds == rounds &&
           a.length == length;
}

static int refused(struct nuldopa_answer a, uint32_t refusal)
{
    return is(a, refusal, 0, 0, 0, 0);
}

static void layout(void)
{
    EXPECT(sizeof(struct nuldopa_answer) == 16 + sizeof(size_t));
    EXPECT(offsetof(struct nuldopa_answer, rounds) == 12);
    EXPECT(offsetof(struct nuldopa_answer, length) == 16);
}

static void constants(void)
{
    EXPECT(NULDOPA_ENTRY_BYTES == sizeof kept_table / 2 && sizeof kept_table == TABLE);
    EXPECT(NULDOPA_KEPT_BYTES == sizeof kept_certificate / 2 && sizeof kept_certificate == KEPT);
    EXPECT(NULDOPA_LOST_BYTES == sizeof lost_certificate && sizeof lost_certificate == LOST);
    EXPECT(NULDOPA_POSITION_BYTES == NULDOPA_KEPT_BYTES - 1);
    EXPECT(NULDOPA_MOST_CERTIFICATE_BYTES(NULDOPA_ENTRY_BYTES - 1) == 0);
    EXPECT(NULDOPA_MOST_CERTIFICATE_BYTES(PTRDIFF_MAX) / NULDOPA_LOST_BYTES == PTRDIFF_MAX / NULDOPA_ENTRY_BYTES);
    /* One more than the registers of both readers. */
    EXPECT(NULDOPA_MOST_SEEN == 2 * 6 + 1);
    /* 16 states a side, and as many matchings of 6 registers with 6; sizes from 0 on. */
    EXPECT(NULDOPA_MOST_POSITIONS_OF_A_SIZE == 16 * 16 * 13327);
    EXPECT(NULDOPA_MOST_POSITIONS == (NULDOPA_MOST_SEEN + 1) * NULDOPA_MOST_POSITIONS_OF_A_SIZE);
    EXPECT(NULDOPA_NULL_BUFFER == 100 && NULDOPA_BUFFERS_OVERLAP == 101 && NULDOPA_LENGTH_TOO_LARGE == 102);
}

static void refusals_of_records(void)
{
    for (uint32_t refusal = 0; refusal <= NULDOPA_LENGTH_TOO_LARGE; refusal++)
        EXPECT(nuldopa_is_of_a_record(refusal) == ((refusal >= 1 && refusal <= 10) || refusal == 15));
}

static void comparing(const struct game *game)
{
    size_t n = sizeof equal_task;
    fill();
    EXPECT(is(game->compare(equal_task, n, table, TABLE + 6, certificate, KEPT + 2), 0, game->kept, 2, 0, KEPT));
    EXPECT(memcmp(table, kept_table, TABLE) == 0 && all(table + TABLE, 6, 0) && all(table + TABLE + 6, 32, 165));
    EXPECT(memcmp(certificate, kept_certificate, KEPT) == 0 && all(certificate + KEPT, 44, 165));
    fill();
    EXPECT(is(game->compare(differing_task, n, table, TABLE, certificate, LOST), 0, game->lost, 2, 1, LOST));
    EXPECT(memcmp(certificate, lost_certificate, LOST) == 0 && all(certificate + LOST, 47, 165));
    EXPECT(all(table + 9, 3, 0) && table[12] == 1 && all(table + TABLE, 38, 165));
}

/* From a history of no number nothing was seen before that the right reader could fail to take. The sizes are the last bytes of
 * positions: 0, and 1 after the first number. */
static void small_history(const struct game *game)
{
    size_t n = sizeof scratch_task;
    EXPECT(is(game->compare(scratch_task, n, table, TABLE, certificate, KEPT), 0, game->kept, 2, 0, KEPT));
    EXPECT(table[8] == 0 && table[NULDOPA_ENTRY_BYTES + 8] == 1);
    EXPECT(certificate[9] == 0 && certificate[NULDOPA_KEPT_BYTES + 9] == 1);
    EXPECT(is(game->check(scratch_task, n, certificate, KEPT), 0, game->kept, 0, 0, 0));
    EXPECT(refused(game->check(scratch_task, n, kept_certificate, KEPT), NULDOPA_CERTIFICATE_NOT_ACCEPTED));
    EXPECT(refused(game->check(differing_task, n - 2, certificate, KEPT), NULDOPA_CERTIFICATE_NOT_ACCEPTED));
    certificate[9] = NULDOPA_MOST_SEEN + 1;
    EXPECT(refused(game->check(scratch_task, n, certificate, KEPT), NULDOPA_CERTIFICATE_ILL_FORMED));
}

static void too_little_lent(const struct game *game)
{
    size_t n = sizeof equal_task;
    fill();
    EXPECT(refused(game->compare(equal_task, n, table, 25, certificate, 20), NULDOPA_TABLE_TOO_SMALL));
    EXPECT(all(table, 25, 0) && all(table + 25, 39, 165) && all(certificate, 64, 165));
    fill();
    EXPECT(refused(game->compare(equal_task, n, table, 26, certificate, 19), NULDOPA_BUFFER_TOO_SMALL));
    EXPECT(all(table, 26, 0) && all(table + 26, 38, 165) && all(certificate, 64, 165));
    fill();
    EXPECT(refused(game->compare(equal_task, n, table, 0, certificate, 0), NULDOPA_TABLE_TOO_SMALL) && untouched());
}

/* All positions of this task, the sample further-3, are lost and listed: no certificate beside two entries is longer, without
 * spare bytes and with as many as make no third. */
static void most_lent(const struct game *game)
{
    static const uint8_t task[] = {1, 2, 1, 0, 2, 0, 3, 0, 3, 0, 1, 1, 1, 0,  /* left */
                                   1, 2, 1, 0, 2, 0, 3, 0, 3, 0, 1, 1, 1, 0,  /* right */
                                   4, 1, 2, 4, 2, 1, 15};
    static uint8_t most[NULDOPA_MOST_CERTIFICATE_BYTES(TABLE)];
    EXPECT(sizeof most == 2 * NULDOPA_LOST_BYTES);
    for (size_t length = TABLE; length < TABLE + NULDOPA_ENTRY_BYTES; length += NULDOPA_ENTRY_BYTES - 1) {
        EXPECT(NULDOPA_MOST_CERTIFICATE_BYTES(length) == sizeof most);
        EXPECT(is(game->compare(task, sizeof task, table, length, most, sizeof most), 0, game->lost, 2, 2, sizeof most));
        EXPECT(refused(game->compare(task, sizeof task, table, length, most, sizeof most - 1), NULDOPA_BUFFER_TOO_SMALL));
    }
    EXPECT(refused(game->compare(task, sizeof task, table, TABLE - 1, most, sizeof most), NULDOPA_TABLE_TOO_SMALL));
}

/* One state with 6 registers, none of them held, and 65 edges. Returns its length. */
static size_t too_many_edges(uint8_t *task)
{
    static const uint8_t model[] = {1, 6, 1, 0, 2, 0, 0, 0};
    size_t length = sizeof model;
    memcpy(task, model, length);
    for (uint8_t i = 0; i < 65; i++) {
        const uint8_t edge[] = {3, 0, i / 6, 1, i % 6 + 1, 0};
        memcpy(task + length, edge, sizeof edge);
        length += sizeof edge;
    }
    return length;
}

/* Each refusal of a task, by its name; the tasks are those of docs/FORMATS.md. */
static void refused_tasks(const struct game *game)
{
    static const struct {
        uint32_t refusal;
        size_t length;
        uint8_t bytes[32];
    } tasks[] = {
        {NULDOPA_UNKNOWN_RECORD, 1, {0}},
        {NULDOPA_TASK_CUT, 0, {0}},
        {NULDOPA_RECORD_MISPLACED, 1, {15}},
        {NULDOPA_BAD_HEADER, 4, {1, 7, 1, 0}},
        {NULDOPA_BAD_STATE, 8, {1, 0, 1, 0, 2, 1, 0, 0}},
        {NULDOPA_BAD_EDGE, 14, {1, 1, 1, 0, 2, 0, 1, 0, 3, 0, 32, 0, 1, 0}},
        {NULDOPA_REGISTER_RULE_BROKEN, 14, {1, 1, 1, 0, 2, 0, 0, 0, 3, 0, 0, 0, 1, 0}},
        {NULDOPA_EDGE_NOT_RISING, 20, {1, 1, 1, 0, 2, 0, 1, 0, 3, 0, 0, 0, 1, 0, 3, 0, 0, 0, 1, 0}},
        {NULDOPA_BAD_PAIR, 19, {1, 1, 1, 0, 2, 0, 1, 0, 1, 1, 1, 0, 2, 0, 1, 0, 4, 1, 2}},
        {NULDOPA_BAD_HISTORY, 18, {1, 0, 1, 0, 2, 0, 0, 0, 1, 0, 1, 0, 2, 0, 0, 0, 5, 14}},
        {NULDOPA_BAD_HISTORY, 18, {1, 1, 1, 0, 2, 0, 1, 0, 1, 1, 1, 0, 2, 0, 1, 0, 5, 1}},
        {NULDOPA_BAD_HISTORY, 21, {1, 1, 1, 0, 2, 0, 1, 0, 1, 1, 1, 0, 2, 0, 1, 0, 4, 1, 1, 5, 0}},
    };
    uint8_t large[512];
    size_t length = too_many_edges(large);
    fill();
    for (size_t i = 0; i < sizeof tasks / sizeof *tasks; i++) {
        EXPECT(refused(game->compare(tasks[i].bytes, tasks[i].length, table, TABLE, certificate, KEPT), tasks[i].refusal));
        EXPECT(refused(game->check(tasks[i].bytes, tasks[i].length, kept_certificate, KEPT), tasks[i].refusal));
    }
    EXPECT(refused(game->compare(large, length, table, TABLE, certificate, KEPT), NULDOPA_TOO_MANY_EDGES));
    EXPECT(refused(game->check(large, length, kept_certificate, KEPT), NULDOPA_TOO_MANY_EDGES));
    EXPECT(untouched());
}

static void checking(const struct game *game)
{
    size_t n = sizeof equal_task;
    EXPECT(is(game->check(equal_task, n, kept_certificate, KEPT), 0, game->kept, 0, 0, 0));
    EXPECT(is(game->check(differing_task, n, lost_certificate, LOST), 0, game->lost, 0, 1, 0));
    EXPECT(refused(game->check(equal_task, n, lost_certificate, LOST), NULDOPA_CERTIFICATE_NOT_ACCEPTED));
    EXPECT(refused(game->check(equal_task, n, kept_certificate, KEPT - 1), NULDOPA_CERTIFICATE_ILL_FORMED));
    EXPECT(refused(game->check(equal_task, n, kept_certificate, KEPT / 2), NULDOPA_CERTIFICATE_NOT_ACCEPTED));
    EXPECT(refused(game->check(equal_task, n, kept_certificate, 0), NULDOPA_CERTIFICATE_NOT_ACCEPTED));
}

/* The other game's kinds are unknown to this one's check. */
static void other_kinds(const struct game *game, const struct game *other)
{
    size_t n = sizeof equal_task;
    put_kinds(other->kept, other->lost);
    EXPECT(refused(game->check(equal_task, n, kept_certificate, KEPT), NULDOPA_CERTIFICATE_ILL_FORMED));
    EXPECT(refused(game->check(differing_task, n, lost_certificate, LOST), NULDOPA_CERTIFICATE_ILL_FORMED));
    put_kinds(game->kept, game->lost);
}

static void calls(const struct game *game, const struct game *other)
{
    put_kinds(game->kept, game->lost);
    comparing(game);
    small_history(game);
    too_little_lent(game);
    most_lent(game);
    refused_tasks(game);
    checking(game);
    other_kinds(game, other);
}

/* The right side's attack shows that G and P differ; only the left side attacks in the one-way game. */
static void games_apart(void)
{
    static const uint8_t attack_of_right[] = {17, 0, 0, 0, 0, 0, 0, 0, 0, 13, 2, 0, 7, 0, 0, 0, 1};
    size_t n = sizeof exchanged_task;
    EXPECT(is(nuldopa_compare(exchanged_task, n, table, TABLE, certificate, LOST), 0, NULDOPA_DIFFER, 2, 1, LOST));
    EXPECT(memcmp(certificate, attack_of_right, LOST) == 0);
    EXPECT(is(nuldopa_compare_one_way(exchanged_task, n, table, TABLE, certificate, KEPT), 0, NULDOPA_FOLLOWS, 2, 0, KEPT));
    certificate[0] = certificate[NULDOPA_KEPT_BYTES] = NULDOPA_EQUAL;
    EXPECT(refused(nuldopa_check(exchanged_task, n, certificate, KEPT), NULDOPA_CERTIFICATE_NOT_ACCEPTED));
    memcpy(certificate, attack_of_right, LOST);
    certificate[0] = NULDOPA_FALLS_SHORT;
    EXPECT(refused(nuldopa_check_one_way(exchanged_task, n, certificate, LOST), NULDOPA_CERTIFICATE_NOT_ACCEPTED));
}

static void null_buffers(const struct game *game)
{
    size_t n = sizeof equal_task;
    fill();
    EXPECT(refused(game->compare(NULL, 1, table, TABLE, certificate, KEPT), NULDOPA_NULL_BUFFER));
    EXPECT(refused(game->compare(equal_task, n, NULL, TABLE, certificate, KEPT), NULDOPA_NULL_BUFFER));
    EXPECT(refused(game->compare(equal_task, n, table, TABLE, NULL, 1), NULDOPA_NULL_BUFFER));
    EXPECT(refused(game->check(NULL, 1, kept_certificate, KEPT), NULDOPA_NULL_BUFFER));
    EXPECT(refused(game->check(equal_task, n, NULL, 1), NULDOPA_NULL_BUFFER));
    EXPECT(untouched());
    /* Without a length it is an empty buffer. */
    EXPECT(refused(game->compare(NULL, 0, table, TABLE, certificate, KEPT), NULDOPA_TASK_CUT) && untouched());
    EXPECT(refused(game->compare(equal_task, n, NULL, 0, certificate, KEPT), NULDOPA_TABLE_TOO_SMALL));
    EXPECT(refused(game->compare(equal_task, n, table, TABLE, NULL, 0), NULDOPA_BUFFER_TOO_SMALL));
    EXPECT(refused(game->compare(NULL, 0, NULL, 0, NULL, 0), NULDOPA_TASK_CUT));
    EXPECT(refused(game->check(NULL, 0, NULL, 0), NULDOPA_TASK_CUT));
    EXPECT(refused(game->check(equal_task, n, NULL, 0), NULDOPA_CERTIFICATE_NOT_ACCEPTED));
    EXPECT(nulls_passed_on == 0);
}

static void overlapping_buffers(const struct game *game)
{
    uint8_t shared[256];
    size_t n = sizeof equal_task;
    memset(shared, 165, sizeof shared);
    memcpy(shared + 100, equal_task, n);
    fill();
    /* The task from byte 100 to 149, and a table or a certificate over its first or last byte, or all of it. */
    EXPECT(refused(game->compare(shared + 100, n, shared + 101 - TABLE, TABLE, certificate, KEPT), NULDOPA_BUFFERS_OVERLAP));
    EXPECT(refused(game->compare(shared + 100, n, shared + 148, TABLE, certificate, KEPT), NULDOPA_BUFFERS_OVERLAP));
    EXPECT(refused(game->compare(shared + 100, n, shared, 256, certificate, KEPT), NULDOPA_BUFFERS_OVERLAP));
    EXPECT(refused(game->compare(shared + 100, n, table, TABLE, shared + 101 - KEPT, KEPT), NULDOPA_BUFFERS_OVERLAP));
    EXPECT(refused(game->compare(shared + 100, n, table, TABLE, shared + 148, KEPT), NULDOPA_BUFFERS_OVERLAP));
    EXPECT(refused(game->compare(equal_task, n, shared, TABLE, shared, KEPT), NULDOPA_BUFFERS_OVERLAP));
    EXPECT(refused(game->compare(equal_task, n, shared, TABLE, shared + TABLE - 1, KEPT), NULDOPA_BUFFERS_OVERLAP));
    EXPECT(all(shared, 100, 165) && memcmp(shared + 100, equal_task, n) == 0 && all(shared + 149, 107, 165));
    EXPECT(untouched());
    /* Side by side, and empty inside another, is no overlap. */
    EXPECT(game->compare(shared + 100, n, shared + 100 - TABLE, TABLE, shared + 149, KEPT).refusal == 0);
    EXPECT(refused(game->compare(shared + 100, n, shared + 110, 0, certificate, KEPT), NULDOPA_TABLE_TOO_SMALL));
    EXPECT(refused(game->compare(shared + 100, n, table, TABLE, shared + 110, 0), NULDOPA_BUFFER_TOO_SMALL));
    EXPECT(refused(game->compare(shared + 10, 0, shared, TABLE, certificate, KEPT), NULDOPA_TASK_CUT));
    /* What is only read may overlap. */
    EXPECT(refused(game->check(shared + 100, n, shared + 100, n), NULDOPA_CERTIFICATE_ILL_FORMED));
}

static void large_lengths(const struct game *game)
{
    size_t n = sizeof equal_task, large = (size_t)PTRDIFF_MAX + 1;
    uint8_t *last_page = (uint8_t *)(UINTPTR_MAX - 4095);
    fill();
    EXPECT(refused(game->compare(equal_task, large, table, TABLE, certificate, KEPT), NULDOPA_LENGTH_TOO_LARGE));
    EXPECT(refused(game->compare(equal_task, n, table, SIZE_MAX, certificate, KEPT), NULDOPA_LENGTH_TOO_LARGE));
    EXPECT(refused(game->compare(equal_task, n, table, TABLE, certificate, large), NULDOPA_LENGTH_TOO_LARGE));
    EXPECT(refused(game->compare(equal_task, n, last_page, 4096, certificate, KEPT), NULDOPA_LENGTH_TOO_LARGE));
    EXPECT(refused(game->check(equal_task, large, kept_certificate, KEPT), NULDOPA_LENGTH_TOO_LARGE));
    EXPECT(refused(game->check(equal_task, n, kept_certificate, SIZE_MAX), NULDOPA_LENGTH_TOO_LARGE));
    /* A null pointer comes first, and overlap last. */
    EXPECT(refused(game->compare(equal_task, large, NULL, TABLE, certificate, KEPT), NULDOPA_NULL_BUFFER));
    EXPECT(refused(game->compare(equal_task, n, equal_task, large, certificate, KEPT), NULDOPA_LENGTH_TOO_LARGE));
    EXPECT(untouched());
}

/* What only the careful functions of a game refuse. */
static void care(const struct game *game)
{
    put_kinds(game->kept, game->lost);
    null_buffers(game);
    overlapping_buffers(game);
    large_lengths(game);
}

int main(void)
{
    memcpy(differing_task, equal_task, sizeof equal_task);
    differing_task[39] = 2;
    memcpy(exchanged_task, equal_task, sizeof equal_task);
    exchanged_task[15] = 2;
    memcpy(scratch_task, differing_task, sizeof differing_task - 1);
    memcpy(scratch_task + sizeof differing_task - 1, (const uint8_t[]){5, 0, 15}, 3);
    layout();
    constants();
    refusals_of_records();
    calls(&plain, &plain_one_way);
    calls(&careful, &careful_one_way);
    calls(&plain_one_way, &plain);
    calls(&careful_one_way, &careful);
    games_apart();
    care(&careful);
    care(&careful_one_way);
    printf("%d passed, %d failed\n", passed, failed);
    return failed != 0;
}
