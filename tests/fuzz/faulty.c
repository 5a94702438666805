/* A library with a fault, for `tests/fuzz/faults`: the linker puts these functions in the place of the library's, and the
 * environment says what they do wrong before or after they call the true ones, and in which game. */
#include "../../include/nuldopa.h"
#include "edit.h"
#include "input.h"
#include "task.h"
#include <stdlib.h>
#include <string.h>

nuldopa_compare_function __real_nuldopa_compare, __wrap_nuldopa_compare;
nuldopa_compare_function __real_nuldopa_compare_one_way, __wrap_nuldopa_compare_one_way;
nuldopa_check_function __real_nuldopa_check, __wrap_nuldopa_check;
nuldopa_check_function __real_nuldopa_check_one_way, __wrap_nuldopa_check_one_way;

/* A game's true functions, and the verdict that keeps the start. */
struct game {
    const char *name;
    nuldopa_compare_function *compare;
    nuldopa_check_function *check;
    uint8_t kept;
};
static const struct game equality = {"equality", __real_nuldopa_compare, __real_nuldopa_check, NULDOPA_EQUAL};
static const struct game one_way = {"one-way", __real_nuldopa_compare_one_way, __real_nuldopa_check_one_way,
                                    NULDOPA_FOLLOWS};

static volatile uint8_t sink;

/* The game of the call that is being altered. */
static const struct game *game;

static int environment_is(const char *variable, const char *value)
{
    const char *said = getenv(variable);
    return said != NULL && strcmp(said, value) == 0;
}

static uint32_t fault_is(const char *name)
{
    return environment_is("NULDOPA_FAULTY_GAME", game->name) && environment_is("NULDOPA_FAULT", name);
}

static const struct game *other_game(void)
{
    return game == &equality ? &one_way : &equality;
}

/* A verdict or kind of the other game as this one's. */
static uint8_t own_kind(uint32_t kind)
{
    return (uint8_t)(kind - other_game()->kept + game->kept);
}

/* What is returned. */
static struct nuldopa_answer altered(struct nuldopa_answer a)
{
    if (a.refusal != 0) {
        a.length = fault_is("a refusal has a length");
        if (fault_is("another refusal") && a.refusal > 1)
            a.refusal--;
        return a;
    }
    if (fault_is("the other verdict"))
        a.verdict ^= NULDOPA_EQUAL ^ NULDOPA_DIFFER;
    a.positions += fault_is("a position too many");
    a.rounds += fault_is("a round too many");
    a.length -= fault_is("a certificate cut");
    return a;
}

/* What is in the buffers: bytes of them, and one on either side. */
static void spoil_table(struct nuldopa_answer a, uint8_t *table, size_t length)
{
    int read = !nuldopa_is_of_a_record(a.refusal);
    if (fault_is("table changed by 1 to 10") && !read && a.refusal != NULDOPA_BAD_HISTORY && length > 0)
        table[length - 1]++;
    if (fault_is("table changed by 15") && a.refusal == NULDOPA_BAD_HISTORY && length > 0)
        table[length - 1]++;
    if (fault_is("table not cleared") && read && a.refusal != 0 && length > 0)
        table[length - 1]++;
    if (fault_is("spare bytes not cleared") && a.refusal == 0 && length > a.positions * (size_t)NULDOPA_ENTRY_BYTES)
        table[length - 1]++;
    if (fault_is("entries not rising") && a.positions > 1)
        memcpy(table + NULDOPA_ENTRY_BYTES, table, NULDOPA_ENTRY_BYTES);
    if (fault_is("other rounds in the table") && a.positions > 0)
        table[NULDOPA_ENTRY_BYTES - 1] ^= 1;
    if (fault_is("table written before its start"))
        table[-1]++;
    if (fault_is("table written past its end"))
        table[length]++;
}

/* The last byte of a table at the limit between the library's ways, or with an entry fewer or more. */
static void spoil_at_limit(struct nuldopa_answer a, const uint8_t *task, size_t task_length, uint8_t *table, size_t length)
{
    struct start start;
    if (nuldopa_is_of_a_record(a.refusal) || length == 0)
        return;
    read_start(&start, task, task_length);
    size_t limit = limit_entries(&start), entries = length / NULDOPA_ENTRY_BYTES;
    if ((fault_is("table changed at the limit") && entries == limit) ||
        (fault_is("table changed an entry below the limit") && entries + 1 == limit) ||
        (fault_is("table changed an entry above the limit") && entries == limit + 1))
        table[length - 1]++;
}

static void spoil_certificate(struct nuldopa_answer a, uint8_t *certificate, size_t length)
{
    if (fault_is("buffer changed by a refusal") && a.refusal != 0 && length > 0)
        certificate[0]++;
    if (fault_is("rest of the buffer changed") && a.refusal == 0 && length > a.length)
        certificate[a.length]++;
    if (fault_is("another position listed") && a.refusal == 0)
        certificate[1]++;
    if (fault_is("another attack") && a.refusal == 0 && record_bytes(a.verdict) == NULDOPA_LOST_BYTES)
        certificate[1 + NULDOPA_POSITION_BYTES + 1]++;
    if (fault_is("buffer written before its start"))
        certificate[-1]++;
    if (fault_is("buffer written past its end"))
        certificate[length]++;
}

static void spoil_task(uint8_t *task, size_t length)
{
    if (fault_is("task read past its end"))
        sink = task[length];
    if (fault_is("task read before its start"))
        sink = task[-1];
    if (fault_is("task written") && length > 0)
        task[0]++;
}

/* The task with the other end mark in its first state: a game that is whole in itself, but not about the other's task. */
static const uint8_t *marked_otherwise(const uint8_t *task, size_t length)
{
    enum { FIRST_MARK = 7 };
    static uint8_t marked[MOST_INPUT_BYTES];
    if (length <= FIRST_MARK || task[FIRST_MARK] > 1)
        return task;
    memcpy(marked, task, length);
    marked[FIRST_MARK] ^= 1;
    return marked;
}

static uint8_t wrong_size(uint8_t size, uint8_t stated)
{
    if (fault_is("sizes not written"))
        return 0;
    if (size == stated)
        return size;
    if (fault_is("sizes never raised"))
        return stated;
    if (size == NULDOPA_MOST_SEEN)
        return (uint8_t)(size + fault_is("sizes raised past 13"));
    return (uint8_t)(size + fault_is("sizes raised by two"));
}

/* The sizes in positions that stand this many bytes apart. */
static void spoil_sizes(uint8_t *position, size_t count, size_t apart, uint8_t stated)
{
    for (; count > 0; count--, position += apart)
        position[HISTORY_AT] = wrong_size(position[HISTORY_AT], stated);
}

/* Of entries that differ in the size alone, the first stays. */
static void merge_entries(struct nuldopa_answer *a, uint8_t *table)
{
    uint32_t kept = 0;
    for (uint32_t i = 0; i < a->positions; i++) {
        const uint8_t *entry = table + (size_t)i * NULDOPA_ENTRY_BYTES;
        uint8_t *to = table + (size_t)kept * NULDOPA_ENTRY_BYTES;
        if (kept == 0 || memcmp(to - NULDOPA_ENTRY_BYTES, entry, HISTORY_AT) != 0) {
            memmove(to, entry, NULDOPA_ENTRY_BYTES);
            kept++;
        }
    }
    memset(table + (size_t)kept * NULDOPA_ENTRY_BYTES, 0, (size_t)(a->positions - kept) * NULDOPA_ENTRY_BYTES);
    a->positions = kept;
}

static void spoil_all_sizes(struct nuldopa_answer a, const uint8_t *task, size_t task_length, uint8_t *table,
                            uint8_t *certificate)
{
    struct start start;
    if (a.refusal != 0)
        return;
    read_start(&start, task, task_length);
    uint8_t stated = start.position[HISTORY_AT];
    spoil_sizes(table, a.positions, NULDOPA_ENTRY_BYTES, stated);
    spoil_sizes(certificate + 1, a.length / record_bytes(a.verdict), record_bytes(a.verdict), stated);
}

/* The task without its history size, as if 13 were stated. */
static const uint8_t *without_size(const uint8_t *task, size_t *length)
{
    static uint8_t shorter[MOST_INPUT_BYTES];
    size_t at = after_pairs(task, *length);
    if (at + 3 != *length || task[at] != HISTORY || task[at + 2] != END)
        return task;
    memcpy(shorter, task, at);
    shorter[at] = END;
    *length = at + 1;
    return shorter;
}

/* Whether the start's history would be too small if shared numbers were counted twice. */
static int lacks_shared(const uint8_t *task, size_t length)
{
    struct start start;
    read_start(&start, task, length);
    unsigned held = held_together(&start, start.position);
    for (size_t i = 0; i < MOST_REGISTERS; i++)
        held += start.position[2 + i] != 0;
    return start.position[HISTORY_AT] < held;
}

static int refused_wrongly(const uint8_t *task, size_t length)
{
    return fault_is("shared numbers counted twice") && !nuldopa_is_of_a_record(game->check(task, length, task, 0).refusal) &&
           lacks_shared(task, length);
}

static const uint8_t *task_taken(const uint8_t *task, size_t *length)
{
    if (fault_is("the stated size ignored"))
        return without_size(task, length);
    return fault_is("another end mark") ? marked_otherwise(task, *length) : task;
}

/* What the other game gives, with the verdict and the kinds of this one. */
static struct nuldopa_answer compared_by_other(const uint8_t *task, size_t task_length, uint8_t *table, size_t table_length,
                                               uint8_t *certificate, size_t certificate_length)
{
    struct nuldopa_answer a =
        other_game()->compare(task, task_length, table, table_length, certificate, certificate_length);
    if (a.refusal != 0)
        return a;
    for (size_t at = 0; at < a.length; at += record_bytes(a.verdict))
        certificate[at] = own_kind(certificate[at]);
    a.verdict = own_kind(a.verdict);
    return a;
}

/* The certificate with its last record once more, where there is room. */
static struct nuldopa_answer with_a_record_more(struct nuldopa_answer a, uint8_t *certificate, size_t length)
{
    size_t bytes = record_bytes(a.verdict);
    if (a.refusal != 0 || length - a.length < bytes)
        return a;
    memcpy(certificate + a.length, certificate + a.length - bytes, bytes);
    a.length += bytes;
    return a;
}

static struct nuldopa_answer faulty_compare(const uint8_t *task, size_t task_length, uint8_t *table, size_t table_length,
                                            uint8_t *certificate, size_t certificate_length)
{
    nuldopa_compare_function *compare = fault_is("compared by the other game") ? compared_by_other : game->compare;
    if (fault_is("what the table held counts") && table_length > 0 && table[0] == 0x5a)
        task_length = 0;
    if (refused_wrongly(task, task_length))
        return nuldopa_refused(NULDOPA_BAD_HISTORY);
    size_t taken_length = task_length;
    const uint8_t *taken = task_taken(task, &taken_length);
    size_t used = certificate_length - (fault_is("a byte of the buffer not used") && certificate_length > 0);
    struct nuldopa_answer a = compare(taken, taken_length, table, table_length, certificate, used);
    spoil_task((uint8_t *)(uintptr_t)task, task_length);
    spoil_all_sizes(a, task, task_length, table, certificate);
    if (fault_is("positions told apart by eight bytes"))
        merge_entries(&a, table);
    if (fault_is("a record more"))
        a = with_a_record_more(a, certificate, certificate_length);
    spoil_table(a, table, table_length);
    spoil_at_limit(a, task, task_length, table, table_length);
    spoil_certificate(a, certificate, certificate_length);
    return altered(a);
}

/* What is accepted. */
static struct nuldopa_answer misjudged(struct nuldopa_answer a, const uint8_t *task, size_t task_length,
                                       const uint8_t *certificate, size_t certificate_length)
{
    if (fault_is("all certificates accepted") && a.refusal == NULDOPA_CERTIFICATE_NOT_ACCEPTED)
        a = (struct nuldopa_answer){0, game->kept, 0, 0, 0};
    if (fault_is("no certificate accepted") && a.refusal == 0)
        a = nuldopa_refused(NULDOPA_CERTIFICATE_NOT_ACCEPTED);
    if (fault_is("the other game's kinds accepted") && a.refusal == NULDOPA_CERTIFICATE_ILL_FORMED) {
        a = other_game()->check(task, task_length, certificate, certificate_length);
        a.verdict = a.refusal == 0 ? own_kind(a.verdict) : 0;
    }
    return a;
}

/* The certificate with 13 for every size above it. */
static const uint8_t *certificate_taken(const uint8_t *certificate, size_t length)
{
    static uint8_t lowered[4000 * NULDOPA_LOST_BYTES];
    if (!fault_is("sizes above 13 accepted") || length == 0 || length > sizeof lowered)
        return certificate;
    memcpy(lowered, certificate, length);
    for (size_t at = 0; at + NULDOPA_POSITION_BYTES < length; at += record_bytes(lowered[0]))
        if (lowered[at + 1 + HISTORY_AT] > NULDOPA_MOST_SEEN)
            lowered[at + 1 + HISTORY_AT] = NULDOPA_MOST_SEEN;
    return lowered;
}

static struct nuldopa_answer faulty_check(const uint8_t *task, size_t task_length, const uint8_t *certificate,
                                          size_t certificate_length)
{
    if (refused_wrongly(task, task_length))
        return nuldopa_refused(NULDOPA_BAD_HISTORY);
    size_t taken_length = task_length;
    const uint8_t *taken = task_taken(task, &taken_length);
    struct nuldopa_answer a =
        game->check(taken, taken_length, certificate_taken(certificate, certificate_length), certificate_length);
    a = misjudged(a, task, task_length, certificate, certificate_length);
    if (fault_is("accepted with fewer rounds") && a.rounds > 0)
        a.rounds--;
    if (fault_is("accepted with a length") && a.refusal == 0)
        a.length = certificate_length;
    if (fault_is("the checker gives 12") && a.refusal == NULDOPA_CERTIFICATE_ILL_FORMED)
        a.refusal = NULDOPA_BUFFER_TOO_SMALL;
    if (fault_is("certificate read past its end"))
        sink = certificate[certificate_length];
    if (fault_is("certificate written") && certificate_length > 0)
        ((uint8_t *)(uintptr_t)certificate)[0]++;
    return a;
}

#define WRAPPED_COMPARE(name, its_game) \
    struct nuldopa_answer name(const uint8_t *task, size_t task_length, uint8_t *table, size_t table_length, \
                               uint8_t *certificate, size_t certificate_length) \
    { \
        game = &its_game; \
        return faulty_compare(task, task_length, table, table_length, certificate, certificate_length); \
    }
WRAPPED_COMPARE(__wrap_nuldopa_compare, equality)
WRAPPED_COMPARE(__wrap_nuldopa_compare_one_way, one_way)

#define WRAPPED_CHECK(name, its_game) \
    struct nuldopa_answer name(const uint8_t *task, size_t task_length, const uint8_t *certificate, \
                               size_t certificate_length) \
    { \
        game = &its_game; \
        return faulty_check(task, task_length, certificate, certificate_length); \
    }
WRAPPED_CHECK(__wrap_nuldopa_check, equality)
WRAPPED_CHECK(__wrap_nuldopa_check_one_way, one_way)
