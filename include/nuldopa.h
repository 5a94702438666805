/* Nuldopa: compares two reader models, and checks certificates. The C boundary of the static library libexports.a.
 *
 * A task is a file of two reader models, left and right, a matching, and the history's size where it is stated. There are two
 * games. In the first either side attacks: a comparison answers EQUAL or DIFFER. In the one-way game only the left side
 * attacks: a comparison answers FOLLOWS or FALLS SHORT. With the answer come a table of the positions reached and a
 * certificate, or else one of the numbered refusals. What is returned, and what the buffers then hold, is proved to be what the
 * scope paper says, for every content and every length of the buffers.
 *
 * The history is all object numbers that either reader has seen. A record of kind 5, one byte after the pairs, states how many
 * there are at the start, 0 for a layout begun from scratch. A size of 13 means 13 or more, and that is what a task without the
 * record has: two readers of six registers hold at most 12 numbers together, so from there on one that was seen before and that
 * neither holds is always there.
 *
 * Proved of nuldopa_compare, nuldopa_check and both functions of the one-way game, but assumed of their caller: each pointer
 * leads to as many bytes as its length says (all of which hold a value), is not null even where the length is 0, and no byte
 * that can be written is in two buffers. Who cannot be sure of that calls the functions nuldopa_try_... below, which test
 * what can be tested.
 *
 * The functions keep no memory between calls and take none: a comparison works in the lent table. A call needs less than
 * 64 KB of stack (tested, not proved). They can be called from several threads at once, as long as no call is lent bytes
 * that another one writes. Buffers need no alignment.
 *
 * Build, on x86-64: gcc -I include program.c -L target/staticlib -lexports. The library calls memcpy and memset alone.
 */
#ifndef NULDOPA_H
#define NULDOPA_H

#include <stddef.h>
#include <stdint.h>

#ifdef __cplusplus
extern "C" {
#endif

/* Sizes in bytes. */
enum {
    NULDOPA_POSITION_BYTES = 9, /* left state, right state, partners of left registers 1 to 6, history size */
    NULDOPA_ENTRY_BYTES = 13,   /* a table entry: position, then rounds */
    NULDOPA_KEPT_BYTES = 10,    /* a certificate record of EQUAL or FOLLOWS: kind, position */
    NULDOPA_LOST_BYTES = 17     /* one of DIFFER or FALLS SHORT: kind, position, side, edge, case, rounds */
};

/* The most bytes that a certificate has beside a table of so many bytes: 17 for each entry, of which spare bytes at the
 * table's end make none. A comparison of either game that is lent so many never meets NULDOPA_BUFFER_TOO_SMALL: that is
 * proved (crates/promises/specs/Promises.antt, buffer_is_enough). Where the table's length is a constant, so is this; for the
 * length of any table that there can be, PTRDIFF_MAX at most, a size_t holds it. */
#define NULDOPA_MOST_CERTIFICATE_BYTES(table_length) \
    ((size_t)(table_length) / NULDOPA_ENTRY_BYTES * NULDOPA_LOST_BYTES)

/* The greatest history size, and the most positions that tasks reach. */
enum {
    NULDOPA_MOST_SEEN = 13,                     /* 13 numbers or more */
    NULDOPA_MOST_POSITIONS_OF_A_SIZE = 3411712, /* a task that starts with NULDOPA_MOST_SEEN reaches no other size */
    NULDOPA_MOST_POSITIONS = 47763968           /* with all 14 sizes */
};

/* Verdicts: the kinds of their certificates' records. EQUAL gives FOLLOWS, for the task and for the one with its sides
 * exchanged, where that one-way comparison is not refused; the other way round it need not. */
enum {
    NULDOPA_EQUAL = 16,      /* whatever one reader takes, the other can take too, and so on without end */
    NULDOPA_DIFFER = 17,     /* who chooses side and field can force unlike end marks or a missing reply */
    NULDOPA_FOLLOWS = 18,    /* whatever the left reader takes, the right one can take too, and so on without end */
    NULDOPA_FALLS_SHORT = 19 /* who chooses left's fields can force left end mark 1 and right 0, or a missing reply */
};

/* Refusals. Those of a task's record come first, 1 to 10 and 15; in one record the lowest number counts. Then 11 and 12, or
 * 13 and 14, in this order. */
enum {
    NULDOPA_UNKNOWN_RECORD = 1,       /* a kind byte is not 1, 2, 3, 4, 5 or 15 */
    NULDOPA_TASK_CUT = 2,             /* the task ends inside a body or without an end record */
    NULDOPA_RECORD_MISPLACED = 3,     /* the record is not allowed at this place */
    NULDOPA_BAD_HEADER = 4,           /* more than 6 registers, 0 or more than 16 states, or no such start state */
    NULDOPA_BAD_STATE = 5,            /* not the next number, a bit of no register, or an end mark above 1 */
    NULDOPA_BAD_EDGE = 6,             /* a state, tag, kind or register that does not exist */
    NULDOPA_REGISTER_RULE_BROKEN = 7, /* an edge breaks its kind's register rule */
    NULDOPA_EDGE_NOT_RISING = 8,      /* an edge is not above the one before it in its model */
    NULDOPA_TOO_MANY_EDGES = 9,       /* an edge is its model's 65th */
    NULDOPA_BAD_PAIR = 10,            /* a register outside a start state's set, not rising, or a right register again */
    NULDOPA_TABLE_TOO_SMALL = 11,     /* the positions reached outnumber the table's entries */
    NULDOPA_BUFFER_TOO_SMALL = 12,    /* the certificate is longer than its buffer */
    NULDOPA_CERTIFICATE_ILL_FORMED = 13,   /* an unknown kind, two kinds, a cut body, an illegal position, or not rising */
    NULDOPA_CERTIFICATE_NOT_ACCEPTED = 14, /* well formed, and not accepted */
    NULDOPA_BAD_HISTORY = 15 /* a history size above 13, or less than the numbers that the start states hold together */
};

/* Refusals of the functions nuldopa_try_... alone, which the proved functions never give. */
enum {
    NULDOPA_NULL_BUFFER = 100,      /* a null pointer with a length above 0 */
    NULDOPA_BUFFERS_OVERLAP = 101,  /* a buffer that can be written has a byte in common with another */
    NULDOPA_LENGTH_TOO_LARGE = 102  /* a length above PTRDIFF_MAX, or past the end of the address space */
};

/* What a call returns. After a refusal all but its number is 0. */
struct nuldopa_answer {
    uint32_t refusal;   /* 0, or the number of the refusal */
    uint32_t verdict;   /* NULDOPA_EQUAL or NULDOPA_DIFFER; in the one-way game NULDOPA_FOLLOWS or NULDOPA_FALLS_SHORT */
    uint32_t positions; /* positions reached, so many entries are filled; 0 from the checker */
    uint32_t rounds;    /* DIFFER, FALLS SHORT: the least count of rounds that is enough; from the checker, the start's
                           listed rounds. EQUAL, FOLLOWS: 0 */
    size_t length;      /* bytes of the certificate; 0 from the checker */
};

/* Compares the two models of a task.
 *
 * task         the task file's bytes; only read
 * table        where the comparison works. Each 13 bytes are an entry, spare bytes at the end make none. What it holds at
 *              entry does not matter. 13 * NULDOPA_MOST_POSITIONS_OF_A_SIZE bytes (44 MB) are enough for every task without
 *              a record of kind 5. Where it states the size n, sizes n to 13 can be reached, and 14 - n times as much is
 *              enough: for every task 13 * NULDOPA_MOST_POSITIONS bytes (621 MB); who lends as much never meets 11
 *              (table_is_enough). With less than 13 every task that is read meets 11
 * certificate  where the certificate goes. NULDOPA_MOST_CERTIFICATE_BYTES(table_length) are always enough. The certificate has
 *              at most 17 bytes for each position reached, at most 10 with EQUAL (length-at-most, kept_length-at-most); with
 *              less than 10 every task that has room in the table meets 12
 *
 * A verdict (refusal 0): the table holds the positions reached, rising by their 9 bytes (left state, right state, partners
 * of left registers 1 to 6, history size), each followed by its rounds, 4 bytes, high byte first, FF FF FF FF if it is never
 * lost; then zeros up to the table's end. The first `length` bytes of the certificate buffer are the certificate, the rest
 * is as it was. EQUAL lists every reached position that is never lost, rising; DIFFER the start and all positions that its
 * attacks lead to, rising, each with an attack (side, edge, case, all 0 in rounds 0) and rounds, 4 bytes, high byte first.
 *
 * Refusals 1 to 10 and 15 (nuldopa_is_of_a_record): the table and the certificate buffer are as they were.
 * Refusals 11 and 12: the table is all zeros, the certificate buffer as it was.
 * Refusals 13 and 14 are not given.
 */
struct nuldopa_answer nuldopa_compare(const uint8_t *task, size_t task_length, uint8_t *table, size_t table_length,
                                      uint8_t *certificate, size_t certificate_length);

/* The one-way comparison: as nuldopa_compare, in its arguments, answer, table and refusals, but only the left side attacks,
 * and a position is lost in 0 rounds if its left end mark is 1 and its right one 0. FOLLOWS stands for EQUAL: every input
 * that the left reader takes the right one takes too. FALLS SHORT stands for DIFFER.
 *
 * Both games reach the same positions, and so meet 11 alike. A FOLLOWS certificate can be longer than the EQUAL one, so 12
 * can come where nuldopa_compare gives a verdict.
 */
struct nuldopa_answer nuldopa_compare_one_way(const uint8_t *task, size_t task_length, uint8_t *table,
                                              size_t table_length, uint8_t *certificate, size_t certificate_length);

/* Checks a proposed certificate for a task, whoever wrote it.
 *
 * task         the task file's bytes
 * certificate  the proposed certificate: of what nuldopa_compare wrote, the first `length` bytes and not the whole buffer
 *
 * Both are only read, and may overlap. Either may be empty: an empty task meets 2, an empty certificate 14.
 *
 * Accepted (refusal 0): the verdict that the records' kind stands for, and the start's listed rounds, 0 for EQUAL. EQUAL is
 * accepted exactly if the list is a symbolic bisimulation with the start in it; DIFFER exactly if the list contains the
 * start, rounds 0 has differing end marks and zero fields, and otherwise the attack exists and each reply leads to a listed
 * position of fewer rounds. The certificates that nuldopa_compare writes are accepted.
 *
 * Refusals 1 to 10 and 15 are about the task, 13 and 14 about the certificate; 11 and 12 are not given. Kinds 18 and 19 are
 * unknown here and meet 13. Nothing is written.
 */
struct nuldopa_answer nuldopa_check(const uint8_t *task, size_t task_length, const uint8_t *certificate,
                                    size_t certificate_length);

/* The one-way check: as nuldopa_check, by the game of nuldopa_compare_one_way, whose certificates are accepted. FOLLOWS is
 * accepted exactly if the start is listed and each listed position is not lost in 0 rounds and has a reply to each attack of
 * the left side that leads to a listed position; FALLS SHORT as DIFFER, but rounds 0 has left end mark 1 and right 0, and an
 * attack of the right side does not exist. Here kinds 16 and 17 meet 13.
 */
struct nuldopa_answer nuldopa_check_one_way(const uint8_t *task, size_t task_length, const uint8_t *certificate,
                                            size_t certificate_length);

/* The rest of this file is not proved but tested. */

/* Whether this is a refusal of a task's record, 1 to 10 and 15: then every buffer is as it was. */
static inline int nuldopa_is_of_a_record(uint32_t refusal)
{
    return (refusal >= NULDOPA_UNKNOWN_RECORD && refusal <= NULDOPA_BAD_PAIR) || refusal == NULDOPA_BAD_HISTORY;
}

/* The functions nuldopa_try_... test what the functions above assume, as far as it can be. Whether a pointer leads to as many
 * bytes as its length says cannot be. */

static inline struct nuldopa_answer nuldopa_refused(uint32_t refusal)
{
    struct nuldopa_answer answer = {0, 0, 0, 0, 0};
    answer.refusal = refusal;
    return answer;
}

static inline int nuldopa_is_missing(const void *buffer, size_t length)
{
    return buffer == NULL && length > 0;
}

static inline int nuldopa_is_too_large(const void *buffer, size_t length)
{
    return length > (size_t)PTRDIFF_MAX || length > UINTPTR_MAX - (uintptr_t)buffer;
}

/* Neither of the two is missing or too large. */
static inline int nuldopa_overlap(const void *one, size_t one_length, const void *two, size_t two_length)
{
    uintptr_t first = (uintptr_t)one, second = (uintptr_t)two;
    return one_length > 0 && two_length > 0 && first < second + two_length && second < first + one_length;
}

/* The refusal of three buffers of which two can be written, or 0. */
static inline uint32_t nuldopa_refusal_to_compare(const uint8_t *task, size_t task_length, const uint8_t *table,
                                                  size_t table_length, const uint8_t *certificate,
                                                  size_t certificate_length)
{
    if (nuldopa_is_missing(task, task_length) || nuldopa_is_missing(table, table_length) ||
        nuldopa_is_missing(certificate, certificate_length))
        return NULDOPA_NULL_BUFFER;
    if (nuldopa_is_too_large(task, task_length) || nuldopa_is_too_large(table, table_length) ||
        nuldopa_is_too_large(certificate, certificate_length))
        return NULDOPA_LENGTH_TOO_LARGE;
    if (nuldopa_overlap(task, task_length, table, table_length) ||
        nuldopa_overlap(task, task_length, certificate, certificate_length) ||
        nuldopa_overlap(table, table_length, certificate, certificate_length))
        return NULDOPA_BUFFERS_OVERLAP;
    return 0;
}

typedef struct nuldopa_answer nuldopa_compare_function(const uint8_t *, size_t, uint8_t *, size_t, uint8_t *, size_t);
typedef struct nuldopa_answer nuldopa_check_function(const uint8_t *, size_t, const uint8_t *, size_t);

/* One of the comparisons or checks above, after the tests. */
static inline struct nuldopa_answer nuldopa_try_comparing(nuldopa_compare_function *compare, const uint8_t *task,
                                                          size_t task_length, uint8_t *table, size_t table_length,
                                                          uint8_t *certificate, size_t certificate_length)
{
    uint8_t empty = 0;
    uint32_t refusal = nuldopa_refusal_to_compare(task, task_length, table, table_length, certificate, certificate_length);
    if (refusal != 0)
        return nuldopa_refused(refusal);
    return compare(task ? task : &empty, task_length, table ? table : &empty, table_length,
                   certificate ? certificate : &empty, certificate_length);
}

static inline struct nuldopa_answer nuldopa_try_checking(nuldopa_check_function *check, const uint8_t *task,
                                                         size_t task_length, const uint8_t *certificate,
                                                         size_t certificate_length)
{
    uint8_t empty = 0;
    if (nuldopa_is_missing(task, task_length) || nuldopa_is_missing(certificate, certificate_length))
        return nuldopa_refused(NULDOPA_NULL_BUFFER);
    if (nuldopa_is_too_large(task, task_length) || nuldopa_is_too_large(certificate, certificate_length))
        return nuldopa_refused(NULDOPA_LENGTH_TOO_LARGE);
    return check(task ? task : &empty, task_length, certificate ? certificate : &empty, certificate_length);
}

/* As nuldopa_compare and nuldopa_compare_one_way, for pointers and lengths of any kind. A null pointer with length 0 is an
 * empty buffer. Refusals 100, 102 and 101, tested in this order and before all others, read and write nothing. */
static inline struct nuldopa_answer nuldopa_try_compare(const uint8_t *task, size_t task_length, uint8_t *table,
                                                        size_t table_length, uint8_t *certificate,
                                                        size_t certificate_length)
{
    return nuldopa_try_comparing(nuldopa_compare, task, task_length, table, table_length, certificate,
                                 certificate_length);
}

static inline struct nuldopa_answer nuldopa_try_compare_one_way(const uint8_t *task, size_t task_length, uint8_t *table,
                                                                size_t table_length, uint8_t *certificate,
                                                                size_t certificate_length)
{
    return nuldopa_try_comparing(nuldopa_compare_one_way, task, task_length, table, table_length, certificate,
                                 certificate_length);
}

/* As nuldopa_check and nuldopa_check_one_way, for pointers and lengths of any kind. Refusals 100 and 102 as above; 101 is
 * not given, since nothing is written. */
static inline struct nuldopa_answer nuldopa_try_check(const uint8_t *task, size_t task_length,
                                                      const uint8_t *certificate, size_t certificate_length)
{
    return nuldopa_try_checking(nuldopa_check, task, task_length, certificate, certificate_length);
}

static inline struct nuldopa_answer nuldopa_try_check_one_way(const uint8_t *task, size_t task_length,
                                                              const uint8_t *certificate, size_t certificate_length)
{
    return nuldopa_try_checking(nuldopa_check_one_way, task, task_length, certificate, certificate_length);
}

#ifdef __cplusplus
}
#endif

#endif
