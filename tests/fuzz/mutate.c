/* How inputs are changed. libFuzzer changes bytes as it does by itself. Since most bytes of a task or of a certificate have
 * few allowed values, that alone would mostly meet refusals 1 to 10, 13 and 15; so three times of four what was changed is then
 * mended: the task to one that is read, the certificate to whole records of one kind that rise. */
#include "../../include/nuldopa.h"
#include "edit.h"
#include "input.h"
#include "task.h"
#include <stdlib.h>
#include <string.h>

enum {
    MOST_EDGES = 64,
    TAGS = 32,
    SIZES = NULDOPA_MOST_SEEN + 1,
    KINDS = 4, /* of certificate records */
    MOST_TASK_BYTES = 925
};

struct model {
    uint8_t registers, states, start;
    uint8_t sets[MOST_STATES], marks[MOST_STATES];
    size_t edge_count;
    uint8_t edges[MOST_EDGES][EDGE_BODY];
};

/* Two models, the right partners of left registers 1 to 6, and the history's size where it is stated. */
struct mended {
    struct model models[2];
    size_t headers;
    uint8_t partners[MOST_REGISTERS];
    int states_history;
    uint8_t history;
};

size_t LLVMFuzzerMutate(uint8_t *bytes, size_t length, size_t most);
size_t LLVMFuzzerCustomMutator(uint8_t *bytes, size_t length, size_t most, unsigned seed);

static void take_header(struct mended *m, const uint8_t *body)
{
    if (m->headers == 2)
        return;
    struct model *model = &m->models[m->headers++];
    model->registers = body[0] % (MOST_REGISTERS + 1);
    model->start = body[2];
}

static void take_state(struct model *model, const uint8_t *body)
{
    if (model->states == MOST_STATES)
        return;
    model->sets[model->states] = body[1] & (uint8_t)((1U << model->registers) - 1);
    model->marks[model->states] = body[2] & 1;
    model->states++;
}

static void take_edge(struct model *model, const uint8_t *body)
{
    if (model->edge_count < MOST_EDGES)
        memcpy(model->edges[model->edge_count++], body, EDGE_BODY);
}

static void take_history(struct mended *m, uint8_t size)
{
    m->states_history = 1;
    m->history = size;
}

static void take_record(struct mended *m, uint8_t kind, const uint8_t *body)
{
    struct model *model = &m->models[m->headers == 2];
    if (kind == HEADER)
        take_header(m, body);
    else if (kind == STATE)
        take_state(model, body);
    else if (kind == EDGE)
        take_edge(model, body);
    else if (kind == PAIR && body[0] >= 1 && body[0] <= MOST_REGISTERS)
        m->partners[body[0] - 1] = body[1];
    else if (kind == HISTORY)
        take_history(m, body[0]);
}

static void take_records(struct mended *m, const uint8_t *task, size_t length)
{
    size_t at = 0;
    while (at < length && length - at > body_bytes(task[at])) {
        take_record(m, task[at], task + at + 1);
        at += 1 + body_bytes(task[at]);
    }
}

static int holds(uint8_t set, uint8_t i)
{
    return i >= 1 && i <= MOST_REGISTERS && (set >> (i - 1) & 1) != 0;
}

/* Fields that exist; then a loop where the to set is too large, and a locally fresh edge where a known one has no number. */
static void mend_edge(const struct model *model, uint8_t *edge)
{
    edge[0] %= model->states;
    edge[1] %= TAGS;
    edge[2] %= 3;
    edge[3] = (uint8_t)(1 + (edge[3] + model->registers - 1) % model->registers);
    edge[4] %= model->states;
    uint8_t from = model->sets[edge[0]];
    if (edge[2] == 0 && !holds(from, edge[3]))
        edge[2] = 1;
    uint8_t most = edge[2] == 0 ? from : (uint8_t)(from | 1U << (edge[3] - 1));
    if ((model->sets[edge[4]] & ~most) != 0)
        edge[4] = edge[0];
}

static int by_bytes(const void *a, const void *b)
{
    return memcmp(a, b, EDGE_BODY);
}

static void keep_each_once(struct model *model)
{
    size_t kept = 0;
    for (size_t i = 0; i < model->edge_count; i++)
        if (kept == 0 || memcmp(model->edges[kept - 1], model->edges[i], EDGE_BODY) != 0)
            memmove(model->edges[kept++], model->edges[i], EDGE_BODY);
    model->edge_count = kept;
}

static void mend_model(struct model *model)
{
    if (model->states == 0)
        model->states = 1;
    model->start %= model->states;
    if (model->registers == 0)
        model->edge_count = 0;
    for (size_t i = 0; i < model->edge_count; i++)
        mend_edge(model, model->edges[i]);
    qsort(model->edges, model->edge_count, EDGE_BODY, by_bytes);
    keep_each_once(model);
}

/* Pairs of registers outside the start states' sets are left out, and those whose right register has a pair. */
static void mend_pairs(struct mended *m)
{
    uint8_t left = m->models[0].sets[m->models[0].start], right = m->models[1].sets[m->models[1].start];
    for (uint8_t i = 0; i < MOST_REGISTERS; i++) {
        if (!holds(left, (uint8_t)(i + 1)) || !holds(right, m->partners[i]))
            m->partners[i] = 0;
        else
            right &= (uint8_t)~(1U << (m->partners[i] - 1));
    }
}

static uint8_t bits(uint8_t set)
{
    return (uint8_t)__builtin_popcount(set);
}

/* A size that exists, and no less than the numbers that the start states hold together. */
static void mend_history(struct mended *m)
{
    const struct model *left = &m->models[0], *right = &m->models[1];
    uint8_t held = (uint8_t)(bits(left->sets[left->start]) + bits(right->sets[right->start]));
    for (size_t i = 0; i < MOST_REGISTERS; i++)
        held = (uint8_t)(held - (m->partners[i] != 0));
    m->history %= SIZES;
    if (m->history < held)
        m->history = held;
}

static uint8_t *write_record(uint8_t *to, uint8_t kind, const uint8_t *body)
{
    *to++ = kind;
    memcpy(to, body, body_bytes(kind));
    return to + body_bytes(kind);
}

static uint8_t *write_model(uint8_t *to, const struct model *model)
{
    to = write_record(to, HEADER, (uint8_t[]){model->registers, model->states, model->start});
    for (uint8_t i = 0; i < model->states; i++)
        to = write_record(to, STATE, (uint8_t[]){i, model->sets[i], model->marks[i]});
    for (size_t i = 0; i < model->edge_count; i++)
        to = write_record(to, EDGE, model->edges[i]);
    return to;
}

static size_t write_task(uint8_t *task, const struct mended *m)
{
    uint8_t *to = write_model(write_model(task, &m->models[0]), &m->models[1]);
    for (uint8_t i = 0; i < MOST_REGISTERS; i++)
        if (m->partners[i] != 0)
            to = write_record(to, PAIR, (uint8_t[]){(uint8_t)(i + 1), m->partners[i]});
    if (m->states_history)
        to = write_record(to, HISTORY, &m->history);
    *to++ = END;
    return (size_t)(to - task);
}

static void write_mended(struct input *input, struct mended *m)
{
    static uint8_t task[MOST_TASK_BYTES];
    mend_model(&m->models[0]);
    mend_model(&m->models[1]);
    mend_pairs(m);
    mend_history(m);
    input->task_length = write_task(task, m);
    input->task = task;
}

static void mend_task(struct input *input)
{
    struct mended m = {0};
    take_records(&m, input->task, input->task_length);
    write_mended(input, &m);
}

/* The same task with a history size that the number chooses. */
static void choose_history(struct input *input, unsigned random)
{
    struct mended m = {0};
    take_records(&m, input->task, input->task_length);
    take_history(&m, (uint8_t)(random % SIZES));
    write_mended(input, &m);
}

static int by_kept(const void *a, const void *b)
{
    return memcmp(a, b, NULDOPA_KEPT_BYTES);
}

/* Whole records of the first one's kind, rising; of two with the same position the first stays. */
static void mend_certificate(struct input *input)
{
    static uint8_t records[MOST_INPUT_BYTES];
    uint8_t kind = (uint8_t)(NULDOPA_EQUAL + (input->proposed_length > 0 ? input->proposed[0] % KINDS : 0));
    size_t bytes = record_bytes(kind);
    size_t count = input->proposed_length / bytes, kept = 0;
    memcpy(records, input->proposed, count * bytes);
    for (size_t i = 0; i < count; i++)
        records[i * bytes] = kind;
    qsort(records, count, bytes, by_kept);
    for (size_t i = 0; i < count; i++)
        if (kept == 0 || by_kept(records + (kept - 1) * bytes, records + i * bytes) != 0)
            memmove(records + kept++ * bytes, records + i * bytes, bytes);
    input->proposed = records;
    input->proposed_length = kept * bytes;
}

static void edit_proposed(struct input *input, unsigned random)
{
    static uint8_t edited[MOST_INPUT_BYTES];
    memcpy(edited, input->proposed, input->proposed_length);
    input->proposed_length = edit_certificate(edited, input->proposed_length, random);
    input->proposed = edited;
}

/* A part is changed by libFuzzer in a place of its own, so that the other part stays. */
static void mutate_part(const uint8_t **part, size_t *length)
{
    static uint8_t changed[MOST_INPUT_BYTES];
    memcpy(changed, *part, *length);
    *length = LLVMFuzzerMutate(changed, *length, sizeof changed);
    *part = changed;
}

static void mutate_checked(struct input *input, unsigned way, unsigned random)
{
    if (way == 1) {
        mutate_part(&input->task, &input->task_length);
        mend_task(input);
        return;
    }
    if (way == 2)
        mutate_part(&input->proposed, &input->proposed_length);
    else
        edit_proposed(input, random);
    mend_certificate(input);
}

static void mutate_compared(struct input *input, unsigned way, unsigned random)
{
    if (way == 1 && random % 2 == 0) {
        choose_history(input, random / 2);
        return;
    }
    mutate_part(&input->task, &input->task_length);
    mend_task(input);
}

/* One time of four, and where there is no input yet, bytes are changed anywhere and nothing is mended. */
size_t LLVMFuzzerCustomMutator(uint8_t *bytes, size_t length, size_t most, unsigned seed)
{
    struct input input;
    unsigned way = seed % 4;
    if (way == 0 || length > MOST_INPUT_BYTES || !input_read(&input, bytes, length))
        return LLVMFuzzerMutate(bytes, length, most);
    if (input.calls_checker)
        mutate_checked(&input, way, seed / 4);
    else
        mutate_compared(&input, way, seed / 4);
    size_t written = input_write(&input, bytes, most);
    return written != 0 ? written : LLVMFuzzerMutate(bytes, length, most);
}
