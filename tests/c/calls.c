/* The calls of crank.h for roundtrip.c. Each stands here once, and is counted under its name. */
#include <stdio.h>
#include <stdlib.h>
#include <string.h>

#include "calls.h"

#ifdef __cplusplus
extern "C" {
#endif
/* Declared once more: a type that changes in the header alone would convert at each call without a
 * word, and is now no C. */
Wheeled crank_samples(Record r, uint8_t given, const uint8_t *samples, size_t samples_len,
                      uint32_t *mem, size_t mem_len, const uint32_t *table, size_t table_len);
Preview crank_preview_forward(Record r, const uint32_t *mem, size_t mem_len,
                              const uint32_t *table, size_t table_len);
Preview crank_preview_back(Record r, const uint32_t *mem, size_t mem_len,
                           const uint32_t *table, size_t table_len);
uint32_t crank_check_node(Record r, uint32_t node, const uint32_t *mem, size_t mem_len,
                          const uint32_t *table, size_t table_len);
Made crank_make_table(Record r, uint32_t limit, uint32_t *mem, size_t mem_len,
                      uint32_t *table, size_t table_len, uint32_t *scratch, size_t scratch_len);
Sampled bench_samples(Bench *b, uint8_t given, const uint8_t *samples, size_t samples_len,
                      uint32_t *mem, size_t mem_len, const uint32_t *table, size_t table_len);
Preview bench_preview_forward(const Bench *b, const uint32_t *mem, size_t mem_len,
                              const uint32_t *table, size_t table_len);
Preview bench_preview_back(const Bench *b, const uint32_t *mem, size_t mem_len,
                           const uint32_t *table, size_t table_len);
Loaded bench_load(Bench *b, const uint8_t *file, size_t file_len, uint32_t *mem, size_t mem_len,
                  uint32_t *table, size_t table_len);
uint32_t bench_save(const Bench *b, const uint32_t *mem, size_t mem_len,
                    const uint32_t *table, size_t table_len, uint8_t *out, size_t out_len);
Checked bench_check(const Bench *b, const uint32_t *mem, size_t mem_len,
                    const uint32_t *table, size_t table_len);
uint32_t bench_check_node(const Bench *b, uint32_t node, const uint32_t *mem, size_t mem_len,
                          const uint32_t *table, size_t table_len);
Tabled bench_make_table(Bench *b, uint32_t limit, uint32_t *mem, size_t mem_len,
                        uint32_t *table, size_t table_len, uint32_t *scratch, size_t scratch_len);
#ifdef __cplusplus
}
#endif

enum { MOST_CALLS = 64 };

const char *image = "", *calls = "";

static const char *const ANSWERS = "the lesson bench answers otherwise than the call by value";
static const char *const LEAVES = "the lesson bench leaves something else than the call by value";
static const char *const CHANGED = "changed something";

void demand(int holds, const char *what)
{
    if (!holds) {
        fprintf(stderr, "roundtrip: %s: %s: %s\n", image, calls, what);
        exit(1);
    }
}

int same_record(const Record *a, const Record *b)
{
    return memcmp(a->regs, b->regs, sizeof a->regs) == 0
        && a->qifv == b->qifv && a->qifw == b->qifw
        && a->k == b->k && a->m == b->m && a->n == b->n
        && a->position == b->position;
}

int same(const Machine *a, const Machine *b)
{
    return same_record(&a->bench.state, &b->bench.state)
        && a->mem_len == b->mem_len && a->table_len == b->table_len
        && memcmp(a->mem, b->mem, sizeof a->mem) == 0
        && memcmp(a->table, b->table, sizeof a->table) == 0;
}

int is_noise(const void *bytes, size_t length)
{
    for (size_t i = 0; i < length; i++) {
        if (((const uint8_t *)bytes)[i] != NOISE) {
            return 0;
        }
    }
    return 1;
}

/* ---- Counting ---- */

static struct {
    const char *name;
    unsigned long made;
} counts[MOST_CALLS];

static void count(const char *name)
{
    size_t i = 0;
    while (i < MOST_CALLS && counts[i].name != NULL && strcmp(counts[i].name, name) != 0) {
        i++;
    }
    demand(i < MOST_CALLS, "no room to count the call");
    counts[i].name = name;
    counts[i].made++;
}

/* The call, counted. */
#define COUNTED(call) (count(#call), call)

void report_calls(void)
{
    printf("roundtrip: calls made:");
    for (size_t i = 0; i < MOST_CALLS && counts[i].name != NULL; i++) {
        printf("%s %s %lu", i > 0 ? ";" : "", counts[i].name, counts[i].made);
    }
    puts("");
}

/* ---- The calls that turn ---- */

static Cranked cranked(uint32_t turns, uint32_t refusal)
{
    Cranked c = {turns, refusal};
    return c;
}

Cranked turn_by_value(Machine *m, int way, uint32_t n)
{
    (void)n;
    Turned t = (way == FORWARD ? COUNTED(crank_forward) : COUNTED(crank_back))(
        m->bench.state, m->mem, m->mem_len, m->table, m->table_len);
    m->bench.state = t.state;
    return cranked(t.refusal == 0, t.refusal);
}

Cranked batch_by_value(Machine *m, int way, uint32_t n)
{
    Batch b = (way == FORWARD ? COUNTED(crank_forward_batch) : COUNTED(crank_back_batch))(
        m->bench.state, n, m->mem, m->mem_len, m->table, m->table_len);
    m->bench.state = b.state;
    return cranked(b.turns, b.refusal);
}

static Cranked turn_on_bench(Machine *m, int way, uint32_t n)
{
    (void)n;
    uint32_t refusal = (way == FORWARD ? COUNTED(bench_forward) : COUNTED(bench_back))(
        &m->bench, m->mem, m->mem_len, m->table, m->table_len);
    return cranked(refusal == 0, refusal);
}

Cranked batch_on_bench(Machine *m, int way, uint32_t n)
{
    return (way == FORWARD ? COUNTED(bench_forward_batch) : COUNTED(bench_back_batch))(
        &m->bench, n, m->mem, m->mem_len, m->table, m->table_len);
}

const Mode MODES[MODE_COUNT] = {
    {"single turns by value", turn_by_value, 1},
    {"single turns on the bench", turn_on_bench, 1},
    {"batches of 7 by value", batch_by_value, 7},
    {"batches of 7 on the bench", batch_on_bench, 7},
    {"largest batches by value", batch_by_value, UINT32_MAX},
    {"largest batches on the bench", batch_on_bench, UINT32_MAX},
};

/* ---- The calls that take samples ---- */

Sampled sums(uint64_t forward, uint64_t back, uint64_t refused, uint32_t last, uint32_t refusal)
{
    Sampled s = {forward, back, refused, last, refusal};
    return s;
}

static Sampled samples_by_value(Machine *m, uint8_t given, const uint8_t *samples, size_t length)
{
    Wheeled w = COUNTED(crank_samples)(m->bench.state, given, samples, length,
                                       m->mem, m->mem_len, m->table, m->table_len);
    m->bench.state = w.state;
    return sums(w.forward, w.back, w.refused, w.last, w.refusal);
}

static Sampled samples_on_bench(Machine *m, uint8_t given, const uint8_t *samples, size_t length)
{
    return COUNTED(bench_samples)(&m->bench, given, samples, length,
                                  m->mem, m->mem_len, m->table, m->table_len);
}

const Wheel WHEELS[WHEEL_COUNT] = {
    {"samples by value", samples_by_value},
    {"samples on the bench", samples_on_bench},
};

/* ---- The calls that only look ---- */

static int same_preview(const Preview *a, const Preview *b)
{
    return a->refusal == b->refusal && a->changes == b->changes && a->address == b->address
        && a->value == b->value && same_record(&a->state, &b->state);
}

Preview preview(const Machine *given, int way)
{
    static Machine m;
    m = *given;
    Preview by_value =
        (way == FORWARD ? COUNTED(crank_preview_forward) : COUNTED(crank_preview_back))(
            m.bench.state, m.mem, m.mem_len, m.table, m.table_len);
    Preview on_bench =
        (way == FORWARD ? COUNTED(bench_preview_forward) : COUNTED(bench_preview_back))(
            &m.bench, m.mem, m.mem_len, m.table, m.table_len);
    demand(same_preview(&on_bench, &by_value), ANSWERS);
    demand(same(&m, given), "a preview changed something");
    return on_bench;
}

Checked check(const Machine *given)
{
    static Machine m;
    m = *given;
    calls = "check";
    Checked by_value = COUNTED(crank_check)(m.bench.state, m.mem, m.mem_len, m.table, m.table_len);
    Checked on_bench = COUNTED(bench_check)(&m.bench, m.mem, m.mem_len, m.table, m.table_len);
    demand(on_bench.refusal == by_value.refusal && on_bench.place == by_value.place, ANSWERS);
    demand(same(&m, given), CHANGED);
    return on_bench;
}

uint32_t check_node(const Machine *given, uint32_t node)
{
    static Machine m;
    m = *given;
    calls = "check of a node";
    uint32_t by_value = COUNTED(crank_check_node)(m.bench.state, node, m.mem, m.mem_len,
                                                  m.table, m.table_len);
    uint32_t on_bench = COUNTED(bench_check_node)(&m.bench, node, m.mem, m.mem_len,
                                                  m.table, m.table_len);
    demand(on_bench == by_value, ANSWERS);
    demand(same(&m, given), CHANGED);
    return on_bench;
}

uint32_t save_to(const Machine *given, Output *out, size_t out_len)
{
    static Machine m;
    static Output other;
    m = *given;
    calls = "save";
    memset(out, NOISE, sizeof *out);
    memset(&other, NOISE, sizeof other);
    uint32_t by_value = COUNTED(crank_save)(m.bench.state, m.mem, m.mem_len, m.table, m.table_len,
                                            other.bytes, out_len);
    uint32_t on_bench = COUNTED(bench_save)(&m.bench, m.mem, m.mem_len, m.table, m.table_len,
                                            out->bytes, out_len);
    demand(on_bench == by_value, ANSWERS);
    demand(memcmp(out->bytes, other.bytes, sizeof other.bytes) == 0, LEAVES);
    demand(same(&m, given), CHANGED);
    return on_bench;
}

/* ---- The calls that load and make ---- */

Loaded load_into(Machine *m, const uint8_t *bytes, size_t length)
{
    static Machine other;
    other = *m;
    calls = "load";
    Loaded by_value = COUNTED(crank_load)(bytes, length, other.mem, other.mem_len,
                                          other.table, other.table_len);
    if (by_value.refusal == 0) {
        other.bench.state = by_value.state;
    }
    Loaded on_bench = COUNTED(bench_load)(&m->bench, bytes, length, m->mem, m->mem_len,
                                          m->table, m->table_len);
    demand(on_bench.refusal == by_value.refusal, ANSWERS);
    demand(same_record(&on_bench.state, &by_value.state), ANSWERS);
    demand(same(m, &other), LEAVES);
    return on_bench;
}

typedef Made Make(Machine *m, uint32_t limit, uint32_t *scratch, size_t scratch_len);

static Made make_by_value(Machine *m, uint32_t limit, uint32_t *scratch, size_t scratch_len)
{
    Made made = COUNTED(crank_make_table)(m->bench.state, limit, m->mem, m->mem_len,
                                          m->table, m->table_len, scratch, scratch_len);
    m->bench.state = made.state;
    return made;
}

static Made make_on_bench(Machine *m, uint32_t limit, uint32_t *scratch, size_t scratch_len)
{
    Tabled tabled = COUNTED(bench_make_table)(&m->bench, limit, m->mem, m->mem_len,
                                              m->table, m->table_len, scratch, scratch_len);
    Made made = {tabled.refusal, tabled.cycles, m->bench.state};
    return made;
}

/* With so much scratch lent; nothing beyond what the call may write changes. */
static Made make(Make *call, Machine *m, uint32_t limit, size_t scratch_len)
{
    static uint32_t scratch[SCRATCH * MAX_WORDS + EXCESS];
    static Machine given;
    given = *m;
    memset(scratch, NOISE, sizeof scratch);
    Made made = call(m, limit, scratch, scratch_len);
    const int walked = made.refusal != 10 && made.refusal != 22;
    const size_t used = walked ? SCRATCH * (size_t)given.bench.state.m : 0;
    demand(is_noise(scratch + used, sizeof scratch - 4 * used), "excess scratch was written");
    demand(memcmp(m->mem, given.mem, sizeof m->mem) == 0, "memory is not as it was");
    const size_t written = walked ? TABLE : 0;
    demand(memcmp(m->table + written, given.table + written, sizeof m->table - 4 * written) == 0,
           "excess table was written");
    return made;
}

Made make_in(Machine *m, uint32_t limit, size_t scratch_len)
{
    static Machine other;
    other = *m;
    calls = "make";
    Made by_value = make(make_by_value, &other, limit, scratch_len);
    Made on_bench = make(make_on_bench, m, limit, scratch_len);
    demand(on_bench.refusal == by_value.refusal && on_bench.cycles == by_value.cycles, ANSWERS);
    demand(same(m, &other), LEAVES);
    return on_bench;
}

/* ---- The calls that have no bench ---- */

uint32_t is_instruction(uint32_t word)
{
    return COUNTED(qins_is_instruction)(word);
}

size_t preface_length(const uint8_t *bytes, size_t length)
{
    return COUNTED(crank_preface_length)(bytes, length);
}
