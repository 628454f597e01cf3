/* The calls of crank.h as roundtrip.c makes them: each is counted under its name. A call that loads,
 * saves, previews, checks or makes is made twice from the same machine, by value and on the lesson
 * bench, and both must answer and leave the same. */
#ifndef CALLS_H
#define CALLS_H

#include "crank.h"

enum {
    MAX_WORDS = 8192,
    MAX_NODES = 511,
    NODE = 9,
    TABLE = NODE * MAX_NODES, /* words of a made table */
    SCRATCH = 16, /* words for a memory word, to make one */
    TRAILER = 100, /* bytes of what a save writes */
    OLD_TRAILER = 92, /* of an image of kind 1 */
    MAX_IMAGE = 4 * MAX_WORDS + 36 * MAX_NODES + TRAILER,
    EXCESS = 10, /* lent beyond what is needed; room for one node more than there may be */
    NOISE = 0xA5 /* what lent bytes hold before a call */
};

enum { FORWARD, BACK };

/* All that the calls work on. */
typedef struct {
    Bench bench;
    uint32_t mem_len, table_len; /* how much of the words below is lent */
    uint32_t mem[MAX_WORDS + EXCESS];
    uint32_t table[TABLE + EXCESS];
} Machine;

/* What a save is lent. */
typedef struct {
    uint8_t bytes[MAX_IMAGE + EXCESS];
} Output;

/* Where the program is, for its message. */
extern const char *image, *calls;

/* Ends the program with a message where something does not hold. */
void demand(int holds, const char *what);

/* By its members: the bytes between them are no one's. */
int same_record(const Record *a, const Record *b);

/* Record and words, the excess too. */
int same(const Machine *a, const Machine *b);

int is_noise(const void *bytes, size_t length);

/* ---- The calls that turn, all in one form: a single turn answers as a batch of one ---- */

typedef struct {
    const char *name;
    Cranked (*call)(Machine *m, int way, uint32_t n);
    uint32_t n; /* turns asked for in one call */
} Mode;

enum { MODE_COUNT = 6, WHEEL_COUNT = 2 };

/* Single turns first: they are counted, so a run without an end is noticed. */
extern const Mode MODES[MODE_COUNT];

Cranked turn_by_value(Machine *m, int way, uint32_t n);
Cranked batch_by_value(Machine *m, int way, uint32_t n);
Cranked batch_on_bench(Machine *m, int way, uint32_t n);

/* ---- The calls that take samples ---- */

typedef struct {
    const char *name;
    Sampled (*call)(Machine *m, uint8_t given, const uint8_t *samples, size_t length);
} Wheel;

extern const Wheel WHEELS[WHEEL_COUNT];

/* What samples come to. */
Sampled sums(uint64_t forward, uint64_t back, uint64_t refused, uint32_t last, uint32_t refusal);

/* ---- The other calls, by value and on the lesson bench ---- */

/* These three leave the machine as it is. */
Preview preview(const Machine *given, int way);
Checked check(const Machine *given);
uint32_t check_node(const Machine *given, uint32_t node);

/* Leaves the machine as it is; all of out is noise before, and so much of it is lent. */
uint32_t save_to(const Machine *given, Output *out, size_t out_len);

/* An accepted record is then on the bench; refused, the record there stays. */
Loaded load_into(Machine *m, const uint8_t *bytes, size_t length);

/* Lends so much scratch; nothing but the table and the record changes. The record of the answer is then
 * on the bench. */
Made make_in(Machine *m, uint32_t limit, size_t scratch_len);

/* ---- The calls that have no bench ---- */

uint32_t is_instruction(uint32_t word);
size_t preface_length(const uint8_t *bytes, size_t length);

/* Says how often each call was made. */
void report_calls(void);

#endif
