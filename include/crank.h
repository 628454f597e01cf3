/* The calls of the crank bench for C and C++: QINS on basis states, forward and back.
 *
 * Link libcapi.a for the calls that take the record by value, libsession.a for the lesson bench, which
 * holds the record, libprogram.a for the crank program; each is complete, and one program may link all.
 * docs/CALLS.md says how they are built, docs/MANUAL.md what the machine does and, in section 10, what
 * each refusal means. A refusal of 0 is none.
 *
 * A lent slice is a pointer followed by its length in elements. It points to as many elements as its
 * length says, aligned as their type asks. No pointer is null, not even one for length 0, and what a
 * call may write overlaps nothing else that is lent to it. Apart from that, every call takes every
 * argument.
 */
#ifndef CRANK_H
#define CRANK_H

#include <stddef.h>
#include <stdint.h>

#ifdef __cplusplus
#define CRANK_LAYOUT static_assert
extern "C" {
#else
#define CRANK_LAYOUT _Static_assert
#endif

/* ---- Types ---- */

/* The registers, the place in the qif table, the sizes of the memory and table lent with it, and the
 * position. Four bytes before the position are no member's and hold anything, so that two records are
 * compared member by member, and not by memcmp. */
typedef struct Record {
    uint32_t regs[16]; /* pc br ro sp r1 .. r12 */
    uint32_t qifv;     /* the current node, 0 for none */
    uint32_t qifw;     /* cycles still to wait */
    uint32_t k;        /* code words, 1 to m: addresses 0 to k-1; k to m-1 are data */
    uint32_t m;        /* memory words, 1 to 8192 */
    uint32_t n;        /* nodes of the qif table, 0 to 511, nine words each */
    int64_t position;  /* one more for each accepted turn forward, one less for each back */
} Record;

/* What a turn answers. */
typedef struct Turned {
    Record state; /* the record after the turn; refused: the record given */
    uint32_t refusal;
} Turned;

/* What a batch answers. */
typedef struct Batch {
    uint32_t turns;   /* turns made */
    uint32_t refusal; /* of the next turn where they are fewer than asked for, else 0 */
    Record state;     /* the record after these turns */
} Batch;

/* What a preview answers: what the turn would do. */
typedef struct Preview {
    uint32_t refusal; /* the turn's */
    uint32_t changes; /* 1 where the turn would change a word of mem, else 0 */
    uint32_t address; /* of that word; 0 where none would change */
    uint32_t value;   /* its new value, which is not the present one; 0 where none would change */
    Record state;     /* the record after the turn; refused: the record given */
} Preview;

/* What encoder samples come to. */
typedef struct Wheeled {
    uint64_t forward; /* turns accepted forward */
    uint64_t back;    /* turns accepted back */
    uint64_t refused; /* turns that the machine refused */
    uint32_t last;    /* the last sample before any 19 or 20; the given one if there is none. It fits a
                         byte, and is what the call for the samples after it is given */
    uint32_t refusal; /* 19 or 20; 0 where all samples were taken */
    Record state;     /* the record after the accepted turns */
} Wheeled;

/* What a load answers. */
typedef struct Loaded {
    uint32_t refusal;
    Record state; /* refused: all zeros, with which every turn is refused by 10 */
} Loaded;

/* What a check answers. */
typedef struct Checked {
    uint32_t refusal;
    uint32_t place; /* 7: the code address; 8: the node; else 0 */
} Checked;

/* What the making of a qif table answers. */
typedef struct Made {
    uint32_t refusal;
    uint32_t cycles; /* of a walk over the new table, from start to finish with its waits, uni and unib
                        idle: the same for every choice of coins; refused: 0 */
    Record state;    /* the record given, with the new n and qifv 1; refused: the record given */
} Made;

/* The lesson bench: the record that its calls work on. bench_load fills it in, or else its caller, who
 * may read and change it between calls. */
typedef struct Bench {
    Record state;
} Bench;

/* What a batch on the lesson bench answers. */
typedef struct Cranked {
    uint32_t turns;   /* turns made */
    uint32_t refusal; /* of the next turn where they are fewer than asked for, else 0 */
} Cranked;

/* What encoder samples come to on the lesson bench. */
typedef struct Sampled {
    uint64_t forward; /* turns accepted forward */
    uint64_t back;    /* turns accepted back */
    uint64_t refused; /* turns that the machine refused */
    uint32_t last;    /* as in Wheeled */
    uint32_t refusal;
} Sampled;

/* What the making of a qif table on the lesson bench answers. */
typedef struct Tabled {
    uint32_t refusal;
    uint32_t cycles; /* as in Made */
} Tabled;

CRANK_LAYOUT(sizeof(Record) == 96, "Record: 21 words, one to fill up, and the position");
CRANK_LAYOUT(offsetof(Record, qifv) == 64, "Record: registers first");
CRANK_LAYOUT(offsetof(Record, position) == 88, "Record: position last");
CRANK_LAYOUT(sizeof(Turned) == 104, "Turned: a record, a word, and one to fill up");
CRANK_LAYOUT(offsetof(Turned, refusal) == 96, "Turned: record first");
CRANK_LAYOUT(sizeof(Batch) == 104, "Batch: two words and a record");
CRANK_LAYOUT(offsetof(Batch, state) == 8, "Batch: record last");
CRANK_LAYOUT(sizeof(Preview) == 112, "Preview: four words and a record");
CRANK_LAYOUT(offsetof(Preview, changes) == 4, "Preview: refusal first");
CRANK_LAYOUT(offsetof(Preview, address) == 8, "Preview: then changes");
CRANK_LAYOUT(offsetof(Preview, value) == 12, "Preview: then address and value");
CRANK_LAYOUT(offsetof(Preview, state) == 16, "Preview: record last");
CRANK_LAYOUT(sizeof(Wheeled) == 128, "Wheeled: eight words and a record");
CRANK_LAYOUT(offsetof(Wheeled, back) == 8, "Wheeled: forward first");
CRANK_LAYOUT(offsetof(Wheeled, refused) == 16, "Wheeled: then back");
CRANK_LAYOUT(offsetof(Wheeled, last) == 24, "Wheeled: then refused");
CRANK_LAYOUT(offsetof(Wheeled, refusal) == 28, "Wheeled: then last and refusal");
CRANK_LAYOUT(offsetof(Wheeled, state) == 32, "Wheeled: record last");
CRANK_LAYOUT(sizeof(Loaded) == 104, "Loaded: a word, one to fill up, and a record");
CRANK_LAYOUT(offsetof(Loaded, state) == 8, "Loaded: record last");
CRANK_LAYOUT(sizeof(Checked) == 8, "Checked: 2 words");
CRANK_LAYOUT(sizeof(Made) == 104, "Made: two words and a record");
CRANK_LAYOUT(offsetof(Made, cycles) == 4, "Made: refusal first");
CRANK_LAYOUT(offsetof(Made, state) == 8, "Made: record last");
CRANK_LAYOUT(sizeof(Bench) == 96, "Bench: a record");
CRANK_LAYOUT(sizeof(Cranked) == 8, "Cranked: 2 words");
CRANK_LAYOUT(sizeof(Sampled) == 32, "Sampled: 8 words");
CRANK_LAYOUT(offsetof(Sampled, back) == 8, "Sampled: forward first");
CRANK_LAYOUT(offsetof(Sampled, refused) == 16, "Sampled: then back");
CRANK_LAYOUT(offsetof(Sampled, last) == 24, "Sampled: then refused");
CRANK_LAYOUT(offsetof(Sampled, refusal) == 28, "Sampled: last, then refusal");
CRANK_LAYOUT(sizeof(Tabled) == 8, "Tabled: 2 words");
CRANK_LAYOUT(offsetof(Tabled, cycles) == 4, "Tabled: refusal first");

/* ---- Turns, previews, batches and samples: libcapi.a ----
 *
 * A call takes the record by value and answers with the new one. A turn is refused by 10 where k, m
 * or n of the record is out of range, mem is shorter than m words or table than 9 * n. Longer ones
 * may be lent: the excess is never touched. Only data words of mem change, and nothing writes the
 * table. A fetr, which copies, may read any word below m, code too, and is refused by 15 at an address
 * of m or more; an ld or ldr, which exchanges, is refused by 15 outside k to m - 1. An accepted turn,
 * a wait too, changes the position by one; directly after 10, whatever the word is, a turn forward is
 * refused by 21 at INT64_MAX and one back at INT64_MIN. A batch of 0 turns makes none and answers
 * refusal 0, whatever the state is.
 */

/* 1 where the word is an instruction, else 0. */
uint32_t qins_is_instruction(uint32_t word);

/* One turn forward: executes the word at pc, or waits there for a cycle. Refusals 10 to 18 and 21.
 * Refused: the answer has the record that was given, and mem is as it was. */
Turned crank_forward(Record r, uint32_t *mem, size_t mem_len,
                     const uint32_t *table, size_t table_len);

/* One turn back: undoes the forward turn that leads here; refused exactly where there is none.
 * Refused: as with crank_forward. */
Turned crank_back(Record r, uint32_t *mem, size_t mem_len,
                  const uint32_t *table, size_t table_len);

/* The turn forward, shown and not made: mem is only read. It answers what crank_forward would, and
 * which word of mem that turn would change, if it would change one: no turn changes more. A word
 * exchanged with an equal one does not change. */
Preview crank_preview_forward(Record r, const uint32_t *mem, size_t mem_len,
                              const uint32_t *table, size_t table_len);

/* The turn back, likewise. */
Preview crank_preview_back(Record r, const uint32_t *mem, size_t mem_len,
                           const uint32_t *table, size_t table_len);

/* n turns forward, or as many as come before the first refusal. Record and mem are as after so many
 * single turns, with a refusal too. A refusal stands exactly where fewer than n are made: it is that
 * of the next turn. */
Batch crank_forward_batch(Record r, uint32_t n, uint32_t *mem, size_t mem_len,
                          const uint32_t *table, size_t table_len);

/* n turns back, or as many as come before the first refusal, likewise. */
Batch crank_back_batch(Record r, uint32_t n, uint32_t *mem, size_t mem_len,
                       const uint32_t *table, size_t table_len);

/* Turns as encoder samples say, a byte each, 0 to 3, in the forward cycle 0, 1, 3, 2, 0; given is
 * the sample before the first. An equal sample turns nothing, a step along the cycle turns forward,
 * a step against it back. A turn that is refused, by whatever number, is counted, and the samples go
 * on. Refusals: 20 where a sample or given is above 3, 19 where a sample is two steps from the one
 * before; found sample by sample, 20 first, given before any. What follows the first is not
 * looked at. Record and mem are as after the accepted turns, with a refusal too. */
Wheeled crank_samples(Record r, uint8_t given, const uint8_t *samples, size_t samples_len,
                      uint32_t *mem, size_t mem_len, const uint32_t *table, size_t table_len);

/* ---- Images: libcapi.a ---- */

/* Reads the image at the end of the file, after any preface: fills the first m words of mem and
 * the first 9 * n of table, and no more. 8192 and 4599 words are always enough. It takes both kinds of
 * image: one of kind 1 has no position, and gives 0. Refusals 1 to 6. Refused: the answer has a record
 * of zeros, position too, and nothing is written. */
Loaded crank_load(const uint8_t *file, size_t file_len, uint32_t *mem, size_t mem_len,
                  uint32_t *table, size_t table_len);

/* The number of bytes before the image; 0 where crank_load would refuse by 1 to 5. */
size_t crank_preface_length(const uint8_t *file, size_t file_len);

/* Writes the image, of kind 2, with the position and without a preface, to the front of out:
 * 4 * m + 36 * n + 100 bytes, and nothing after them. 51264 bytes are always enough. Answers the
 * refusal: 10 as in a turn, 9 where out is too short. Refused: nothing is written. */
uint32_t crank_save(Record r, const uint32_t *mem, size_t mem_len,
                    const uint32_t *table, size_t table_len, uint8_t *out, size_t out_len);

/* Looks at the code words and then, node by node, at the links of the table; writes nothing.
 * Refusals: 10 as in a turn, 7 at the lowest code address without an instruction, 8 at the lowest
 * node with an unpaired link. */
Checked crank_check(Record r, const uint32_t *mem, size_t mem_len,
                    const uint32_t *table, size_t table_len);

/* Looks at the links of one node, whatever the code words are; writes nothing. Answers the refusal:
 * 10 as in a turn, for a short mem too, 17 where node is not 1 to n, 8 where a link of it that is not
 * 0 is unpaired. Where crank_check answers 8, its place is the lowest node for which this call does. */
uint32_t crank_check_node(Record r, uint32_t node, const uint32_t *mem, size_t mem_len,
                          const uint32_t *table, size_t table_len);

/* ---- Tables: libcapi.a ---- */

/* Makes the qif table of the code: walks it from the start at pc to finish, through both branches of
 * every qif, from what the registers and mem hold, with uni and unib moving pc alone and the position
 * still. At a qif its register is set to 0 for one branch and to 1 for the other, whatever it held;
 * after the fiq it holds that again. limit is on all cycles walked: every word of both branches, the
 * qif once for both; no waits, no finish.
 *
 * Accepted: the first 4599 words of table hold the n nodes of the answer, and zeros after them. mem is
 * written on the way and ends as it began, refused or not. What the first 16 * m words of scratch then
 * hold is free; 131072 words are always enough. Beyond these, table and scratch are never touched.
 *
 * Refusals: 10 as in a turn; 22 where n or qifw is above 0, pc is not below k or not at a start, table
 * is shorter than 4599 words or scratch than 16 * m. After these nothing is written. Then those of the
 * walk, after which the first 4599 words of table are zeros. At one word the turn's own come first, in
 * its order: 11, 12 (a finish in a branch), 13, 15, 17 (a fiq in no branch) and 18. Then 23, where over
 * 511 nodes, 8 nested qifs or limit cycles would be needed. Last 24, where a branch's fiq names another
 * register than its qif, or that does not hold the branch's coin, or the two branches differ at their
 * fiq in anything else of registers or mem. */
Made crank_make_table(Record r, uint32_t limit, uint32_t *mem, size_t mem_len,
                      uint32_t *table, size_t table_len, uint32_t *scratch, size_t scratch_len);

/* ---- The lesson bench: libsession.a ----
 *
 * These are the load and every call above that takes a record, with the record in *b. A bench_ call is
 * lent the same words as its crank_ call, and refuses by the same rules. Its answer is the same, except
 * that turns, batches, samples and tables answer without the record. A call that takes a const Bench only
 * reads it. Any other leaves in *b the record that the crank_ call would have answered, except a refused
 * load, which leaves *b as it was.
 */

/* One turn; answers its refusal. Refused: *b and mem are as they were. */
uint32_t bench_forward(Bench *b, uint32_t *mem, size_t mem_len,
                       const uint32_t *table, size_t table_len);
uint32_t bench_back(Bench *b, uint32_t *mem, size_t mem_len,
                    const uint32_t *table, size_t table_len);

/* n turns, or as many as come before the first refusal, by the rules of crank_forward_batch: *b and
 * mem are as after the turns made, with a refusal too. */
Cranked bench_forward_batch(Bench *b, uint32_t n, uint32_t *mem, size_t mem_len,
                            const uint32_t *table, size_t table_len);
Cranked bench_back_batch(Bench *b, uint32_t n, uint32_t *mem, size_t mem_len,
                         const uint32_t *table, size_t table_len);

/* Turns as encoder samples say, by the rules of crank_samples: *b and mem are as after the accepted
 * turns, with a refusal too. */
Sampled bench_samples(Bench *b, uint8_t given, const uint8_t *samples, size_t samples_len,
                      uint32_t *mem, size_t mem_len, const uint32_t *table, size_t table_len);

/* The turn, shown and not made, as by crank_preview_forward and crank_preview_back. */
Preview bench_preview_forward(const Bench *b, const uint32_t *mem, size_t mem_len,
                              const uint32_t *table, size_t table_len);
Preview bench_preview_back(const Bench *b, const uint32_t *mem, size_t mem_len,
                           const uint32_t *table, size_t table_len);

/* Reads the image at the end of the file, by the rules of crank_load: *b then holds its record, whatever
 * it held before. Refused: *b, mem and table are as they were; the record of zeros is in the answer
 * alone. */
Loaded bench_load(Bench *b, const uint8_t *file, size_t file_len, uint32_t *mem, size_t mem_len,
                  uint32_t *table, size_t table_len);

/* Writes the image to the front of out, as crank_save does; answers the refusal. */
uint32_t bench_save(const Bench *b, const uint32_t *mem, size_t mem_len,
                    const uint32_t *table, size_t table_len, uint8_t *out, size_t out_len);

/* The check of code words and links, and that of one node, as by crank_check and crank_check_node. */
Checked bench_check(const Bench *b, const uint32_t *mem, size_t mem_len,
                    const uint32_t *table, size_t table_len);
uint32_t bench_check_node(const Bench *b, uint32_t node, const uint32_t *mem, size_t mem_len,
                          const uint32_t *table, size_t table_len);

/* Makes the qif table of the code, by the rules of crank_make_table, also for mem, table and scratch.
 * Accepted: *b has the new n and qifv 1. Refused: *b is as it was. */
Tabled bench_make_table(Bench *b, uint32_t limit, uint32_t *mem, size_t mem_len,
                        uint32_t *table, size_t table_len, uint32_t *scratch, size_t scratch_len);

/* ---- The crank program: libprogram.a ---- */

/* Reads an image from standard input, turns it forward until refused or 1000000 turns, and prints
 * the turns, the refusal and the record. words is main's argc: more than 1 is refused with a line on
 * standard error. Answers the exit status: 0; 1 after a refused load; 2 for arguments; 3 where not
 * all could be written. */
uint32_t crank_program(size_t words);

#ifdef __cplusplus
}
#endif
#undef CRANK_LAYOUT

#endif
