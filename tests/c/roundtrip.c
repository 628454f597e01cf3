/* Images through every call of crank.h, by value and on the lesson bench: each is loaded, turned forward
 * until it is refused and back again, in single turns, in batches and by samples, and must then be what
 * it was. Every single turn is previewed and must come to what the preview says, the preview the other
 * way must then lead back, and every accepted turn moves the position by one. Without its table, each has
 * one made, over which it runs as many turns as there are cycles. After that come calls that must be
 * refused, and must leave everything as it was, except samples, whose turns before the refused one stand,
 * and tables refused on the way, which are zeros. Last comes a small program with every word of its table.
 *
 * usage: roundtrip IMAGE...
 *
 * An image is of kind 1, stands at a start and runs to a finish, and its table is the one that is made.
 * Its file need have no preface: the program puts some before it. It is taken as it is, and as images
 * of kind 2 at several positions. Ends with 1 at the first difference, and also where no image waits,
 * none has a constant among its code, no preview has a memory word that changes or an exchange that
 * changes none, or some refusal was never met. The calls themselves are in calls.c.
 */
#include <stdio.h>
#include <string.h>

#include "calls.h"

enum {
    MARK = 4, /* the last bytes of a trailer, which tell the kind */
    MAX_FILE = 65536,
    PREFACE = 13, /* not whole words, so a preface counted in words is noticed */
    MAX_TURNS = 1000000,
    BEYOND = 3 /* steps of the wheel that are refused at an end of the run */
};

typedef struct {
    uint8_t bytes[MAX_FILE + 1]; /* room for a file that is too long */
    size_t length;
} File;

/* What was covered. */
static unsigned long turned[2], waited, sampled, refused[25], prefaced, empty, positions,
    nodes, constants, tables, made_nodes, lessons_kept, lessons_replaced;
static struct {
    unsigned long made;
    unsigned long words; /* that would change */
    unsigned long equal; /* exchanges in which none would */
    unsigned long refused;
} previews[2]; /* forward and back */

/* ---- Previews ---- */

/* Whether the word executed or undone is an ld or ldr: the earlier of both states stands at it. */
static int exchanges(const Machine *earlier)
{
    uint32_t opcode = earlier->mem[earlier->bench.state.regs[0]] >> 24;
    return opcode == 0x01 || opcode == 0x10;
}

/* The turn that led from before to after must be the one that was previewed. */
static void expect_turn(const Preview *p, int way, uint32_t refusal, const Machine *before,
                        const Machine *after)
{
    static Machine expected;
    demand(p->refusal == refusal, "the preview has another refusal");
    demand(same_record(&p->state, &after->bench.state), "the preview has another record");
    expected = *before;
    expected.bench.state = p->state;
    if (p->changes == 1) {
        demand(p->address < before->mem_len, "the preview has a word that is not lent");
        demand(p->value != before->mem[p->address], "the preview has a word that stays as it is");
        expected.mem[p->address] = p->value;
    } else {
        demand(p->changes == 0 && p->address == 0 && p->value == 0,
               "the preview has something of a word, but no change");
    }
    demand(same(&expected, after), "the preview has another memory");
    previews[way].made++;
    previews[way].words += p->changes;
    previews[way].equal +=
        refusal == 0 && p->changes == 0 && exchanges(way == FORWARD ? before : after);
    previews[way].refused += refusal > 0;
}

/* A call; where it is a single turn, its preview comes first, and after it the preview the other way,
 * which shows where the turn came from. */
static Cranked call(const Mode *mode, Machine *m, int way)
{
    static Machine before;
    calls = mode->name;
    if (mode->n > 1) {
        return mode->call(m, way, mode->n);
    }
    before = *m;
    Preview p = preview(m, way);
    Cranked c = mode->call(m, way, 1);
    expect_turn(&p, way, c.refusal, &before, m);
    if (c.refusal == 0) {
        const int other = way == FORWARD ? BACK : FORWARD;
        p = preview(m, other);
        expect_turn(&p, other, 0, m, &before);
    }
    return c;
}

/* ---- Turns until they are refused ---- */

static void expect_refused(const Mode *mode, const Machine *given, int way, uint32_t number)
{
    static Machine m;
    m = *given;
    Cranked c = call(mode, &m, way);
    demand(c.turns == 0 && c.refusal == number, "another refusal than expected");
    demand(same(&m, given), "a refused call changed something");
    refused[number]++;
}

/* Batches of no turn: refusal 0, since only a turn that was asked for may be refused. */
static void expect_no_turn(const Machine *given)
{
    static Cranked (*const BATCHES[])(Machine *, int, uint32_t) = {batch_by_value, batch_on_bench};
    static Machine m;
    calls = "batches of 0";
    for (int i = 0; i < 4; i++) {
        m = *given;
        Cranked c = BATCHES[i / 2](&m, i % 2 ? BACK : FORWARD, 0);
        demand(c.turns == 0 && c.refusal == 0, "a turn or a refusal");
        demand(same(&m, given), "changed something");
        empty++;
    }
}

/* Turns until refused by 12, forward at the finish and back at the start; gives the turns made. */
static uint32_t until_refused(const Mode *mode, Machine *m, int way)
{
    uint32_t made = 0;
    Cranked c;
    do {
        const int waits = m->bench.state.qifw > 0;
        const int64_t from = m->bench.state.position;
        c = call(mode, m, way);
        demand(m->bench.state.position == (way == FORWARD ? from + c.turns : from - c.turns),
               "the position did not go with the turns");
        demand(c.turns <= mode->n, "more turns than asked for");
        demand((c.turns < mode->n) == (c.refusal > 0),
               "a refusal where no turn is missing, or none where one is");
        made += c.turns;
        demand(made <= MAX_TURNS, "the turns do not end");
        waited += mode->n == 1 && waits && c.turns == 1;
    } while (c.refusal == 0);
    demand(c.refusal == 12, "ends elsewhere than at finish or start");
    expect_refused(mode, m, way, 12);
    turned[way] += made;
    return made;
}

/* ---- Samples ---- */

/* Takes samples; they must come to this, and leave the machine so. */
static void expect_samples(const Wheel *wheel, Machine *m, uint8_t given, const uint8_t *samples,
                           size_t length, Sampled expected, const Machine *after)
{
    calls = wheel->name;
    Sampled s = wheel->call(m, given, samples, length);
    demand(s.forward == expected.forward && s.back == expected.back, "other accepted turns");
    demand(s.refused == expected.refused, "other refused turns");
    demand(s.last == expected.last, "another last sample");
    demand(s.refusal == expected.refusal, "another refusal than expected");
    demand(same(m, after), "leaves another state");
    sampled += length;
    refused[expected.refusal] += expected.refusal > 0;
}

/* The sample after so many steps from 0. */
static uint8_t sample_after(size_t steps)
{
    static const uint8_t CYCLE[] = {0, 1, 3, 2};
    return CYCLE[steps % 4];
}

/* From start to end and some steps beyond it, each sample twice, and all of them back. */
static void wheel_there_and_back(const Machine *start, const Machine *end, uint32_t turns)
{
    static uint8_t there[2 * (MAX_TURNS + BEYOND)], back[sizeof there];
    static Machine m;
    const size_t steps = turns + BEYOND;
    const uint8_t last = sample_after(steps);
    for (size_t i = 0; i < 2 * steps; i++) {
        there[i] = sample_after(1 + i / 2);
        back[i] = sample_after(steps - 1 - i / 2);
    }
    for (size_t i = 0; i < WHEEL_COUNT; i++) {
        m = *start;
        expect_samples(&WHEELS[i], &m, 0, there, 2 * steps,
                       sums(turns, 0, BEYOND, last, 0), end);
        expect_samples(&WHEELS[i], &m, last, back, 2 * steps,
                       sums(0, turns, BEYOND, 0, 0), start);
    }
}

/* A sample two steps on, one above 3, and a given one above 3: the turn before stands, and nothing
 * behind is looked at. */
static void refused_samples(const Machine *start)
{
    static const uint8_t TWO_STEPS[] = {0, 1, 1, 2, 4}, ABOVE[] = {1, 4, 0};
    static Machine m, once;
    once = *start;
    demand(turn_by_value(&once, FORWARD, 1).refusal == 0, "no first turn");
    for (size_t i = 0; i < WHEEL_COUNT; i++) {
        m = *start;
        expect_samples(&WHEELS[i], &m, 0, TWO_STEPS, sizeof TWO_STEPS,
                       sums(1, 0, 0, 1, 19), &once);
        m = *start;
        expect_samples(&WHEELS[i], &m, 0, ABOVE, sizeof ABOVE,
                       sums(1, 0, 0, 1, 20), &once);
        m = *start;
        expect_samples(&WHEELS[i], &m, 4, ABOVE, sizeof ABOVE,
                       sums(0, 0, 0, 4, 20), start);
        expect_samples(&WHEELS[i], &m, UINT8_MAX, ABOVE, 0,
                       sums(0, 0, 0, UINT8_MAX, 20), start);
    }
}

/* Where no turn can be made each step counts as refused, and an equal sample does not. */
static void expect_no_step(const Machine *given)
{
    static const uint8_t STEPS[] = {0, 1, 1, 3, 1};
    static Machine m;
    for (size_t i = 0; i < WHEEL_COUNT; i++) {
        m = *given;
        expect_samples(&WHEELS[i], &m, 0, STEPS, sizeof STEPS,
                       sums(0, 0, 3, 1, 0), given);
    }
}

/* ---- Images ---- */

static void read_file(const char *name, File *file)
{
    FILE *stream = fopen(name, "rb");
    demand(stream != NULL, "can't be opened");
    file->length = fread(file->bytes, 1, sizeof file->bytes, stream);
    demand(!ferror(stream), "can't be read");
    fclose(stream);
}

/* Word `index` of little-endian bytes. */
static uint32_t word_at(const uint8_t *bytes, size_t index)
{
    const uint8_t *b = bytes + 4 * index;
    return b[0] | (uint32_t)b[1] << 8 | (uint32_t)b[2] << 16 | (uint32_t)b[3] << 24;
}

static void put_word(uint8_t *bytes, size_t index, uint32_t word)
{
    for (int i = 0; i < 4; i++) {
        bytes[4 * index + i] = (uint8_t)(word >> 8 * i);
    }
}

/* Of an image with this trailer. */
static size_t length_with(size_t trailer, const Record *r)
{
    return 4 * (size_t)r->m + 36 * (size_t)r->n + trailer;
}

/* Of what a save writes. */
static size_t image_length(const Record *r)
{
    return length_with(TRAILER, r);
}

/* The bytes of a file's trailer, by its last byte. */
static size_t trailer_of(const File *file)
{
    return file->bytes[file->length - 1] == 0x31 ? OLD_TRAILER : TRAILER;
}

/* The image of a file of kind 1, as one of kind 2 with this position and without a preface. */
static void renew(const File *file, const Record *r, int64_t position, File *renewed)
{
    static const uint8_t MARK_2[MARK] = {0x51, 0x52, 0x4D, 0x32};
    const size_t length = length_with(OLD_TRAILER, r), back = length_with(TRAILER, r);
    memcpy(renewed->bytes, file->bytes + file->length - length, length - MARK);
    uint8_t *end = renewed->bytes + length - MARK;
    put_word(end, 0, (uint32_t)(uint64_t)position);
    put_word(end, 1, (uint32_t)((uint64_t)position >> 32));
    memcpy(end + 8, MARK_2, MARK);
    put_word(renewed->bytes + back - TRAILER, 0, (uint32_t)back);
    renewed->length = back;
}

/* All words noise, and all of them lent. */
static void fill(Machine *m)
{
    memset(m, NOISE, sizeof *m);
    m->mem_len = sizeof m->mem / sizeof *m->mem;
    m->table_len = sizeof m->table / sizeof *m->table;
}

static void load(const uint8_t *bytes, size_t length, Machine *m)
{
    fill(m);
    demand(load_into(m, bytes, length).refusal == 0, "the load is refused");
}

/* The position in a trailer, which one of kind 1 does not have. */
static int64_t position_in(const uint8_t *trailer, size_t length)
{
    uint64_t low = word_at(trailer, 22), high = word_at(trailer, 23);
    return length == OLD_TRAILER ? 0 : (int64_t)(high << 32 | low);
}

/* Compares what was loaded with the file's own bytes; the excess must be noise still. */
static void matches_file(const Machine *m, const File *file)
{
    const Record *r = &m->bench.state;
    const size_t end = trailer_of(file);
    const uint8_t *trailer = file->bytes + file->length - end;
    const uint8_t *memory = file->bytes + preface_length(file->bytes, file->length);
    demand(memory + length_with(end, r) == file->bytes + file->length, "length of the preface");
    demand(r->m == word_at(trailer, 1) && r->k == word_at(trailer, 2), "m or k");
    demand(r->n == word_at(trailer, 3), "n");
    for (size_t i = 0; i < 16; i++) {
        demand(r->regs[i] == word_at(trailer, 4 + i), "a register");
    }
    demand(r->qifv == word_at(trailer, 20) && r->qifw == word_at(trailer, 21), "qifv or qifw");
    demand(r->position == position_in(trailer, end), "position");
    for (size_t i = 0; i < r->m; i++) {
        demand(m->mem[i] == word_at(memory, i), "a memory word");
    }
    for (size_t i = 0; i < NODE * r->n; i++) {
        demand(m->table[i] == word_at(memory, r->m + i), "a table word");
    }
    demand(is_noise(m->mem + r->m, 4 * (m->mem_len - r->m)), "excess memory was written");
    demand(is_noise(m->table + NODE * r->n, 4 * (m->table_len - NODE * r->n)),
           "excess table was written");
}

/* Saves, to an output that just fits and to a longer one, and gives the bytes, which the next call
 * overwrites. */
static const uint8_t *save(const Machine *m)
{
    static Output exact, out;
    const size_t length = image_length(&m->bench.state);
    demand(save_to(m, &exact, length) == 0, "the save to an output that just fits is refused");
    demand(save_to(m, &out, sizeof out.bytes) == 0, "the save is refused");
    demand(memcmp(out.bytes, exact.bytes, sizeof out.bytes) == 0, "a longer output gets other bytes");
    demand(is_noise(out.bytes + length, sizeof out.bytes - length),
           "bytes after the image were written");
    return out.bytes;
}

/* A file of kind 1 as it is with the position 0. */
static void saves_as_file(const Machine *m, const File *file)
{
    static File renewed;
    const size_t length = image_length(&m->bench.state);
    if (trailer_of(file) == OLD_TRAILER) {
        renew(file, &m->bench.state, 0, &renewed);
        file = &renewed;
    }
    demand(memcmp(save(m), file->bytes + file->length - length, length) == 0,
           "saved bytes differ from the file");
}

/* Load of save gives the state back. */
static void survives_save(const Machine *m)
{
    static Machine again;
    const Record *r = &m->bench.state;
    load(save(m), image_length(r), &again);
    demand(same_record(&again.bench.state, r)
               && memcmp(again.mem, m->mem, 4 * r->m) == 0
               && memcmp(again.table, m->table, 4 * NODE * r->n) == 0,
           "load of save gives another state");
}

static void expect_check(const Machine *given, uint32_t number, uint32_t place)
{
    Checked c = check(given);
    demand(c.refusal == number && c.place == place, "another refusal or place than expected");
    refused[number] += number > 0;
}

static void expect_node(const Machine *given, uint32_t node, uint32_t number)
{
    demand(check_node(given, node) == number, "another refusal than expected");
    nodes += number == 0 || number == 8;
    refused[number] += number > 0;
}

/* All nodes paired, and none below them and above. */
static void expect_paired(const Machine *given)
{
    const uint32_t n = given->bench.state.n;
    for (uint32_t node = 1; node <= n; node++) {
        expect_node(given, node, 0);
    }
    expect_node(given, 0, 17);
    expect_node(given, n + 1, 17);
    expect_node(given, UINT32_MAX, 17);
}

static void expect_save_refused(const Machine *given, size_t out_len, uint32_t number)
{
    static Output out;
    demand(save_to(given, &out, out_len) == number, "another refusal than expected");
    demand(is_noise(out.bytes, sizeof out.bytes), "a refused save wrote something");
    refused[number]++;
}

/* Refused with so much lent: the answer has zeros, and nothing changes. */
static void expect_kept(const File *file, const Machine *given, uint32_t mem_len,
                        uint32_t table_len, uint32_t number)
{
    static const Record zeros = {{0}, 0, 0, 0, 0, 0, 0};
    static Machine m, lent;
    lent = *given;
    lent.mem_len = mem_len;
    lent.table_len = table_len;
    m = lent;
    Loaded l = load_into(&m, file->bytes, file->length);
    demand(l.refusal == number, "another refusal than expected");
    demand(same_record(&l.state, &zeros), "a refused load gives no zeros");
    demand(same(&m, &lent), "a refused load changed something");
    refused[number]++;
}

/* Refused in the middle of a lesson, which is kept, and where everything is noise, so that a word of the
 * file would be noticed. */
static void expect_load_refused(const File *file, const Machine *lesson, uint32_t mem_len,
                                uint32_t table_len, uint32_t number)
{
    static Machine noise;
    fill(&noise);
    expect_kept(file, &noise, mem_len, table_len, number);
    expect_kept(file, lesson, mem_len, table_len, number);
    demand(number == 6 || preface_length(file->bytes, file->length) == 0, "a preface of no image");
    lessons_kept++;
}

/* ---- Tables ---- */

static int is_zero(const uint32_t *words, size_t length)
{
    for (size_t i = 0; i < length; i++) {
        if (words[i] != 0) {
            return 0;
        }
    }
    return 1;
}

/* Refused with nothing written, or with zeros for a table where the walk had begun. */
static void expect_make_refused(const Machine *given, uint32_t limit, size_t scratch_len,
                                uint32_t number)
{
    static Machine m;
    m = *given;
    Made made = make_in(&m, limit, scratch_len);
    demand(made.refusal == number, "another refusal than expected");
    demand(made.cycles == 0, "cycles of a table that is refused");
    demand(same_record(&made.state, &given->bench.state), "a refused table changed the record");
    demand(number == 10 || number == 22 || is_zero(m.table, TABLE), "a refused table is left");
    refused[number]++;
}

/* Makes the table: the record is the one given, except its nodes and that it stands at the first. */
static uint32_t expect_made(Machine *m, uint32_t limit)
{
    Record expected = m->bench.state;
    Made made = make_in(m, limit, SCRATCH * (size_t)expected.m);
    demand(made.refusal == 0, "the table is refused");
    expected.n = made.state.n;
    expected.qifv = 1;
    demand(same_record(&made.state, &expected), "another record");
    demand(is_zero(m->table + NODE * expected.n, TABLE - NODE * expected.n),
           "no zeros behind the nodes");
    tables++;
    made_nodes += expected.n;
    return made.cycles;
}

/* The image without its table, of which nothing is left but noise. */
static void without_table(const Machine *start, Machine *m)
{
    *m = *start;
    m->bench.state.n = 0;
    m->bench.state.qifv = 0;
    memset(m->table, NOISE, sizeof m->table);
    m->table_len = sizeof m->table / sizeof *m->table;
}

/* The table is the image's own, if it has one, and a run over it has as many turns as it has cycles. */
static void makes_table(const Machine *start)
{
    static Machine m, begun;
    const uint32_t n = start->bench.state.n;
    without_table(start, &m);
    uint32_t cycles = expect_made(&m, MAX_TURNS);
    demand(m.bench.state.n == (n > 0 ? n : 1), "other nodes than in the image");
    demand(n == 0 || memcmp(m.table, start->table, 4 * NODE * n) == 0, "another table");
    begun = m;
    expect_paired(&m);
    demand(until_refused(&MODES[0], &m, FORWARD) == cycles, "other turns than cycles");
    demand(until_refused(&MODES[0], &m, BACK) == cycles && same(&m, &begun),
           "comes back to another state");
}

/* A record that is not as it should be, or too little lent; 10 comes before. */
static void refused_tables(const Machine *start)
{
    static Machine bare, m;
    const size_t scratch = SCRATCH * (size_t)start->bench.state.m;
    without_table(start, &bare);
    expect_make_refused(&bare, MAX_TURNS, scratch - 1, 22);
    expect_make_refused(&bare, MAX_TURNS, 0, 22);
    for (int kind = 0; kind < 6; kind++) {
        m = bare;
        switch (kind) {
        case 0: m.bench.state.n = 1; break;
        case 1: m.bench.state.qifw = 1; break;
        case 2: m.bench.state.regs[0]++; break;
        case 3: m.bench.state.regs[0] = m.bench.state.k; break;
        case 4: m.bench.state.regs[0] = UINT32_MAX; break;
        default: m.table_len = TABLE - 1;
        }
        expect_make_refused(&m, MAX_TURNS, scratch, 22);
        m.mem_len = m.bench.state.m - 1;
        expect_make_refused(&m, MAX_TURNS, scratch, 10);
    }
}

/* A qif with unequal branches: that of coin 0 has the words 2, 5 and 6, that of coin 1 also 3 and 4. */
static const uint32_t UNEQUAL[] = {
    0x1A000000, /* start */
    0x18400000, /* qif r1 */
    0x06400003, /* bez r1, 3: over two words with coin 0 */
    0x16500000, /* neg r2 */
    0x16500000, /* neg r2 */
    0x06400003, /* bez r1, 3: the landing */
    0x19400000, /* fiq r1 */
    0x01500009, /* ld r2, 9 */
    0x1B000000, /* finish */
    7,
};

enum {
    UNEQUAL_WORDS = sizeof UNEQUAL / sizeof *UNEQUAL,
    UNEQUAL_CYCLES = 8,  /* start, qif, the longer branch, ld */
    UNEQUAL_WALKED = 11, /* with both branches */
};

/* The program, with registers that hold no coin and the last position, neither of which matters. */
static void unequal(Machine *m)
{
    fill(m);
    memcpy(m->mem, UNEQUAL, sizeof UNEQUAL);
    const Record r = {{0}, 0, 0, UNEQUAL_WORDS - 1, UNEQUAL_WORDS, 0, INT64_MAX};
    m->bench.state = r;
    m->bench.state.regs[4] = 5;
}

/* Every word of its table, with as many cycles as are walked, and one less. */
static void draws_table(void)
{
    static const uint32_t NODES[4][NODE] = {
        /* fc0 fc1 lc0 lc1 cf cl nx pr w */
        {2, 3, 2, 3, 0, 0, 4, 0, 0},
        {0, 0, 0, 0, 1, 1, 0, 0, 2},
        {0, 0, 0, 0, 1, 1, 0, 0, 0},
        {0, 0, 0, 0, 0, 0, 0, 1, 0},
    };
    static Machine m;
    unequal(&m);
    expect_make_refused(&m, 0, SCRATCH * UNEQUAL_WORDS, 23);
    expect_make_refused(&m, UNEQUAL_WALKED - 1, SCRATCH * UNEQUAL_WORDS, 23);
    demand(expect_made(&m, UNEQUAL_WALKED) == UNEQUAL_CYCLES, "other cycles");
    demand(m.bench.state.n == 4, "other nodes");
    demand(memcmp(m.table, NODES, sizeof NODES) == 0, "another table");
}

/* Programs that can't be walked to their finish: with other words in two places, one of them the same
 * where nothing else is to change. */
static void refused_walks(void)
{
    static const struct { size_t place; uint32_t words[2], number; } WALKS[] = {
        {7, {0x01500009, 0x16500000}, 11}, /* neg r2: there is no finish */
        {3, {0x16500000, 0x1B000000}, 12}, /* finish, in the branch of coin 1 */
        {3, {0x16500000, 0}, 13},
        {7, {0x0150000A, 0x1B000000}, 15}, /* ld r2, 10 */
        {1, {0x16500000, 0x06400003}, 17}, /* neg r2: there is no qif */
        {3, {0x16500000, 0x0500FFFC}, 18}, /* bra -4: to start */
        {5, {0x06400003, 0x19500000}, 24}, /* fiq r2 */
        {2, {0x16500000, 0x02400001}, 24}, /* neg r2; xori r1, 1: the coin is lost */
        {3, {0x02500001, 0x16500000}, 24}, /* xori r2, 1: r2 differs */
        {3, {0x01500009, 0x02500007}, 24}, /* ld r2, 9; xori r2, 7: a memory word alone */
    };
    static Machine m;
    for (size_t i = 0; i < sizeof WALKS / sizeof *WALKS; i++) {
        unequal(&m);
        memcpy(m.mem + WALKS[i].place, WALKS[i].words, sizeof WALKS[i].words);
        expect_make_refused(&m, MAX_TURNS, SCRATCH * UNEQUAL_WORDS, WALKS[i].number);
    }
}

/* ---- What is done with an image ---- */

/* Where the one example with constants among its code has the first; K in every other image. */
static uint32_t first_constant(const Machine *m)
{
    return strstr(image, "constants.img") != NULL ? 2 : m->bench.state.k;
}

static void checks(const Machine *start)
{
    const uint32_t place = first_constant(start);
    for (size_t i = 0; i < place; i++) {
        demand(is_instruction(start->mem[i]) == 1, "a code word is no instruction");
    }
    if (place < start->bench.state.k) {
        demand(is_instruction(start->mem[place]) == 0, "a constant is an instruction");
        expect_check(start, 7, place);
        constants++;
    } else {
        expect_check(start, 0, 0);
    }
    expect_paired(start);
    demand(is_instruction(0) == 0, "0 is an instruction");
}

/* Every mode must end where the first one did, and come back to the start and the file. */
static void there_and_back(const Machine *start, const File *file)
{
    static Machine m, end;
    uint32_t turns = 0;
    for (size_t i = 0; i < MODE_COUNT; i++) {
        m = *start;
        uint32_t there = until_refused(&MODES[i], &m, FORWARD);
        if (i == 0) {
            turns = there;
            end = m;
        }
        demand(there == turns && same(&m, &end), "ends otherwise than single turns by value");
        survives_save(&m);
        demand(until_refused(&MODES[i], &m, BACK) == turns, "other turns back than forward");
        demand(same(&m, start), "comes back to another state");
        saves_as_file(&m, file);
    }
    wheel_there_and_back(start, &end, turns);
    expect_no_turn(start);
    expect_no_turn(&end);
    /* 12 at the finish, but at the largest position 21. */
    end.bench.state.position = INT64_MAX;
    for (size_t i = 0; i < MODE_COUNT; i++) {
        expect_refused(&MODES[i], &end, FORWARD, 21);
    }
}

/* The file with one word of its trailer replaced. */
static const File *with_trailer_word(const File *file, size_t index, uint32_t word)
{
    static File changed;
    changed = *file;
    put_word(changed.bytes + changed.length - trailer_of(file), index, word);
    return &changed;
}

/* The last bytes of the file. */
static const File *cut_to(size_t length, const File *file)
{
    static File cut;
    memcpy(cut.bytes, file->bytes + file->length - length, length);
    cut.length = length;
    return &cut;
}

static void refused_loads(const File *file, const Machine *lesson)
{
    const Record *r = &lesson->bench.state;
    const uint32_t mem = r->m, table = NODE * r->n;
    const size_t trailer = trailer_of(file), back = length_with(trailer, r);
    /* Below its own trailer; the end is looked at before that, but no end of under 92 bytes. */
    for (size_t length = OLD_TRAILER - 1; length < trailer; length++) {
        expect_load_refused(cut_to(length, file), lesson, mem, table, 1);
    }
    expect_load_refused(with_trailer_word(file, trailer / 4 - 1, 0), lesson, mem, table, 2);
    expect_load_refused(cut_to(trailer, with_trailer_word(file, trailer / 4 - 1, 0)), lesson,
                        mem, table, 2);
    expect_load_refused(with_trailer_word(file, 2, 0), lesson, mem, table, 3);
    /* That of the other kind too. */
    expect_load_refused(with_trailer_word(file, 0, (uint32_t)back + 8), lesson, mem, table, 4);
    expect_load_refused(with_trailer_word(file, 0, (uint32_t)back - 8), lesson, mem, table, 4);
    for (size_t length = trailer; length < trailer + 4; length++) {
        expect_load_refused(cut_to(length, file), lesson, mem, table, 5);
    }
    expect_load_refused(cut_to(back - 1, file), lesson, mem, table, 5);
    expect_load_refused(file, lesson, mem - 1, table, 6);
    if (table > 0) {
        expect_load_refused(file, lesson, mem, table - 1, 6);
    }
}

/* Some turns after the start. */
static void in_a_lesson(const Machine *start, Machine *lesson)
{
    *lesson = *start;
    demand(batch_on_bench(lesson, FORWARD, 7).turns > 0, "no first turn");
}

/* An accepted load puts its record where that of a lesson was. */
static void replaces(const Machine *lesson, const File *file, const Machine *start)
{
    static Machine m;
    m = *lesson;
    demand(load_into(&m, file->bytes, file->length).refusal == 0, "the load is refused");
    demand(same(&m, start), "another state over a lesson");
    lessons_replaced++;
}

/* The image of the file, without what stood before it, behind so many bytes of noise. */
static void put_behind(size_t preface, const File *file, const Record *r, File *behind)
{
    const size_t length = length_with(trailer_of(file), r);
    memset(behind->bytes, NOISE, preface);
    memcpy(behind->bytes + preface, file->bytes + file->length - length, length);
    behind->length = preface + length;
}

static void loads_behind(size_t preface, const File *file, const Machine *start)
{
    static File behind;
    static Machine m;
    put_behind(preface, file, &start->bench.state, &behind);
    load(behind.bytes, behind.length, &m);
    demand(same(&m, start), "another state behind a preface");
    demand(preface_length(behind.bytes, behind.length) == preface, "length of the preface");
    saves_as_file(&m, file);
    prefaced++;
}

/* A short preface, the longest, and one byte more. What is refused behind the short one shows that
 * the length is 0 because of the refusal, and not because there is no preface. */
static void prefaces(const Machine *start, const Machine *lesson, const File *file)
{
    static File behind;
    const Record *r = &start->bench.state;
    const size_t longest = MAX_FILE - length_with(trailer_of(file), r);
    loads_behind(PREFACE, file, start);
    loads_behind(longest, file, start);
    put_behind(longest + 1, file, r, &behind);
    expect_load_refused(&behind, lesson, r->m, NODE * r->n, 1);
    put_behind(PREFACE, file, r, &behind);
    refused_loads(&behind, lesson);
}

/* Makes the sizes wrong for what is lent, one way for each kind; 0 where that way is not open. */
static int make_sizes_wrong(Machine *m, int kind)
{
    Record *r = &m->bench.state;
    switch (kind) {
    case 0: m->mem_len = r->m - 1; return 1;
    case 1: m->table_len = NODE * r->n - (r->n > 0); return r->n > 0;
    case 2: r->k = 0; return 1;
    case 3: r->k = r->m + 1; return 1;
    case 4: r->m = MAX_WORDS + 1; return 1;
    default: r->n = MAX_NODES + 1; return 1;
    }
}

static void refused_sizes(const Machine *start)
{
    static Machine m;
    for (int kind = 0; kind < 6; kind++) {
        m = *start;
        if (!make_sizes_wrong(&m, kind)) {
            continue;
        }
        for (size_t i = 0; i < MODE_COUNT; i++) {
            expect_refused(&MODES[i], &m, FORWARD, 10);
            expect_refused(&MODES[i], &m, BACK, 10);
        }
        expect_no_turn(&m);
        expect_no_step(&m);
        expect_save_refused(&m, MAX_IMAGE, 10);
        expect_check(&m, 10, 0);
        expect_node(&m, 0, 10);
        expect_node(&m, 1, 10);
        expect_make_refused(&m, MAX_TURNS, 0, 10);
    }
}

/* An output one byte short, a code word that is none, before any constant, and a link out of the
 * table. No example has nodes and a constant. */
static void refused_contents(const Machine *start)
{
    static Machine m;
    const Record *r = &start->bench.state;
    expect_save_refused(start, image_length(r) - 1, 9);
    const uint32_t place = first_constant(start) - 1;
    m = *start;
    m.mem[place] = 0;
    expect_check(&m, 7, place);
    expect_paired(&m);
    if (r->n > 0) {
        m.table[0] = r->n + 1;
        expect_node(&m, 1, 8);
        m.mem[place] = start->mem[place];
        expect_node(&m, 1, 8);
        expect_check(&m, 8, 1);
    }
}

/* One turn must lead from one state to the other. */
static void expect_one(const Mode *mode, const Machine *from, int way, const Machine *to)
{
    static Machine m;
    m = *from;
    calls = mode->name;
    Cranked c = mode->call(&m, way, 1);
    demand(c.turns == 1 && c.refusal == 0, "a turn next to the end of the position is refused");
    demand(same(&m, to), "a turn next to the end of the position leads elsewhere");
}

/* The last position in a direction, and the one before it: a turn leads there and the other way, and
 * the next is refused by 21, back at start too, where else it would be 12, and with a pc that leads to
 * 11; before 21 comes 10. */
static void refused_positions(const Machine *start, int way)
{
    static Machine last, before, astray, without_code;
    const int64_t end = way == FORWARD ? INT64_MAX : INT64_MIN;
    Machine *const earlier = way == FORWARD ? &before : &last;
    Machine *const later = way == FORWARD ? &last : &before;
    *earlier = *later = *start;
    demand(turn_by_value(later, FORWARD, 1).refusal == 0, "no first turn");
    last.bench.state.position = end;
    before.bench.state.position = way == FORWARD ? end - 1 : end + 1;
    astray = without_code = last;
    astray.bench.state.regs[0] = UINT32_MAX;
    without_code.bench.state.k = 0;
    for (size_t i = 0; i < WHEEL_COUNT; i++) {
        const uint8_t step = way == FORWARD ? 1 : 2;
        expect_samples(&WHEELS[i], &last, 0, &step, 1, sums(0, 0, 1, step, 0), &last);
    }
    for (size_t i = 0; i < MODE_COUNT; i++) {
        expect_one(&MODES[i], &before, way, &last);
        expect_refused(&MODES[i], &last, way, 21);
        expect_one(&MODES[i], &last, way == FORWARD ? BACK : FORWARD, &before);
        expect_refused(&MODES[i], &astray, way, 21);
        expect_refused(&MODES[i], &without_code, way, 10);
    }
    positions++;
}

/* Everything with the image of one file. */
static void examine_file(const File *file)
{
    static Machine start, lesson;
    load(file->bytes, file->length, &start);
    matches_file(&start, file);
    saves_as_file(&start, file);
    checks(&start);
    there_and_back(&start, file);
    in_a_lesson(&start, &lesson);
    refused_loads(file, &lesson);
    prefaces(&start, &lesson, file);
    replaces(&lesson, file, &start);
    refused_sizes(&start);
    refused_contents(&start);
    refused_samples(&start);
    refused_positions(&start, FORWARD);
    refused_positions(&start, BACK);
    makes_table(&start);
    refused_tables(&start);
}

/* As it is, and of kind 2: from 0, from below it, over the low word, and near both ends. */
static void examine(const char *name)
{
    static const int64_t POSITIONS[] = {0, -3, UINT32_MAX - 1, INT64_MIN + 1, INT64_MAX - MAX_TURNS};
    static File file, renewed;
    static Machine start;
    image = name;
    calls = "file";
    read_file(name, &file);
    demand(trailer_of(&file) == OLD_TRAILER, "is not of kind 1");
    examine_file(&file);
    load(file.bytes, file.length, &start);
    for (size_t i = 0; i < sizeof POSITIONS / sizeof *POSITIONS; i++) {
        renew(&file, &start.bench.state, POSITIONS[i], &renewed);
        examine_file(&renewed);
    }
}

static void report_previews(const char *name, int way)
{
    demand(previews[way].words > 0, "no preview has a word that changes");
    demand(previews[way].equal > 0, "no preview has an exchange of equal words");
    demand(previews[way].refused > 0, "no preview has a refusal");
    printf("roundtrip: previews %s %lu; words that change %lu; exchanges of equal words %lu; "
           "refused %lu\n",
           name, previews[way].made, previews[way].words, previews[way].equal,
           previews[way].refused);
}

/* Fails where something was never met; else says what was. */
static void report(int images)
{
    static const int MET[] = {1,  2,  3,  4,  5,  6,  7,  8,  9,  10, 11, 12,
                              13, 15, 17, 18, 19, 20, 21, 22, 23, 24};
    unsigned long total = 0;
    image = "all images";
    calls = "coverage";
    demand(turned[FORWARD] > 0 && turned[BACK] > 0, "no turns were made");
    demand(waited > 0, "no image waits");
    demand(sampled > 0, "no samples were taken");
    demand(prefaced > 0, "no preface was tried");
    demand(lessons_kept > 0 && lessons_replaced > 0, "no load was tried in a lesson");
    demand(empty > 0, "no batch of 0 was tried");
    demand(positions > 0, "no end of the position was tried");
    demand(nodes > 0, "no node was checked by itself");
    demand(constants > 0, "no image has a constant among its code");
    demand(made_nodes > tables, "no image with a qif had its table made");
    for (size_t i = 0; i < sizeof MET / sizeof *MET; i++) {
        demand(refused[MET[i]] > 0, "a refusal was never met");
        total += refused[MET[i]];
    }
    printf("roundtrip: images %d; turns forward %lu, back %lu; single turns out of a wait %lu; "
           "batches of 0 %lu; samples %lu; loads after a preface %lu, in a lesson %lu, refused "
           "there %lu; ends of the position %lu; "
           "checks of a node %lu; of code with a constant %lu; tables made %lu, with nodes %lu; "
           "calls refused %lu\n",
           images, turned[FORWARD], turned[BACK], waited, empty, sampled, prefaced,
           lessons_replaced, lessons_kept, positions, nodes, constants, tables, made_nodes, total);
    report_previews("forward", FORWARD);
    report_previews("back", BACK);
    report_calls();
}

int main(int count, char **names)
{
    if (count < 2) {
        fprintf(stderr, "usage: roundtrip IMAGE...\n");
        return 2;
    }
    for (int i = 1; i < count; i++) {
        examine(names[i]);
    }
    image = "a small program";
    draws_table();
    refused_walks();
    report(count - 1);
    return 0;
}
