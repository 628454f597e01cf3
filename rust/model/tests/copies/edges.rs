//! ld, ldr and fetr at every edge of code, data and lent words.

use super::{exchanged, read, Answer, Around, AT, FETR, REFUSED_15};

/// The instruction, r2, and the answer.
type Row = (u32, u32, Answer);

const LDR: u32 = 0x1045_0000;

/// K, M and the rows. Eight words are lent each time, those from M on in vain:
/// 0x12345678, the instruction, 0xC0DE0002, 0x33, 0x44, 0x55, 0x66, 0x77.
const TABLES: [(u32, u32, &[Row]); 4] = [
    (3, 6, &CODE_AND_DATA),
    (3, 3, &NO_DATA),
    (2, 2, &OWN_WORD_LAST),
    (2, 8, &ALL_LENT),
];

const CODE_AND_DATA: [Row; 29] = [
    (0x0140_0000, 0, REFUSED_15),
    (0x0140_0001, 0, REFUSED_15),
    (0x0140_0002, 0, REFUSED_15),
    (0x0140_0003, 0, exchanged(0x33, 3)),
    (0x0140_0005, 0, exchanged(0x55, 5)),
    (0x0140_0006, 0, REFUSED_15),
    (0x0140_0007, 0, REFUSED_15),
    (0x0140_0008, 0, REFUSED_15),
    (0x0140_FFFF, 0, REFUSED_15),
    (LDR, 0, REFUSED_15),
    (LDR, 1, REFUSED_15),
    (LDR, 2, REFUSED_15),
    (LDR, 3, exchanged(0x33, 3)),
    (LDR, 5, exchanged(0x55, 5)),
    (LDR, 6, REFUSED_15),
    (LDR, 7, REFUSED_15),
    (LDR, 8, REFUSED_15),
    (LDR, 0x8000_0003, REFUSED_15),
    (LDR, 4_294_967_295, REFUSED_15),
    (FETR, 0, read(0x1234_567D)),
    (FETR, 1, read(0x1145_0005)),
    (FETR, 2, read(0xC0DE_0007)),
    (FETR, 3, read(0x36)),
    (FETR, 5, read(0x50)),
    (FETR, 6, REFUSED_15),
    (FETR, 7, REFUSED_15),
    (FETR, 8, REFUSED_15),
    (FETR, 0x8000_0003, REFUSED_15),
    (FETR, 4_294_967_295, REFUSED_15),
];

/// K = M: good for a fetr alone.
const NO_DATA: [Row; 16] = [
    (0x0140_0000, 0, REFUSED_15),
    (0x0140_0002, 0, REFUSED_15),
    (0x0140_0003, 0, REFUSED_15),
    (0x0140_0004, 0, REFUSED_15),
    (0x0140_FFFF, 0, REFUSED_15),
    (LDR, 0, REFUSED_15),
    (LDR, 2, REFUSED_15),
    (LDR, 3, REFUSED_15),
    (LDR, 4, REFUSED_15),
    (LDR, 4_294_967_295, REFUSED_15),
    (FETR, 0, read(0x1234_567D)),
    (FETR, 1, read(0x1145_0005)),
    (FETR, 2, read(0xC0DE_0007)),
    (FETR, 3, REFUSED_15),
    (FETR, 4, REFUSED_15),
    (FETR, 4_294_967_295, REFUSED_15),
];

const OWN_WORD_LAST: [Row; 7] = [
    (0x0140_0001, 0, REFUSED_15),
    (0x0140_0002, 0, REFUSED_15),
    (LDR, 1, REFUSED_15),
    (LDR, 2, REFUSED_15),
    (FETR, 0, read(0x1234_567D)),
    (FETR, 1, read(0x1145_0005)),
    (FETR, 2, REFUSED_15),
];

const ALL_LENT: [Row; 12] = [
    (0x0140_0001, 0, REFUSED_15),
    (0x0140_0002, 0, exchanged(0xC0DE_0002, 2)),
    (0x0140_0007, 0, exchanged(0x77, 7)),
    (0x0140_0008, 0, REFUSED_15),
    (LDR, 1, REFUSED_15),
    (LDR, 2, exchanged(0xC0DE_0002, 2)),
    (LDR, 7, exchanged(0x77, 7)),
    (LDR, 8, REFUSED_15),
    (FETR, 1, read(0x1145_0005)),
    (FETR, 2, read(0xC0DE_0007)),
    (FETR, 7, read(0x72)),
    (FETR, 8, REFUSED_15),
];

/// Every row, with its instruction among these words; gives how many answers.
fn all_rows(k: u32, m: u32, mem: &mut [u32], rows: &[Row]) -> usize {
    let mut answers = 0;
    for (word, r2, answer) in rows {
        mem[AT as usize] = *word;
        let around = Around {
            k,
            m,
            mem,
            br: 0,
            next: 2,
            r2: *r2,
        };
        answers += around.both_ways(answer);
    }
    answers
}

#[test]
fn by_hand() {
    let (mut rows, mut answers) = (0, 0);
    let mut mem = [0x1234_5678, 0, 0xC0DE_0002, 0x33, 0x44, 0x55, 0x66, 0x77];
    for (k, m, table) in TABLES {
        rows += table.len();
        answers += all_rows(k, m, &mut mem, table);
    }
    println!("edges: {rows} rows, {answers} answers");
    assert_eq!((rows, answers), (64, 64 * 16));
}

/// The largest memory, with a word more lent. What stands at 8,190, 8,191 and
/// 8,192 is 0x90, 0x91 and 0x92.
const LARGEST: [(u32, &[Row]); 2] = [
    (
        8192,
        &[
            (0x0140_1FFF, 0, REFUSED_15),
            (0x0140_2000, 0, REFUSED_15),
            (LDR, 8191, REFUSED_15),
            (LDR, 8192, REFUSED_15),
            (FETR, 8190, read(0x95)),
            (FETR, 8191, read(0x94)),
            (FETR, 8192, REFUSED_15),
        ],
    ),
    (
        8191,
        &[
            (0x0140_1FFE, 0, REFUSED_15),
            (0x0140_1FFF, 0, exchanged(0x91, 8191)),
            (0x0140_2000, 0, REFUSED_15),
            (LDR, 8190, REFUSED_15),
            (LDR, 8191, exchanged(0x91, 8191)),
            (LDR, 8192, REFUSED_15),
            (FETR, 8190, read(0x95)),
            (FETR, 8191, read(0x94)),
            (FETR, 8192, REFUSED_15),
        ],
    ),
];

#[test]
fn largest_memory() {
    let (mut rows, mut answers) = (0, 0);
    let mut mem = vec![0; 8190];
    mem.extend([0x90, 0x91, 0x92]);
    for (k, table) in LARGEST {
        rows += table.len();
        answers += all_rows(k, 8192, &mut mem, table);
    }
    println!("largest memory: {rows} rows, {answers} answers");
    assert_eq!((rows, answers), (16, 16 * 16));
}
