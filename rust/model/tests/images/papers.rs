//! Bytes worked out by hand: the image of document 01, and the same of kind 2.

use crank_model::image::{self, LoadCall};
use crank_model::machine::Record;

use super::proved::{self, IMAGES};

const MEM: [u32; 4] = [0x1A00_0000, 0x0240_0005, 0x1B00_0000, 0];
const BODY: [u8; 16] = [0, 0, 0, 0x1A, 5, 0, 0x40, 0x02, 0, 0, 0, 0x1B, 0, 0, 0, 0];

/// start, xori r1,5, finish and a data word, with some r12, node and wait.
fn record(position: i64) -> Record {
    let mut regs = [0; 16];
    regs[15] = 0x0102_0304;
    Record {
        regs,
        qifv: 5,
        qifw: 6,
        k: 3,
        m: 4,
        n: 0,
        position,
    }
}

/// The file with the given back, and all that follows the wait.
fn file(back: u8, end: &[u8]) -> Vec<u8> {
    let sizes = [back, 0, 0, 0, 4, 0, 0, 0, 3, 0, 0, 0, 0, 0, 0, 0];
    let r12_node_and_wait = [4, 3, 2, 1, 5, 0, 0, 0, 6, 0, 0, 0];
    [&BODY[..], &sizes, &[0; 60], &r12_node_and_wait, end].concat()
}

fn kind_1() -> Vec<u8> {
    file(108, &[0x51, 0x52, 0x4D, 0x31])
}

/// The position's bytes are given in the order of the file.
fn kind_2(position: [u8; 8]) -> Vec<u8> {
    file(116, &[&position[..], &[0x51, 0x52, 0x4D, 0x32]].concat())
}

const POSITIONS: [(i64, [u8; 8]); 12] = [
    (0, [0, 0, 0, 0, 0, 0, 0, 0]),
    (1, [1, 0, 0, 0, 0, 0, 0, 0]),
    (2, [2, 0, 0, 0, 0, 0, 0, 0]),
    (-1, [255, 255, 255, 255, 255, 255, 255, 255]),
    (-2, [254, 255, 255, 255, 255, 255, 255, 255]),
    (4_294_967_295, [255, 255, 255, 255, 0, 0, 0, 0]),
    (4_294_967_296, [0, 0, 0, 0, 1, 0, 0, 0]),
    (-4_294_967_296, [0, 0, 0, 0, 255, 255, 255, 255]),
    (0x0102_0304_0506_0708, [8, 7, 6, 5, 4, 3, 2, 1]),
    (
        -0x0102_0304_0506_0708,
        [248, 248, 249, 250, 251, 252, 253, 254],
    ),
    (i64::MAX, [255, 255, 255, 255, 255, 255, 255, 127]),
    (i64::MIN, [0, 0, 0, 0, 0, 0, 0, 128]),
];

fn loads(name: &str, load: LoadCall, file: &[u8], position: i64) {
    for preface in [&b""[..], b"before"] {
        let mut mem = [9; 5];
        let found = load(&[preface, file].concat(), &mut mem, &mut []);
        assert_eq!(found, (0, record(position)), "{name}");
        assert_eq!((&mem[..4], mem[4]), (&MEM[..], 9), "{name}");
    }
}

#[test]
fn bytes() {
    assert_eq!((kind_1().len(), kind_2([0; 8]).len()), (108, 116));
    for (name, load, save) in IMAGES {
        loads(name, load, &kind_1(), 0);
        for (position, bytes) in POSITIONS {
            let expected = kind_2(bytes);
            loads(name, load, &expected, position);
            for (len, refusal) in [(0, 9), (108, 9), (115, 9), (116, 0), (118, 0)] {
                let mut out = vec![0xAA; len];
                let found = save(record(position), &MEM, &[], &mut out);
                assert_eq!(found, refusal, "{name}");
                let written = if refusal == 0 { 116 } else { 0 };
                assert_eq!(out[..written], expected[..written], "{name}");
                assert!(out[written..].iter().all(|byte| *byte == 0xAA));
            }
        }
    }
    let (positions, callers) = (POSITIONS.len(), IMAGES.len());
    println!("by hand: {positions} positions, {callers} callers");
}

#[test]
fn prefaces() {
    const LENGTHS: [usize; 7] = [0, 1, 2, 7, 8, 9, 1_000];
    for file in [kind_1(), kind_2([7; 8])] {
        for length in LENGTHS {
            let whole = [&vec![0x51; length][..], &file].concat();
            assert_eq!(image::preface(&whole), &whole[..length]);
            assert_eq!(proved::preface_length(&whole), length);
        }
    }
    println!("by hand: {} prefaces of either kind", LENGTHS.len());
}
