//! The crank program's example and the model's answers around it.

use crank_model::image::{load, preface, save, KINDS};
use crank_model::machine::Record;
use crank_model::program::output;

/// The example image, written byte by byte from its description, with what
/// comes behind the wait.
fn image(back: u32, end: &[u8]) -> Vec<u8> {
    let mut words = vec![0x1A00_0000u32, 0x0240_0005, 0x1B00_0000, 0];
    words.extend([back, 4, 3, 0]);
    words.extend([0; 18]);
    let mut bytes: Vec<u8> = words.iter().flat_map(|word| word.to_le_bytes()).collect();
    bytes.extend(end);
    bytes
}

fn example() -> Vec<u8> {
    image(108, &[0x51, 0x52, 0x4D, 0x31])
}

/// The same of kind 2, with position 2.
fn example_2() -> Vec<u8> {
    image(116, &[2, 0, 0, 0, 0, 0, 0, 0, 0x51, 0x52, 0x4D, 0x32])
}

#[test]
fn output_whole() {
    let expected = "turns 2 refusal 12\n2 0 0 0 5 0 0 0 0 0 0 0 0 0 0 0\nnode 0 wait 0\n";
    for example in [example(), example_2()] {
        assert_eq!(output(&example), expected);
        let with_preface = [&b"before"[..], &example].concat();
        assert_eq!(output(&with_preface), expected);
        assert_eq!(preface(&with_preface), b"before");
    }
}

#[test]
fn refused_loads() {
    for good in [example(), example_2()] {
        refused_loads_of(good);
    }
    // Of kind 2 and under 100 bytes, but the end comes first.
    let short = &example_2()[17..];
    assert_eq!(output(short), "refusal 1\n");
    let wrong_end = [&short[..98], &[0x33]].concat();
    assert_eq!(output(&wrong_end), "refusal 2\n");
}

fn refused_loads_of(good: Vec<u8>) {
    assert_eq!(output(&[]), "refusal 1\n");
    assert_eq!(output(&good[..good.len() - 1]), "refusal 2\n");
    assert_eq!(output(&good[1..]), "refusal 5\n");
    assert_eq!(output(&[&[0; 65_536][..], &good].concat()), "refusal 1\n");
    let mut size = good.clone();
    size[16 + 8] = 5; // K above M
    assert_eq!(output(&size), "refusal 3\n");
    let mut back = good.clone();
    back[16] ^= 1;
    assert_eq!(output(&back), "refusal 4\n");
}

#[test]
fn save_gives_the_example() {
    let record = Record {
        k: 3,
        m: 4,
        position: 2,
        ..Record::default()
    };
    let mem = [0x1A00_0000, 0x0240_0005, 0x1B00_0000, 0];
    let mut out = vec![0xAA; 118];
    assert_eq!(KINDS.map(|kind| kind.back_length(4, 0)), [108, 116]);
    assert_eq!(KINDS[0].image(&record, &mem, &[]), example());
    assert_eq!(save(record, &mem, &[], &mut out), 0);
    assert_eq!(out[..116], example_2());
    assert_eq!(out[116..], [0xAA, 0xAA]);
    assert_eq!(save(record, &mem, &[], &mut out[..115]), 9);
    let old = Record {
        position: 0,
        ..record
    };
    for (file, expected) in [(example(), old), (example_2(), record)] {
        let mut loaded = [7; 5];
        assert_eq!(load(&file, &mut loaded, &mut []), (0, expected));
        assert_eq!(loaded, [0x1A00_0000, 0x0240_0005, 0x1B00_0000, 0, 7]);
    }
}
