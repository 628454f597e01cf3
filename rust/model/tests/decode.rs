//! Which words are instructions.

mod proved;

use crate::words::each_structured_word;
use crank_model::instruction::decode;

mod words {
    /// Every opcode with every register field and para, and then single
    /// stray bits in the low byte.
    pub fn each_structured_word(mut visit: impl FnMut(u32)) {
        for high in 0..=0x00FF_FFFFu32 {
            visit(high << 8);
        }
        for high in 0..=0xFFFFu32 {
            for bit in 0..16 {
                visit((high << 16) | (1 << bit));
            }
        }
    }
}

/// The instructions among words with low byte 0, counted from the rules.
fn expected_count() -> u32 {
    let plain = 14;
    // A second register that is read: the other plain ones and pc.
    let read = 14;
    let type_i = (6 * plain + 1) * 256;
    let type_r = 5 * plain * read + plain * 13 + 4 * plain + 2;
    let type_o = plain + 2 * plain * 13 + 2 * plain * read + 5 * plain * read * 13;
    type_i + type_r + type_o
}

#[test]
fn the_number_of_instructions() {
    let mut count = 0;
    for high in 0..=0x00FF_FFFFu32 {
        count += u32::from(decode(high << 8).is_some());
    }
    assert_eq!(count, expected_count());
    println!("decode: {count} instructions with low byte 0");
}

#[test]
fn named_words() {
    let valid = [0x0240_0005, 0x1445_0000, 0x0500_FFFE, 0x1A00_0000];
    let valid_pc = [0x1040_0000, 0x1140_0000, 0x1340_0000, 0x2240_0100];
    let invalid = [0x1444_0000, 0x1240_0000, 0x0510_0001, 0x0210_0005];
    let invalid_o = [0x2040_0200, 0x2345_6000, 0x2345_6600, 0x2344_5100];
    for word in valid.into_iter().chain(valid_pc) {
        assert!(decode(word).is_some(), "{word:#010x}");
    }
    for word in invalid.into_iter().chain(invalid_o) {
        assert!(decode(word).is_none(), "{word:#010x}");
    }
    // pc may be reg2 or reg3 of arib, but not both, and not reg1.
    assert!(decode(0x2340_5100).is_some());
    assert!(decode(0x2345_0100).is_some());
    assert!(decode(0x2340_0100).is_none());
    assert!(decode(0x2304_5100).is_none());
}

#[test]
fn structured_words_reach_both_sides_of_every_opcode() {
    // Per opcode, the words that are an instruction and those that are not.
    let mut counts = [[0u64; 2]; 256];
    each_structured_word(|word| {
        counts[(word >> 24) as usize][usize::from(decode(word).is_none())] += 1;
    });
    for (opcode, count) in counts.iter().enumerate() {
        let listed = matches!(opcode, 1..=7 | 16..=27 | 32..=35);
        assert_eq!(count[0] > 0, listed, "opcode {opcode}: {count:?}");
        assert!(count[1] > 0 || !listed, "opcode {opcode}: {count:?}");
    }
}

mod library {
    use super::proved::is_instruction;
    use super::words::each_structured_word;
    use crank_model::instruction::decode;
    use crank_model::rng::{rounds, Rng};

    fn compare(word: u32) -> u64 {
        let expected = decode(word).is_some();
        assert_eq!(is_instruction(word), expected, "{word:#010x}");
        u64::from(expected)
    }

    #[test]
    fn structured_words() {
        let (mut all, mut valid) = (0u64, 0u64);
        each_structured_word(|word| {
            all += 1;
            valid += compare(word);
        });
        assert!(valid > 0 && valid < all);
        println!("decode: {all} structured words, {valid} instructions");
    }

    #[test]
    fn random_words() {
        let mut rng = Rng::new(1);
        let all = rounds(2_000_000);
        let mut valid = 0;
        for _ in 0..all {
            valid += compare(rng.word());
        }
        assert!(valid > 0);
        println!("decode: {all} random words, {valid} instructions");
    }

    /// All 2^32 words; takes about a minute in release.
    #[test]
    #[ignore]
    fn all_words() {
        let mut valid = 0;
        for word in 0..=u32::MAX {
            valid += compare(word);
        }
        println!("decode: all words, {valid} instructions");
    }
}
