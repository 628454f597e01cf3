//! The text of an instruction: there is one exactly where the proved call says that the word is an
//! instruction, and it assembles to the word.

use crank::calls::is_instruction;
use crank_assembler::{assemble, instruction_text};
use crank_model::instruction::KINDS;
use crank_model::rng::{rounds, Rng};
use crank_model::words::word_of;

/// Compares one word; keeps its text where it is an instruction.
fn compare(word: u32, found: &mut Vec<(u32, String)>) {
    let text = instruction_text(word);
    assert_eq!(text.is_some(), is_instruction(word), "0x{word:08X}");
    found.extend(text.map(|text| (word, text)));
}

fn assemble_again(found: &[(u32, String)]) {
    for part in found.chunks(crank::MAX_WORDS) {
        let source: Vec<&str> = part.iter().map(|(_, text)| text.as_str()).collect();
        let assembled = assemble(&source.join("\n")).expect("all are instructions");
        for ((word, text), written) in part.iter().zip(assembled.words) {
            assert_eq!(written.word, *word, "{text}");
        }
    }
}

#[test]
fn texts() {
    let table = [
        (0x0240_0005, "xori r1, 5"),
        (0x0140_FFFF, "ld r1, 65535"),
        (0x0500_FFFE, "bra -2"),
        (0x0720_8000, "bnz ro, -32768"),
        (0x1550_0000, "sub r2, pc"),
        (0x1A00_0000, "start"),
        (0x20C0_0100, "uni x, r9"),
        (0x2357_8500, "arib lt, r2, r4, r5"),
    ];
    for (word, text) in table {
        assert_eq!(instruction_text(word).as_deref(), Some(text));
    }
    for word in [0, 7, 0x0110_0000, 0x1A00_0001, 0x1444_0000, 0xFFFF_FFFF] {
        assert_eq!(instruction_text(word), None);
    }
}

#[test]
fn words_of_every_kind_and_their_neighbours() {
    let mut rng = Rng::new(41);
    let mut found = Vec::new();
    let mut looked = 0;
    for kind in KINDS {
        for _ in 0..rounds(300) {
            let word = word_of(&mut rng, kind, 10, 20);
            compare(word, &mut found);
            (0..32).for_each(|bit| compare(word ^ 1 << bit, &mut found));
            looked += 33;
        }
    }
    assemble_again(&found);
    println!("kinds: {looked} words, {} instructions", found.len());
    assert!(found.len() > KINDS.len() && found.len() < looked);
}

#[test]
fn all_fields_and_random_words() {
    let mut rng = Rng::new(42);
    let mut found = Vec::new();
    // Every opcode up to the last, with all registers and paras; then noise.
    let fields = 0x25_0000;
    for upper in 0..fields {
        compare(upper << 8, &mut found);
    }
    let noise = rounds(500_000);
    for _ in 0..noise {
        compare(rng.word(), &mut found);
        compare(rng.word() & 0x3FFF_FFFF, &mut found);
    }
    assemble_again(&found);
    let looked = (fields + 2 * noise) as usize;
    println!(
        "fields and noise: {looked} words, {} instructions",
        found.len()
    );
    assert!(!found.is_empty() && found.len() < looked);
}
