//! Any text is either assembled or refused in one short line; nothing crashes.

use crank_assembler::{assemble, disassemble, listing};
use crank_model::cover::Cover;
use crank_model::rng::{rounds, Rng};
use std::fs;
use std::path::Path;

/// Pieces that mean something, or look as if they did.
const PIECES: [&str; 40] = [
    "start",
    "bra ",
    "from ",
    "from",
    "ld r1, ",
    "arib <, ",
    "r1",
    "pc",
    "l0",
    "l0:",
    ":",
    ",",
    "(",
    ")",
    "\"",
    "\\",
    "\\x",
    ";",
    "#",
    "//",
    "=",
    "+",
    "-",
    "0x",
    "4294967296",
    "-1",
    "9223372036854775808",
    "\n",
    "\r\n",
    "\t",
    ".word ",
    ".space 9",
    ".reg ",
    ".position ",
    ".node ",
    ".table ",
    ".table make ",
    ".preface \"",
    ".data\n",
    "\u{FEFF}ü\0",
];

fn examples() -> Vec<String> {
    let folder = Path::new(env!("CARGO_MANIFEST_DIR")).join("../../examples");
    [
        "loop.qasm",
        "call.qasm",
        "qif_nested10.qasm",
        "qif_nested11.qasm",
        "straight.qasm",
    ]
    .map(|name| fs::read_to_string(folder.join(name)).expect("an example"))
    .to_vec()
}

/// Puts pieces into a text, or takes some of it out.
fn spoil(rng: &mut Rng, text: &str) -> String {
    let mut chars: Vec<char> = text.chars().collect();
    for _ in 0..rng.between(1, 3) {
        let at = rng.index(chars.len() + 1);
        let end = (at + rng.index(6)).min(chars.len());
        let piece = if rng.chance(2, 3) {
            rng.pick(&PIECES)
        } else {
            ""
        };
        chars.splice(at..end, piece.chars());
    }
    chars.into_iter().collect()
}

fn answer(source: &str, cover: &mut Cover) {
    match assemble(source) {
        Ok(assembled) => {
            assert!(disassemble(&assembled.image).is_ok(), "{source:?}");
            assert!(listing(source, &assembled).lines().count() > assembled.words.len());
            cover.count("assembled");
        }
        Err(error) => {
            let lines = source.lines().count().max(1);
            assert!((1..=lines).contains(&error.line), "{source:?}");
            let message = error.to_string();
            assert!(
                message.len() < 250 && !message.contains(['\n', '\r', '\0']),
                "{message:?}"
            );
            cover.count("refused");
        }
    }
}

#[test]
fn spoilt_sources() {
    let mut rng = Rng::new(81);
    let mut cover = Cover::default();
    let examples = examples();
    for _ in 0..rounds(10_000) {
        let example = rng.index(examples.len());
        answer(&spoil(&mut rng, &examples[example]), &mut cover);
    }
    for _ in 0..rounds(50_000) {
        let pieces = rng.between(1, 12);
        let text: String = (0..pieces).map(|_| rng.pick(&PIECES)).collect();
        answer(&text, &mut cover);
    }
    cover.summary("spoilt sources");
    cover.demand(&["assembled", "refused"]);
}
