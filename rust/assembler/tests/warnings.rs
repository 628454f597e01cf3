//! What is warned of, word for word, and that it comes true.

use crank::{Direction, Machine};
use crank_assembler::assemble;

fn warnings(source: &str) -> Vec<String> {
    let found = assemble(source).expect(source).warnings;
    found.iter().map(ToString::to_string).collect()
}

/// The refusal at which a forward run ends.
fn ends_by(source: &str) -> u32 {
    let image = assemble(source).expect(source).image;
    let mut machine = Machine::load(&image).expect("it is an image");
    machine.turns(Direction::Forward, 100).refusal
}

#[test]
fn addresses() {
    let source = "ld r1, 0\nld r1, 2\nld r1, 3\n.data\n.word 1";
    let want = [
        "line 1: warning: data words are 3 to 3, so an ld of address 0 is refused by 15 in a turn",
        "line 2: warning: data words are 3 to 3, so an ld of address 2 is refused by 15 in a turn",
    ];
    assert_eq!(warnings(source), want);
    assert_eq!(ends_by(source), 15);
    let source = "start\nld r1, 1";
    let want =
        "line 2: warning: there are no data words, so an ld of address 1 is refused by 15 in a turn";
    assert_eq!(warnings(source), [want]);
    assert_eq!(ends_by(source), 15);
}

/// Data words are exactly K to M-1: here 5 to 7.
#[test]
fn bounds_of_the_data() {
    let source = |address: u32| format!("start\nld r1, {address}\n.word 0, 0, 0\n.data\n.space 3");
    let (k, m) = (5, 8);
    let mut outside = Vec::new();
    for address in 0..m + 3 {
        let warned = !warnings(&source(address)).is_empty();
        let refused = ends_by(&source(address)) == 15;
        assert_eq!(warned, refused, "address {address}");
        outside.extend(warned.then_some(address));
    }
    println!("addresses outside {k} to {}: {outside:?}", m - 1);
    assert_eq!(outside, [0, 1, 2, 3, k - 1, m, m + 1, m + 2]);
}

/// By pc an `ldr` exchanges its own word, which is code, where a `fetr` may copy it.
#[test]
fn own_word() {
    let source = |name: &str| format!("\nstart\n{name} r1, pc\n{name} r1, r2\n.data\n.word 1");
    let want =
        "line 3: warning: data words are 3 to 3, so an ldr of address 1 is refused by 15 in a turn";
    assert_eq!(warnings(&source("ldr")), [want]);
    assert_eq!(ends_by(&source("ldr")), 15);
    assert_eq!(warnings(&source("fetr")), [""; 0]);
    assert_eq!(ends_by(&source("fetr")), 11);
}

/// The lowest node alone is told, and a word that is no instruction does not hide it.
#[test]
fn unpaired_links() {
    let table = [
        (
            "qif r1\n.qifv 1\n.node 1 fc0=9",
            "line 3: warning: a link of node 1",
        ),
        (
            "qif r1\n.word 7\n.qifv b\n.node 1\n.node b fc0=c\n.node c cf=1",
            "line 5: warning: a link of node b",
        ),
    ];
    for (source, front) in table {
        assert_eq!(
            warnings(source),
            [format!("{front} is not paired: no link leads back")]
        );
        assert_eq!(ends_by(source), 17, "{source}");
    }
}

#[test]
fn by_line() {
    let source = ".node 1 nx=1\nqif r1\nld r1, 0\n.node 2 nx=1";
    let lines: Vec<usize> = assemble(source)
        .expect(source)
        .warnings
        .iter()
        .map(|warning| warning.line)
        .collect();
    assert_eq!(lines, [1, 3]);
}

#[test]
fn none() {
    for source in [
        "start\nld r1, d\n.data\nd: .word 1",
        // A constant in the code may be copied.
        "start\nxori r1, c\nfetr r2, r1\nfinish\nc: .word 7",
        // Written as numbers, code words are nobody's mistake.
        "start\n.word 0x01400001, 0x10400000, 7, 0x18400000",
        "qif r1\n.qifv 1\n.node 1 fc0=2\n.node 2 cf=1",
        // Where a qif leads is a turn's question.
        "start\nqif r1\n.node 1\n.qifv 2",
    ] {
        assert_eq!(warnings(source), [""; 0], "{source}");
    }
}
