//! One node: cases worked out by hand from the text of #105 and document 01's
//! rule of paired links, in the model, in the library and on the lesson bench.

use crank_model::cover::Cover;
use crank_model::machine::{Record, NODE};
use crank_model::state::Machine;

use super::CALLS;

/// start, xori r1,5 and finish; one word that is no instruction among them; and
/// nothing but such words.
const CODES: [[u32; 3]; 3] = [
    [0x1A00_0000, 0x0240_0005, 0x1B00_0000],
    [0x1A00_0000, 0x1444_0000, 0x1B00_0000],
    [0, u32::MAX, 0x1444_0000],
];

/// Numbers far above N: the first two are 1 in 16 and in 31 bits, and the words
/// of the third would begin at word 1 of the table, counted in 32 bits.
pub const FAR: [u32; 4] = [0x1_0001, 0x8000_0001, 954_437_178, u32::MAX];

/// A node's words: fc0 fc1 lc0 lc1 cf cl nx pr w.
pub type Node = [u32; NODE];

pub const BARE: Node = [0; NODE];

/// A node with one link.
pub fn linked(field: usize, to: u32) -> Node {
    let mut node = BARE;
    node[field] = to;
    node
}

pub fn machine_of(nodes: &[Node]) -> Machine {
    let record = Record {
        k: 3,
        m: 3,
        n: nodes.len() as u32,
        ..Record::default()
    };
    Machine {
        record,
        mem: CODES[0].to_vec(),
        table: nodes.concat(),
    }
}

/// Asks about every node, which gives these answers, and about numbers that are
/// no node's, with each code. The whole check gives the first 8, or its own 7.
pub fn expect(about: &str, m: &Machine, answers: &[u32], cover: &mut Cover) {
    let n = answers.len() as u32;
    assert_eq!(m.record.n, n, "{about}");
    let first_bad = (1..=n).find(|node| answers[*node as usize - 1] == 8);
    let whole = first_bad.map_or((0, 0), |node| (8, node));
    for calls in CALLS {
        for (code, whole) in CODES.into_iter().zip([whole, (7, 1), (7, 0)]) {
            let mut m = m.clone();
            m.mem[..3].copy_from_slice(&code);
            let about = format!("{}, {about}: {m:?}", calls.name);
            assert_eq!(calls.whole(&m), whole, "{about}");
            for (node, answer) in (1..=n).zip(answers) {
                assert_eq!(calls.node(&m, node), *answer, "{node} of {about}");
                cover.count(&answer.to_string());
            }
            for node in [0, n + 1, n + 2].into_iter().chain(FAR) {
                assert_eq!(calls.node(&m, node), 17, "{node} of {about}");
                cover.count("17");
            }
        }
    }
}

/// Says what was asked for, and fails if one of the answers was not.
pub fn sum_up(title: &str, cover: &Cover) {
    cover.summary(&format!("by hand: {title}, {} callers", CALLS.len()));
    cover.demand(&["0", "8", "17"]);
}

/// What is tabled, its nodes, and the answer about each of them.
type Table = (&'static str, &'static [Node], &'static [u32]);

#[rustfmt::skip] // one node a line
const TABLES: [Table; 17] = [
    ("no node", &[], &[]),
    ("no links", &[BARE, BARE], &[0, 0]),
    ("w is no link", &[
        [0, 0, 0, 0, 0, 0, 0, 0, 1],
        [0, 0, 0, 0, 0, 0, 0, 0, u32::MAX],
    ], &[0, 0]),
    ("a qif", &[
        [2, 3, 2, 3, 0, 0, 4, 0, 0],
        [0, 0, 0, 0, 1, 1, 0, 0, 2],
        [0, 0, 0, 0, 1, 1, 0, 0, 0],
        [0, 0, 0, 0, 0, 0, 0, 1, 0],
    ], &[0, 0, 0, 0]),
    ("a qif that lacks its nx", &[
        [2, 3, 2, 3, 0, 0, 0, 0, 0],
        [0, 0, 0, 0, 1, 1, 0, 0, 2],
        [0, 0, 0, 0, 1, 1, 0, 0, 0],
        [0, 0, 0, 0, 0, 0, 0, 1, 0],
    ], &[0, 0, 0, 8]),
    ("a qif whose second child lacks its cf", &[
        [2, 3, 2, 3, 0, 0, 4, 0, 0],
        [0, 0, 0, 0, 1, 1, 0, 0, 2],
        [0, 0, 0, 0, 0, 1, 0, 0, 0],
        [0, 0, 0, 0, 0, 0, 0, 1, 0],
    ], &[8, 0, 0, 0]),
    ("the same child for both coins", &[
        [2, 2, 2, 2, 0, 0, 0, 0, 0],
        [0, 0, 0, 0, 1, 1, 0, 0, 0],
    ], &[0, 0]),
    ("a child of two nodes, which returns to the second", &[
        [3, 0, 0, 0, 0, 0, 0, 0, 0],
        [0, 3, 0, 0, 0, 0, 0, 0, 0],
        [0, 0, 0, 0, 2, 0, 0, 0, 0],
    ], &[8, 0, 0]),
    ("a next of two nodes, which returns to the first", &[
        [0, 0, 0, 0, 0, 0, 3, 0, 0],
        [0, 0, 0, 0, 0, 0, 3, 0, 0],
        [0, 0, 0, 0, 0, 0, 0, 1, 0],
    ], &[0, 8, 0]),
    ("a ring of two", &[
        [0, 0, 0, 0, 0, 0, 2, 2, 0],
        [0, 0, 0, 0, 0, 0, 1, 1, 0],
    ], &[0, 0]),
    ("its own next and previous", &[[0, 0, 0, 0, 0, 0, 1, 1, 0]], &[0]),
    ("its own next alone", &[[0, 0, 0, 0, 0, 0, 1, 0, 0]], &[8]),
    ("its own previous alone", &[[0, 0, 0, 0, 0, 0, 0, 1, 0]], &[8]),
    ("its own child for coin 1", &[[0, 1, 0, 1, 1, 1, 0, 0, 0]], &[0]),
    ("its own first child, with cl for cf", &[[1, 0, 0, 0, 0, 1, 0, 0, 0]], &[8]),
    ("all links to itself", &[[1, 1, 1, 1, 1, 1, 1, 1, 1]], &[0]),
    // Its cf would be word 5, counted in 32 bits, and that has 1.
    ("a child far above N", &[[954_437_178, 0, 1, 0, 0, 1, 0, 0, 0]], &[8]),
];

#[test]
fn tables() {
    let mut cover = Cover::default();
    for (name, nodes, answers) in TABLES {
        expect(name, &machine_of(nodes), answers, &mut cover);
    }
    sum_up("tables", &cover);
}
