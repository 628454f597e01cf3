//! One node, by hand: sizes and lent words in order and not, the most nodes,
//! and what is lent beyond the sizes.

use crank_model::cover::Cover;
use crank_model::machine::{Record, NODE};
use crank_model::state::Machine;

use super::links::RETURNS;
use super::papers::{expect, linked, machine_of, sum_up, BARE};
use super::{CALLS, LINKS};

/// M, K and N, and the words of lent memory and table.
type Sizes = ([u32; 3], [usize; 2]);

/// More words than any sizes need.
const LENT: [usize; 2] = [8193, 4608];

const IN_ORDER: [Sizes; 8] = [
    ([1, 1, 1], [1, 9]),
    ([2, 1, 2], [2, 18]),
    ([1, 1, 511], [1, 4599]),
    ([8192, 1, 1], [8192, 9]),
    ([8192, 8192, 511], [8192, 4599]),
    ([8191, 8191, 510], LENT),
    ([1, 1, 0], [1, 0]),
    ([1, 1, 0], LENT),
];

/// Sizes out of range where enough is lent, and too few words for good ones.
/// Nine times 477,218,589 is 5 in 32 bits.
const WRONG: [Sizes; 17] = [
    ([0, 0, 1], LENT),
    ([0, 1, 1], LENT),
    ([8193, 1, 1], LENT),
    ([u32::MAX, 1, 1], LENT),
    ([1, 0, 1], LENT),
    ([1, 2, 1], LENT),
    ([8192, 8193, 1], LENT),
    ([1, u32::MAX, 1], LENT),
    ([1, 1, 512], LENT),
    ([1, 1, 477_218_589], LENT),
    ([1, 1, u32::MAX], LENT),
    ([1, 1, 1], [0, 9]),
    ([8192, 1, 1], [8191, 9]),
    ([1, 1, 0], [0, 0]),
    ([1, 1, 1], [1, 0]),
    ([1, 1, 1], [1, 8]),
    ([1, 1, 511], [1, 4598]),
];

/// The same word all over the memory, and another all over the table.
fn machine_with(([m, k, n], lent): Sizes, code: u32, link: u32) -> Machine {
    let record = Record {
        k,
        m,
        n,
        ..Record::default()
    };
    Machine {
        record,
        mem: vec![code; lent[0]],
        table: vec![link; lent[1]],
    }
}

/// Asks about nodes that have the same answer: the first where all links are 0,
/// the second where none is paired.
fn ask_all(sizes: Sizes, nodes: &[u32], answers: [u32; 2], cover: &mut Cover) {
    for calls in CALLS {
        for (link, answer) in [0, u32::MAX].into_iter().zip(answers) {
            for code in [0x1A00_0000, 0] {
                let m = machine_with(sizes, code, link);
                for node in nodes {
                    let about = format!("{} at {node} of {:?}", calls.name, m.record);
                    assert_eq!(calls.node(&m, *node), answer, "{about}");
                    cover.count(&answer.to_string());
                }
            }
        }
    }
}

#[test]
fn ten_comes_first() {
    let mut cover = Cover::default();
    for sizes in IN_ORDER {
        let n = sizes.0[2];
        let nodes: Vec<u32> = (1..=n).collect();
        ask_all(sizes, &nodes, [0, 8], &mut cover);
        ask_all(sizes, &[0, n + 1, n + 2, u32::MAX], [17, 17], &mut cover);
        if n == 0 {
            ask_all(sizes, &[1, 2, 511, 512], [17, 17], &mut cover);
            cover.count("N 0");
        }
    }
    for sizes in WRONG {
        let n = sizes.0[2];
        let nodes = [0, 1, 2, 511, 512, n, n.wrapping_add(1), u32::MAX];
        ask_all(sizes, &nodes, [10, 10], &mut cover);
    }
    sum_up("sizes", &cover);
    cover.demand(&["10", "N 0"]);
}

/// What is lent behind the nodes and behind the memory is not looked at: a node
/// there that would return is none.
#[test]
fn excess() {
    let mut cover = Cover::default();
    for (link, (name, row)) in LINKS.into_iter().zip(RETURNS).enumerate() {
        let back = row.find('x').expect("a way back");
        let mut m = machine_of(&[linked(link, 2), linked(back, 1)]);
        m.table.extend([u32::MAX; NODE + 1]);
        m.mem.extend([u32::MAX; 3]);
        for (n, answers) in [(2, &[0, 0][..]), (1, &[8]), (0, &[])] {
            m.record.n = n;
            expect(name, &m, answers, &mut cover);
        }
    }
    sum_up("excess", &cover);
}

/// 511 nodes, each the next of the one before it; nx and pr are words 6 and 7.
#[test]
fn most_nodes() {
    let mut cover = Cover::default();
    let mut nodes = [BARE; 511];
    for (before, node) in (0..).zip(&mut nodes) {
        [node[6], node[7]] = [before + 2, before];
    }
    nodes[510][6] = 0;
    let mut answers = [0; 511];
    expect("a row", &machine_of(&nodes), &answers, &mut cover);
    nodes[510][6] = 512;
    answers[510] = 8;
    let mut m = machine_of(&nodes);
    expect("on to 512", &m, &answers, &mut cover);
    m.table.extend(linked(7, 511));
    expect("on to 512, lent", &m, &answers, &mut cover);
    nodes[510][6] = 1;
    expect("on to 1", &machine_of(&nodes), &answers, &mut cover);
    nodes[0][7] = 511;
    expect("a ring", &machine_of(&nodes), &[0; 511], &mut cover);
    sum_up("511 nodes", &cover);
}

/// xori r1,5 and a word that is no instruction, where nothing can be written.
static MEM: [u32; 2] = [0x0240_0005, 0];
/// Node 2 is the first child of node 1 for coin 0; the last of node 3 is none.
static TABLE: [u32; 3 * NODE] = [
    2, 0, 0, 0, 0, 0, 0, 0, 0, 0, 0, 0, 0, 1, 0, 0, 0, 0, 0, 0, 3, 0, 0, 0, 0, 0, 0,
];

/// Whoever writes to what is lent for reading ends this file's tests.
#[test]
fn only_read() {
    for calls in CALLS {
        for (k, answers) in [(1, [17, 0, 0, 8, 17]), (2, [17, 0, 0, 8, 17]), (3, [10; 5])] {
            let record = Record {
                k,
                m: 2,
                n: 3,
                ..Record::default()
            };
            let found = [0, 1, 2, 3, 4].map(|node| (calls.check_node)(record, node, &MEM, &TABLE));
            assert_eq!(found, answers, "{} with K {k}", calls.name);
        }
    }
    println!("only read: 15 answers, {} callers", CALLS.len());
}
