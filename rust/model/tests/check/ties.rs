//! The two calls against each other, of each caller: behind 10 and 7 the whole
//! check gives the lowest node that the other gives 8 for.

use crank_model::cover::Cover;
use crank_model::instruction::{decode, START};
use crank_model::state::Machine;

use super::machines::{count_ends, each, every_link};
use super::{Calls, CALLS};

/// The code words of a machine whose sizes fit.
fn code(m: &Machine) -> &[u32] {
    &m.mem[..m.record.k as usize]
}

/// The same machine with instructions for code words.
fn mended(m: &Machine) -> Machine {
    let mut mended = m.clone();
    mended.mem[..m.record.k as usize].fill(START);
    mended
}

/// What the nodes make of the whole check, if no code word is looked at.
fn by_nodes(calls: &Calls, m: &Machine) -> (u32, u32) {
    for node in 1..=m.record.n {
        match calls.node(m, node) {
            0 => {}
            8 => return (8, node),
            other => panic!("{} {other} for node {node} of {m:?}", calls.name),
        }
    }
    (0, 0)
}

/// Fails unless the two calls agree on a machine; `nodes` are some to ask about.
fn tied(calls: &Calls, m: &Machine, nodes: &[u32], cover: &mut Cover) {
    let name = calls.name;
    let whole = calls.whole(m);
    let answers: Vec<u32> = nodes.iter().map(|node| calls.node(m, *node)).collect();
    if whole.0 == 10 {
        assert!(answers.iter().all(|answer| *answer == 10), "{name}: {m:?}");
        cover.count("10");
        return;
    }
    for (node, answer) in nodes.iter().zip(&answers) {
        let is_node = (1..=m.record.n).contains(node);
        let may_be: &[u32] = if is_node { &[0, 8] } else { &[17] };
        assert!(may_be.contains(answer), "{name}: node {node} of {m:?}");
    }
    let expected = by_nodes(calls, m);
    if code(m).iter().all(|word| decode(*word).is_some()) {
        assert_eq!(whole, expected, "{name}: {m:?}");
    } else {
        assert_eq!(whole.0, 7, "{name}: {m:?}");
        let mended = mended(m);
        assert_eq!(calls.whole(&mended), expected, "{name}: {m:?}");
        let same = nodes.iter().map(|node| calls.node(&mended, *node));
        assert!(same.eq(answers), "{name}: {m:?}");
    }
    cover.count(match (whole, expected) {
        ((7, _), (8, _)) => "7, with a node that gives 8",
        ((7, _), _) => "7, with none",
        ((8, 1), _) => "8 at node 1",
        ((8, last), _) if last == m.record.n => "8 at node N alone",
        ((8, _), _) => "8 between",
        _ => "0",
    });
    count_ends(m, cover);
}

const CASES: [&str; 9] = [
    "0",
    "7, with a node that gives 8",
    "7, with none",
    "8 at node 1",
    "8 at node N alone",
    "8 between",
    "10",
    "N 0",
    "N 511",
];

/// The same machines for every caller.
#[test]
fn whole_and_by_nodes() {
    let mut covers = CALLS.map(|_| Cover::default());
    let mut all = |m: &Machine, nodes: &[u32]| {
        for (calls, cover) in CALLS.iter().zip(&mut covers) {
            tied(calls, m, nodes, cover);
        }
    };
    each(77, &mut all);
    every_link(78, 10, |m, changed, _| {
        all(m, &[0, changed, m.record.n + 1])
    });
    for (calls, cover) in CALLS.iter().zip(&covers) {
        cover.summary(&format!("{} whole and by nodes", calls.name));
        cover.demand(&CASES);
    }
}
