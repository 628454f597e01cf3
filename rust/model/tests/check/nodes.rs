//! One node: library and lesson bench against the model, for every node of a
//! machine.

use crank_model::cover::Cover;
use crank_model::state::Machine;

use super::machines::{count_ends, each, every_link};
use super::proved::by_callers;
use super::{LINKS, MODEL, PROVED};

/// The answer about a node, which all callers share.
fn same_answer(m: &Machine, node: u32) -> u32 {
    let expected = MODEL.node(m, node);
    for calls in &PROVED {
        let (name, found) = (calls.name, calls.node(m, node));
        assert_eq!(found, expected, "{name}: node {node} of {m:?}");
    }
    expected
}

/// An answer by its name; nodes that the table hasn't are on either side of it.
fn case(m: &Machine, node: u32, answer: u32) -> &'static str {
    match (answer, node) {
        (0, 1) => "0 at node 1",
        (0, _) if node == m.record.n => "0 at node N",
        (0, _) => "0 between",
        (8, 1) => "8 at node 1",
        (8, _) if node == m.record.n => "8 at node N",
        (8, _) => "8 between",
        (10, 0) => "10 at node 0",
        (10, _) => "10",
        (17, 0) => "17 at node 0",
        (17, _) if node == m.record.n + 1 => "17 at node N + 1",
        (17, u32::MAX) => "17 at the largest word",
        (17, _) => "17 above",
        _ => "another number",
    }
}

const CASES: [&str; 12] = [
    "0 at node 1",
    "0 at node N",
    "0 between",
    "8 at node 1",
    "8 at node N",
    "8 between",
    "10 at node 0",
    "10",
    "17 at node 0",
    "17 at node N + 1",
    "17 at the largest word",
    "17 above",
];

#[test]
fn machines() {
    let mut cover = Cover::default();
    each(75, |m, nodes| {
        let before = m.clone();
        for node in nodes {
            let answer = same_answer(m, *node);
            cover.count(case(m, *node, answer));
        }
        assert!(*m == before, "written to: {before:?}");
        count_ends(m, &mut cover);
    });
    cover.summary(&by_callers("nodes of machines"));
    cover.demand(&CASES);
    cover.demand(&["N 0", "N 511"]);
    assert_eq!(cover.times("another number"), 0);
}

/// A changed link is unpaired in its own node, or leaves one that led to it
/// without its return; the sound table has no node that links to itself.
#[test]
fn changed_links() {
    let mut cover = Cover::default();
    every_link(76, 30, |m, changed, field| {
        let others = (1..=m.record.n).filter(|node| *node != changed);
        let lost = others.filter(|node| same_answer(m, *node) == 8).count();
        if lost > 0 {
            cover.count("8 at another node");
        }
        match (same_answer(m, changed), LINKS.get(field)) {
            (8, Some(name)) => cover.count(&format!("8 by {name}")),
            (0, Some(_)) => cover.count("0 by a link"),
            (answer, _) => {
                assert_eq!((answer, lost), (0, 0), "w is no link: {m:?}");
                cover.count("0 by w");
            }
        }
    });
    cover.summary(&by_callers("nodes with changed links"));
    for name in LINKS {
        cover.demand(&[&format!("8 by {name}")]);
    }
    cover.demand(&["8 at another node", "0 by a link", "0 by w"]);
}
