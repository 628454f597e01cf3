//! One node, by hand: each link alone, with every way back, and beside others.

use crank_model::cover::Cover;
use crank_model::machine::NODE;

use super::papers::{expect, linked, machine_of, sum_up, BARE, FAR};
use super::LINKS;

/// A row is a link of node 1 to node 2, a column a word of node 2 that is 1:
/// fc0 fc1 lc0 lc1 cf cl nx pr w. At x the two are a pair.
pub const RETURNS: [&str; 8] = [
    "....x....", // fc0
    "....x....", // fc1
    ".....x...", // lc0
    ".....x...", // lc1
    "xx.......", // cf
    "..xx.....", // cl
    ".......x.", // nx
    "......x..", // pr
];

#[test]
fn returns() {
    let mut cover = Cover::default();
    for (link, (name, row)) in LINKS.into_iter().zip(RETURNS).enumerate() {
        for (back, mark) in row.chars().enumerate() {
            let nodes = [linked(link, 2), linked(back, 1)];
            // Without a pair both links are unpaired, but w is no link.
            let answers = match (mark, back) {
                ('x', _) => [0, 0],
                (_, 8) => [8, 0],
                _ => [8, 8],
            };
            expect(name, &machine_of(&nodes), &answers, &mut cover);
        }
        // The other node has no link at all.
        let nodes = [BARE, linked(link, 1)];
        expect(name, &machine_of(&nodes), &[0, 8], &mut cover);
    }
    sum_up("one link and one back", &cover);
}

/// All links of a node lead to itself, and one of them is taken out: cf can do
/// without one fc, but no fc without cf.
#[test]
fn without_one() {
    let mut cover = Cover::default();
    let answers = [0, 0, 0, 0, 8, 8, 8, 8];
    for (field, (name, answer)) in LINKS.into_iter().zip(answers).enumerate() {
        let mut node = [1; NODE];
        node[field] = 0;
        expect(name, &machine_of(&[node]), &[answer], &mut cover);
    }
    for both in [0..2, 2..4] {
        let mut node = [1; NODE];
        node[both].fill(0);
        expect("both taken out", &machine_of(&[node]), &[8], &mut cover);
    }
    sum_up("a link taken out", &cover);
}

/// A link to a node that there isn't, in each of three nodes, and beside others
/// that are paired.
#[test]
fn above_the_last() {
    let mut cover = Cover::default();
    for (field, name) in LINKS.into_iter().enumerate() {
        for to in [4, 5, 511, 512].into_iter().chain(FAR) {
            for place in 0..3 {
                let (mut nodes, mut answers) = ([BARE; 3], [0; 3]);
                (nodes[place], answers[place]) = (linked(field, to), 8);
                expect(name, &machine_of(&nodes), &answers, &mut cover);
            }
            let mut node = [1; NODE];
            node[field] = to;
            expect(name, &machine_of(&[node]), &[8], &mut cover);
        }
    }
    sum_up("links above N", &cover);
}
