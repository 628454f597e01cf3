//! 511 nodes and eight qifs in each other, and one more.

use super::{bez, machine, Case, FINISH, FIQ, FIQ2, FIQ3, GATE, NONE, QIF, QIF2, QIF3, START};
use crank_model::machine::NODE;
use crank_model::maker::walk;

fn case(code: &[&[u32]]) -> Case {
    Case::new(machine(&code.concat(), &[]), u32::MAX)
}

/// So many qifs one after the other.
fn row(qifs: usize) -> Vec<u32> {
    [QIF, FIQ].repeat(qifs)
}

/// Refused by 23 for nodes at this kind of word, with so many there.
fn too_many(case: &Case, at: &str, nodes: u32) {
    case.refused(23);
    let (end, walk) = walk(case.machine.record, u32::MAX, &case.machine.mem);
    let name = end.expect_err("it is refused").name();
    assert_eq!(name, format!("23 nodes at {at}"));
    assert_eq!(walk.nodes.count(), nodes);
    println!("23 at {at}, with {nodes} nodes");
}

/// 170 qifs have 511 nodes: node 3 i + 1 has the next three.
#[test]
fn one_after_the_other() {
    let mut nodes = Vec::new();
    for i in 0..170 {
        let (v, before) = (3 * i + 1, if i == 0 { 0 } else { 3 * i - 2 });
        nodes.push([v + 1, v + 2, v + 1, v + 2, 0, 0, v + 3, before, 0]);
        nodes.extend([[0, 0, 0, 0, v, v, 0, 0, 0]; 2]);
    }
    nodes.push([0, 0, 0, 0, 0, 0, 0, 508, 0]);
    assert_eq!(nodes.len(), 511);
    let most = case(&[&[START], &row(170), &[FINISH]]);
    let walked = most.limited(511).gives(341, &nodes);
    assert_eq!((walked.all, walked.walks), (false, 20));
    most.limited(510).refused(23);
    // With one more nothing behind its qif is walked.
    too_many(&case(&[&[START], &row(171), &[FINISH]]), "a qif", 511);
    too_many(&case(&[&[START], &row(170), &[QIF, NONE]]), "a qif", 511);
    case(&[&[START], &row(170), &[QIF, START]]).refused(18);
    case(&[&[START], &row(170), &[NONE]]).refused(13);
}

/// Within a branch the nodes are 1, two for each open qif and three for each other.
#[test]
fn at_a_qif() {
    // 1 + 2 + 3 * 168 = 507 and with two more 509: then a fiq is the word.
    case(&[&[START, QIF2], &row(168), &[QIF, NONE]]).refused(13);
    // 1 + 2 + 3 * 169 = 510: two more do not fit.
    too_many(
        &case(&[&[START, QIF2], &row(169), &[QIF, NONE]]),
        "a qif",
        510,
    );
    case(&[&[START, QIF2], &row(169), &[QIF, START]]).refused(18);
    // 1 + 2 * 2 + 3 * 168 = 509: they do.
    case(&[&[START, QIF3, QIF2], &row(168), &[QIF, NONE]]).refused(13);
}

/// r5 differs by the coin.
const XOR: u32 = 0x1384_0000;
/// With coin 1, r1 becomes 3.
const BREAK: [u32; 3] = [bez(2), 0x0240_0002, bez(2)];

/// With 511 nodes the last fiq has none left for the next one. Its 23 comes before
/// the comparison of the branches, and behind 18.
#[test]
fn at_a_fiq() {
    let with = |qifs: usize, body: &[u32], end: &[u32]| {
        case(&[&[START, QIF3, QIF2], &row(qifs), &[QIF], body, &[FIQ], end])
    };
    let end = [FIQ2, FIQ3, FINISH];
    // 1 + 2 * 3 + 3 * 168 = 511.
    for body in [&[][..], &[GATE], &[XOR], &BREAK] {
        too_many(&with(168, body, &end), "fiq 1", 511);
    }
    // With coin 1 br is 2 at the fiq, and behind it there is a start.
    let jump = with(168, &[0x0740_0002, GATE], &[FIQ2, START]);
    jump.refused(18);
    // With three nodes less it is known how the branches stand.
    for (body, refusal) in [(&[XOR][..], 24), (&BREAK[..], 24), (&[][..], 23)] {
        with(167, body, &end).refused(refusal);
    }
    // At the fiq of branch 0 no node is made.
    let wrong = case(&[&[START, QIF3, QIF2], &row(168), &[QIF, FIQ2]]);
    wrong.refused(24);
}

/// 84 qifs in branch 0 and 85 in branch 1 of another one, which is then the 170th:
/// at its fiq there are 510 nodes.
#[test]
fn the_last_one() {
    let (zero, one) = (row(84), row(85));
    let over = |words: &[u32]| words.len() as u32 + 2;
    let with = |zero: &[u32], one: &[u32]| {
        let to_one = 0x0750_0000 | over(zero);
        let to_end = over(one);
        let (bra_one, bra_end) = (0x0500_0000 | over(zero), 0x0500_0000 | to_end);
        let end = 0x0650_0000 | to_end;
        case(&[
            &[START, QIF2, to_one],
            zero,
            &[bra_end, bra_one],
            one,
            &[end, FIQ2, FINISH],
        ])
    };
    let left = with(&zero, &one).same();
    assert_eq!(left.made.refusal, 0);
    let walked = with(&zero, &one).walked();
    assert_eq!((walked.all, walked.walks, walked.waited), (false, 20, true));
    // start and qif; then 2 + 2 * 85 + 2 in the longer branch.
    assert_eq!((left.made.record.n, left.made.cycles), (511, 2 + 174));
    assert_eq!(left.machine.table[NODE + 8], 2, "w of node 2");
    // A qif more in either branch: the last of branch 1 finds 510 nodes.
    too_many(&with(&row(85), &one), "a qif", 510);
    too_many(&with(&zero, &row(86)), "a qif", 510);
}

/// So many qifs on r1, each in branch 1 of the one before: branch 0 goes over it.
fn nest(levels: u32) -> Vec<u32> {
    let mut code = vec![GATE];
    for _ in 0..levels {
        let over = bez(code.len() as u32 + 1);
        code = [&[QIF, over], &code[..], &[over, FIQ]].concat();
    }
    code
}

/// The nodes of a nest: those for the coins of level d are 2 d and 2 d + 1, the
/// next ones follow from the innermost on.
fn nodes_of_nest(levels: u32) -> Vec<[u32; NODE]> {
    let next = |d: u32| 3 * levels + 2 - d;
    let mut nodes = Vec::new();
    for node in 1..=2 * levels + 1 {
        let (above, d) = (node / 2, node / 2 + 1);
        let cf = if node == 1 { 0 } else { 2 * above - 1 };
        let mut words = [0, 0, 0, 0, cf, cf, 0, 0, 0];
        if node % 2 == 1 && d <= levels {
            let lc1 = if d == levels { 2 * d + 1 } else { next(d + 1) };
            words = [2 * d, 2 * d + 1, 2 * d, lc1, cf, 0, next(d), 0, 0];
        }
        if node % 2 == 0 {
            // The branch has 3 cycles, the other 3, the gate and 4 for each level.
            words[8] = 1 + 4 * (levels - above);
        }
        nodes.push(words);
    }
    for d in (1..=levels).rev() {
        let cl = if d == 1 { 0 } else { 2 * d - 3 };
        nodes.push([0, 0, 0, 0, 0, cl, 0, 2 * d - 1, 0]);
    }
    nodes
}

#[test]
fn nesting() {
    for levels in 0..=8 {
        let nested = case(&[&[START], &nest(levels), &[FINISH]]);
        let (walked, cycles) = (2 + 7 * levels, 2 + 4 * levels);
        let walks = nested.limited(walked).gives(cycles, &nodes_of_nest(levels));
        walks.all_of(levels as usize + 1);
        nested.limited(walked - 1).refused(23);
    }
    for levels in 9..12 {
        let nested = case(&[&[START], &nest(levels), &[FINISH]]);
        nested.refused(23);
        let (end, walk) = walk(nested.machine.record, u32::MAX, &nested.machine.mem);
        assert_eq!(end.expect_err("refused").name(), "23 nesting at a qif");
        assert_eq!((walk.deepest, walk.nodes.count()), (8, 17));
    }
    println!("nesting: 0 to 8, and 9 to 11 refused");
}

/// At the ninth qif: 18, 23, and nothing behind it.
#[test]
fn ninth_level() {
    let into = [QIF; 8];
    for (words, refusal) in [
        (&[NONE][..], 13),
        (&[QIF, NONE], 23),
        (&[QIF2, FIQ2], 23),
        (&[QIF, START], 18),
        (&[FIQ2], 24),
        (&[FINISH], 12),
    ] {
        case(&[&[START], &into, words]).refused(refusal);
    }
    println!("ninth level: 6 programs");
}
