//! Random programs with qifs in each other, loops, idle gates and data that is
//! altered and put back: as they are, and damaged.

use super::followed::{all_walks, Most, Walked};
use super::proved::by_callers;
use super::Case;
use crank_model::cover::Cover;
use crank_model::forks::{program, Plan};
use crank_model::instruction::{word_r, BR, FINISH, KINDS, PC, START};
use crank_model::maker::{self, SCRATCH, TABLE};
use crank_model::rng::{rounds, Rng};
use crank_model::state::Machine;
use crank_model::structured;
use crank_model::words::{word_of, EXTREMES};

/// Compares the call, counts what it came to, and walks over its table; gives the
/// refusal.
pub fn compare(case: &Case, most: &Most, rng: &mut Rng, cover: &mut Cover) -> u32 {
    let left = case.same();
    let refusal = left.made.refusal;
    if [10, 22].contains(&refusal) {
        cover.count(&refusal.to_string());
        return refusal;
    }
    let (end, walk) = maker::walk(case.machine.record, case.limit, &case.machine.mem);
    match end {
        Err(stop) => cover.count(&stop.name()),
        Ok(_) => {
            cover.count("accepted");
            cover.count(&format!("nesting {}", walk.deepest));
            count_walks(&all_walks(case, &left, most, rng), cover);
        }
    }
    refusal
}

fn count_walks(walked: &Walked, cover: &mut Cover) {
    for _ in 0..walked.walks {
        cover.count("walks");
    }
    for (name, holds) in [
        ("all choices", walked.all),
        ("some choices", !walked.all),
        ("a loop", walked.looped),
        ("a qif again", walked.again),
        ("a wait", walked.waited),
    ] {
        if holds {
            cover.count(name);
        }
    }
}

/// Fails if something was counted less often, for each factor of the rounds.
pub fn demand_at_least(cover: &Cover, least: &[(&str, u32)]) {
    for (name, times) in least {
        let (found, times) = (cover.times(name), rounds(*times));
        assert!(found >= u64::from(times), "{name}: {found} of {times}");
    }
}

/// What an accepted program can be.
const NESTINGS: [&str; 9] = [
    "nesting 0",
    "nesting 1",
    "nesting 2",
    "nesting 3",
    "nesting 4",
    "nesting 5",
    "nesting 6",
    "nesting 7",
    "nesting 8",
];

/// A program at its start, with the words lent to it and any words in them.
fn lent(machine: Machine, limit: u32, rng: &mut Rng) -> Case {
    let mut case = Case::new(machine, limit);
    let (table, scratch) = (TABLE, SCRATCH * case.machine.record.m as usize);
    let excess = rng.pick(&[0, 0, 1, 7]);
    case.machine.table = vec![rng.word(); table + excess];
    case.scratch = vec![rng.word(); scratch + excess];
    case
}

fn plan(rng: &mut Rng, round: u32) -> Plan {
    Plan {
        nesting: round % 11,
        parts: rng.pick(&[4, 12, 24]),
        rounds: rng.pick(&[2, 3, 3, 20]),
    }
}

#[test]
fn whole() {
    let mut rng = Rng::new(144);
    let mut cover = Cover::default();
    for round in 0..rounds(2_000) {
        let plan = plan(&mut rng, round);
        let machine = program(&mut rng, plan);
        let case = lent(machine, u32::MAX, &mut rng);
        let refusal = compare(&case, &Most::default(), &mut rng, &mut cover);
        assert!([0, 23].contains(&refusal), "{refusal} for {case:?}");
    }
    cover.summary(&by_callers("whole programs"));
    cover.demand(&NESTINGS);
    cover.demand(&[
        "23 nesting at a qif",
        "23 nodes at a qif",
        "23 nodes at fiq 1",
    ]);
    demand_at_least(
        &cover,
        &[
            ("accepted", 1_500),
            ("all choices", 1_200),
            ("some choices", 100),
            ("a loop", 500),
            ("a qif again", 500),
            ("a wait", 1_000),
        ],
    );
}

/// The same in the largest memory, with no word of scratch to spare and the last data
/// word in use.
#[test]
fn largest_memory() {
    let mut rng = Rng::new(148);
    let mut cover = Cover::default();
    let most = Most {
        choices: 4,
        ..Most::default()
    };
    for round in 0..rounds(90) {
        let plan = Plan {
            nesting: round % 9,
            parts: 12,
            rounds: 2,
        };
        let mut machine = program(&mut rng, plan);
        let more = 8_192 - machine.mem.len();
        machine.mem.extend(rng.words(more));
        machine.record.m = 8_192;
        // The register with a data address.
        machine.record.regs[8] = 8_191;
        let mut case = lent(machine, u32::MAX, &mut rng);
        case.scratch.truncate(131_072);
        let refusal = compare(&case, &most, &mut rng, &mut cover);
        assert!([0, 23].contains(&refusal), "{refusal} in round {round}");
    }
    cover.summary(&by_callers("largest memory"));
    cover.demand(&NESTINGS);
    demand_at_least(
        &cover,
        &[
            ("accepted", 80),
            ("all choices", 10),
            ("some choices", 50),
            ("a loop", 20),
            ("a qif again", 20),
            ("a wait", 50),
        ],
    );
}

/// Puts another word at some code address.
fn damage_code(rng: &mut Rng, case: &mut Case) {
    let (k, m) = (case.machine.record.k, case.machine.record.m);
    let words = case.machine.mem.len();
    if words == 0 {
        return;
    }
    let at = rng.index(words.min(k as usize));
    let near = case.machine.mem[(at + 1) % words];
    let word = &mut case.machine.mem[at];
    let fork = word_r(rng.between(24, 25), rng.between(2, 8) as usize, 0);
    let kind = rng.pick(&KINDS);
    *word = match rng.below(10) {
        0 | 1 => *word ^ (1 << rng.below(32)),
        2 => START,
        3 => FINISH,
        4 => rng.word(),
        5 | 6 => fork,
        7 => near,
        _ => word_of(rng, kind, k, m),
    };
}

/// Makes the record another one, mostly not the sizes.
fn damage_record(rng: &mut Rng, case: &mut Case) {
    let record = &mut case.machine.record;
    let (any, extreme) = (rng.word(), rng.pick(&EXTREMES));
    let (k, m) = (record.k, record.m);
    match rng.below(12) {
        0 => record.regs[PC] = rng.pick(&[any, extreme, rng.clone().below(k)]),
        1 => record.regs[BR] = rng.pick(&[any, extreme, 1, 2, u32::MAX]),
        2..=7 => record.regs[rng.between(2, 15) as usize] = rng.pick(&[any, extreme, k, m]),
        8 => record.k = rng.pick(&[0, m, m.wrapping_add(1), k.wrapping_sub(1), any]),
        9 => record.m = rng.pick(&[0, k, m.wrapping_sub(1), m.wrapping_add(1), any]),
        10 => record.n = rng.pick(&[1, 2, 511, 512, any]),
        _ => record.qifw = rng.pick(&[1, any]),
    }
}

/// Lends fewer words, or sets a limit.
fn damage_lent(rng: &mut Rng, case: &mut Case) {
    let fewer = |rng: &mut Rng, words: &mut Vec<u32>| {
        let some = rng.index(words.len() + 1);
        let len = words.len();
        words.truncate(rng.pick(&[some, len - len.min(1), len - len.min(2)]));
    };
    match rng.below(10) {
        0 => fewer(rng, &mut case.machine.mem),
        1 => fewer(rng, &mut case.machine.table),
        2 => fewer(rng, &mut case.scratch),
        _ => case.limit = rng.below(400),
    }
}

/// What damaged programs must come to.
const STOPS: [&str; 31] = [
    "10",
    "22",
    "11 turn at a word",
    "12 turn at a word",
    "13 turn at a word",
    "15 turn at a word",
    "17 turn at a word",
    "18 turn at a word",
    "18 turn at a qif",
    "18 turn at fiq 0",
    "18 turn at fiq 1",
    "23 limit at a word",
    "23 limit at a qif",
    "23 limit at fiq 0",
    "23 limit at fiq 1",
    "23 nesting at a qif",
    "23 nodes at a qif",
    "23 nodes at fiq 1",
    "24 name at fiq 0",
    "24 name at fiq 1",
    "24 coin at fiq 0",
    "24 coin at fiq 1",
    "24 pc at fiq 1",
    "24 br at fiq 1",
    "24 registers at fiq 1",
    "24 memory at fiq 1",
    "nesting 0",
    "nesting 2",
    "nesting 4",
    "nesting 6",
    "nesting 8",
];

#[test]
fn damaged() {
    let mut rng = Rng::new(145);
    let mut cover = Cover::default();
    let most = Most {
        choices: 16,
        turns: 10_000,
        random: 2,
    };
    for round in 0..rounds(40_000) {
        let plan = plan(&mut rng, round);
        let machine = program(&mut rng, plan);
        let mut case = lent(machine, 3_000, &mut rng);
        for _ in 0..rng.between(1, 2) {
            let damage = rng.pick(&[damage_code, damage_code, damage_record, damage_lent]);
            damage(&mut rng, &mut case);
        }
        compare(&case, &most, &mut rng, &mut cover);
    }
    cover.summary(&by_callers("damaged programs"));
    cover.demand(&STOPS);
    demand_at_least(
        &cover,
        &[
            ("accepted", 7_000),
            ("all choices", 4_000),
            ("some choices", 2_000),
            ("a loop", 2_000),
            ("a qif again", 2_000),
            ("a wait", 4_000),
        ],
    );
}

/// The programs of the other tests: most of their branches do not come together.
#[test]
fn of_the_other_tests() {
    let mut rng = Rng::new(146);
    let mut cover = Cover::default();
    let most = Most {
        turns: 20_000,
        ..Most::default()
    };
    for _ in 0..rounds(1_500) {
        let loops = rng.chance(2, 3).then(|| rng.between(1, 60));
        let mut machine = structured::program(&mut rng, loops);
        machine.record.n = 0;
        let case = lent(machine, 20_000, &mut rng);
        compare(&case, &most, &mut rng, &mut cover);
    }
    cover.summary(&by_callers("programs of the other tests"));
    cover.demand(&[
        "nesting 1",
        "nesting 2",
        "nesting 3",
        "24 registers at fiq 1",
    ]);
    demand_at_least(
        &cover,
        &[
            ("accepted", 400),
            ("all choices", 200),
            ("some choices", 200),
            ("a loop", 200),
            ("a qif again", 300),
            ("a wait", 10),
        ],
    );
}
