//! Walks over a made table, by the model's turns and by the library's: whatever the
//! coins, they end at finish after the cycles that the answer gives.

use std::collections::BTreeMap;

use super::proved::{self, CHECKS};
use super::{bez, machine, nodes_of, Case, Left, FINISH, FIQ, GATE, QIF, START};
use crank_model::coins::{follow, next_choice, Followed};
use crank_model::machine::{self as model, CF, W};
use crank_model::rng::Rng;
use crank_model::state::Machine;

/// How many choices of coins are walked: all, if they and their turns are not
/// more than so many; and if they are, some random ones more.
pub struct Most {
    pub choices: usize,
    pub turns: u64,
    pub random: usize,
}

impl Default for Most {
    fn default() -> Most {
        Most {
            choices: 1_024,
            turns: 100_000,
            random: 16,
        }
    }
}

impl Most {
    /// For tests that make many tables: all choices of eight qifs in each other.
    pub const FEW: Most = Most {
        choices: 16,
        turns: 20_000,
        random: 4,
    };
}

/// The walks made over one table, and what they came by.
#[derive(Debug, Default)]
pub struct Walked {
    pub walks: usize,
    /// Whether these were all choices of coins.
    pub all: bool,
    /// Whether a walk executed some word twice, as in a loop of two rounds.
    pub looped: bool,
    /// Whether some qif was executed at two nodes.
    pub again: bool,
    /// Whether a walk waited.
    pub waited: bool,
    /// Each qif with a node that it was executed at.
    qifs: BTreeMap<u32, u32>,
}

impl Walked {
    fn add(&mut self, walk: &Followed) {
        self.walks += 1;
        self.waited |= walk.words.len() < walk.cycles as usize;
        for word in walk.words.iter().filter(|word| word.qif) {
            let node = *self.qifs.entry(word.pc).or_insert(word.node);
            self.again |= node != word.node;
        }
        if !self.looped {
            let mut addresses: Vec<u32> = walk.words.iter().map(|word| word.pc).collect();
            addresses.sort_unstable();
            self.looped = addresses.windows(2).any(|two| two[0] == two[1]);
        }
    }

    /// Fails unless these were all choices, and so many.
    pub fn all_of(&self, walks: usize) {
        assert!(self.all, "only {} walks", self.walks);
        assert_eq!(self.walks, walks);
    }
}

/// Checks the table that the call left and walks over it.
pub fn all_walks(case: &Case, left: &Left, most: &Most, rng: &mut Rng) -> Walked {
    sound(left);
    let walk = Walks::new(case, left);
    let (mut walked, mut choice) = (Walked::default(), Some(Vec::new()));
    while let Some(coins) = choice {
        let turns = walked.walks as u64 * u64::from(left.made.cycles);
        if walked.walks >= most.choices || turns > most.turns {
            for _ in 0..most.random {
                let coins: Vec<u32> = (0..200).map(|_| rng.below(2)).collect();
                walked.add(&walk.with(&coins));
            }
            return walked;
        }
        let followed = walk.with(&coins);
        walked.add(&followed);
        choice = next_choice(&followed.coins);
    }
    walked.all = true;
    walked
}

/// Where walks begin, the cycles that they take, and where they end.
struct Walks {
    start: Machine,
    cycles: u32,
    end: Machine,
}

impl Walks {
    fn new(case: &Case, left: &Left) -> Walks {
        let mut start = left.machine.clone();
        start.record = left.made.record;
        let cycles = left.made.cycles;
        let end = follow(&start, model::forward, cycles, |_| 0).end;
        assert_eq!(end.record.position, case.machine.record.position);
        Walks { start, cycles, end }
    }

    /// Walks with these coins, and 0 behind their list, by both; gives the model's
    /// walk.
    fn with(&self, coins: &[u32]) -> Followed {
        let choose = |qif: usize| coins.get(qif).copied().unwrap_or(0);
        let [model, library] = [model::forward, proved::forward]
            .map(|turn| follow(&self.start, turn, self.cycles + 1, choose));
        self.ends(&model, "model");
        self.ends(&library, "library");
        assert!(model.words == library.words, "coins {coins:?}");
        model
    }

    /// At finish, with every register and every word as after any other walk.
    fn ends(&self, walk: &Followed, name: &str) {
        let ended = (walk.refusal, walk.cycles, walk.open);
        let coins = &walk.coins;
        let record = &self.start.record;
        assert_eq!(
            ended,
            (12, self.cycles, 0),
            "{name} with coins {coins:?} from {record:?}"
        );
        assert!(walk.end == self.end, "{name} ends otherwise with {coins:?}");
    }
}

/// Every link is paired, and only a first child waits, with the other one not.
fn sound(left: &Left) {
    let (r, mem, table) = (left.made.record, &left.machine.mem, &left.machine.table);
    let checks = CHECKS.map(|(_, check, _)| check(r, mem, table).0);
    let nodes = nodes_of(left);
    assert!(checks == [0; 3] || checks == [7; 3], "{checks:?} {nodes:?}");
    for (name, _, check_node) in &CHECKS[1..] {
        for node in 1..=r.n {
            let refusal = check_node(r, node, mem, table);
            assert_eq!(refusal, 0, "{name}: {node} of {nodes:?}");
        }
    }
    let w = |node: u32| nodes[node as usize - 1][W];
    for (node, words) in nodes.iter().enumerate() {
        let [fc0, fc1, ..] = *words;
        let waits_alone = fc0 == 0 || w(fc0) == 0 || w(fc1) == 0;
        let first_child = words[CF] != 0 || words[W] == 0;
        assert!(waits_alone && first_child, "{} of {nodes:?}", node + 1);
    }
    assert_eq!(nodes.len() % 3, 1, "{nodes:?}");
}

/// start, qif r1, a gate that bez goes over with coin 0, fiq r1 and finish: branch 0
/// takes 3 cycles and branch 1 4.
const CODE: [u32; 7] = [START, QIF, bez(2), GATE, bez(2), FIQ, FINISH];

/// A table of it: the cf of node 2, and the w of nodes 2 and 3.
type Drawn = (u32, u32, u32);

/// What walks over a table come to with coin 0 and with coin 1: refusal, cycles.
fn walked(table: Drawn) -> [(u32, u32); 2] {
    let (cf, w0, w1) = table;
    let nodes = [
        [2, 3, 2, 3, 0, 0, 4, 0, 0],
        [0, 0, 0, 0, cf, 1, 0, 0, w0],
        [0, 0, 0, 0, 1, 1, 0, 0, w1],
        [0, 0, 0, 0, 0, 0, 0, 1, 0],
    ];
    let mut at_start = machine(&CODE, &[]);
    at_start.table = nodes.concat();
    (at_start.record.n, at_start.record.qifv) = (4, 1);
    at_start.record.regs[4] = 9;
    [0, 1].map(|coin| {
        let [model, library] =
            [model::forward, proved::forward].map(|turn| follow(&at_start, turn, 50, |_| coin));
        assert_eq!((&model.end, model.cycles), (&library.end, library.cycles));
        let restored = if model.open == 0 { 9 } else { coin };
        assert_eq!(model.end.record.regs[4], restored);
        (model.refusal, model.cycles)
    })
}

/// Waits that do, that are too few, too many and in vain, and a link that is not
/// there: what the walks over a made table would find.
#[test]
fn by_hand() {
    let tables: [(Drawn, [(u32, u32); 2]); 5] = [
        ((1, 1, 0), [(12, 6), (12, 6)]),
        ((1, 0, 0), [(12, 5), (12, 6)]),
        ((1, 2, 0), [(12, 7), (12, 6)]),
        ((1, 3, 2), [(12, 8), (12, 8)]),
        ((0, 1, 0), [(17, 1), (12, 6)]),
    ];
    for (table, expected) in tables {
        assert_eq!(walked(table), expected, "{table:?}");
    }
    println!("walks by hand: {} tables", tables.len());
}

/// Every choice comes once: those of a qif in branch 1 alone are three.
#[test]
fn choices() {
    let walk = |coins: &[u32]| match coins {
        [1, inner, ..] => vec![1, *inner],
        [1] => vec![1, 0],
        _ => vec![0],
    };
    let mut found = Vec::new();
    let mut choice = Some(Vec::new());
    while let Some(coins) = choice {
        let made = walk(&coins);
        choice = next_choice(&made);
        found.push(made);
    }
    assert_eq!(found, [vec![0], vec![1, 0], vec![1, 1]]);
}
