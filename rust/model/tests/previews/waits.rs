//! Waits of every length in a qif, from the turn that enters it to the last.

use crank_model::cover::Cover;
use crank_model::instruction::{word_i, word_r, BR, PC};
use crank_model::machine::{Record, CF, FC, NODE, W};
use crank_model::preview::Preview;
use crank_model::state::{Machine, Way, WAYS};

use super::proved::by_callers;
use super::{one_preview, refused};

const COIN: usize = 6;
const QIF: u32 = 24;
const K: u32 = 4;
const M: u32 = 5;

/// Fills the table where no turn here may look; it is none of the waits.
const OTHER: u32 = 5;

/// A qif, at a node with one first child.
#[derive(Clone, Copy, Debug)]
struct Qif {
    at: u32,
    br: u32,
    /// Where pc moves on to.
    on: u32,
    n: u32,
    parent: u32,
    child: u32,
    coin: u32,
    w: u32,
}

/// at, br and on: the first and the last code word, a jump on and one back.
const PLACES: [(u32, u32, u32); 4] = [(0, 0, 1), (3, 0, 4), (1, 2, 3), (2, u32::MAX, 1)];

/// N, parent and child.
const NODES: [(u32, u32, u32); 3] = [(2, 1, 2), (511, 1, 511), (511, 511, 3)];

const WAITS: [u32; 9] = [0, 1, 2, 255, 256, 65_535, 65_536, 1 << 31, u32::MAX];

const COINS: [u32; 2] = [0, 1];

fn qifs() -> Vec<Qif> {
    let mut all = Vec::new();
    for (at, br, on) in PLACES {
        for (n, parent, child) in NODES {
            for (coin, w) in COINS.iter().flat_map(|coin| WAITS.map(|w| (*coin, w))) {
                all.push(Qif {
                    at,
                    br,
                    on,
                    n,
                    parent,
                    child,
                    coin,
                    w,
                });
            }
        }
    }
    all
}

/// Values of qifw above 0: each of the waits, one less and one more.
fn counts() -> Vec<u32> {
    let around = |w: u32| [w.saturating_sub(1), w, w.saturating_add(1)];
    let mut all: Vec<u32> = WAITS.into_iter().flat_map(around).collect();
    all.retain(|count| *count > 0);
    all.sort();
    all.dedup();
    all
}

/// What the turns of a qif change beside the position: pc, qifv and qifw.
type Stand = (u32, u32, u32);

impl Qif {
    fn record(&self, (pc, qifv, qifw): Stand, position: i64) -> Record {
        let mut regs = [7; 16];
        regs[PC] = pc;
        regs[BR] = self.br;
        regs[COIN] = self.coin;
        Record {
            regs,
            qifv,
            qifw,
            k: K,
            m: M,
            n: self.n,
            position,
        }
    }

    fn machine(&self, stand: Stand, position: i64) -> Machine {
        let mut mem = vec![word_i(2, COIN, 1); M as usize];
        mem[self.at as usize] = word_r(QIF, COIN, 0);
        let mut table = vec![OTHER; NODE * self.n as usize];
        let mut set = |node: u32, field: usize, to| table[NODE * (node as usize - 1) + field] = to;
        set(self.parent, FC + self.coin as usize, self.child);
        set(self.child, CF, self.parent);
        set(self.child, W, self.w);
        Machine {
            record: self.record(stand, position),
            mem,
            table,
        }
    }

    /// At the child with so many waits left: pc has moved exactly if none is.
    fn inside(&self, left: u32) -> Stand {
        let pc = if left == 0 { self.on } else { self.at };
        (pc, self.child, left)
    }

    /// The forward turns, each from where to where. A back turn leads from the
    /// second to the first: at w the qif itself is undone, below w a wait, and
    /// from 0 the last one, to which pc shrinks.
    fn turns(&self) -> Vec<(&'static str, Stand, Stand)> {
        let entry = (self.at, self.parent, 0);
        let mut all = vec![("entry", entry, self.inside(self.w))];
        for count in counts().into_iter().filter(|count| *count <= self.w) {
            let kind = match count {
                1 => "last wait",
                _ if count == self.w => "first wait",
                _ => "wait between",
            };
            let from = (self.at, self.child, count);
            all.push((kind, from, self.inside(count - 1)));
        }
        all
    }

    /// Where the count is above w: a turn either way gives 14.
    fn too_many(&self) -> Vec<Stand> {
        let above = counts().into_iter().filter(|count| *count > self.w);
        above.map(|count| (self.at, self.child, count)).collect()
    }
}

/// An accepted turn that changes no word.
fn accepted(record: Record) -> Preview {
    Preview {
        refusal: 0,
        changes: 0,
        address: 0,
        value: 0,
        record,
    }
}

fn by_wait(way: Way, kind: &str, w: u32) -> String {
    format!("{way:?} {kind}, w {w}")
}

fn by_node(way: Way, kind: &str, n: u32, coin: u32) -> String {
    format!("{way:?} {kind}, N {n}, coin {coin}")
}

/// Where a forward turn takes the position, and a back turn takes it back.
const POSITIONS: [(i64, i64); 3] = [(-1, 0), (i64::MIN, i64::MIN + 1), (i64::MAX - 1, i64::MAX)];

/// The turns of one qif, previewed both ways.
fn previews(qif: &Qif, cover: &mut Cover) {
    let mut one = |way: Way, kind: &str, from: Stand, position: i64, expected: Preview| {
        let (shown, _) = one_preview(way, &qif.machine(from, position), cover);
        assert_eq!(shown, expected, "{way:?} {kind} from {from:?}, {qif:?}");
        cover.count(&by_wait(way, kind, qif.w));
        cover.count(&by_node(way, kind, qif.n, qif.coin));
    };
    for (kind, from, to) in qif.turns() {
        for (low, high) in POSITIONS {
            let (before, after) = (qif.record(from, low), qif.record(to, high));
            one(Way::Forward, kind, from, low, accepted(after));
            one(Way::Back, kind, to, high, accepted(before));
        }
        for (way, stand) in WAYS.into_iter().zip([from, to]) {
            let last = way.last_position();
            let shown = refused(21, &qif.record(stand, last));
            one(way, "last position", stand, last, shown);
        }
    }
    for from in qif.too_many() {
        for way in WAYS {
            one(way, "above w", from, 0, refused(14, &qif.record(from, 0)));
        }
    }
}

/// The kinds of turns, and the smallest and the largest w that have them.
const KINDS: [(&str, u32, u32); 6] = [
    ("entry", 0, u32::MAX),
    ("first wait", 2, u32::MAX),
    ("wait between", 3, u32::MAX),
    ("last wait", 1, u32::MAX),
    ("last position", 0, u32::MAX),
    ("above w", 0, u32::MAX - 1),
];

/// Fails if a kind was not met with a w, or not with an N and a coin.
fn demand_kinds(way: Way, cover: &Cover) {
    for (kind, least, most) in KINDS {
        for w in WAITS.into_iter().filter(|w| (least..=most).contains(w)) {
            cover.demand(&[&by_wait(way, kind, w)]);
        }
        for (n, ..) in NODES {
            let names = COINS.map(|coin| by_node(way, kind, n, coin));
            cover.demand(&names.each_ref().map(String::as_str));
        }
    }
}

#[test]
fn of_every_length() {
    let mut cover = Cover::default();
    for qif in qifs() {
        previews(&qif, &mut cover);
    }
    cover.summary(&by_callers("waits of every length"));
    for way in WAYS {
        demand_kinds(way, &cover);
    }
}
