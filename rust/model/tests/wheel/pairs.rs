//! All pairs of bytes, as given sample and sample and as two samples.

use crank_model::compare::same_samples;
use crank_model::cover::Cover;
use crank_model::instruction::{word_i, BR, FINISH, PC, START};
use crank_model::machine::{Record, NODE};
use crank_model::state::{Machine, WAYS};
use crank_model::walks::beside;

use super::{count, CALLS};

/// In the middle of a program with two turns to either end, each of which
/// exchanges a data word; more is lent than is counted.
fn middle() -> Machine {
    let exchanges = [5, 6, 7, 8].map(|address| word_i(1, 4, address));
    let mut record = Record {
        k: 5,
        m: 9,
        n: 1,
        ..Record::default()
    };
    record.regs = std::array::from_fn(|reg| 100 + reg as u32);
    record.regs[PC] = 2;
    record.regs[BR] = 0;
    let end_and_data = [FINISH, 10, 11, 12, 13];
    let excess = [START, FINISH, 14];
    Machine {
        record,
        mem: [&exchanges[..], &end_and_data, &excess].concat(),
        table: vec![7; NODE + 4],
    }
}

fn bytes() -> impl Iterator<Item = u8> {
    0..=255
}

/// Compares both proved calls with the model.
fn compare(start: &Machine, given: u8, samples: &[u8], cover: &mut Cover) {
    let answers = CALLS.map(|call| same_samples(&mut start.clone(), given, samples, call));
    count(cover, given, samples, &answers[0]);
}

fn expect(cover: &Cover, cases: &[(&str, u64)]) {
    for (name, times) in cases {
        assert_eq!(cover.times(name), *times, "{name}");
    }
}

#[test]
fn given_and_sample() {
    let start = middle();
    let mut cover = Cover::default();
    for given in bytes() {
        for sample in bytes() {
            // The byte behind the list is not lent.
            let more = [sample, beside(sample % 4, WAYS[0])];
            compare(&start, given, &more[..1], &mut cover);
        }
    }
    cover.summary("all pairs of given sample and sample");
    expect(
        &cover,
        &[
            ("equal sample", 4),
            ("accepted forward", 4),
            ("accepted back", 4),
            ("refused turn", 0),
            ("19", 4),
            ("20 by a sample", 4 * 252),
            ("20 by the given one", 252 * 256),
            ("all samples taken", 12),
        ],
    );
}

#[test]
fn given_alone() {
    let start = middle();
    let mut cover = Cover::default();
    for given in bytes() {
        compare(&start, given, &[1; 2][..0], &mut cover);
    }
    cover.summary("given samples without a list");
    expect(
        &cover,
        &[("empty list", 256), ("20 by the given one", 252), ("19", 0)],
    );
}

/// Two samples at once, after an equal sample and after a turn either way.
#[test]
fn two_samples() {
    let start = middle();
    let mut cover = Cover::default();
    for given in 0..4 {
        let [along, against] = WAYS.map(|way| beside(given, way));
        for before in [&[][..], &[given], &[along], &[against]] {
            for (first, second) in bytes().flat_map(|a| bytes().map(move |b| (a, b))) {
                let samples = [before, &[first, second]].concat();
                compare(&start, given, &samples, &mut cover);
            }
        }
    }
    cover.summary("all pairs of samples");
    // One of the first four is two steps away, whatever comes second; behind
    // each of the other three so is one again.
    expect(
        &cover,
        &[
            ("19", 16 * (256 + 3)),
            ("20 by a sample", 16 * (252 * 256 + 3 * 252)),
            ("all samples taken", 16 * 9),
            ("20 by the given one", 0),
        ],
    );
    cover.demand(&[
        "equal sample",
        "bounce",
        "accepted forward",
        "accepted back",
        "refused turn",
        "turns before a 19 or 20",
        "last not the given one at a 19 or 20",
        "samples behind a 19 or 20",
    ]);
}
