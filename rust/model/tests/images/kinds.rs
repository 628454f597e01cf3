//! The two kinds: what each says of the position, files that are of one kind or
//! the other by their last byte, and kind 1 loaded and saved as kind 2.

use crank_model::cover::Cover;
use crank_model::image::{LoadCall, SaveCall, KINDS};
use crank_model::machine::Record;
use crank_model::positions::EDGES;
use crank_model::rng::{rounds, Rng};
use crank_model::state::Machine;

use super::proved::IMAGES;
use super::{by_callers, image_of, random_machine, same_load, same_save, sized};

type Calls = (&'static str, LoadCall, SaveCall);

/// Patterns of 64 bits: each bit alone and each alone missing, whole words, and
/// noise in one or both of them.
fn patterns(rng: &mut Rng) -> Vec<i64> {
    let mut all = EDGES.to_vec();
    all.extend((0..64).flat_map(|bit| [1 << bit, !(1 << bit)]));
    for _ in 0..rounds(500) {
        let noise = rng.next_u64() as i64;
        all.extend([noise, noise & 0xFFFF_FFFF, noise & !0xFFFF_FFFF]);
    }
    all
}

/// Every pattern is a position: kind 2 gives it back, kind 1 gives 0.
#[test]
fn every_pattern() {
    let mut rng = Rng::new(69);
    let mut cover = Cover::default();
    for position in patterns(&mut rng) {
        let mut machine = sized(&mut rng, 2, 1, 1);
        machine.record.position = position;
        let preface = rng.bytes(3);
        for (kind, expected) in KINDS.into_iter().zip([0, position]) {
            let file = image_of(kind, &machine, &preface);
            let (refusal, record) = same_load(&file, &[7; 2], &[7; 9], &mut cover);
            let expected = Record {
                position: expected,
                ..machine.record
            };
            assert_eq!((refusal, record), (0, expected));
        }
        cover.count(match (position as u32, position >> 32) {
            (0, 0) => "no word",
            (0, _) => "high word alone",
            (_, 0) => "low word alone",
            _ => "both words",
        });
    }
    cover.summary(&by_callers("patterns of the position"));
    cover.demand(&["no word", "high word alone", "low word alone", "both words"]);
}

/// Words whose end is a trailer of either kind, but for the last four bytes:
/// of kind 1 with M 1, K 1 and N 0, of kind 2 with M and K 96 and N 1.
fn of_either_kind(rng: &mut Rng) -> Vec<u32> {
    let mut words = rng.words(96 + 9);
    words.extend([520, 96, 96, 1]);
    // K and N of kind 1, which are registers of kind 2.
    words.extend([1, 0]);
    words.extend(rng.words(18));
    assert_eq!(4 * words.len(), 520 - 4);
    words
}

#[test]
fn by_the_last_byte() {
    let mut rng = Rng::new(70);
    let mut cover = Cover::default();
    let (mem, table) = ([7; 96], [7; 9]);
    for _ in 0..rounds(200) {
        let words = of_either_kind(&mut rng);
        let bytes: Vec<u8> = words.iter().flat_map(|word| word.to_le_bytes()).collect();
        let [first, second] = KINDS.map(|kind| {
            let file = [&bytes[..], &kind.mark].concat();
            same_load(&file, &mem, &table, &mut cover)
        });
        let low_and_high = [words[127], words[128]];
        let position = i64::from(low_and_high[0]) + (i64::from(low_and_high[1] as i32) << 32);
        let (r, s) = (first.1, second.1);
        assert_eq!((first.0, r.m, r.k, r.n, r.position), (0, 1, 1, 0, 0));
        assert_eq!((second.0, s.m, s.k, s.n), (0, 96, 96, 1));
        assert_eq!(s.position, position);
        // Where kind 2 has the position, kind 1 has node and wait.
        assert_eq!([r.qifv, r.qifw], low_and_high);
        assert_eq!([r.regs[14], r.regs[15]], [s.qifv, s.qifw]);
    }
    cover.summary(&by_callers("files of either kind"));
}

/// Loads into words of other values.
fn loaded(rng: &mut Rng, load: LoadCall, file: &[u8], like: &Machine) -> Machine {
    let (mut mem, mut table) = (rng.words(like.mem.len()), rng.words(like.table.len()));
    let (refusal, record) = load(file, &mut mem, &mut table);
    assert_eq!(refusal, 0);
    Machine { record, mem, table }
}

/// Loads the image of kind 1, saves it as kind 2 and loads that; gives what the
/// first load and the second came to.
fn saved_again(rng: &mut Rng, file: &[u8], like: &Machine, calls: &Calls) -> [Machine; 2] {
    let (_, load, save) = *calls;
    let first = loaded(rng, load, file, like);
    let mut out = vec![0; file.len() + 8];
    let refusal = save(first.record, &first.mem, &first.table, &mut out);
    assert_eq!(refusal, 0);
    // All but back is the same up to the position.
    let (back, end) = (file.len() - 92, file.len() - 4);
    assert_eq!(out[..back], file[..back]);
    assert_eq!(out[back + 4..end], file[back + 4..end]);
    assert_eq!(out[end..end + 8], [0; 8]);
    let second = loaded(rng, load, &out, like);
    [first, second]
}

/// A file of kind 1 is loaded, saved as kind 2 and loaded: the same state, with
/// position 0 and 8 bytes more.
#[test]
fn kind_1_saved_as_kind_2() {
    let mut rng = Rng::new(75);
    let mut cover = Cover::default();
    for _ in 0..rounds(5_000) {
        let machine = random_machine(&mut rng);
        let file = image_of(KINDS[0], &machine, &[]);
        let expected = Record {
            position: 0,
            ..machine.record
        };
        for calls in &IMAGES[1..] {
            let [first, second] = saved_again(&mut rng, &file, &machine, calls);
            assert_eq!([first.record, second.record], [expected; 2]);
            assert_eq!(first.counted(), machine.counted());
            assert_eq!(second.counted(), machine.counted());
            let out = rng.bytes(file.len() + 8);
            assert_eq!(same_save(&first, &out[..file.len()], &mut cover), 9);
            assert_eq!(same_save(&first, &out, &mut cover), 0);
        }
    }
    cover.summary(&by_callers("kind 1 saved as kind 2"));
    cover.demand(&["save 0", "save 9"]);
}
