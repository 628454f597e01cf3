//! Right hand-ins fit.

use crate::scratch::{Folder, Ran};
use crate::students::{beginning, exercises, file, kind, play, Counts};
use crank::{Kind, Machine};
use crank_model::rng::{rounds, Rng};

/// What the hand-ins were like.
#[derive(Debug, Default)]
struct Seen {
    net_forward: u32,
    net_back: u32,
    net_none: u32,
    refused: u32,
    larger_counts: u32,
    by_position: u32,
    from_a_position: u32,
}

impl Seen {
    fn count(&mut self, counts: Counts, more: u64) {
        self.net_back += u32::from(counts.forward > counts.back);
        self.net_forward += u32::from(counts.forward < counts.back);
        self.net_none += u32::from(counts.forward == counts.back && counts.forward > 0);
        self.refused += u32::from(counts.refused > 0);
        self.larger_counts += u32::from(more > 0);
    }
}

fn turns_line(counts: Counts) -> String {
    let net = counts.forward.abs_diff(counts.back);
    let s = if net == 1 { "" } else { "s" };
    match counts.forward.cmp(&counts.back) {
        std::cmp::Ordering::Greater => format!("{net} turn{s} back: all accepted"),
        std::cmp::Ordering::Less => format!("{net} turn{s} forward: all accepted"),
        std::cmp::Ordering::Equal => "no turn to make: as many forward as back".to_string(),
    }
}

fn mark(folder: &Folder, rng: &mut Rng, exercise: &Machine, seen: &mut Seen) {
    let (beginning, given) = beginning(rng, exercise);
    let mut hand_in = beginning.clone();
    let counts = play(rng, &mut hand_in);
    let kind = kind(rng);
    folder.write("exercise.img", given);
    folder.write("hand-in.img", file(rng, kind, &hand_in));
    // As many more of both come to the same.
    let more = rng.pick(&[0, 0, 1, 1 << 40, u64::MAX - counts.forward.max(counts.back)]);
    let forward = (counts.forward + more).to_string();
    let back = format!("{:#x}", counts.back + more);
    let ran = folder.mark(&["hand-in.img", &forward, &back, "--from", "exercise.img"]);
    let lines: Vec<&str> = ran.out.lines().collect();
    assert_eq!((ran.status, &ran.err[..], lines.len() >= 5), (0, "", true));
    assert_eq!((lines[0], lines[2]), (&turns_line(counts)[..], "fits"));
    assert_eq!(lines[1] == "stands at start", beginning.at_start());
    seen.count(counts, more);
    by_position(folder, kind, ran);
    seen.by_position += u32::from(kind == Kind::Two);
    seen.from_a_position += u32::from(beginning.record.position != 0);
}

/// Without counts the position says the same, if there is one.
fn by_position(folder: &Folder, kind: Kind, ran: Ran) {
    let alone = folder.mark(&["hand-in.img", "--from", "exercise.img"]);
    let due = match kind {
        Kind::One => Ran::fault("hand-in.img: has no position, so two counts are needed"),
        Kind::Two => ran,
    };
    assert_eq!(alone, due);
}

#[test]
fn right_hand_ins() {
    let folder = Folder::new("right");
    let mut rng = Rng::new(101);
    let mut seen = Seen::default();
    let exercises = exercises(&mut rng, rounds(60));
    let lists = 8;
    for exercise in &exercises {
        for _ in 0..lists {
            mark(&folder, &mut rng, exercise, &mut seen);
        }
    }
    let marked = exercises.len() * lists;
    println!(
        "right: {marked} hand-ins of {} exercises fit: {seen:?}",
        exercises.len()
    );
    for count in [
        seen.net_forward,
        seen.net_back,
        seen.net_none,
        seen.refused,
        seen.larger_counts,
        seen.by_position,
        seen.from_a_position,
    ] {
        assert!(count > 0, "{seen:?}");
    }
}
