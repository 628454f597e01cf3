//! Hand-ins with a position: whole reports by it, and where it says something else than the counts.

use crate::cases::after;
use crate::scratch::{example, Folder, Ran};
use crank::{Kind, Machine};

fn at(machine: &Machine, position: i64) -> Machine {
    let mut machine = machine.clone();
    machine.record.position = position;
    machine
}

/// Marks a hand-in from a beginning, both with their positions; the arguments stand between.
fn mark(name: &str, hand_in: &Machine, counts: &[&str], beginning: &Machine) -> Ran {
    let folder = Folder::new(name);
    folder.write("out.img", hand_in.save().expect("an image"));
    folder.write("begun.img", beginning.save().expect("an image"));
    folder.mark(&[&["out.img"], counts, &["--from", "begun.img"]].concat())
}

/// The lines behind those on turns, start and verdict.
const REST: &str = "\
the hand-in does not stand at finish; 28 turns more lead there
left changed between start and finish: r2 0 -> 5, r3 0 -> 15
";
const NO_START: &str = "\
the hand-in does not stand at finish; 28 turns more lead there
left changed between start and finish: cannot be told, since it does not stand at start
";

/// From any beginning the difference counts, however large the positions are.
#[test]
fn from_any_position() {
    let fits = format!("7 turns back: all accepted\nstands at start\nfits\n{REST}");
    for first in [0, 3, -3, -7, 1 << 40, i64::MIN, i64::MAX - 36] {
        let beginning = at(&example("loop"), first);
        let hand_in = at(&after("loop", 7), first + 7);
        for counts in [&[][..], &["7", "0"], &["10", "3"]] {
            let ran = mark("from-any", &hand_in, counts, &beginning);
            assert_eq!(ran, Ran::quiet(0, &fits), "{first} {counts:?}");
        }
    }
}

/// The beginning stands behind the hand-in: it is turned forward.
#[test]
fn forward_to_the_beginning() {
    let (hand_in, beginning) = (after("loop", 3), after("loop", 7));
    let report = "4 turns forward: all accepted\ndoes not stand at start\nfits\n";
    let ran = mark("forward", &hand_in, &[], &beginning);
    let rest = NO_START.replace("28", "32");
    assert_eq!(ran, Ran::quiet(0, format!("{report}{rest}")));
    let none = mark("none", &hand_in, &[], &hand_in);
    let report = "no turn to make: as many forward as back\ndoes not stand at start\nfits\n";
    assert_eq!(none, Ran::quiet(0, format!("{report}{rest}")));
}

/// Without a beginning it is the position 0.
#[test]
fn without_a_beginning() {
    let folder = Folder::new("no-beginning");
    for (position, status, first) in [
        (7, 0, "7 turns back: all accepted"),
        (8, 1, "turn 8 of 8 back was refused by 12: pc is at start"),
        (-28, 1, "28 turns forward: all accepted"),
        (0, 1, "no turn to make: as many forward as back"),
    ] {
        let hand_in = at(&after("loop", 7), position);
        folder.write("out.img", hand_in.save().expect("an image"));
        let ran = folder.mark(&["out.img"]);
        let found = (ran.status, ran.out.lines().next());
        assert_eq!(found, (status, Some(first)), "{position}");
        assert!(!ran.out.contains("position"), "{}", ran.out);
    }
}

/// Of the loop after 7 turns: a position, two counts, what both say, and what else is said.
type Case = (i64, [&'static str; 2], [&'static str; 2], &'static str);

const CASES: [Case; 10] = [
    (
        7,
        ["8", "0"],
        ["7 turns back", "8"],
        "turn 8 of 8 back was refused by 12: pc is at start",
    ),
    (
        7,
        ["1", "1"],
        ["7 turns back", "0"],
        "  pc expected 0, found 7",
    ),
    (
        7,
        ["0", "1"],
        ["7 turns back", "1 turn forward"],
        "  position expected 0, found 8",
    ),
    (
        6,
        ["7", "0"],
        ["6 turns back", "7"],
        "  position expected 0, found -1",
    ),
    (
        1,
        ["7", "0"],
        ["1 turn back", "7"],
        "  position expected 0, found -6",
    ),
    (
        0,
        ["7", "0"],
        ["0 turns back", "7"],
        "  position expected 0, found -7",
    ),
    (
        -1,
        ["7", "0"],
        ["1 turn forward", "7 turns back"],
        "  position expected 0, found -8",
    ),
    (
        i64::MAX,
        ["7", "0"],
        ["9223372036854775807 turns back", "7"],
        "  position expected 0, found 9223372036854775800",
    ),
    (
        i64::MIN,
        ["7", "0"],
        ["9223372036854775808 turns forward", "7 turns back"],
        "turn 1 of 7 back was refused by 21: the position is the smallest",
    ),
    (
        -3,
        ["0", "18446744073709551615"],
        ["3 turns forward", "18446744073709551615"],
        "turn 29 of 18446744073709551615 forward was refused by 12: pc is at finish",
    ),
];

/// It goes on by the counts, and a position that does not come back is a difference.
#[test]
fn position_and_counts_disagree() {
    for (position, counts, [by_position, by_counts], line) in CASES {
        let hand_in = at(&after("loop", 7), position);
        let ran = mark("disagree", &hand_in, &counts, &example("loop"));
        let lines: Vec<&str> = ran.out.lines().collect();
        let first = format!(
            "position and counts disagree: by the position {by_position}, by the counts {by_counts}"
        );
        assert_eq!((ran.status, &ran.err[..], lines[0]), (1, "", &first[..]));
        assert!(lines.contains(&line), "{position}: {}", ran.out);
    }
}

#[test]
fn the_whole_report_of_a_disagreement() {
    let report = "\
position and counts disagree: by the position 8 turns back, by the counts 7
7 turns back: all accepted
stands at start
does not fit: 1 difference
  position expected 5, found 6
";
    let (hand_in, beginning) = (at(&after("loop", 7), 13), at(&example("loop"), 5));
    let ran = mark("whole", &hand_in, &["9", "2"], &beginning);
    assert_eq!(ran, Ran::quiet(1, format!("{report}{REST}")));
}

/// Two jumps, each the other's landing, come round again: counts that are wrong by a round fit where
/// no position says otherwise.
#[test]
fn a_round_too_many() {
    let code = vec![0x1A00_0000, 0x0340_0001, 0x0500_FFFF, 0x0500_FFFF];
    let mut beginning = Machine::new(4, code, Vec::new());
    beginning.record.regs[0] = 3;
    let mut hand_in = beginning.clone();
    let round = (1..).find(|_| {
        assert_eq!(hand_in.turn(crank::Direction::Forward), 0);
        at(&hand_in, 0) == beginning
    });
    let counts = [2 * round.expect("a round"), 0].map(|count| count.to_string());
    let counts = counts.each_ref().map(String::as_str);
    let folder = Folder::new("round");
    folder.write("begun.img", beginning.save().expect("an image"));
    for (kind, status) in [(Kind::One, 0), (Kind::Two, 1)] {
        folder.write("out.img", hand_in.save_as(kind).expect("an image"));
        let arguments = [&["out.img"], &counts[..], &["--from", "begun.img"]].concat();
        let ran = folder.mark(&arguments);
        assert_eq!((ran.status, &ran.err[..]), (status, ""), "{}", ran.out);
    }
}

/// A hand-in without a position is not compared in it, wherever its beginning stands.
#[test]
fn a_beginning_alone_has_a_position() {
    let folder = Folder::new("beginning-alone");
    let old = after("loop", 7).save_as(Kind::One).expect("an image");
    folder.write("old.img", old);
    let beginning = at(&example("loop"), 5).save().expect("an image");
    folder.write("begun.img", beginning);
    let ran = folder.mark(&["old.img", "7", "0", "--from", "begun.img"]);
    let report = format!("7 turns back: all accepted\nstands at start\nfits\n{REST}");
    assert_eq!(ran, Ran::quiet(0, report));
}

/// Sources have a position where they name one.
#[test]
fn sources() {
    let folder = Folder::new("sources");
    let source = "start\nxori r1, 5\nfinish\n";
    folder.write("begun.qasm", format!("{source}.position -4\n"));
    folder.write(
        "out.qasm",
        format!("{source}.reg pc 2\n.reg r1 5\n.position -2\n"),
    );
    folder.write("none.qasm", format!("{source}.reg pc 2\n.reg r1 5\n"));
    let report = "\
2 turns back: all accepted
stands at start
fits
the hand-in stands at finish
left changed between start and finish: r1 0 -> 5
";
    let marked = |name: &str| folder.mark(&[name, "--from", "begun.qasm"]);
    assert_eq!(marked("out.qasm"), Ran::quiet(0, report));
    let fault = "none.qasm: has no position, so two counts are needed";
    assert_eq!(marked("none.qasm"), Ran::fault(fault));
}

/// At the largest position the hand-in can't be run on, and still it is told where it stands.
#[test]
fn at_the_largest_position() {
    let report = "7 turns back: all accepted\nstands at start\nfits\n";
    let beginning = at(&example("loop"), i64::MAX - 7);
    let ran = mark("largest", &at(&after("loop", 7), i64::MAX), &[], &beginning);
    let rest = "\
the hand-in does not stand at finish; turn 1 from there is refused by 21: \
the position is the largest
left changed between start and finish: cannot be told, since finish is not reached
";
    assert_eq!(ran, Ran::quiet(0, format!("{report}{rest}")));
    let beginning = at(&example("loop"), i64::MAX - 35);
    let ran = mark("finish", &at(&after("loop", 35), i64::MAX), &[], &beginning);
    let report = report.replace("7 turns", "35 turns");
    let rest = "\
the hand-in stands at finish
left changed between start and finish: r2 0 -> 5, r3 0 -> 15
";
    assert_eq!(ran, Ran::quiet(0, format!("{report}{rest}")));
}
