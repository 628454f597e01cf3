//! Whole reports on hand-ins of the examples.

use crate::scratch::{example, examples, Folder, Ran};
use crank::{Direction, Kind, Machine};

/// The example after some turns.
pub fn after(name: &str, turns: u64) -> Machine {
    let mut machine = example(name);
    let made = machine.turns(Direction::Forward, turns);
    assert_eq!((made.turns, made.refusal), (turns, 0));
    machine
}

/// Marks the hand-in, against the example of this name if one is given. It has no position; where its
/// counts are right, one with a position gives the same report, with and without counts.
fn mark(hand_in: &Machine, forward: u64, back: u64, from: Option<&str>) -> Ran {
    let folder = Folder::new(&format!("case-{:?}", std::thread::current().id()));
    let image = |kind| hand_in.save_as(kind).expect("an image");
    folder.write("old.img", image(Kind::One));
    folder.write("new.img", image(Kind::Two));
    let from = from.map(|name| ["--from".into(), examples().join(name).display().to_string()]);
    let from: Vec<String> = from.into_iter().flatten().collect();
    let counts = [forward.to_string(), back.to_string()];
    let report = folder.mark(&[&["old.img".into()], &counts[..], &from].concat());
    if i128::from(hand_in.record.position) == i128::from(forward) - i128::from(back) {
        let new = folder.mark(&[&["new.img".into()], &counts[..], &from].concat());
        assert_eq!(new, report);
        assert_eq!(
            folder.mark(&[&["new.img".into()], &from[..]].concat()),
            report
        );
    }
    report
}

#[test]
fn loop_in_the_middle() {
    let report = "\
7 turns back: all accepted
stands at start
fits
the hand-in does not stand at finish; 28 turns more lead there
left changed between start and finish: r2 0 -> 5, r3 0 -> 15
";
    for from in ["loop.img", "loop.qasm"] {
        let ran = mark(&after("loop", 7), 10, 3, Some(from));
        assert_eq!(ran, Ran::quiet(0, report));
    }
}

#[test]
fn clean() {
    let report = "\
16 turns back: all accepted
stands at start
fits
the hand-in stands at finish
left changed between start and finish: r3 0 -> 50
";
    let ran = mark(&after("clean", 16), 16, 0, Some("clean.img"));
    assert_eq!(ran, Ran::quiet(0, report));
}

#[test]
fn unclean() {
    let report = "\
9 turns back: all accepted
stands at start
fits
the hand-in stands at finish
left changed between start and finish: r1 0 -> 6, r2 0 -> 7, r3 0 -> 50,
  r4 0 -> 50, r5 0 -> 12, data word 10 6 -> 0, data word 11 7 -> 0,
  data word 12 0 -> 42
";
    let ran = mark(&after("unclean", 9), 9, 0, Some("unclean.img"));
    assert_eq!(ran, Ran::quiet(0, report));
}

/// start, xori r1, 5 twice, finish.
#[test]
fn nothing_left() {
    let code = vec![0x1A00_0000, 0x0240_0005, 0x0240_0005, 0x1B00_0000];
    let report = "\
no turn to make: as many forward as back
stands at start
comes back to start
not 0: nothing
the hand-in does not stand at finish; 3 turns more lead there
left changed between start and finish: nothing but pc
";
    let ran = mark(&Machine::new(4, code, Vec::new()), 8, 8, None);
    assert_eq!(ran, Ran::quiet(0, report));
}

#[test]
fn in_a_wait() {
    let report = "\
3 turns back: all accepted
stands at start
comes back to start
not 0: node = 1
the hand-in does not stand at finish; 6 turns more lead there
left changed between start and finish: r2 0 -> 1
";
    let hand_in = after("qif_wait0", 3);
    assert_eq!((hand_in.record.qifv, hand_in.record.qifw), (2, 1));
    assert_eq!(mark(&hand_in, 3, 0, None), Ran::quiet(0, report));
}

#[test]
fn large_and_negative_words() {
    let report = "\
11 turns forward: all accepted
does not stand at start
does not come back to start
not 0: pc = 11, r1 = 12, r3 = 4294967295 (0xffffffff, -1), r4 = 361, r5 = 42,
  data word 14 = 30
the hand-in does not stand at finish; 12 turns more lead there
left changed between start and finish: cannot be told, since it does not stand at start
";
    let ran = mark(&example("straight"), 0, 11, None);
    assert_eq!(ran, Ran::quiet(1, report));
}

#[test]
fn a_turn_too_many() {
    let report = "\
turn 36 of 36 back was refused by 12: pc is at start
stands at start
does not fit: not every turn was accepted, though nothing differs
the hand-in stands at finish
left changed between start and finish: r2 0 -> 5, r3 0 -> 15
";
    let ran = mark(&after("loop", 35), 40, 4, Some("loop.img"));
    assert_eq!(ran, Ran::quiet(1, report));
    let report = report.replace(
        "does not fit: not every turn was accepted, though nothing differs",
        "does not come back to start: not every turn was accepted\nnot 0: nothing",
    );
    let ran = mark(&after("loop", 35), 40, 4, None);
    assert_eq!(ran, Ran::quiet(1, report));
}

#[test]
fn a_turn_too_few() {
    let report = "\
34 turns back: all accepted
does not stand at start
does not fit: 1 difference
  pc expected 0, found 1
the hand-in stands at finish
left changed between start and finish: cannot be told, since it does not stand at start
";
    let ran = mark(&after("loop", 35), 34, 0, Some("loop.img"));
    assert_eq!(ran, Ran::quiet(1, report));
}

/// A count that only a refusal ends.
#[test]
fn the_largest_count() {
    let first = "turn 36 of 18446744073709551615 back was refused by 12: pc is at start";
    let ran = mark(&after("loop", 35), u64::MAX, 0, Some("loop.img"));
    assert_eq!((ran.status, ran.out.lines().next()), (1, Some(first)));
    let first = "turn 36 of 18446744073709551615 forward was refused by 12: pc is at finish";
    let ran = mark(&example("loop"), 0, u64::MAX, Some("loop.img"));
    assert_eq!((ran.status, ran.out.lines().next()), (1, Some(first)));
}

#[test]
fn no_finish() {
    let mut hand_in = after("loop", 35);
    // In place of finish: ld r1 from address 0, a code word.
    hand_in.mem[9] = 0x0140_0000;
    let report = "\
35 turns back: all accepted
stands at start
does not fit: 1 difference
  code word 9 expected finish (0x1b000000), found ld r1, 0 (0x01400000)
the hand-in does not stand at finish; turn 1 from there is refused by 15: \
the address is not in K to M-1 (ld, ldr) or not below M (fetr)
left changed between start and finish: cannot be told, since finish is not reached
";
    let ran = mark(&hand_in, 35, 0, Some("loop.img"));
    assert_eq!(ran, Ran::quiet(1, report));
}

/// Two jumps, each the other's landing: for ever.
#[test]
fn no_end() {
    let code = vec![0x1A00_0000, 0x0340_0001, 0x0500_FFFF, 0x0500_FFFF];
    let mut hand_in = Machine::new(4, code, Vec::new());
    // Where no start leads.
    hand_in.record.regs[0] = 3;
    let ran = mark(&hand_in, 1, 1, None);
    let report = "\
no turn to make: as many forward as back
does not stand at start
does not come back to start
not 0: pc = 3
the hand-in does not stand at finish, nor do 1000000 turns more lead there
left changed between start and finish: cannot be told, since it does not stand at start
";
    assert_eq!(ran, Ran::quiet(1, report));
}

/// Each kind of difference by its name.
#[test]
fn every_kind_of_place() {
    let mut hand_in = after("qif_wait0", 3);
    let r = &mut hand_in.record;
    (r.k, r.m, r.n) = (r.k - 1, r.m + 1, r.n + 1);
    (r.regs[1], r.regs[15], r.qifv, r.qifw) = (9, 70_000, 7, 2);
    hand_in.mem[0] ^= 1;
    hand_in.mem.push(3);
    hand_in.table[9 * 2 + 8] = 5;
    hand_in.table.extend([0, 0, 0, 0, 0, 0, 0, 8, 0]);
    let ran = mark(&hand_in, 0, 0, Some("qif_wait0.img"));
    let report = "\
no turn to make: as many forward as back
does not stand at start
does not fit: 20 differences
  K expected 12, found 11
  M expected 12, found 13
  N expected 4, found 5
  pc expected 0, found 1
  br expected 0, found 9
  r12 expected 0, found 70000 (0x11170)
  node expected 1, found 7
  wait expected 0, found 2
  code word 0 expected start (0x1a000000), found 436207617, no instruction (0x1a000001)
  data word 12 expected none, found 3
  node 3 w expected 0, found 5
";
    assert_eq!((ran.status, &ran.out[..report.len()]), (1, report));
    let more = ran.out[report.len()..].lines();
    let nodes: Vec<&str> = more.filter(|line| line.starts_with("  ")).collect();
    assert_eq!(
        (nodes.len(), nodes[0]),
        (9, "  node 5 fc0 expected none, found 0")
    );
    assert_eq!(nodes[7], "  node 5 pr expected none, found 8");
}

/// Counts that 32 bits can't hold.
#[test]
fn counts_over_32_bits() {
    let hand_in = after("loop", 7);
    let cases = [
        (
            1 << 32,
            0,
            "turn 8 of 4294967296 back",
            12,
            "pc is at start",
        ),
        (
            0,
            1 << 32,
            "turn 29 of 4294967296 forward",
            12,
            "pc is at finish",
        ),
        (
            1 << 40,
            1,
            "turn 8 of 1099511627775 back",
            12,
            "pc is at start",
        ),
        (
            u64::MAX,
            0,
            "turn 8 of 18446744073709551615 back",
            12,
            "pc is at start",
        ),
    ];
    for (forward, back, turn, refusal, why) in cases {
        let ran = mark(&hand_in, forward, back, Some("loop.img"));
        let line = format!("{turn} was refused by {refusal}: {why}");
        let found = (ran.status, ran.out.lines().next());
        assert_eq!(found, (1, Some(&line[..])), "{forward} {back}");
    }
    println!("cases: {} counts over 32 bits", cases.len());
}
