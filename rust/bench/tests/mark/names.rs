//! Lists of hand-ins with a position: names alone, and names with counts.

use crate::cases::after;
use crate::scratch::{examples, Folder, Ran};
use crank::Kind;

/// The loop after 7 turns, with its position under several names, with others, and without.
fn hand_ins(folder: &Folder) {
    let write = |name: &str, position: i64, kind: Kind| {
        let mut machine = after("loop", 7);
        machine.record.position = position;
        folder.write(name, machine.save_as(kind).expect("an image"));
    };
    for name in ["a.img", "group 4, exercise 4.img", "ends in 4", "name"] {
        write(name, 7, Kind::Two);
    }
    write("more.img", 8, Kind::Two);
    write("far.img", i64::MIN, Kind::Two);
    write("old.img", 7, Kind::One);
}

/// What a line of the list should give.
const LINES: [(&str, &str); 20] = [
    ("NAME", ""),
    ("a.img", "a.img: fits; not at finish"),
    ("\"a.img\"", "a.img: fits; not at finish"),
    ("  a.img , ; ", "a.img: fits; not at finish"),
    ("\"a.img\",\"\",\"\"", "a.img: fits; not at finish"),
    ("a.img 7 0", "a.img: fits; not at finish"),
    ("a.img;0x17;16", "a.img: fits; not at finish"),
    (
        "group 4, exercise 4.img",
        "group 4, exercise 4.img: fits; not at finish",
    ),
    ("\"ends in 4\"", "ends in 4: fits; not at finish"),
    // A heading stands before all others.
    ("name", "name: fits; not at finish"),
    (
        "ends in 4",
        "line 11: cannot be marked: count in is no number from 0 to 18446744073709551615",
    ),
    (
        "a.img 8 0",
        "a.img: does not fit: turn 8 of 8 back was refused by 12: pc is at start; \
         position and counts disagree: by the position 7 turns back, by the counts 8",
    ),
    (
        "a.img 0 1",
        "a.img: does not fit: pc expected 0, found 2; and 5 more; \
         position and counts disagree: by the position 7 turns back, by the counts 1 turn forward",
    ),
    (
        "more.img",
        "more.img: does not fit: turn 8 of 8 back was refused by 12: pc is at start",
    ),
    (
        "more.img 7 0",
        "more.img: does not fit: position expected 0, found 1; \
         position and counts disagree: by the position 8 turns back, by the counts 7",
    ),
    (
        "far.img",
        "far.img: cannot be marked: net count 9223372036854775808 is more than the 1000000000 \
         that a list turns",
    ),
    (
        "old.img",
        "old.img: cannot be marked: has no position, so two counts are needed",
    ),
    ("old.img 7 0", "old.img: fits; not at finish"),
    (
        "a.img seven -1",
        "a.img seven -1: cannot be marked: No such file or directory",
    ),
    (
        "a.img 18446744073709551616 18446744073709551616",
        "line 20: cannot be marked: count 18446744073709551616 is no number \
         from 0 to 18446744073709551615",
    ),
];

#[test]
fn names_alone_and_with_counts() {
    let folder = Folder::new("names");
    hand_ins(&folder);
    folder.write("list", LINES.map(|(line, _)| format!("{line}\n")).concat());
    let from = examples().join("loop.img").display().to_string();
    let said: String = LINES[1..]
        .iter()
        .map(|(_, said)| format!("{said}\n"))
        .collect();
    let summary = "19 hand-ins: 10 fit, 4 do not fit, 5 cannot be marked\n";
    let ran = folder.mark(&["--list", "list", "--from", &from]);
    assert_eq!(ran, Ran::quiet(1, said + summary));
    println!("names: {} lines of a list", LINES.len());
}

/// Before the first hand-in a line may name the columns; `names` does not.
#[test]
fn headings() {
    let folder = Folder::new("headings");
    hand_ins(&folder);
    let fits = "a.img: comes back to start; not at finish\n\
                1 hand-in: 1 comes back to start, 0 do not, 0 cannot be marked\n";
    for heading in [
        "name",
        "\"Name\"",
        "\"name\",\"\"",
        "name,,",
        "x forward back",
    ] {
        folder.write("list", format!("\n# list\n{heading}\na.img\n"));
        let ran = folder.mark(&["--list", "list"]);
        assert_eq!(ran, Ran::quiet(0, fits), "{heading}");
    }
    folder.write("list", "names\na.img\n");
    let ran = folder.mark(&["--list", "list"]);
    let line = "names: cannot be marked: No such file or directory";
    assert_eq!((ran.status, ran.out.lines().next()), (1, Some(line)));
}

/// Without a beginning it is the position 0, and a position left over is no difference.
#[test]
fn without_a_beginning() {
    let folder = Folder::new("names-start");
    hand_ins(&folder);
    folder.write("list", "a.img\nmore.img 7 0\nmore.img\n");
    let report = "\
a.img: comes back to start; not at finish
more.img: comes back to start; not at finish; \
position and counts disagree: by the position 8 turns back, by the counts 7
more.img: does not come back to start: turn 8 of 8 back was refused by 12: pc is at start
3 hand-ins: 2 come back to start, 1 does not, 0 cannot be marked
";
    let ran = folder.mark(&["--list", "list"]);
    assert_eq!(ran, Ran::quiet(1, report));
}
