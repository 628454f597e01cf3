//! Lists of hand-ins without a position: a line for each in its order, and a summary.

use crate::scratch::{example, examples, Folder, Ran};
use crank::{Direction, Kind, Machine};

/// The hand-ins: the loop after 7 turns, and spoilt in one way each.
fn hand_ins(folder: &Folder) {
    let mut hand_in = example("loop");
    hand_in.turns(Direction::Forward, 7);
    let write = |name: &str, spoil: fn(&mut Machine)| {
        let mut machine = hand_in.clone();
        spoil(&mut machine);
        folder.write(name, machine.save_as(Kind::One).expect("an image"));
    };
    write("right.img", |_| {});
    write("group 4, exercise 3.img", |_| {});
    write("0.img", |_| {});
    write("start.img", |m| {
        m.turns(Direction::Back, 7);
    });
    write("finish.img", |m| {
        m.turns(Direction::Forward, 28);
    });
    write("register.img", |m| m.record.regs[6] += 2);
    write("registers.img", |m| m.record.regs[8..].fill(65_536));
    write("pc.img", |m| m.record.regs[0] = 77);
    write("node.img", |m| m.record.qifv = 4);
    write("wait.img", |m| m.record.qifw = 3);
    write("code.img", |m| m.mem[9] = u32::MAX);
    write("data.img", |m| {
        m.record.m += 1;
        m.mem.push(1);
    });
    write("table.img", |m| {
        m.record.n += 1;
        m.table.extend([0; 9]);
    });
    let image = hand_in.save_as(Kind::One).expect("an image");
    folder.write("preface.img", [b"by hand", &image[..]].concat());
    folder.write("cut.img", &image[9..]);
    folder.write("more.img", [&image[..], b"\n"].concat());
    folder.write("short.img", &image[..50]);
    std::fs::create_dir_all(folder.path().join("folder")).expect("a folder can be made");
    folder.write("folder/inner.img", image);
}

/// What a line of the list should give.
const LINES: [(&str, &str); 39] = [
    ("Name, Forward, \"Back\"", ""),
    (
        "\"right.img\",\"7\",\"0\"",
        "right.img: fits; not at finish",
    ),
    ("start.img 5 5", "start.img: fits; at start"),
    (
        "finish.img 35 0",
        "finish.img: fits; at finish, left changed: r2, r3",
    ),
    ("\"right.img\";7;0", "right.img: fits; not at finish"),
    ("\"right.img\", 7, 0", "right.img: fits; not at finish"),
    ("right.img 7 0", "right.img: fits; not at finish"),
    ("right.img,10,3", "right.img: fits; not at finish"),
    (
        "  right.img\t0x107 , 0x100  ",
        "right.img: fits; not at finish",
    ),
    ("# right.img 7 1", ""),
    ("", ""),
    (
        "group 4, exercise 3.img 7 0",
        "group 4, exercise 3.img: fits; not at finish",
    ),
    ("0.img 7 0", "0.img: fits; not at finish"),
    ("preface.img 7 0", "preface.img: fits; not at finish"),
    (
        "folder/inner.img 7 0",
        "folder/inner.img: fits; not at finish",
    ),
    (
        "right.img 18446744073709551615 18446744073709551608",
        "right.img: fits; not at finish",
    ),
    (
        "right.img 6 0",
        "right.img: does not fit: pc expected 0, found 1",
    ),
    (
        "right.img 5 0",
        "right.img: does not fit: pc expected 0, found 2; and 1 more",
    ),
    (
        "right.img 8 0",
        "right.img: does not fit: turn 8 of 8 back was refused by 12: pc is at start",
    ),
    (
        "right.img 0 300",
        "right.img: does not fit: turn 29 of 300 forward was refused by 12: pc is at finish",
    ),
    (
        "right.img 0 28",
        "right.img: does not fit: pc expected 0, found 9; and 2 more",
    ),
    (
        "register.img 7 0",
        "register.img: does not fit: r3 expected 0, found 2",
    ),
    (
        "registers.img 7 0",
        "registers.img: does not fit: r5 expected 0, found 65536 (0x10000); and 7 more",
    ),
    (
        "pc.img 7 0",
        "pc.img: does not fit: turn 1 of 7 back was refused by 11: \
         no code word stands where a word would be undone",
    ),
    (
        "node.img 7 0",
        "node.img: does not fit: node expected 0, found 4",
    ),
    (
        "wait.img 7 0",
        "wait.img: does not fit: turn 1 of 7 back was refused by 14: \
         a wait is left, but not at a qif or above the w of the node",
    ),
    (
        "code.img 7 0",
        "code.img: does not fit: code word 9 expected finish (0x1b000000), \
         found 4294967295, no instruction (0xffffffff)",
    ),
    (
        "data.img 7 0",
        "data.img: does not fit: M expected 10, found 11; and 1 more",
    ),
    (
        "table.img 7 0",
        "table.img: does not fit: N expected 0, found 1; and 9 more",
    ),
    (
        "missing.img 7 0",
        "missing.img: cannot be marked: No such file or directory",
    ),
    ("folder 7 0", "folder: cannot be marked: Is a directory"),
    (
        "short.img 7 0",
        "short.img: cannot be marked: refused by 1: \
         the file is shorter than the trailer of an image or longer than 65536 bytes",
    ),
    (
        "more.img 7 0",
        "more.img: cannot be marked: refused by 2: \
         the last four bytes are not those of an image; a source has a name that ends in .qasm",
    ),
    (
        "cut.img 7 0",
        "cut.img: cannot be marked: refused by 5: \
         the file is shorter than the image that it should hold",
    ),
    (
        "right.img 7",
        "line 35: cannot be marked: a name and two counts are needed",
    ),
    (
        "right.img seven 0",
        "line 36: cannot be marked: count seven is no number from 0 to 18446744073709551615",
    ),
    (
        "right.img 7 -1",
        "line 37: cannot be marked: count -1 is no number from 0 to 18446744073709551615",
    ),
    (
        "right.img 1000000001 0",
        "right.img: cannot be marked: net count 1000000001 is more than the 1000000000 \
         that a list turns",
    ),
    ("right.img 7 0", "right.img: fits; not at finish"),
];

fn list(end: &str) -> String {
    LINES.map(|(line, _)| format!("{line}{end}")).concat()
}

/// What is said of each line, and the summary.
fn said(summary: &str) -> String {
    let lines = LINES.iter().filter(|(_, said)| !said.is_empty());
    let lines: String = lines.map(|(_, said)| format!("{said}\n")).collect();
    format!("{lines}{summary}\n")
}

#[test]
fn every_kind_of_line() {
    let folder = Folder::new("list");
    hand_ins(&folder);
    let from = examples().join("loop.qasm").display().to_string();
    let summary = "36 hand-ins: 14 fit, 13 do not fit, 9 cannot be marked";
    let expected = Ran::quiet(1, said(summary));
    for text in [list("\n"), list("\r\n"), format!("\u{feff}{}", list("\n"))] {
        folder.write("list", text);
        for _ in 0..5 {
            assert_eq!(folder.mark(&["--list", "list", "--from", &from]), expected);
        }
    }
    // Relative to the list's folder, not to where the program runs.
    let away = Folder::new("list-away");
    let path = folder.path().join("list").display().to_string();
    assert_eq!(away.mark(&["--from", &from, "--list", &path]), expected);
    println!("lists: {} lines of a list, {summary}", LINES.len());
}

#[test]
fn statuses() {
    let folder = Folder::new("list-statuses");
    hand_ins(&folder);
    let from = examples().join("loop.img").display().to_string();
    let right = folder.path().join("right.img").display().to_string();
    let cases = [
        (
            format!("{right} 7 0"),
            0,
            format!("{right}: fits; not at finish\n1 hand-in: 1 fits, 0 do not fit, 0"),
        ),
        (
            "right.img 7 7".to_string(),
            1,
            "right.img: does not fit: pc expected 0, found 7".to_string(),
        ),
        (
            "no.img 7 7".to_string(),
            1,
            "no.img: cannot be marked: No such file or directory\n1".to_string(),
        ),
        (
            "7 7".to_string(),
            1,
            "line 1: cannot be marked: a name and two counts are needed\n".to_string(),
        ),
    ];
    for (line, status, beginning) in cases {
        folder.write("list", &line);
        let ran = folder.mark(&["--list", "list", "--from", &from]);
        assert_eq!((ran.status, &ran.err[..]), (status, ""));
        assert!(ran.out.starts_with(&beginning), "{line}: {}", ran.out);
    }
}

#[test]
fn without_a_beginning() {
    let folder = Folder::new("list-start");
    hand_ins(&folder);
    folder.write(
        "list",
        b"right.img 7 0\nregister.img 7 0\nright.img 8 0\nright.img 6 0\n\xFF 1 2\n",
    );
    let report = "\
right.img: comes back to start; not at finish
register.img: comes back to start; not at finish
right.img: does not come back to start: turn 8 of 8 back was refused by 12: pc is at start
right.img: does not come back to start: all turns are accepted, but it is not start
line 5: cannot be marked: is no text
5 hand-ins: 2 come back to start, 2 do not, 1 cannot be marked
";
    assert_eq!(folder.mark(&["--list", "list"]), Ran::quiet(1, report));
    folder.write("list", "right.img 7 0\n");
    let report = "\
right.img: comes back to start; not at finish
1 hand-in: 1 comes back to start, 0 do not, 0 cannot be marked
";
    assert_eq!(folder.mark(&["--list", "list"]), Ran::quiet(0, report));
}
