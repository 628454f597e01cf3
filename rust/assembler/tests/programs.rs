//! The programs `assemble` and `disassemble`: what they write where, and with which status.

mod shell;

use shell::{Folder, Ran};
use std::fs;

const GOOD: &str = "start\nxori r1, 5\nfinish\n.data\n.word 0\n";

/// A folder with a good source `a.qasm` and its image `a.img`.
fn folder() -> Folder {
    let folder = Folder::new();
    folder.put("a.qasm", GOOD);
    let image = crank_assembler::assemble(GOOD).unwrap().image;
    folder.put("a.img", &image);
    folder
}

/// Runs each command and compares status and standard error; nothing goes to standard output.
fn refused(folder: &Folder, table: &[(&str, i32, &str)]) {
    for (command, status, line) in table {
        let ran = folder.run(command);
        let want = Ran::new(*status, "", &format!("{line}\n"));
        assert_eq!(ran, want, "{command}");
    }
    println!("commands refused: {}", table.len());
}

#[test]
fn files_and_streams() {
    let folder = folder();
    let image = fs::read(folder.path("a.img")).unwrap();
    for command in [
        "assemble a.qasm",
        "assemble < a.qasm",
        "assemble - < a.qasm",
        "assemble -- a.qasm",
        "assemble -o - a.qasm",
    ] {
        assert_eq!(folder.run(command), Ran::new(0, &image, ""), "{command}");
    }
    let source = crank_assembler::disassemble(&image).unwrap();
    for command in [
        "disassemble a.img",
        "disassemble < a.img",
        "disassemble -- a.img",
    ] {
        assert_eq!(folder.run(command), Ran::new(0, &source, ""), "{command}");
    }
    for command in [
        "assemble -o b.img a.qasm",
        "disassemble -o b.qasm a.img",
        "assemble a.qasm -o c.img",
        "assemble -o -- -- a.qasm",
    ] {
        assert_eq!(folder.run(command), Ran::new(0, "", ""), "{command}");
    }
    for written in ["b.img", "c.img", "--"] {
        assert_eq!(fs::read(folder.path(written)).unwrap(), image);
    }
    assert_eq!(fs::read_to_string(folder.path("b.qasm")).unwrap(), source);
}

#[test]
fn help() {
    let folder = folder();
    for program in ["assemble", "disassemble"] {
        for option in ["-h", "--help", "-o x --help"] {
            let ran = folder.run(&format!("{program} {option}"));
            assert_eq!((ran.status, ran.error.as_str()), (0, ""));
            assert!(ran
                .output
                .starts_with(format!("usage: {program} ").as_bytes()));
        }
    }
    let full = "assemble: standard output: No space left on device";
    refused(&folder, &[("assemble --help > /dev/full", 1, full)]);
}

/// Arguments that are not understood, and a name that looks like an option.
const ARGUMENTS: &[(&str, i32, &str)] = &[
    (
        "assemble --list a.qasm",
        2,
        "assemble: unknown option --list; see assemble --help",
    ),
    (
        "assemble -x",
        2,
        "assemble: unknown option -x; see assemble --help",
    ),
    (
        "disassemble --listing a.img",
        2,
        "disassemble: unknown option --listing; see disassemble --help",
    ),
    (
        "assemble a.qasm b.qasm",
        2,
        "assemble: one file is taken, not also b.qasm; see assemble --help",
    ),
    ("assemble -o", 2, "assemble: -o takes the name of a file"),
    (
        "assemble -o x -o y a.qasm",
        2,
        "assemble: -o is written twice",
    ),
    (
        "assemble -- -x",
        1,
        "assemble: -x: No such file or directory",
    ),
];

#[test]
fn arguments() {
    refused(&folder(), ARGUMENTS);
}

/// Files and streams that are no sources or no images.
const INPUTS: &[(&str, i32, &str)] = &[
    (
        "assemble none.qasm",
        1,
        "assemble: none.qasm: No such file or directory",
    ),
    ("assemble .", 1, "assemble: .: Is a directory"),
    (
        "assemble < .",
        1,
        "assemble: standard input: Is a directory",
    ),
    ("disassemble .", 1, "disassemble: .: Is a directory"),
    (
        "assemble bad.qasm",
        1,
        "assemble: bad.qasm: line 2: is no UTF-8 text",
    ),
    (
        "assemble < bad.qasm",
        1,
        "assemble: line 2: is no UTF-8 text",
    ),
    (
        "assemble a.img",
        1,
        "assemble: a.img: is no source text: it has a byte 0",
    ),
    (
        "assemble long.qasm",
        1,
        "assemble: long.qasm: longer than 4194304 bytes",
    ),
    (
        "assemble < /dev/zero",
        1,
        "assemble: standard input: longer than 4194304 bytes",
    ),
    (
        "disassemble no.img",
        1,
        "disassemble: no.img: refused by 2: the last four bytes are not those of an image",
    ),
    (
        "disassemble < a.qasm",
        1,
        "disassemble: refused by 1: the file is shorter than the trailer of an image or longer \
         than 65536 bytes",
    ),
];

#[test]
fn input_that_cannot_be_read() {
    let folder = folder();
    folder.put("bad.qasm", b"start\nfinish ; \xFF\n");
    folder.put("long.qasm", vec![b' '; (4 << 20) + 1]);
    folder.put("no.img", vec![b'x'; 100]);
    refused(&folder, INPUTS);
}

#[test]
fn a_refused_source() {
    let folder = folder();
    folder.put("wrong.qasm", "start\nbra from\n");
    folder.put("old.img", "old");
    let line = "line 2: from takes the label of the jump that lands here";
    refused(
        &folder,
        &[
            (
                "assemble wrong.qasm",
                1,
                &format!("assemble: wrong.qasm: {line}"),
            ),
            ("assemble < wrong.qasm", 1, &format!("assemble: {line}")),
            (
                "assemble --listing wrong.qasm",
                1,
                &format!("assemble: wrong.qasm: {line}"),
            ),
            (
                "assemble -o old.img wrong.qasm",
                1,
                &format!("assemble: wrong.qasm: {line}"),
            ),
        ],
    );
    assert_eq!(fs::read(folder.path("old.img")).unwrap(), b"old");
}

#[test]
fn a_refused_table() {
    let folder = folder();
    let endless = "start\nl: bnz r2, from j\naddi r2, 1\nj: bra l\n.table make\n";
    folder.put("endless.qasm", endless);
    folder.put("old.img", "old");
    let line = "line 5: the table is refused by 23: over 511 nodes, 8 nested qifs or the limit of \
                cycles would be needed";
    let line = format!("assemble: endless.qasm: {line}");
    refused(
        &folder,
        &[
            ("assemble endless.qasm", 1, &line),
            ("assemble --listing endless.qasm", 1, &line),
            ("assemble -o old.img endless.qasm", 1, &line),
        ],
    );
    assert_eq!(fs::read(folder.path("old.img")).unwrap(), b"old");
}

/// Places that take no output.
const OUTPUTS: &[(&str, i32, &str)] = &[
    (
        "assemble a.qasm > /dev/full",
        1,
        "assemble: standard output: No space left on device",
    ),
    (
        "assemble --listing a.qasm > /dev/full",
        1,
        "assemble: standard output: No space left on device",
    ),
    (
        "disassemble a.img > /dev/full",
        1,
        "disassemble: standard output: No space left on device",
    ),
    ("assemble -o . a.qasm", 1, "assemble: .: is no regular file"),
    (
        "assemble -o /dev/full a.qasm",
        1,
        "assemble: /dev/full: is no regular file",
    ),
    (
        "assemble -o no/b a.qasm",
        1,
        "assemble: no/b: No such file or directory",
    ),
];

#[test]
fn output_that_cannot_be_written() {
    let folder = folder();
    refused(&folder, OUTPUTS);
    for command in [
        "assemble a.qasm",
        "assemble --listing a.qasm",
        "disassemble a.img",
    ] {
        let ran = folder.run_into_a_closed_pipe(command);
        let name = command.split(' ').next().unwrap();
        let line = format!("{name}: standard output: Broken pipe\n");
        assert_eq!(ran, Ran::new(1, "", &line), "{command}");
    }
    // Nobody reads the line, and still the status tells.
    assert_eq!(folder.run("assemble none.qasm 2> /dev/full").status, 1);
    assert_eq!(folder.run("assemble --x 2>&-").status, 2);
}

#[test]
fn an_output_over_an_old_file() {
    let folder = folder();
    folder.put("old.img", "old");
    let before = folder.names();
    let limited = |command| format!("(trap '' XFSZ; ulimit -f 0; exec {command})");
    let large = "assemble: old.img: File too large";
    refused(
        &folder,
        &[(&limited("assemble -o old.img a.qasm"), 1, large)],
    );
    assert_eq!(fs::read(folder.path("old.img")).unwrap(), b"old");
    assert_eq!(folder.names(), before, "no file is left over");
    assert_eq!(
        folder.run("assemble -o old.img a.qasm"),
        Ran::new(0, "", "")
    );
    let image = fs::read(folder.path("a.img")).unwrap();
    assert_eq!(fs::read(folder.path("old.img")).unwrap(), image);
    assert_eq!(folder.names(), before);
    let itself = "assemble: ./a.qasm: is read, and so it is not written";
    refused(&folder, &[("assemble -o ./a.qasm a.qasm", 2, itself)]);
    assert_eq!(fs::read_to_string(folder.path("a.qasm")).unwrap(), GOOD);
}

#[test]
fn what_an_old_file_allows() {
    let folder = folder();
    folder.put("old.img", "old");
    assert_eq!(
        folder
            .run("chmod 640 old.img; assemble -o old.img a.qasm")
            .status,
        0
    );
    let mode = folder.run("ls -l old.img | cut -c 1-10").output;
    assert_eq!(mode, b"-rw-r-----\n");
    folder.put("old.img", "old");
    let line = "assemble: old.img: is read-only";
    refused(
        &folder,
        &[("chmod 440 old.img; assemble -o old.img a.qasm", 1, line)],
    );
    assert_eq!(fs::read(folder.path("old.img")).unwrap(), b"old");
}

#[test]
fn names_that_are_no_text() {
    use std::ffi::OsStr;
    use std::os::unix::ffi::OsStrExt;
    let folder = folder();
    let name = OsStr::from_bytes(b"\xFF.qasm");
    fs::write(folder.path(name), GOOD).unwrap();
    assert_eq!(folder.run("assemble *\u{FFFD}.qasm 2> /dev/null").status, 1);
    assert_eq!(
        folder
            .run("for f in ?.qasm; do assemble -o x.img \"$f\"; done")
            .status,
        0
    );
    assert_eq!(
        folder.run("assemble \"$(printf '\\377.qasm')\" > x.img"),
        Ran::new(0, "", "")
    );
    let ran = folder.run("assemble \"$(printf -- '-\\377')\"");
    assert_eq!((ran.status, ran.error.lines().count()), (2, 1));
}

#[test]
fn warnings() {
    let folder = folder();
    folder.put("w.qasm", "start\nld r1, 0\nfinish\n");
    let line =
        "line 2: warning: there are no data words, so an ld of address 0 is refused by 15 in a turn";
    let ran = folder.run("assemble -o w.img w.qasm");
    assert_eq!(ran, Ran::new(0, "", &format!("assemble: w.qasm: {line}\n")));
    assert!(folder.path("w.img").exists());
    let ran = folder.run("assemble < w.qasm > w.img");
    assert_eq!(ran, Ran::new(0, "", &format!("assemble: {line}\n")));
}

const LISTED: &str = "\
; words of several lines
        .data
d:      .word 1, 0x10   ; two

        .code
top:
        start
        ld   r1, d
        finish
        .data
        .space 2
        .reg r2 7
        .table make
";

const LISTING: &str = "\
addr  word       line
                    1  ; words of several lines
                    2          .data
   3  00000001      3  d:      .word 1, 0x10   ; two
   4  00000010      3
                    5          .code
                    6  top:
   0  1A000000      7          start
   1  01400003      8          ld   r1, d
   2  1B000000      9          finish
                   10          .data
   5  00000000     11          .space 2
   6  00000000     11
                   12          .reg r2 7
                   13          .table make
";

#[test]
fn listing() {
    let folder = folder();
    folder.put("l.qasm", LISTED);
    for command in ["assemble --listing l.qasm", "assemble --listing < l.qasm"] {
        assert_eq!(folder.run(command), Ran::new(0, LISTING, ""), "{command}");
    }
    let ran = folder.run("assemble --listing -o l.img l.qasm");
    assert_eq!(ran, Ran::new(0, LISTING, ""));
    let image = crank_assembler::assemble(LISTED).unwrap().image;
    assert_eq!(fs::read(folder.path("l.img")).unwrap(), image);
}
