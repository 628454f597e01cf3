//! Bad input: one line on standard error, status 2, and never a crash.

use crate::scratch::{example, Folder, Ran};
use crank::Kind;
use std::ffi::OsString;
use std::process::Stdio;

const SEE: &str = "; see bench mark --help";

fn folder(name: &str) -> Folder {
    let folder = Folder::new(name);
    let image = |kind| example("loop").save_as(kind).expect("an image");
    folder.write("a.img", image(Kind::Two));
    folder.write("old.img", image(Kind::One));
    folder.write("empty", "");
    folder.write("list", "a.img 0 0\n");
    folder.write("no list", "# none\n\n  \r\n");
    folder.write("bad.qasm", "start\nfinsh\n");
    folder
}

#[test]
fn arguments() {
    let folder = folder("arguments");
    let needed = "HAND-IN, HAND-IN FORWARD BACK or --list LIST is needed";
    let cases: [(&[&str], String); 16] = [
        (&[], format!("{needed}{SEE}")),
        (&["a.img", "1"], format!("{needed}{SEE}")),
        (&["a.img", "1", "2", "3"], format!("{needed}{SEE}")),
        (&["--from", "a.img"], format!("{needed}{SEE}")),
        (&["--"], format!("{needed}{SEE}")),
        (&["a.img", "1", "-2"], format!("no option -2{SEE}")),
        (&["--form", "x"], format!("no option --form{SEE}")),
        (&["--from"], format!("--from BEGINNING lacks its name{SEE}")),
        (&["--list"], format!("--list LIST lacks its name{SEE}")),
        (
            &["--from", "a", "--from", "a"],
            format!("--from BEGINNING is given twice{SEE}"),
        ),
        (
            &["--list", "list", "a.img"],
            format!("--list LIST has its hand-ins in LIST, not a.img{SEE}"),
        ),
        (&["a.img", "", "2"], not_a_count("")),
        (&["a.img", "+1", "2"], not_a_count("+1")),
        (&["a.img", "0x", "2"], not_a_count("0x")),
        (&["a.img", "1", "0x+2"], not_a_count("0x+2")),
        (
            &["a.img", "18446744073709551616", "2"],
            not_a_count("18446744073709551616"),
        ),
    ];
    for (arguments, line) in &cases {
        assert_eq!(folder.mark(arguments), Ran::fault(line), "{arguments:?}");
    }
    println!("faults: {} of arguments", cases.len());
}

fn not_a_count(text: &str) -> String {
    format!("count {text} is no number from 0 to 18446744073709551615")
}

#[test]
fn files() {
    let folder = folder("files");
    let missing = "No such file or directory";
    let no_position = "has no position, so two counts are needed";
    let short = "the file is shorter than the trailer of an image or longer than 65536 bytes";
    let cases: [(&[&str], String); 10] = [
        (&["b.img", "0", "0"], format!("b.img: {missing}")),
        (&["--", "--help"], format!("--help: {missing}")),
        (&[".", "0", "0"], ".: Is a directory".to_string()),
        (
            &["empty", "0", "0"],
            format!("empty: refused by 1: {short}"),
        ),
        (&["old.img"], format!("old.img: {no_position}")),
        (
            &["a.img", "0", "0", "--from", "b.img"],
            format!("b.img: {missing}"),
        ),
        (&["--list", "b"], format!("b: {missing}")),
        (&["--list", "."], ".: Is a directory".to_string()),
        (
            &["--list", "no list"],
            "no list: has no hand-in".to_string(),
        ),
        (
            &["--list", "list", "--from", "b.img"],
            format!("b.img: {missing}"),
        ),
    ];
    for (arguments, line) in &cases {
        assert_eq!(folder.mark(arguments), Ran::fault(line), "{arguments:?}");
    }
    let source = folder.mark(&["a.img", "0", "0", "--from", "bad.qasm"]);
    assert_eq!((source.status, &source.out[..]), (2, ""));
    assert!(source.err.starts_with("bench: bad.qasm: ") && source.err.lines().count() == 1);
    println!("faults: {} of files", cases.len() + 1);
}

#[test]
fn names() {
    let folder = folder("names");
    let image = example("loop").save().expect("an image");
    folder.write("-x.img", &image);
    let ran = folder.mark(&["--from", "a.img", "--", "-x.img", "0", "0"]);
    assert_eq!((ran.status, ran.out.lines().nth(2)), (0, Some("fits")));
    #[cfg(unix)]
    {
        use std::os::unix::ffi::OsStringExt;
        let name = OsString::from_vec(b"x\xFF.img".to_vec());
        let marked = |name: &OsString| folder.mark(&[name.clone(), "0".into(), "0".into()]);
        assert_eq!(
            marked(&name).err,
            "bench: x\u{fffd}.img: No such file or directory\n"
        );
        folder.write(&name, &image);
        assert_eq!(marked(&name).status, 0);
        let count = folder.mark(&["a.img".into(), name, "0".into()]);
        assert_eq!(count, Ran::fault(&not_a_count("x\u{fffd}.img")));
    }
}

/// Names and counts with signs that would move about on a terminal: one line, none of them raw.
#[test]
fn signs_of_a_terminal() {
    let folder = folder("signs");
    let missing = "No such file or directory";
    let cases: [(&[&str], String); 5] = [
        (&["a\nb.img", "0", "0"], format!("a\\nb.img: {missing}")),
        (&["--list", "a\nb"], format!("a\\nb: {missing}")),
        (
            &["a.img", "0", "0", "--from", "a\nb"],
            format!("a\\nb: {missing}"),
        ),
        (&["a.img", "1\n2", "0"], not_a_count("1\\n2")),
        (&["-a\nb"], format!("no option -a\\nb{SEE}")),
    ];
    for (arguments, line) in &cases {
        assert_eq!(folder.mark(arguments), Ran::fault(line), "{arguments:?}");
    }
    folder.write("signs", "\u{1b}[31m.img 0 0\na.img \u{1b}[31m 0\n");
    let lines = format!(
        "\\u{{1b}}[31m.img: cannot be marked: {missing}\nline 2: cannot be marked: {}\n",
        not_a_count("\\u{1b}[31m")
    );
    let ran = folder.mark(&["--list", "signs"]);
    let summary = "2 hand-ins: 0 come back to start, 0 do not, 2 cannot be marked\n";
    assert_eq!(ran, Ran::quiet(1, lines + summary));
    println!("faults: {} with signs of a terminal", cases.len() + 2);
}

#[test]
fn help() {
    let ran = Folder::new("help").mark(&["a", "b", "--help"]);
    assert_eq!((ran.status, &ran.err[..]), (0, ""));
    let first = "bench mark HAND-IN [FORWARD BACK] [--from BEGINNING]\n";
    assert!(ran.out.starts_with(first));
}

/// Standard output that takes nothing: a full disk, a pipe that is closed.
#[test]
fn output() {
    let folder = folder("output");
    let long: String = "a.img 0 0\n".repeat(5_000);
    folder.write("long list", long);
    for arguments in [
        &["a.img"][..],
        &["a.img", "0", "0"],
        &["--list", "list"],
        &["--list", "long list"],
        &["--help"],
    ] {
        let full = std::fs::File::options().write(true).open("/dev/full");
        if let Ok(full) = full {
            let output = folder.command(arguments).stdout(full).output();
            let ran = Ran::of(output.expect("bench runs"));
            assert_eq!(ran, Ran::fault("standard output: No space left on device"));
        }
        let (reader, writer) = std::io::pipe().expect("a pipe");
        drop(reader);
        let mut command = folder.command(arguments);
        let child = command.stdout(writer).stderr(Stdio::piped()).spawn();
        let output = child.and_then(|child| child.wait_with_output());
        let ran = Ran::of(output.expect("bench runs"));
        assert_eq!(ran, Ran::fault("standard output: Broken pipe"));
    }
}
