//! bench at a terminal: prompt and greeting, progress, Ctrl-C in a run and at the prompt, Ctrl-D;
//! and the progress of bench mark.

#[path = "support/pty.rs"]
mod pty;
#[path = "support/scratch.rs"]
mod scratch;

use crank::Machine;
use pty::{Terminal, CTRL_D};
use scratch::scratch;
use std::fs;
use std::os::unix::process::ExitStatusExt;
use std::path::{Path, PathBuf};
use std::process::Command;

const CTRL_C: &str = "\x03";
const SIGINT: i32 = 2;
const PROGRESS: &str = " turns; Ctrl-C stops ";

/// Round and round, with data that changes; r1 counts the rounds, so that l0 is reached from above
/// with r1 0 and from l1 with r1 not 0.
const ENDLESS: &str = "\
        start
l0:     bnz  r1, from l1
        xori r2, 0x1234
        add  r3, r2
        ld   r3, a
        addi r1, 1
l1:     bra  l0
        finish
        .data
a:      .word 7
";

fn bench(folder: &Path, arguments: &[&str]) -> Terminal {
    let mut bench = Command::new(env!("CARGO_BIN_EXE_bench"));
    bench.args(arguments).current_dir(folder);
    Terminal::spawn(bench)
}

fn ask(terminal: &mut Terminal, command: &str) -> String {
    terminal.press(&format!("{command}\n"));
    let (answer, going) = terminal.prompt();
    assert!(going, "it ended:\n{}", terminal.screen);
    let answer = answer.strip_prefix(&format!("{command}\n"));
    let answer = answer.unwrap_or_else(|| panic!("no echo of {command}:\n{}", terminal.screen));
    answer.strip_suffix("> ").expect("a prompt").to_string()
}

/// The turns in `stopped after N turns forward`, where the progress was erased before.
fn stopped(answer: &str) -> u64 {
    let (_, said) = answer.split_once("\x1b[Kstopped after ").expect(answer);
    let (count, rest) = said.split_once(" turns ").expect(answer);
    assert!(rest.starts_with("forward\n"), "{answer}");
    count.parse().expect("a number")
}

/// Runs until progress has shown, then Ctrl-C; gives the turns.
fn stop(terminal: &mut Terminal, command: &str) -> u64 {
    terminal.press(&format!("{command}\n"));
    let (progress, _) = terminal.wait(|new| new.ends_with(PROGRESS));
    let shown = progress.rsplit('\n').next().expect("a line");
    let shown = shown.split(' ').next().expect("a number");
    let shown: u64 = shown.parse().expect(&progress);
    terminal.press(CTRL_C);
    let (answer, _) = terminal.prompt();
    let turns = stopped(&answer);
    assert!(turns >= shown && shown > 0, "{turns} after {shown}");
    turns
}

/// The endless exercise, opened in this folder.
fn endless(folder: &Path) -> Terminal {
    fs::write(folder.join("endless.qasm"), ENDLESS).expect("a source");
    let mut terminal = bench(folder, &["endless.qasm"]);
    let (greeting, _) = terminal.prompt();
    let want = "endless.qasm: K 8, M 9, N 0; pc 0, at start\nhelp lists the commands\n> ";
    assert_eq!(greeting, want);
    terminal
}

/// What `counts` says after so many turns forward from the position 0.
fn forward(turns: u64) -> String {
    format!("forward {turns}, back 0, net {turns}; position {turns}\n")
}

/// All registers and words, as they are shown.
fn state(terminal: &mut Terminal) -> String {
    ask(terminal, "regs") + &ask(terminal, "m 0 8")
}

#[test]
fn ctrl_c_stops_a_run_with_exact_counts() {
    let mut terminal = endless(&scratch("stops"));
    let before = state(&mut terminal);
    let turns = stop(&mut terminal, "run");
    let counts = ask(&mut terminal, "counts");
    assert_eq!(counts, forward(turns));
    assert_ne!(state(&mut terminal), before);
    let back = ask(&mut terminal, &format!("b {turns}"));
    assert!(back.contains(&format!("{turns} turns back\n")), "{back}");
    let counts = ask(&mut terminal, "c");
    let line = format!("forward {turns}, back {turns}, net 0; position 0\n");
    assert_eq!(counts, line);
    assert_eq!(state(&mut terminal), before);
    let refused = ask(&mut terminal, "b");
    assert_eq!(refused, "refused by 12: pc is at start; nothing changed\n");
    println!("run: stopped after {turns} turns, and turned back");
    terminal.press("q\n");
    assert!(terminal.end().1.success());
}

/// By single turns, to an address that is not reached.
#[test]
fn ctrl_c_stops_on_the_way_to_an_address() {
    let mut terminal = endless(&scratch("way"));
    let before = state(&mut terminal);
    let turns = stop(&mut terminal, "to 7");
    let rewound = ask(&mut terminal, "rewind");
    let want = format!("{turns} turns back, then refused by 12");
    assert!(rewound.contains(&want), "{rewound}");
    assert_eq!(state(&mut terminal), before);
    println!("to: stopped after {turns} turns, and turned back");
    terminal.press("q\n");
    assert!(terminal.end().1.success());
}

/// Steps forward, that take about a second.
const STEPS: u64 = 20_000_000;
/// Samples that take much longer; behind the steps they are 0, and need no room on the disk.
const SAMPLES: u64 = 1 << 32;
const WHEEL_PROGRESS: &str = " samples; Ctrl-C stops ";

/// The samples and the turns in `stopped after N samples: M turns forward, ...`.
fn stopped_wheel(answer: &str) -> (u64, u64) {
    let (_, said) = answer.split_once("\x1b[Kstopped after ").expect(answer);
    let (samples, said) = said.split_once(" samples: ").expect(answer);
    let (turns, said) = said.split_once(" turns forward, ").expect(answer);
    let rest = "0 back, 0 refused; last sample 0\n";
    assert!(said.starts_with(rest), "{answer}");
    (
        samples.parse().expect("a number"),
        turns.parse().expect("a number"),
    )
}

#[test]
fn ctrl_c_stops_the_wheel_with_exact_counts() {
    let folder = scratch("wheel");
    let path = folder.join("long samples");
    fs::write(&path, [1, 3, 2, 0].repeat(STEPS as usize / 4)).expect("samples");
    let file = fs::OpenOptions::new().write(true).open(&path);
    file.and_then(|file| file.set_len(SAMPLES)).expect("more");
    let mut terminal = endless(&folder);
    let before = state(&mut terminal);
    terminal.press("wheel 0 @long samples; save never.img\n");
    terminal.wait(|new| new.ends_with(WHEEL_PROGRESS));
    // It is open, and not to be left behind where something fails.
    fs::remove_file(path).expect("the samples");
    terminal.press(CTRL_C);
    let (samples, turns) = stopped_wheel(&terminal.prompt().0);
    assert_eq!(turns, samples.min(STEPS));
    assert_eq!(ask(&mut terminal, "c"), forward(turns));
    let back = ask(&mut terminal, &format!("b {turns}"));
    assert!(back.contains(&format!("{turns} turns back\n")), "{back}");
    assert_eq!(state(&mut terminal), before);
    println!("wheel: stopped after {samples} samples, and turned back {turns} turns");
    terminal.press("q\n");
    assert!(terminal.end().1.success());
    assert!(!folder.join("never.img").exists());
}

/// A terminal drops what is behind the bytes that it keeps: such a line is not obeyed.
#[test]
fn a_line_that_the_terminal_cuts_is_bad() {
    let mut terminal = endless(&scratch("cut"));
    let whole = format!("wheel 0{}", " 1 3 2 0".repeat(510));
    assert_eq!(whole.len(), 4087);
    let answer = ask(&mut terminal, &whole);
    let turns = "2040 turns forward, 0 back, 0 refused; last sample 0\n";
    assert!(answer.contains(turns), "{answer}");
    for more in [8, 9, 1_000] {
        let answer = ask(&mut terminal, &format!("{whole}{}", "0".repeat(more)));
        let fault =
            "bench: a terminal cuts a line of 4095 bytes or more; a file may have more samples\n";
        assert!(answer.ends_with(fault), "{answer}");
    }
    assert_eq!(ask(&mut terminal, "c"), forward(2040));
    terminal.press("q\n");
    assert!(terminal.end().1.success());
}

#[test]
fn ctrl_c_ends_a_script() {
    let folder = scratch("script");
    fs::write(folder.join("endless.qasm"), ENDLESS).expect("a source");
    let mut terminal = bench(&folder, &["endless.qasm", "-c", "run; save never.img"]);
    // Here it would not stop the run alone, and does not say so.
    terminal.wait(|new| new.ends_with(" turns"));
    terminal.press(CTRL_C);
    let (screen, status) = terminal.end();
    assert_eq!(status.signal(), Some(SIGINT), "{screen}");
    assert!(!folder.join("never.img").exists());
}

#[test]
fn ctrl_c_at_the_prompt_gives_a_new_one() {
    let folder = scratch("prompt");
    let mut terminal = bench(&folder, &["examples/first.img"]);
    terminal.prompt();
    terminal.press("forward 1");
    terminal.wait(|new| new.ends_with("forward 1"));
    terminal.press(CTRL_C);
    let (answer, going) = terminal.prompt();
    assert_eq!((answer.as_str(), going), ("^C\n> ", true));
    // What was typed before is gone, and the next run is not stopped.
    assert_eq!(ask(&mut terminal, "c"), forward(0));
    let run = ask(&mut terminal, "r");
    assert!(
        run.starts_with("2 turns forward, then refused by 12"),
        "{run}"
    );
    // A bad command does not end it.
    let bad = ask(&mut terminal, "jump");
    assert_eq!(
        bad,
        "bench: there is no command \"jump\"; help lists them\n"
    );
    terminal.press(CTRL_D);
    let (screen, status) = terminal.end();
    assert!(screen.ends_with("> \n") && status.success(), "{screen}");
}

/// What removes the progress.
const ERASED: &str = "\x1b[K";
/// Turns that take over a second.
const LONG: u64 = 300_000_000;

/// A folder with a hand-in, two jumps that are each the other's landing, and a list of two of it.
fn long_hand_ins(name: &str) -> PathBuf {
    let folder = scratch(name);
    let code = vec![0x1A00_0000, 0x0340_0001, 0x0500_FFFF, 0x0500_FFFF];
    let mut machine = Machine::new(4, code, Vec::new());
    machine.record.regs[0] = 3;
    machine.record.position = LONG as i64;
    fs::write(folder.join("long.img"), machine.save().expect("an image")).expect("a file");
    let list = format!("long.img {LONG} 0\n").repeat(2);
    fs::write(folder.join("list"), list).expect("a list");
    folder
}

/// What is shown while it marks, erased before anything else comes; gives all that came.
fn marked(mut terminal: Terminal, shown: &str) -> String {
    let (_, going) = terminal.wait(|new| new.contains(shown));
    assert!(going, "no {shown}:\n{}", terminal.screen);
    let (screen, status) = terminal.end();
    assert_eq!(status.code(), Some(1), "{screen}");
    let (before, _) = screen.split_once(ERASED).expect("it is erased");
    assert!(before.contains(shown) && !before.contains('\n'), "{screen}");
    let (_, last) = screen.rsplit_once(ERASED).expect("it is erased");
    assert!(!last.contains(" of ") && last.ends_with('\n'), "{screen}");
    screen
}

#[test]
fn progress_of_a_list() {
    let folder = long_hand_ins("list");
    let terminal = bench(&folder, &["mark", "--list", "list"]);
    let screen = marked(terminal, "0 of 2");
    let lines = screen
        .matches("long.img: does not come back to start")
        .count();
    assert_eq!(lines, 2, "{screen}");
    println!("list: progress was shown and erased");
}

#[test]
fn progress_of_one_hand_in() {
    let folder = long_hand_ins("one");
    let terminal = bench(&folder, &["mark", "long.img"]);
    let screen = marked(terminal, &format!(" of {LONG} turns"));
    let report = format!("\x1b[K{LONG} turns back: all accepted\n");
    assert!(screen.contains(&report), "{screen}");
    println!("hand-in: progress was shown and erased");
}

#[test]
fn no_progress_in_a_pipe() {
    let folder = long_hand_ins("pipe");
    let count = LONG.to_string();
    for arguments in [&["--list", "list"][..], &["long.img", &count, "0"]] {
        let mut bench = Command::new(env!("CARGO_BIN_EXE_bench"));
        bench.arg("mark").args(arguments).current_dir(&folder);
        let output = bench.output().expect("bench");
        let [out, err] = [output.stdout, output.stderr].map(String::from_utf8);
        assert_eq!((output.status.code(), err), (Some(1), Ok(String::new())));
        let out = out.expect("text");
        assert!(!out.is_empty() && !out.contains(['\r', '\x1b']), "{out}");
    }
    println!("pipe: no progress of a list and of a hand-in");
}

/// What stands behind a run that was stopped is not obeyed: it was meant for its end.
#[test]
fn ctrl_c_drops_the_rest_of_the_line() {
    let mut terminal = endless(&scratch("rest"));
    let turns = stop(&mut terminal, "run; save never.img; q");
    let counts = ask(&mut terminal, "c; c");
    assert_eq!(counts, forward(turns).repeat(2));
    terminal.press("q\n");
    assert!(terminal.end().1.success());
}

/// Half a command is none: Ctrl-D twice in the middle of a line ends the program.
#[test]
fn half_a_line_is_no_command() {
    let folder = scratch("half");
    let mut terminal = bench(&folder, &["examples/first.img"]);
    terminal.prompt();
    terminal.press("save half.im");
    terminal.wait(|new| new.ends_with("half.im"));
    terminal.press(CTRL_D);
    terminal.press(CTRL_D);
    let (screen, status) = terminal.end();
    assert!(status.success(), "{screen}");
    assert!(!folder.join("half.im").exists(), "{screen}");
}

/// Lines that come at once are obeyed one after the other, where the terminal does not keep them
/// apart too.
#[test]
fn lines_at_once() {
    let folder = scratch("at-once");
    for mode in ["icanon", "-icanon"] {
        let mut shell = Command::new("sh");
        let script = "stty $1 && exec $2 examples/first.img";
        shell.args(["-c", script, "sh", mode, env!("CARGO_BIN_EXE_bench")]);
        shell.current_dir(&folder);
        let mut terminal = Terminal::spawn(shell);
        terminal.prompt();
        terminal.press("f\nf\nb\nc\nq\n");
        let (screen, status) = terminal.end();
        assert!(status.success(), "{mode}: {screen}");
        assert!(
            screen.contains("forward 2, back 1, net 1; position 1\n"),
            "{mode}: {screen}"
        );
    }
}
