//! A program at a terminal of its own.

use std::ffi::{c_char, c_int, c_ulong, CStr};
use std::fs::{File, OpenOptions};
use std::io::{self, Read, Write};
use std::os::fd::{AsRawFd, FromRawFd};
use std::os::unix::fs::OpenOptionsExt;
use std::os::unix::process::CommandExt;
use std::process::{Child, Command, ExitStatus};
use std::sync::mpsc::{self, Receiver};
use std::sync::Mutex;
use std::thread;
use std::time::{Duration, Instant};

const O_RDWR: c_int = 2;
const O_NOCTTY: c_int = 0o400;
/// So that no other program started meanwhile holds it open.
const O_CLOEXEC: c_int = 0o2_000_000;
const TIOCSCTTY: c_ulong = 0x540E;
const SIGINT: c_int = 2;
const SIG_DFL: usize = 0;
/// What a test waits for comes much sooner.
const PATIENCE: Duration = Duration::from_secs(60);

/// The key that ends the input.
pub const CTRL_D: &str = "\x04";

extern "C" {
    fn posix_openpt(flags: c_int) -> c_int;
    fn grantpt(master: c_int) -> c_int;
    fn unlockpt(master: c_int) -> c_int;
    fn ptsname(master: c_int) -> *const c_char;
    fn setsid() -> c_int;
    fn ioctl(file: c_int, request: c_ulong, ...) -> c_int;
    fn signal(number: c_int, handler: usize) -> usize;
}

pub struct Terminal {
    master: File,
    child: Child,
    output: Receiver<Vec<u8>>,
    /// All that was written, as the terminal shows it.
    pub screen: String,
    /// Up to here it was waited for.
    seen: usize,
}

/// Both ends of a new terminal.
fn open() -> (File, File) {
    // ptsname has one place for its answer, and tests run at once.
    static LOCK: Mutex<()> = Mutex::new(());
    let _guard = LOCK.lock();
    // SAFETY: plain calls on a number that is owned here; the name is copied under the lock.
    let (master, name) = unsafe {
        let number = posix_openpt(O_RDWR | O_NOCTTY | O_CLOEXEC);
        assert!(number >= 0, "no terminal");
        let master = File::from_raw_fd(number);
        assert_eq!((grantpt(number), unlockpt(number)), (0, 0));
        (master, CStr::from_ptr(ptsname(number)).to_owned())
    };
    let slave = OpenOptions::new()
        .read(true)
        .write(true)
        .custom_flags(O_NOCTTY)
        .open(name.to_str().expect("a name"))
        .expect("the terminal");
    (master, slave)
}

impl Terminal {
    /// The command is taken whole: while it is there it holds the terminal open.
    pub fn spawn(mut command: Command) -> Terminal {
        let (master, slave) = open();
        let other = || slave.try_clone().expect("the terminal");
        let tty = slave.as_raw_fd();
        command.stdin(other()).stdout(other()).stderr(other());
        // SAFETY: plain calls between fork and exec.
        unsafe {
            command.pre_exec(move || {
                // Ignored by whoever runs the tests, it would stay ignored.
                signal(SIGINT, SIG_DFL);
                match (setsid(), ioctl(tty, TIOCSCTTY, 0)) {
                    (-1, _) | (_, -1) => Err(io::Error::last_os_error()),
                    _ => Ok(()),
                }
            });
        }
        let child = command.spawn().expect("the program");
        drop(command);
        let mut reader = master.try_clone().expect("the terminal");
        let (sender, output) = mpsc::channel();
        thread::spawn(move || {
            let mut bytes = [0; 4096];
            // It ends with an error when the program has ended.
            while let Ok(count @ 1..) = reader.read(&mut bytes) {
                if sender.send(bytes[..count].to_vec()).is_err() {
                    break;
                }
            }
        });
        Terminal {
            master,
            child,
            output,
            screen: String::new(),
            seen: 0,
        }
    }

    pub fn press(&mut self, keys: &str) {
        self.master.write_all(keys.as_bytes()).expect("typing");
    }

    /// Waits until what came since the last wait satisfies this, or the program has ended; gives
    /// it, and whether the program goes on.
    pub fn wait(&mut self, until: impl Fn(&str) -> bool) -> (String, bool) {
        let deadline = Instant::now() + PATIENCE;
        loop {
            let new = self.screen[self.seen..].to_string();
            if until(&new) {
                self.seen = self.screen.len();
                return (new, true);
            }
            let left = deadline.saturating_duration_since(Instant::now());
            match self.output.recv_timeout(left) {
                Ok(bytes) => self.screen += &String::from_utf8_lossy(&bytes).replace('\r', ""),
                Err(mpsc::RecvTimeoutError::Disconnected) => {
                    self.seen = self.screen.len();
                    return (new, false);
                }
                Err(mpsc::RecvTimeoutError::Timeout) => {
                    panic!("nothing more came after:\n{}", self.screen);
                }
            }
        }
    }

    /// Waits for the prompt.
    pub fn prompt(&mut self) -> (String, bool) {
        self.wait(|new| new == "> " || new.ends_with("\n> "))
    }

    /// Waits for the end of the program.
    pub fn end(mut self) -> (String, ExitStatus) {
        self.wait(|_| false);
        let status = self.child.wait().expect("its status");
        (std::mem::take(&mut self.screen), status)
    }
}

impl Drop for Terminal {
    /// Where a test failed, the program may still run.
    fn drop(&mut self) {
        let _ = self.child.kill();
        let _ = self.child.wait();
    }
}
