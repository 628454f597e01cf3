//! Ctrl-C, where commands are typed: it stops a run or clears a line, and does not end the program.

use std::ffi::{c_int, c_short, c_ulong, c_void};
use std::io;
use std::ptr;
use std::sync::atomic::{AtomicBool, Ordering};

static INSTALLED: AtomicBool = AtomicBool::new(false);
static RAISED: AtomicBool = AtomicBool::new(false);

const SIGINT: c_int = 2;
const SIG_BLOCK: c_int = 0;
const SIG_SETMASK: c_int = 2;
const POLLIN: c_short = 1;
const STANDARD_INPUT: c_int = 0;

/// The C library's set of signals, 1024 bits.
#[repr(C)]
#[derive(Clone, Copy, Default)]
struct Signals([u64; 16]);

/// The C library's `struct pollfd`.
#[repr(C)]
struct Poll {
    file: c_int,
    wanted: c_short,
    found: c_short,
}

extern "C" {
    fn signal(number: c_int, handler: extern "C" fn(c_int)) -> usize;
    fn sigaddset(set: *mut Signals, number: c_int) -> c_int;
    fn pthread_sigmask(how: c_int, set: *const Signals, old: *mut Signals) -> c_int;
    fn ppoll(files: *mut Poll, count: c_ulong, time: *const c_void, mask: *const Signals) -> c_int;
}

extern "C" fn raise(_: c_int) {
    RAISED.store(true, Ordering::Relaxed);
}

/// From now on Ctrl-C is noted.
pub fn install() {
    // SAFETY: the handler does nothing but store to an atomic.
    unsafe { signal(SIGINT, raise) };
    INSTALLED.store(true, Ordering::Relaxed);
}

/// Whether it is.
pub fn installed() -> bool {
    INSTALLED.load(Ordering::Relaxed)
}

/// Whether Ctrl-C was pressed since the last [`clear`].
pub fn raised() -> bool {
    RAISED.load(Ordering::Relaxed)
}

/// Forgets it.
pub fn clear() {
    RAISED.store(false, Ordering::Relaxed);
}

/// Waits until there is something to read, or Ctrl-C.
///
/// # Errors
///
/// `Interrupted` for Ctrl-C, also for one that came before the wait.
pub fn wait_for_input() -> io::Result<()> {
    let (mut blocked, mut old) = (Signals::default(), Signals::default());
    let mut input = Poll {
        file: STANDARD_INPUT,
        wanted: POLLIN,
        found: 0,
    };
    // SAFETY: the sets and the one poll are live, and laid out as the C library has them. Ctrl-C is
    // held back between the look at the flag and the wait, which lets it through.
    let waited = unsafe {
        sigaddset(&mut blocked, SIGINT);
        pthread_sigmask(SIG_BLOCK, &blocked, &mut old);
        let waited = match raised() {
            false if ppoll(&mut input, 1, ptr::null(), &old) < 0 => Err(io::Error::last_os_error()),
            _ => Ok(()),
        };
        pthread_sigmask(SIG_SETMASK, &old, ptr::null_mut());
        waited
    };
    // It may also have come together with what there is to read.
    match RAISED.swap(false, Ordering::Relaxed) {
        true => Err(io::ErrorKind::Interrupted.into()),
        false => waited,
    }
}
