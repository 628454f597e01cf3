//! Work on many items over all cores.

use std::collections::BTreeMap;
use std::sync::atomic::{AtomicUsize, Ordering};
use std::sync::mpsc::{channel, RecvTimeoutError, Sender};
use std::thread;
use std::time::Duration;

/// The longest time in which nothing is handed on.
const PAUSE: Duration = Duration::from_millis(100);

/// Works on every item over all cores, and hands each result on as soon as all before it are; none
/// after a pause without one.
///
/// # Errors
///
/// The first fault of `take`, after which no further item is begun.
pub fn in_order<I: Sync, R: Send>(
    items: &[I],
    work: impl Fn(&I) -> R + Sync,
    mut take: impl FnMut(Option<R>) -> Result<(), String>,
) -> Result<(), String> {
    let next = AtomicUsize::new(0);
    let (sender, results) = channel();
    thread::scope(|scope| {
        let (next, work) = (&next, &work);
        for started in 0..threads().min(items.len()) {
            let sender = sender.clone();
            let worker = move || work_on(items, next, work, &sender);
            match thread::Builder::new().spawn_scoped(scope, worker) {
                Err(e) if started == 0 => return Err(format!("no thread can be started: {e}")),
                _ => {}
            }
        }
        // Else the results would never end.
        drop(sender);
        // Owned here, it is dropped where this is returned from, and the workers stop.
        let results = results;
        let (mut early, mut due) = (BTreeMap::new(), 0);
        loop {
            match results.recv_timeout(PAUSE) {
                Ok((index, result)) => drop(early.insert(index, result)),
                Err(RecvTimeoutError::Timeout) => take(None)?,
                Err(RecvTimeoutError::Disconnected) => return Ok(()),
            }
            while let Some(result) = early.remove(&due) {
                take(Some(result))?;
                due += 1;
            }
        }
    })
}

fn threads() -> usize {
    thread::available_parallelism().map_or(1, usize::from)
}

/// Takes the next item until none is left or nobody wants the results.
fn work_on<I, R>(
    items: &[I],
    next: &AtomicUsize,
    work: &impl Fn(&I) -> R,
    results: &Sender<(usize, R)>,
) {
    loop {
        let index = next.fetch_add(1, Ordering::Relaxed);
        let Some(item) = items.get(index) else { return };
        if results.send((index, work(item))).is_err() {
            return;
        }
    }
}
