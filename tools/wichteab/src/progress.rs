//! How far long work has come, on standard error where that is a terminal.

use std::io::{self, IsTerminal, Write};
use std::sync::mpsc::{self, Receiver, RecvTimeoutError};
use std::thread;
use std::time::{Duration, Instant};

/// Work that is done sooner is not spoken of.
const PATIENCE: Duration = Duration::from_millis(700);

/// Does the work. While it takes long, a line on the terminal says what is being done and for how many seconds.
pub fn during<T>(what: &str, work: impl FnOnce() -> T) -> T {
    match io::stderr().is_terminal() {
        true => told_on(&mut io::stderr(), PATIENCE, what, work),
        false => work(),
    }
}

/// Does the work, and tells of it on `out` each time that the patience is over.
pub fn told_on<T>(
    out: &mut (impl Write + Send),
    patience: Duration,
    what: &str,
    work: impl FnOnce() -> T,
) -> T {
    let (done, waiting) = mpsc::channel::<()>();
    thread::scope(|scope| {
        scope.spawn(move || tell(out, patience, what, &waiting));
        let result = work();
        drop(done);
        result
    })
}

/// Rewrites the line until the other end is dropped, then clears it. A terminal that cannot be written to is no reason
/// to stop the work.
fn tell(out: &mut impl Write, patience: Duration, what: &str, waiting: &Receiver<()>) {
    let began = Instant::now();
    let mut told = false;
    while waiting.recv_timeout(patience) == Err(RecvTimeoutError::Timeout) {
        let _ = write!(out, "\rwichteab: {what}, {} s", began.elapsed().as_secs());
        let _ = out.flush();
        told = true;
    }
    if told {
        let _ = write!(out, "\r\x1b[K");
        let _ = out.flush();
    }
}
