//! How long a command is at work, for a person who waits: on standard error where that is a terminal, from two seconds on, and gone before anything
//! else is written.

use std::io::{self, IsTerminal, Write};
use std::sync::atomic::{AtomicUsize, Ordering};
use std::sync::{Condvar, Mutex, MutexGuard, PoisonError};
use std::thread;
use std::time::{Duration, Instant};

const FIRST: Duration = Duration::from_secs(2);
const EACH: Duration = Duration::from_secs(1);

#[derive(Clone, Copy, PartialEq)]
enum State {
    Hidden,
    Shown,
    Over,
}

static STATE: Mutex<State> = Mutex::new(State::Hidden);
static ENDED: Condvar = Condvar::new();

/// How many parts of a shelf are done, of how many; 0 of 0 where no parts are worked on.
static DONE: AtomicUsize = AtomicUsize::new(0);
static OF: AtomicUsize = AtomicUsize::new(0);

/// So many parts of so many are done.
pub fn parts(done: usize, of: usize) {
    DONE.store(done, Ordering::Relaxed);
    OF.store(of, Ordering::Relaxed);
}

const BAR: usize = 30;

/// ': [######    ] 12 of 256 parts', where parts are worked on.
fn bar() -> String {
    let (done, of) = (DONE.load(Ordering::Relaxed), OF.load(Ordering::Relaxed));
    if of < 2 {
        return String::new();
    }
    let full = (BAR * done.min(of) / of).min(BAR);
    format!(" [{}{}] {done} of {of} parts,", "#".repeat(full), " ".repeat(BAR - full))
}

fn state() -> MutexGuard<'static, State> {
    STATE.lock().unwrap_or_else(PoisonError::into_inner)
}

/// Begins, unless someone types what is read.
pub fn begin(command: &'static str, reads_input: bool) {
    if !io::stderr().is_terminal() || (reads_input && io::stdin().is_terminal()) {
        return;
    }
    thread::spawn(move || {
        let begun = Instant::now();
        let mut now = state();
        while *now != State::Over {
            let waited = ENDED.wait_timeout(now, EACH);
            now = waited.unwrap_or_else(PoisonError::into_inner).0;
            if *now != State::Over && begun.elapsed() >= FIRST {
                let seconds = begun.elapsed().as_secs();
                write(&format!("\r{command}:{} {seconds} s\x1b[K", bar()));
                *now = State::Shown;
            }
        }
    });
}

/// Takes the line away before another one is written there.
pub fn hide() {
    leave(State::Hidden);
}

/// The answer begins: from now on nothing is shown.
pub fn end() {
    leave(State::Over);
}

fn leave(to: State) {
    let mut now = state();
    if *now == State::Shown {
        write("\r\x1b[K");
    }
    if *now != State::Over {
        *now = to;
    }
    ENDED.notify_all();
}

fn write(text: &str) {
    // It is for the eye alone.
    let _ = io::stderr().write_all(text.as_bytes());
}
