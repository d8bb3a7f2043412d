//! What the standard library has no call for. All `unsafe` of the tool is here.
#![allow(unsafe_code)]

use std::sync::atomic::{AtomicU8, Ordering};

extern "C" {
    fn signal(number: i32, handler: usize) -> usize;
    fn fcntl(stream: i32, command: i32, ...) -> i32;
}

const SIGXFSZ: i32 = 25;
const IGNORE: usize = 1;
const GET_FLAGS: i32 = 1;

/// A write past `ulimit -f` fails with an error from now on, and doesn't end the process.
pub fn outlive_file_limits() {
    // Nothing else runs yet, and 'ignore' is no function of ours.
    unsafe { signal(SIGXFSZ, IGNORE) };
}

/// Standard input and output, by their numbers.
pub const INPUT: i32 = 0;
pub const OUTPUT: i32 = 1;

/// A bit for each of them that was closed when the process began.
static CLOSED: AtomicU8 = AtomicU8::new(0);

/// Whether a stream was closed when the process began. Rust opens /dev/null in its place before `main`, and nothing would be read, or all would
/// be lost, without an error.
pub fn was_closed(stream: i32) -> bool {
    CLOSED.load(Ordering::Relaxed) >> stream & 1 == 1
}

extern "C" fn look() {
    for stream in [INPUT, OUTPUT] {
        // It asks for the flags of a number that need not be a file's, and changes nothing.
        if unsafe { fcntl(stream, GET_FLAGS) } == -1 {
            CLOSED.fetch_or(1 << stream, Ordering::Relaxed);
        }
    }
}

/// What this section has is called before Rust's own start.
#[used]
#[link_section = ".init_array"]
static LOOK: extern "C" fn() = look;
