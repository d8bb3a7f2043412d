//! Bars: what a call may take beside another, in one run, in processor time. One run of tenths of a millisecond says little on a machine with other work, so both sides run in turns and the
//! best of each counts; where they come near the bar or above it, both run on, up to twelve times as long.

use std::sync::Mutex;

#[repr(C)]
struct Time {
    seconds: i64,
    nanoseconds: i64,
}

extern "C" {
    fn clock_gettime(clock: i32, time: *mut Time) -> i32;
}

/// The processor time of this program so far in milliseconds, which other work on the machine disturbs less than the clock's.
fn spent() -> f64 {
    const PROCESS_CPU_TIME: i32 = 2;
    let mut t = Time { seconds: 0, nanoseconds: 0 };
    // SAFETY: the call writes one such struct.
    assert_eq!(unsafe { clock_gettime(PROCESS_CPU_TIME, &mut t) }, 0);
    t.seconds as f64 * 1e3 + t.nanoseconds as f64 / 1e6
}

/// Milliseconds of processor time.
#[allow(dead_code)]
pub fn milliseconds(call: &mut dyn FnMut()) -> f64 {
    let start = spent();
    call();
    spent() - start
}

/// Of a call, the mean of as many in a row as fill a millisecond, each time that it is asked.
#[allow(dead_code)]
pub fn filling<'a>(call: &'a mut dyn FnMut()) -> impl FnMut() -> f64 + 'a {
    let many = (1.0 / milliseconds(call)).clamp(1.0, 1_000.0) as usize;
    move || milliseconds(&mut || (0..many).for_each(|_| call())) / many as f64
}

/// From this part of a bar on a measure is near it.
const NEAR: f64 = 0.9;
/// So many times as many turns, where it stays near.
const LONGER: usize = 12;

/// A sentence for each bar that was missed.
static MISSED: Mutex<Vec<String>> = Mutex::new(vec![]);

/// Two measures in turns, each gives its milliseconds, held to a bar of so many times the other's; the best of each.
#[allow(dead_code)]
pub fn beside(name: &str, turns: usize, most: f64, mut ours: impl FnMut() -> f64, mut other: impl FnMut() -> f64) -> [f64; 2] {
    let (mut a, mut b, mut done) = (f64::MAX, f64::MAX, 0);
    while done < turns || a > NEAR * most * b && done < LONGER * turns {
        a = a.min(ours());
        b = b.min(other());
        done += 1;
    }
    println!("bar {name} {:.3} bar {most} ({a:.3}ms beside {b:.3}ms, {done} turns)", a / b);
    judge(name, a / b, most, done);
    [a, b]
}

/// One measure held to so many milliseconds.
#[allow(dead_code)]
pub fn within(name: &str, turns: usize, most: f64, mut ours: impl FnMut() -> f64) -> f64 {
    let (mut a, mut done) = (f64::MAX, 0);
    while done < turns || a > NEAR * most && done < LONGER * turns {
        a = a.min(ours());
        done += 1;
    }
    println!("bar {name} {a:.3}ms bar {most}ms ({done} turns)");
    judge(name, a, most, done);
    a
}

/// What came of so many turns, held to a bar.
pub fn judge(name: &str, came: f64, most: f64, turns: usize) {
    if came > most {
        let above = 100.0 * (came / most - 1.0);
        let line = format!("{name}: {came:.3} where the bar is {most}, {above:.1} % above it after {turns} turns");
        MISSED.lock().unwrap().push(line);
    }
}

/// Ends the program where a bar was missed, and says which and by how much.
pub fn end() {
    let missed = MISSED.lock().unwrap();
    missed.iter().for_each(|line| println!("above its bar: {line}"));
    if !missed.is_empty() {
        std::process::exit(1);
    }
}
