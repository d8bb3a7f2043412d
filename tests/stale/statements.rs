//! Lines 'NOW HEX' from standard input, each a statement that comes at a time: what is read of it, and what an editor makes of it. An empty line is
//! another editor.

use grants::{from_hex, Seen, Statement};
use std::io::{stdin, BufRead};

fn main() {
    let mut seen = Seen::default();
    for line in stdin().lock().lines() {
        let line = line.expect("a line");
        let Some((now, hex)) = line.split_once(' ') else {
            seen = Seen::default();
            println!();
            continue;
        };
        let Some(read) = Statement::read(&from_hex(hex).expect("hex digits")) else {
            println!("-");
            continue;
        };
        let date = |time: Option<i64>| time.map_or("none".to_string(), |time| time.to_string());
        let said = format!(
            "{} {} {} {} {} {}",
            read.version,
            read.root,
            date(read.bits.map(i64::from)),
            date(read.published),
            read.made,
            date(read.not_after)
        );
        let verdict = seen.take(&read, now.parse().expect("a time"));
        println!("{said}: {verdict}, {} {}", seen.version, seen.time);
    }
}
