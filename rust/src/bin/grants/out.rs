//! Standard output. The exit status is decided before the first byte goes there, and what goes wrong with the output never makes it 0.

use crate::fail::Fail;
use crate::json::Json;
use crate::progress;
use std::fmt;
use std::io::{self, BufWriter, ErrorKind, Write};
use std::sync::atomic::{AtomicBool, Ordering};

/// The exit status of an accepted command that shows a key to be absent.
pub const ABSENT: u8 = 1;

pub fn both_to_output() -> Fail {
    Fail::Usage("--out - and --json would both write standard output".to_string())
}

static SAID: AtomicBool = AtomicBool::new(false);

/// Whether a line was written beside the answer.
pub fn said() -> bool {
    SAID.load(Ordering::Relaxed)
}

/// A line on standard error beside the answer, in one write, so that no other process's line falls into it.
pub fn beside(line: fmt::Arguments<'_>) {
    SAID.store(true, Ordering::Relaxed);
    progress::hide();
    // Where this can't be written the answer stands all the same.
    let _ = io::stderr().write_all(format!("grants: {line}\n").as_bytes());
}

pub struct Out {
    to: BufWriter<io::Stdout>,
    pub json: bool,
    /// A store was changed already, which an error from now on must say.
    pub changed: bool,
}

/// What writes, once the exit status is decided.
pub struct Answer<'a> {
    out: &'a mut Out,
    status: u8,
}

impl Out {
    pub fn new(json: bool) -> Out {
        Out {
            to: BufWriter::new(io::stdout()),
            json,
            changed: false,
        }
    }

    pub fn decided(&mut self, status: u8) -> Answer<'_> {
        progress::end();
        Answer { out: self, status }
    }

    /// The one or the other, as was asked.
    pub fn answer(&mut self, status: u8, json: Json, line: impl fmt::Display) -> Result<u8, Fail> {
        let json_asked = self.json;
        let mut answer = self.decided(status);
        if json_asked {
            answer.line(json)?;
        } else {
            answer.line(line)?;
        }
        answer.end()
    }
}

impl Answer<'_> {
    pub fn line(&mut self, line: impl fmt::Display) -> Result<(), Fail> {
        let wrote = writeln!(self.out.to, "{line}");
        self.judged(wrote)
    }

    pub fn raw(&mut self, bytes: &[u8]) -> Result<(), Fail> {
        let wrote = self.out.to.write_all(bytes);
        self.judged(wrote)
    }

    /// All of it is written; the status is the one that was decided.
    pub fn end(mut self) -> Result<u8, Fail> {
        let wrote = self.out.to.flush();
        self.judged(wrote)?;
        Ok(self.status)
    }

    fn judged(&mut self, wrote: io::Result<()>) -> Result<(), Fail> {
        match wrote {
            // The reader has seen enough, as `head` does. What was decided stands.
            Err(e) if e.kind() == ErrorKind::BrokenPipe => {
                std::process::exit(i32::from(self.status))
            }
            Err(e) => {
                let changed = match self.out.changed {
                    true => "; the store is changed all the same",
                    false => "",
                };
                Err(Fail::File(format!(
                    "cannot write the answer to standard output: {e}{changed}"
                )))
            }
            Ok(()) => Ok(()),
        }
    }
}
