//! How many slots a list wants: an estimate from the number of grants, of changes a week, and of versions that are kept.

use crate::args::{number, Args};
use crate::fail::Fail;
use grants::MOST_SLOTS;

/// What a list of grants is like over time.
pub struct Plan {
    grants: u32,
    weekly: u32,
    keep: u32,
}

/// Of random keys, which hashes are: a leaf for each grant, and 1.44 inner nodes.
const SLOTS_A_GRANT: f64 = 2.44;

impl Plan {
    /// `--for GRANTS --weekly CHANGES --keep VERSIONS`; none of it where there is no `--for`.
    pub fn of(args: &Args) -> Result<Option<Plan>, Fail> {
        let said = |name: &str| args.value(name).map(|word| number(name, word)).transpose();
        let (grants, weekly, keep) = (said("--for")?, said("--weekly")?, said("--keep")?);
        match grants {
            Some(grants) => Ok(Some(Plan {
                grants,
                weekly: weekly.unwrap_or(0),
                keep: keep.unwrap_or(1).max(1),
            })),
            None if weekly.or(keep).is_some() => Err(Fail::Usage(
                "--weekly and --keep go with --for GRANTS".to_string(),
            )),
            None => Ok(None),
        }
    }

    /// New records of a week's publishing: the changed leaves, and the nodes above them, of which those near the root are shared.
    fn each(&self) -> f64 {
        let changes = f64::from(self.weekly.min(self.grants));
        match changes > 0.0 {
            true => changes * ((f64::from(self.grants) / changes).log2() + 3.0),
            false => 1.0,
        }
    }

    /// The slots that it comes to, with an eighth to spare; above what a store may have too.
    pub fn slots(&self) -> u64 {
        let list = f64::from(self.grants.max(1)) * SLOTS_A_GRANT;
        // While a version is made, those kept are all there still.
        let kept = f64::from(self.keep) * self.each();
        ((list + kept) * 1.125).ceil() as u64 + 8
    }

    /// The capacity, or why there is none.
    pub fn capacity(&self) -> Result<u32, Fail> {
        let slots = self.slots();
        if slots <= u64::from(MOST_SLOTS) {
            return Ok(slots as u32);
        }
        let alone = f64::from(self.grants) * SLOTS_A_GRANT * 1.125;
        let advice = match alone as u64 <= u64::from(MOST_SLOTS) {
            true => "keep fewer versions",
            false => "make a shelf, of several stores under one root (grants format DIR --bits 8; docs/SCALE.md): 6,000 grants fit one store",
        };
        Err(Fail::Usage(format!(
            "{} grants with {} changes a week and {} kept want some {slots} slots, and a store has {MOST_SLOTS} at most: {advice}",
            self.grants,
            self.weekly,
            versions(self.keep)
        )))
    }

    /// What goes with it.
    pub fn advice(&self) -> String {
        format!(
            "an estimate for {} grants, {} changes a week and {} kept: a week's publishing makes about {:.0} records. Each week, after publishing version N: grants prune STORE N-{} (see docs/SIZING.md)",
            self.grants, self.weekly, versions(self.keep), self.each(), self.keep - 1
        )
    }
}

fn versions(n: u32) -> String {
    crate::plain::counted(n as usize, "version")
}
