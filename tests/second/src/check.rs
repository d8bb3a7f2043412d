//! 01, 'Checking': a proof against a root; 02, 2026-03: without a neighbour a proof is off form.

use crate::bytes::{b32_at, u16_at, u32_at};
use crate::forged::{Hashing, Sha256};
use crate::proof::{Presence, Step};
use crate::{Bytes32, Refusal, ZEROS};

/// One whole presence record at the front, and the bytes after it.
fn presence(s: &[u8]) -> Option<(Presence, &[u8])> {
    if s.len() < 72 || u16_at(s, 4) != 16 {
        return None;
    }
    let count = u16_at(s, 6) as usize;
    let length = 72 + 33 * count;
    if count > 256 || u32_at(s, 0) as usize != length || s.len() < length {
        return None;
    }
    let mut steps = vec![];
    for at in (72..length).step_by(33) {
        if s[at] > 1 {
            return None;
        }
        steps.push(Step { side: s[at] == 1, sibling: b32_at(s, at + 1) });
    }
    Some((Presence { key: b32_at(s, 8), value: b32_at(s, 40), steps }, &s[length..]))
}

#[derive(Clone)]
pub enum Proof {
    Present(Presence),
    Absent { key: Bytes32, left: Option<Presence>, right: Option<Presence> },
}

/// One whole record in form, no byte over.
pub fn decode(s: &[u8]) -> Option<Proof> {
    if s.len() < 8 || u32_at(s, 0) as usize != s.len() {
        return None;
    }
    if u16_at(s, 4) == 16 {
        let (p, rest) = presence(s)?;
        return rest.is_empty().then_some(Proof::Present(p));
    }
    let flags = u16_at(s, 6);
    if u16_at(s, 4) != 17 || !(1..=3).contains(&flags) || s.len() < 40 {
        return None;
    }
    let mut rest = &s[40..];
    let mut next = |wanted: bool| -> Option<Option<Presence>> {
        if !wanted {
            return Some(None);
        }
        let (p, after) = presence(rest)?;
        rest = after;
        Some(Some(p))
    };
    let left = next(flags & 1 == 1)?;
    let right = next(flags & 2 == 2)?;
    rest.is_empty().then_some(Proof::Absent { key: b32_at(s, 8), left, right })
}

/// How many steps each leaf has that a proof in form shows.
pub fn shown(s: &[u8]) -> Option<Vec<usize>> {
    Some(match decode(s)? {
        Proof::Present(p) => vec![p.steps.len()],
        Proof::Absent { left, right, .. } => [left, right].iter().flatten().map(|p| p.steps.len()).collect(),
    })
}

fn leads(by: &impl Hashing, p: &Presence, root: &Bytes32) -> bool {
    let mut h = by.leaf(&p.key, &p.value);
    for s in &p.steps {
        h = if s.side { by.inner(&s.sibling, &h) } else { by.inner(&h, &s.sibling) };
    }
    h == *root
}

fn outermost(side: bool, steps: &[Step]) -> bool {
    steps.iter().all(|s| s.side == side || s.sibling == ZEROS)
}

fn part(left: &[Step], right: &[Step]) -> bool {
    let (mut a, mut b) = (left, right);
    while let (Some((x, xs)), Some((y, ys))) = (a.split_last(), b.split_last()) {
        if x.side != y.side || x.sibling != y.sibling {
            return !x.side && y.side && outermost(true, xs) && outermost(false, ys);
        }
        (a, b) = (xs, ys);
    }
    false
}

/// The value for 'present', None for 'absent'; 12, 10, 11.
pub fn verify(root: &[u8], key: &[u8], proof: &[u8]) -> Result<Option<Bytes32>, Refusal> {
    let root: Bytes32 = root.try_into().map_err(|_| 12u32)?;
    let key: Bytes32 = key.try_into().map_err(|_| 12u32)?;
    accepted(&Sha256, &root, &key, &decode(proof).ok_or(10u32)?).ok_or(11)
}

/// What a proof in form shows if it holds, under any hash of nodes.
pub fn accepted(by: &impl Hashing, root: &Bytes32, key: &Bytes32, proof: &Proof) -> Option<Option<Bytes32>> {
    match proof {
        Proof::Present(p) => (p.key == *key && leads(by, p, root)).then_some(Some(p.value)),
        Proof::Absent { key: k, left, right } => {
            let led = [left, right].into_iter().flatten().all(|p| leads(by, p, root));
            let ordered = left.as_ref().map_or(true, |p| p.key < *key) && right.as_ref().map_or(true, |p| *key < p.key);
            let shape = match (left, right) {
                (None, None) => false,
                (Some(l), None) => outermost(true, &l.steps),
                (None, Some(r)) => outermost(false, &r.steps),
                (Some(l), Some(r)) => part(&l.steps, &r.steps),
            };
            (k == key && led && ordered && shape).then_some(None)
        }
    }
}
