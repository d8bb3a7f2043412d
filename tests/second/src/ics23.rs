//! A verifier of ICS 23 proofs, from its published specification with a ProofSpec as data, and not from document 01's check: VerifyMembership and
//! VerifyNonMembership of a CommitmentProof of protobuf bytes. Of the hash operations it has SHA-256, of the length operations NO_PREFIX: the ones that
//! our ProofSpec names. Like stock verifiers it reads protobuf leniently: fields in any order, the last of a repeated one, unknown ones passed over.

use crate::sha256::sha256;

#[derive(Clone, Default, PartialEq, Eq, Debug)]
pub struct LeafOp {
    pub hash: u64,
    pub prehash_key: u64,
    pub prehash_value: u64,
    pub length: u64,
    pub prefix: Vec<u8>,
}

#[derive(Clone, Default, PartialEq, Eq, Debug)]
pub struct InnerOp {
    pub hash: u64,
    pub prefix: Vec<u8>,
    pub suffix: Vec<u8>,
}

#[derive(Clone, Default, Debug)]
pub struct Existence {
    pub key: Vec<u8>,
    pub value: Vec<u8>,
    pub leaf: Option<LeafOp>,
    pub path: Vec<InnerOp>,
}

#[derive(Clone, Default, Debug)]
pub struct NonExistence {
    pub key: Vec<u8>,
    pub left: Option<Existence>,
    pub right: Option<Existence>,
}

#[derive(Clone, Debug)]
pub enum Commitment {
    Exist(Existence),
    NonExist(NonExistence),
    /// Batches, compressed batches, or nothing.
    Other,
}

pub struct InnerSpec {
    pub child_order: Vec<usize>,
    pub child_size: usize,
    pub min_prefix_length: usize,
    pub max_prefix_length: usize,
    pub empty_child: Vec<u8>,
    pub hash: u64,
}

pub struct ProofSpec {
    pub leaf: LeafOp,
    pub inner: InnerSpec,
    pub max_depth: usize,
    pub min_depth: usize,
    pub prehash_key_before_comparison: bool,
}

/// Our own, as docs/PARTNERS.md gives it.
pub fn our_spec() -> ProofSpec {
    ProofSpec {
        leaf: LeafOp { hash: 1, prehash_key: 1, prehash_value: 1, length: 0, prefix: vec![1] },
        inner: InnerSpec {
            child_order: vec![0, 1],
            child_size: 32,
            min_prefix_length: 1,
            max_prefix_length: 1,
            empty_child: vec![0; 32],
            hash: 1,
        },
        max_depth: 256,
        min_depth: 0,
        prehash_key_before_comparison: true,
    }
}

// Protobuf, leniently.

enum Field<'a> {
    Number(u64),
    Bytes(&'a [u8]),
    Other,
}

struct Fields<'a>(&'a [u8]);

impl<'a> Fields<'a> {
    fn byte(&mut self) -> Option<u8> {
        let (first, rest) = self.0.split_first()?;
        self.0 = rest;
        Some(*first)
    }

    fn varint(&mut self) -> Option<u64> {
        let mut x = 0u128;
        for i in 0..10 {
            let b = self.byte()?;
            x |= u128::from(b & 127) << (7 * i);
            if b < 128 {
                return Some(x as u64);
            }
        }
        None
    }

    fn take(&mut self, n: usize) -> Option<&'a [u8]> {
        if n > self.0.len() {
            return None;
        }
        let (front, rest) = self.0.split_at(n);
        self.0 = rest;
        Some(front)
    }

    /// None where the bytes aren't protobuf; the inner None at the end.
    fn next(&mut self) -> Option<Option<(u64, Field<'a>)>> {
        if self.0.is_empty() {
            return Some(None);
        }
        let tag = self.varint()?;
        let held = match tag & 7 {
            0 => Field::Number(self.varint()?),
            1 => self.take(8).map(|_| Field::Other)?,
            2 => {
                let n = usize::try_from(self.varint()?).ok()?;
                Field::Bytes(self.take(n)?)
            }
            5 => self.take(4).map(|_| Field::Other)?,
            _ => return None,
        };
        (tag >> 3 != 0).then_some(Some((tag >> 3, held)))
    }
}

fn each<'a>(m: &'a [u8], mut f: impl FnMut(u64, Field<'a>) -> Option<()>) -> Option<()> {
    let mut fields = Fields(m);
    while let Some((n, held)) = fields.next()? {
        f(n, held)?;
    }
    Some(())
}

fn leaf_op(m: &[u8]) -> Option<LeafOp> {
    let mut op = LeafOp::default();
    each(m, |n, held| {
        match (n, held) {
            (1, Field::Number(x)) => op.hash = x,
            (2, Field::Number(x)) => op.prehash_key = x,
            (3, Field::Number(x)) => op.prehash_value = x,
            (4, Field::Number(x)) => op.length = x,
            (5, Field::Bytes(x)) => op.prefix = x.to_vec(),
            (1..=5, _) => return None,
            _ => {}
        }
        Some(())
    })?;
    Some(op)
}

fn inner_op(m: &[u8]) -> Option<InnerOp> {
    let mut op = InnerOp::default();
    each(m, |n, held| {
        match (n, held) {
            (1, Field::Number(x)) => op.hash = x,
            (2, Field::Bytes(x)) => op.prefix = x.to_vec(),
            (3, Field::Bytes(x)) => op.suffix = x.to_vec(),
            (1..=3, _) => return None,
            _ => {}
        }
        Some(())
    })?;
    Some(op)
}

fn existence(m: &[u8]) -> Option<Existence> {
    let mut e = Existence::default();
    each(m, |n, held| {
        match (n, held) {
            (1, Field::Bytes(x)) => e.key = x.to_vec(),
            (2, Field::Bytes(x)) => e.value = x.to_vec(),
            (3, Field::Bytes(x)) => e.leaf = Some(leaf_op(x)?),
            (4, Field::Bytes(x)) => e.path.push(inner_op(x)?),
            (1..=4, _) => return None,
            _ => {}
        }
        Some(())
    })?;
    Some(e)
}

pub fn commitment(m: &[u8]) -> Option<Commitment> {
    let mut whole = Commitment::Other;
    each(m, |n, held| {
        match (n, held) {
            (1, Field::Bytes(x)) => whole = Commitment::Exist(existence(x)?),
            (2, Field::Bytes(x)) => {
                let mut e = NonExistence::default();
                each(x, |n, held| {
                    match (n, held) {
                        (1, Field::Bytes(x)) => e.key = x.to_vec(),
                        (2, Field::Bytes(x)) => e.left = Some(existence(x)?),
                        (3, Field::Bytes(x)) => e.right = Some(existence(x)?),
                        (1..=3, _) => return None,
                        _ => {}
                    }
                    Some(())
                })?;
                whole = Commitment::NonExist(e);
            }
            (3 | 4, Field::Bytes(_)) => whole = Commitment::Other,
            (1..=4, _) => return None,
            _ => {}
        }
        Some(())
    })?;
    Some(whole)
}

// Operations.

fn hash(op: u64, x: &[u8]) -> Option<Vec<u8>> {
    (op == 1).then(|| sha256(x).to_vec())
}

fn hash_or_not(op: u64, x: &[u8]) -> Option<Vec<u8>> {
    if op == 0 { Some(x.to_vec()) } else { hash(op, x) }
}

fn prepared(prehash: u64, length: u64, x: &[u8]) -> Option<Vec<u8>> {
    if x.is_empty() || length != 0 {
        return None;
    }
    hash_or_not(prehash, x)
}

impl LeafOp {
    fn apply(&self, key: &[u8], value: &[u8]) -> Option<Vec<u8>> {
        let key = prepared(self.prehash_key, self.length, key)?;
        let value = prepared(self.prehash_value, self.length, value)?;
        hash(self.hash, &[&self.prefix[..], &key, &value].concat())
    }

    fn against(&self, spec: &LeafOp) -> bool {
        (self.hash, self.prehash_key, self.prehash_value, self.length) == (spec.hash, spec.prehash_key, spec.prehash_value, spec.length)
            && self.prefix.starts_with(&spec.prefix)
    }
}

impl InnerOp {
    fn apply(&self, child: &[u8]) -> Option<Vec<u8>> {
        if child.is_empty() {
            return None;
        }
        hash(self.hash, &[&self.prefix[..], child, &self.suffix].concat())
    }

    fn against(&self, spec: &ProofSpec) -> bool {
        let inner = &spec.inner;
        let most = inner.max_prefix_length + (inner.child_order.len() - 1) * inner.child_size;
        self.hash == inner.hash
            && !self.prefix.starts_with(&spec.leaf.prefix)
            && (inner.min_prefix_length..=most).contains(&self.prefix.len())
            && self.suffix.len() % inner.child_size == 0
    }
}

impl Existence {
    fn against(&self, spec: &ProofSpec) -> bool {
        self.leaf.as_ref().is_some_and(|leaf| leaf.against(&spec.leaf))
            && self.path.len() >= spec.min_depth
            && (spec.max_depth == 0 || self.path.len() <= spec.max_depth)
            && self.path.iter().all(|op| op.against(spec))
    }

    fn calculate(&self, spec: &ProofSpec) -> Option<Vec<u8>> {
        let mut h = self.leaf.as_ref()?.apply(&self.key, &self.value)?;
        for op in &self.path {
            h = op.apply(&h)?;
            if h.len() > spec.inner.child_size && spec.inner.child_size >= 32 {
                return None;
            }
        }
        Some(h)
    }

    pub fn verify(&self, spec: &ProofSpec, root: &[u8], key: &[u8], value: &[u8]) -> bool {
        self.against(spec) && self.key == key && self.value == value && self.calculate(spec).is_some_and(|h| h == root)
    }
}

// Neighbours.

struct Padding {
    min_prefix: usize,
    max_prefix: usize,
    suffix: usize,
}

impl InnerSpec {
    fn position(&self, branch: usize) -> usize {
        self.child_order.iter().position(|&c| c == branch).expect("a branch")
    }

    fn padding(&self, branch: usize) -> Padding {
        let i = self.position(branch);
        let before = i * self.child_size;
        Padding {
            min_prefix: before + self.min_prefix_length,
            max_prefix: before + self.max_prefix_length,
            suffix: (self.child_order.len() - 1 - i) * self.child_size,
        }
    }

    fn has(&self, op: &InnerOp, branch: usize) -> bool {
        let p = self.padding(branch);
        (p.min_prefix..=p.max_prefix).contains(&op.prefix.len()) && op.suffix.len() == p.suffix
    }

    fn branch(&self, op: &InnerOp) -> Option<usize> {
        (0..self.child_order.len()).find(|&b| self.has(op, b))
    }

    fn left_empty(&self, op: &InnerOp) -> bool {
        let Some(n) = self.branch(op).filter(|&n| n > 0) else { return false };
        let Some(own) = op.prefix.len().checked_sub(n * self.child_size) else { return false };
        (0..n).all(|i| op.prefix[own + self.position(i) * self.child_size..][..self.child_size] == self.empty_child[..])
    }

    fn right_empty(&self, op: &InnerOp) -> bool {
        let Some(b) = self.branch(op) else { return false };
        let n = self.child_order.len() - 1 - b;
        n > 0
            && op.suffix.len() == n * self.child_size
            && (0..n).all(|i| op.suffix[self.position(i) * self.child_size..][..self.child_size] == self.empty_child[..])
    }

    pub fn left_most(&self, path: &[InnerOp]) -> bool {
        path.iter().all(|op| self.has(op, 0) || self.left_empty(op))
    }

    pub fn right_most(&self, path: &[InnerOp]) -> bool {
        path.iter().all(|op| self.has(op, self.child_order.len() - 1) || self.right_empty(op))
    }

    /// A path used up while ops are taken off the tops: refused, where the published programs end by a failed index.
    pub fn left_neighbour(&self, mut left: Vec<InnerOp>, mut right: Vec<InnerOp>) -> bool {
        let (mut x, mut y) = (left.pop(), right.pop());
        while let (Some(a), Some(b)) = (&x, &y) {
            if a.prefix != b.prefix || a.suffix != b.suffix {
                break;
            }
            (x, y) = (left.pop(), right.pop());
        }
        let (Some(x), Some(y)) = (x, y) else { return false };
        let (Some(i), Some(j)) = (self.branch(&x), self.branch(&y)) else { return false };
        j == i + 1 && self.right_most(&left) && self.left_most(&right)
    }
}

impl NonExistence {
    pub fn verify(&self, spec: &ProofSpec, root: &[u8], key: &[u8]) -> bool {
        let compared = |k: &[u8]| {
            if spec.prehash_key_before_comparison { hash_or_not(spec.leaf.prehash_key, k).unwrap_or_default() } else { k.to_vec() }
        };
        let held = |e: &Option<Existence>| e.as_ref().map_or(true, |e| e.verify(spec, root, &e.key, &e.value));
        if !held(&self.left) || !held(&self.right) {
            return false;
        }
        if self.right.as_ref().is_some_and(|r| compared(key) >= compared(&r.key)) || self.left.as_ref().is_some_and(|l| compared(key) <= compared(&l.key)) {
            return false;
        }
        match (&self.left, &self.right) {
            (None, None) => false,
            (None, Some(r)) => spec.inner.left_most(&r.path),
            (Some(l), None) => spec.inner.right_most(&l.path),
            (Some(l), Some(r)) => spec.inner.left_neighbour(l.path.clone(), r.path.clone()),
        }
    }
}

/// VerifyMembership.
pub fn member(spec: &ProofSpec, root: &[u8], m: &[u8], key: &[u8], value: &[u8]) -> bool {
    matches!(commitment(m), Some(Commitment::Exist(e)) if e.verify(spec, root, key, value))
}

/// VerifyNonMembership.
pub fn no_member(spec: &ProofSpec, root: &[u8], m: &[u8], key: &[u8]) -> bool {
    matches!(commitment(m), Some(Commitment::NonExist(e)) if e.verify(spec, root, key))
}
