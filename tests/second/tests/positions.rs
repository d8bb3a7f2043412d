//! 02, 2026-09: the desk's store counted and read by position, expected values by hand from 02's words; and the form before it.

use second::bytes::{ask_bytes, slot, store_bytes, store_in, Ask, Body, Form, Slot, HEADER, SLOT};
use second::calls::{apply_in, format_in, get_in, grants, grants_in, prune_in, root_in};
use second::form::slot::{KIND, LEAVES};
use second::proof::proof_in;
use second::sound::check_in;
use second::{alone, apply, at, check, count, format, get, prune, rescue, root, spoiled, Bytes32, Stopped, ZEROS};

fn key(first: u8) -> Bytes32 {
    let mut k = ZEROS;
    k[0] = first;
    k
}

const A: u8 = 0;
const B: u8 = 0x40;
const C: u8 = 0x60;
const D: u8 = 0x80;

fn batch(inserts: &[(u8, u8)], deletes: &[u8]) -> Vec<u8> {
    let mut asks: Vec<Ask> = inserts.iter().map(|&(k, v)| Ask { key: key(k), value: Some([v; 32]) }).collect();
    asks.extend(deletes.iter().map(|&k| Ask { key: key(k), value: None }));
    asks.sort_by_key(|a| a.key);
    asks.iter().flat_map(ask_bytes).collect()
}

fn fresh(n: usize) -> Vec<u8> {
    let mut s = vec![7; HEADER + SLOT * n];
    format(&mut s).unwrap();
    s
}

/// M1 to M6.
fn desk(versions: usize) -> Vec<u8> {
    let mut s = fresh(20);
    let batches =
        [batch(&[(A, 1), (B, 2), (C, 3), (D, 4)], &[]), batch(&[(C, 5)], &[B]), vec![], batch(&[], &[A]), batch(&[], &[D]), batch(&[], &[C])];
    for (i, b) in batches[..versions].iter().enumerate() {
        apply(&mut s, i as u32 + 1, b).unwrap();
    }
    s
}

fn byte(slot: usize, byte: usize) -> usize {
    HEADER + SLOT * slot + byte
}

/// A slot's two counts.
fn leaves(s: &[u8], i: usize) -> Option<[u32; 2]> {
    match slot(&s[byte(i, 0)..byte(i + 1, 0)]) {
        Slot::Used(r) => match r.body {
            Body::Inner(children) => Some(children.map(|c| c.leaves)),
            Body::Leaf { .. } => None,
        },
        _ => panic!("slot {i}"),
    }
}

fn set(s: &mut [u8], i: usize, counts: [u32; 2]) {
    for (at, n) in LEAVES.into_iter().zip(counts) {
        s[byte(i, at)..][..4].copy_from_slice(&n.to_le_bytes());
    }
}

fn lose(s: &mut [u8], i: usize) {
    s[byte(i, 0)..byte(i + 1, 0)].fill(0);
}

fn spoil(s: &mut [u8], i: usize) {
    s[byte(i, KIND)] = 9;
}

/// What stands at a position, by its key's first byte and its value's.
fn told(s: &[u8], version: u32, position: u64) -> Result<(u8, u8), Stopped> {
    at(s, version, position).map(|(k, v)| (k[0], v[0]))
}

/// The bytes themselves: which offsets the counts have, which lengths and kinds the records, and how long a slot is.
#[test]
fn bytes() {
    let s = desk(1);
    assert_eq!((s.len(), s[..8].to_vec()), (24 + 128 * 20, vec![24, 0, 0, 0, 4, 0, 0, 0]));
    let root = &s[24 + 128 * 6..][..128];
    assert_eq!((root[..8].to_vec(), root[120..].to_vec()), (vec![128, 0, 0, 0, 5, 0, 0, 0], vec![3, 0, 0, 0, 1, 0, 0, 0]));
    let leaf = &s[24 + 128 * 5..][..128];
    assert_eq!((leaf[..8].to_vec(), leaf[112..].to_vec()), (vec![112, 0, 0, 0, 2, 0, 1, 0], vec![0; 16]));
    for i in 112..128 {
        let mut t = s.clone();
        t[24 + 128 * 5 + i] = 1;
        assert_eq!((get(&t, 1, &key(D)), check(&t)), (Err(spoiled(5)), Err(3)));
    }
}

/// M1 to M6: 010, 011, 00, 01, 0, 1 and the root in slots 0 to 6; leaf 01, inner 0 and the root of 2 in 7 to 9; roots in 10 and 12; leaves else.
#[test]
fn desk_by_position() {
    let s = desk(6);
    assert_eq!([3, 4, 6, 8, 9, 10, 12].map(|i| leaves(&s, i).unwrap()), [[1, 1], [1, 2], [3, 1], [1, 1], [2, 1], [2, 1], [1, 1]]);
    assert_eq!([0, 1, 2, 5, 7, 11, 13].map(|i| leaves(&s, i)), [None; 7]);
    let held: [&[(u8, u8)]; 7] = [
        &[],
        &[(A, 1), (B, 2), (C, 3), (D, 4)],
        &[(A, 1), (C, 5), (D, 4)],
        &[(A, 1), (C, 5), (D, 4)],
        &[(C, 5), (D, 4)],
        &[(C, 5)],
        &[],
    ];
    for (v, held) in held.iter().enumerate() {
        let (v, n) = (v as u32, held.len() as u64);
        assert_eq!(count(&s, v), Ok(n));
        for (i, grant) in held.iter().enumerate() {
            assert_eq!(told(&s, v, i as u64), Ok(*grant));
        }
        for position in [n, n + 1, 1 << 32, (1 << 32) + n, 1 << 33, u64::MAX] {
            assert_eq!(told(&s, v, position), Err(alone(20)));
        }
    }
    assert_eq!((count(&s, 7), told(&s, 7, 0)), (Err(alone(8)), Err(alone(8))));
}

/// Sound now also means that each count is true: each count of each inner record raised, lowered and exchanged.
#[test]
fn counts_are_part_of_soundness() {
    let s = desk(6);
    let mut lone = fresh(8);
    // Below the root, 0 and 00 a lone inner child each, their right counts 0.
    apply(&mut lone, 1, &batch(&[(0, 1), (0x10, 2)], &[])).unwrap();
    assert_eq!((2..6).map(|i| leaves(&lone, i)).collect::<Vec<_>>(), [Some([1, 1]), Some([2, 0]), Some([2, 0]), Some([2, 0])]);
    for (s, slots) in [(s, vec![3, 4, 6, 8, 9, 10, 12]), (lone, vec![2, 3, 4, 5])] {
        assert_eq!(check(&s), Ok(()));
        for i in slots {
            let [l, r] = leaves(&s, i).unwrap();
            for wrong in [[l + 1, r], [l.wrapping_sub(1), r], [l, r + 1], [l, r.wrapping_sub(1)], [l + 1, r.wrapping_sub(1)], [0, l + r], [u32::MAX, r]] {
                let mut t = s.clone();
                set(&mut t, i, wrong);
                assert_eq!((check(&t), root(&t, 1), t[..24].to_vec()), (Err(3), root(&s, 1), s[..24].to_vec()), "{i} {wrong:?}");
                assert_eq!(apply(&mut t, 99, &[]), Err(3));
                assert_eq!(prune(&mut t, 1), Err(3));
            }
        }
    }
}

/// Reads on counts that no history gives.
#[test]
fn damaged_counts() {
    let s = desk(1);
    // The sum in 64 bits; a position is compared with it, and at the root alone.
    let mut t = s.clone();
    set(&mut t, 6, [u32::MAX, u32::MAX]);
    assert_eq!(count(&t, 1), Ok((1 << 33) - 2));
    assert_eq!([(1 << 33) - 2, 1 << 33, u64::MAX].map(|p| told(&t, 1, p)), [Err(alone(20)); 3]);
    assert_eq!([0, 1, 2].map(|p| told(&t, 1, p)), [Ok((A, 1)), Ok((B, 2)), Ok((C, 3))]);
    // D stands right of 2^32 - 1 that the left is said to have; a position left over at C's leaf, and at D's.
    assert_eq!([3, 4, u32::MAX as u64 - 1, (1 << 32), (1 << 33) - 3].map(|p| told(&t, 1, p)), [Err(alone(3)); 5]);
    assert_eq!(told(&t, 1, u32::MAX as u64), Ok((D, 4)));
    // 0 said to have none on the left: position 0 goes right there, to B. Position 2 is left over at C's leaf.
    let mut t = s.clone();
    set(&mut t, 4, [0, 2]);
    assert_eq!([0, 1, 2, 3].map(|p| told(&t, 1, p)), [Ok((B, 2)), Ok((C, 3)), Err(alone(3)), Ok((D, 4))]);
    // The root said to have none at all: every position is 20, with the tree whole below it.
    let mut t = s.clone();
    set(&mut t, 6, [0, 0]);
    assert_eq!((count(&t, 1), told(&t, 1, 0), get(&t, 1, &key(B))), (Ok(0), Err(alone(20)), Ok(Some([2; 32]))));
    // A missing child with a count, and one that the descent meets because the other's count is too small.
    let mut lone = fresh(8);
    apply(&mut lone, 1, &batch(&[(0, 1), (0x10, 2)], &[])).unwrap();
    set(&mut lone, 5, [2, 5]);
    assert_eq!((count(&lone, 1), told(&lone, 1, 1), told(&lone, 1, 2), told(&lone, 1, 6), told(&lone, 1, 7)), (Ok(7), Ok((0x10, 2)), Err(alone(3)), Err(alone(3)), Err(alone(20))));
    set(&mut lone, 5, [2, 0]);
    set(&mut lone, 3, [1, 0]);
    assert_eq!([0, 1, 2].map(|p| told(&lone, 1, p)), [Ok((0, 1)), Err(alone(3)), Err(alone(20))]);
}

/// Each refusal beside the next one in order.
#[test]
fn order() {
    let s = desk(1);
    let both = |s: &[u8], version: u32, position: u64, number: Result<u64, Stopped>, stopped: Stopped| {
        assert_eq!((count(s, version), told(s, version, position)), (number, Err(stopped)));
    };
    let mut bad_header = s.clone();
    bad_header[4] = 1;
    both(&bad_header[..s.len() - 1], 1, 9, Err(alone(1)), alone(1));
    both(&bad_header, 2, 9, Err(alone(2)), alone(2));
    let mut spoilt = s.clone();
    spoil(&mut spoilt, 6);
    both(&spoilt, 2, 9, Err(alone(8)), alone(8));
    both(&spoilt, 1, 9, Err(spoiled(6)), spoiled(6));
    // A lost root is an empty version.
    let mut lost = s.clone();
    lose(&mut lost, 6);
    both(&lost, 1, 0, Ok(0), alone(20));
    // 20 before what is wrong below the root; then the first met: 17, 3 with the slot, 3 for a stray leaf.
    let mut bare = s.clone();
    (0..6).for_each(|i| lose(&mut bare, i));
    both(&bare, 1, 4, Ok(4), alone(20));
    both(&bare, 1, 3, Ok(4), alone(17));
    let mut below = s.clone();
    spoil(&mut below, 4);
    lose(&mut below, 3);
    both(&below, 1, 1, Ok(4), spoiled(4));
    let mut below = s.clone();
    lose(&mut below, 4);
    spoil(&mut below, 3);
    both(&below, 1, 1, Ok(4), alone(17));
    let mut stray = s.clone();
    stray[byte(0, 48)] ^= 0x80;
    assert_eq!([0, 1, 2, 3].map(|p| told(&stray, 1, p)), [Ok((A, 1)), Err(alone(3)), Ok((C, 3)), Ok((D, 4))]);
    // A lone root leaf: one grant.
    let mut one = fresh(1);
    apply(&mut one, 3, &batch(&[(C, 9)], &[])).unwrap();
    assert_eq!((count(&one, 2), count(&one, 3), told(&one, 3, 0), told(&one, 3, 1)), (Ok(0), Ok(1), Ok((C, 9)), Err(alone(20))));
}

/// In a rescue a wrong count makes its version's tree unusable, and those of the versions that share the record.
#[test]
fn rescued() {
    let s = desk(5);
    let rescued = |i: usize, counts: [u32; 2]| {
        let mut t = s.clone();
        set(&mut t, i, counts);
        let (mut made, mut walked) = (vec![9; s.len()], vec![9; s.len()]);
        let answer = rescue(&t, 0, 5, &mut made);
        assert_eq!((second::rescue::walked(&t, 0, 5, &mut walked).map(|w| w.0), walked), (answer, made.clone()));
        assert!(answer.is_err() || check(&made).is_ok());
        answer
    };
    assert_eq!(rescued(6, [3, 1]), Ok((1, 14, 0, 0)));
    // Of version 1 alone: its root, 0 and 01. Of 2 and 3: inner 0 in slot 8. Of 2, 3, 4: their roots.
    for i in [6, 4, 3] {
        assert_eq!(rescued(i, [2, 2]), Ok((2, 9, 0, 5)));
    }
    assert_eq!(rescued(8, [1, 2]), Ok((4, 4, 0, 10)));
    assert_eq!([rescued(9, [1, 2]), rescued(10, [1, 2]), rescued(12, [2, 1])], [Ok((3, 8, 0, 6)), Ok((4, 4, 0, 10)), Ok((5, 1, 0, 13))]);
}

/// The form of 01 beside the one with counts: the same history gives the same records, roots, grants and proofs; each form refuses the other's stores.
#[test]
fn forms() {
    let mut plain = vec![7; 24 + 120 * 20];
    format_in(Form::Plain, &mut plain).unwrap();
    let batches = [batch(&[(A, 1), (B, 2), (C, 3), (D, 4)], &[]), batch(&[(C, 5)], &[B]), vec![], batch(&[], &[A])];
    for (i, b) in batches.iter().enumerate() {
        apply_in(Form::Plain, &mut plain, i as u32 + 1, b).unwrap();
    }
    let mut s = desk(4);
    assert_eq!(prune_in(Form::Plain, &mut plain, 1), prune(&mut s, 1));
    assert_eq!((check_in(Form::Plain, &plain), check(&s)), (Ok(()), Ok(())));
    assert_eq!((plain[4], plain[24 + 120 * 6], plain[24 + 120 * 6 + 4]), (1, 120, 3));
    for v in 1..=4 {
        assert_eq!(root_in(Form::Plain, &plain, v), root(&s, v));
        assert_eq!(grants_in(Form::Plain, &plain, v), grants(&s, v));
        for k in [A, B, 0x50, C, D, 0xFF].map(key) {
            assert_eq!(get_in(Form::Plain, &plain, v, &k), get(&s, v, &k));
            assert_eq!(proof_in(Form::Plain, &plain, v, &k), second::proof::proof(&s, v, &k));
        }
    }
    // Records without their counts.
    let mut bare = store_in(Form::Counted, &s).unwrap();
    for slot in &mut bare.slots {
        if let Slot::Used(r) = slot {
            if let Body::Inner(children) = &mut r.body {
                children.iter_mut().for_each(|c| c.leaves = 0);
            }
        }
    }
    bare.form = Form::Plain;
    assert_eq!((store_in(Form::Plain, &plain).unwrap(), &plain), (bare.clone(), &store_bytes(&bare)));
    assert_eq!((check(&plain), check_in(Form::Plain, &s)), (Err(1), Err(1)));
    // 24 + 120 x 16 is 24 + 128 x 15: such a store is told by its kind.
    let mut both = vec![0; 24 + 120 * 16];
    format_in(Form::Plain, &mut both).unwrap();
    assert_eq!((check_in(Form::Plain, &both), check(&both), count(&both, 0)), (Ok(()), Err(2), Err(alone(2))));
    format(&mut both).unwrap();
    assert_eq!((check_in(Form::Plain, &both), check(&both), count(&both, 0)), (Err(2), Ok(()), Ok(0)));
}
