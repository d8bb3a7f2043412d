//! 01's desk example through the second program.

use second::bytes::{ask_bytes, slot, store, Ask, Slot, HEADER, SLOT};
use second::form::slot::TAIL;
use second::{alone, apply, check, format, get, prove, prune, root, spoiled, verify, Bytes32, Stopped, ZEROS};

fn key(first: u8, last: u8) -> Bytes32 {
    let mut k = ZEROS;
    k[0] = first;
    k[31] = last;
    k
}

fn insert(k: Bytes32, v: u8) -> Ask {
    Ask { key: k, value: Some([v; 32]) }
}

fn delete(k: Bytes32) -> Ask {
    Ask { key: k, value: None }
}

fn batch(asks: &[Ask]) -> Vec<u8> {
    asks.iter().flat_map(ask_bytes).collect()
}

fn fresh(n: usize) -> Vec<u8> {
    let mut s = vec![7; HEADER + SLOT * n];
    format(&mut s).unwrap();
    s
}

/// Places of the used slots as bit strings, free ones as '-'.
fn places(s: &[u8]) -> Vec<String> {
    let show = |c: &[u8]| match slot(c) {
        Slot::Free => "-".into(),
        Slot::Spoiled(_) => "?".into(),
        Slot::Used(r) => (0..r.place.count).map(|i| if second::bytes::bit(&r.place.bits, i) { '1' } else { '0' }).collect(),
    };
    s[HEADER..].chunks_exact(SLOT).map(show).collect()
}

fn retired_since(s: &[u8], v: u32) -> usize {
    let st = store(s).unwrap();
    st.slots.iter().filter(|x| matches!(x, Slot::Used(r) if r.retired == v)).count()
}

#[test]
fn desk() {
    let (a, b, c, d, e) = (key(0, 0), key(0x40, 0), key(0x60, 0), key(0x80, 0), key(0x80, 1));
    let four = batch(&[insert(a, 1), insert(b, 2), insert(c, 3), insert(d, 4)]);
    let mut s = fresh(20);
    let (v, _, n) = apply(&mut s, 1, &four).unwrap();
    assert_eq!((v, n), (1, 7));
    assert_eq!(places(&s)[..8], ["010", "011", "00", "01", "0", "1", "", "-"]);
    let (v, _, n) = apply(&mut s, 2, &batch(&[delete(b), insert(c, 5)])).unwrap();
    assert_eq!((v, n, retired_since(&s, 2)), (2, 3, 5));
    assert_eq!(places(&s)[7..11], ["01", "0", "", "-"]);
    let (v, _, n) = apply(&mut s, 3, &[]).unwrap();
    assert_eq!((v, n, retired_since(&s, 3)), (3, 1, 1));
    let (v, _, n) = apply(&mut s, 4, &batch(&[delete(a)])).unwrap();
    assert_eq!((v, n, retired_since(&s, 4)), (4, 2, 4));
    let (v, _, n) = apply(&mut s, 5, &batch(&[delete(d)])).unwrap();
    assert_eq!((v, n, retired_since(&s, 5)), (5, 1, 3));
    let (v, r, n) = apply(&mut s, 6, &batch(&[delete(c)])).unwrap();
    assert_eq!((v, n, r, retired_since(&s, 6)), (6, 0, ZEROS, 1));
    // 2026-03: versions 0 and 6 are empty, so there is no proof; the shortest absence proof has 112 bytes, in version 5, which holds C alone.
    let mut room = [7; 200];
    for v in [0, 6] {
        assert_eq!((root(&s, v), get(&s, v, &c), prove(&s, v, &c, &mut room)), (Ok(ZEROS), Ok(None), Err(alone(14))));
    }
    assert_eq!((prove(&s, 7, &c, &mut room), room), (Err(alone(8)), [7; 200]));
    assert_eq!(prove(&s, 5, &d, &mut room), Ok(112));
    assert_eq!(verify(&root(&s, 5).unwrap(), &d, &room[..112]), Ok(None));
    assert_eq!(verify(&ZEROS, &d, &room[..112]), Err(11));
    let none = second::proof::absence_bytes(&d, None, None);
    assert_eq!((verify(&ZEROS, &d, &none), verify(&ZEROS, &c, &none)), (Err(10), Err(10)));
    assert_eq!(prune(&mut s, 4), Ok(10));
    let stay: Vec<usize> = places(&s).iter().enumerate().filter(|(_, p)| *p != "-").map(|(i, _)| i).collect();
    assert_eq!(stay, [5, 11, 12, 13]);
    assert_eq!(apply(&mut s, 7, &batch(&[insert(e, 6)])).map(|x| (x.0, x.2)), Ok((7, 1)));
    assert_eq!(places(&s)[0], "");
    assert_eq!(prune(&mut s, 4), Ok(0));
    assert_eq!(prune(&mut s, 8), Err(8));
    assert_eq!(check(&s), Ok(()));
    let mut s = fresh(20);
    assert_eq!(apply(&mut s, 1, &batch(&[insert(a, 1), insert(key(0x10, 0), 2)])).map(|x| x.2), Ok(6));
    let mut s = fresh(5);
    assert_eq!(apply(&mut s, 1, &batch(&[insert(a, 1), insert(key(0x10, 0), 2)])), Err(7));
    let mut s = fresh(7);
    apply(&mut s, 1, &four).unwrap();
    assert_eq!(apply(&mut s, 2, &[]), Err(7));
    assert_eq!(apply(&mut s, 2, &batch(&[delete(a), delete(b), delete(c), delete(d)])).map(|x| x.2), Ok(0));
}

#[test]
fn deep() {
    let mut s = fresh(300);
    let ks = [key(0, 0), key(0, 1)];
    assert_eq!(apply(&mut s, 1, &batch(&[insert(ks[0], 1), insert(ks[1], 2)])).map(|x| x.2), Ok(258));
    let mut room = vec![0; 17_080];
    let r = root(&s, 1).unwrap();
    let n = prove(&s, 1, &ks[1], &mut room).unwrap() as usize;
    assert_eq!(n, 8_520);
    assert_eq!(verify(&r, &ks[1], &room[..n]), Ok(Some([2; 32])));
    let mut s = fresh(600);
    let asks: Vec<Ask> = [0, 1, 6, 7].iter().map(|&l| insert(key(0, l), 3)).collect();
    apply(&mut s, 1, &batch(&asks)).unwrap();
    let r = root(&s, 1).unwrap();
    for l in 0..8 {
        let k = key(0, l);
        let n = prove(&s, 1, &k, &mut room).unwrap() as usize;
        assert_eq!(verify(&r, &k, &room[..n]).unwrap(), get(&s, 1, &k).unwrap());
        assert_eq!(n == 17_080, (2..6).contains(&l));
        assert_eq!(prove(&s, 1, &k, &mut vec![0; n - 1]), Err(alone(9)));
    }
}

/// 2026-13: the desk's grants under numbers with gaps.
#[test]
fn gaps() {
    let (a, b, c, d) = (key(0, 0), key(0x40, 0), key(0x60, 0), key(0x80, 0));
    let mut s = fresh(20);
    let (v, five, n) = apply(&mut s, 5, &batch(&[insert(a, 1), insert(b, 2), insert(c, 3), insert(d, 4)])).unwrap();
    assert_eq!((v, n), (5, 7));
    let (v, nine, n) = apply(&mut s, 9, &batch(&[delete(b), delete(c)])).unwrap();
    assert_eq!((v, n, retired_since(&s, 9)), (9, 2, 6));
    assert_eq!([0, 4, 5, 7, 8, 9].map(|v| root(&s, v).unwrap()), [ZEROS, ZEROS, five, five, five, nine]);
    assert_eq!((get(&s, 7, &b), get(&s, 9, &b), get(&s, 4, &b)), (Ok(Some([2; 32])), Ok(None), Ok(None)));
    assert_eq!(second::changes::measures(&s, 5, 8), Ok((1, 0)));
    assert_eq!(second::changes::measures(&s, 7, 9), Ok((7, 2)));
    // Nothing was retired by 7: the earlier tree stays whole, and its root is older than oldest.
    assert_eq!((prune(&mut s, 7), check(&s)), (Ok(0), Ok(())));
    assert_eq!((root(&s, 6), root(&s, 7), root(&s, 9)), (Err(alone(8)), Ok(five), Ok(nine)));
    assert_eq!(apply(&mut s, 12, &batch(&[delete(a), delete(d)])), Ok((12, ZEROS, 0)));
    let (_, fifteen, n) = apply(&mut s, 15, &batch(&[insert(d, 4)])).unwrap();
    assert_eq!((n, retired_since(&s, 12), retired_since(&s, 15)), (1, 3, 0));
    assert_eq!([11, 12, 14, 15].map(|v| root(&s, v).unwrap()), [nine, ZEROS, ZEROS, fifteen]);
    assert_eq!((prune(&mut s, 13), check(&s)), (Ok(9), Ok(())));
    assert_eq!((root(&s, 13), root(&s, 15)), (Ok(ZEROS), Ok(fifteen)));
    let (v, last, n) = apply(&mut s, u32::MAX, &batch(&[insert(a, 1)])).unwrap();
    assert_eq!((v, n, retired_since(&s, u32::MAX)), (u32::MAX, 3, 1));
    assert_eq!([4_000_000_000, u32::MAX].map(|v| root(&s, v).unwrap()), [fifteen, last]);
    let before = s.clone();
    for number in [0, 1, 15, 16, u32::MAX] {
        assert_eq!(apply(&mut s, number, &[]), Err(18));
    }
    // 5, then 18, then 7.
    let disordered = batch(&[insert(b, 1), insert(a, 1)]);
    assert_eq!(apply(&mut s, 3, &disordered), Err(5));
    assert_eq!(apply(&mut fresh(1), 0, &batch(&[insert(a, 1), insert(b, 1)])), Err(18));
    assert_eq!(apply(&mut fresh(1), 1, &batch(&[insert(a, 1), insert(b, 1)])), Err(7));
    assert_eq!(s, before);
}

/// Where in the store a byte of a slot stands.
fn at(slot: usize, byte: usize) -> usize {
    HEADER + SLOT * slot + byte
}

/// 2026-07 on the desk's first publishing: 010 in slot 0, 011 in 1, 00 in 2, 01 in 3, 0 in 4, 1 in 5, the root in 6.
#[test]
fn lost_and_spoiled() {
    let (a, b, c, d) = (key(0, 0), key(0x40, 0), key(0x60, 0), key(0x80, 0));
    let e = key(0x50, 0);
    let mut s = fresh(9);
    apply(&mut s, 1, &batch(&[insert(a, 1), insert(b, 2), insert(c, 3), insert(d, 4)])).unwrap();
    let whole = s.clone();
    let mut room = vec![9; 600];
    let mut proved = |s: &[u8], k: &Bytes32| {
        let answer = prove(s, 1, k, &mut room);
        assert!(answer.is_ok() || room.iter().all(|&b| b == 9));
        room.fill(9);
        answer
    };
    // The leaf of B lost, and spoiled: by its kind, its length, its zero bytes. The proof of B and of E, whose left neighbour B is, meet it; A and D don't.
    let stops = |s: &[u8], k: &Bytes32, stopped: Stopped| assert_eq!((get(s, 1, k), prove(s, 1, k, &mut [])), (Err(stopped), Err(stopped)));
    s[at(0, 0)..at(1, 0)].fill(0);
    stops(&s, &b, alone(17));
    assert_eq!((get(&s, 1, &a), proved(&s, &a), get(&s, 1, &d)), (Ok(Some([1; 32])), Ok(138), Ok(Some([4; 32]))));
    for byte in [0, 1, 4, 5, TAIL, SLOT - 1] {
        s.copy_from_slice(&whole);
        s[at(0, byte)] ^= 0x10;
        stops(&s, &b, spoiled(0));
        stops(&s, &e, spoiled(0));
        assert_eq!(root(&s, 1), root(&whole, 1));
    }
    // Its version, bit count or bits changed: the fields don't agree, so it is lost, whether in form still or not.
    for byte in [6, 7, 8, 9, 39, 40, 43] {
        s.copy_from_slice(&whole);
        s[at(0, byte)] ^= 8;
        stops(&s, &b, alone(17));
    }
    // A leaf in form whose key doesn't begin with its place: 3, and no slot.
    s.copy_from_slice(&whole);
    s[at(0, 48)] ^= 0x80;
    stops(&s, &b, alone(3));
    // Two spoiled: the lowest; one in form beside it wins, lower or not.
    s.copy_from_slice(&whole);
    s[at(0, 4)] = 9;
    let bad = s[at(0, 0)..at(1, 0)].to_vec();
    s[at(8, 0)..].copy_from_slice(&bad);
    stops(&s, &b, spoiled(0));
    s[at(0, 4)] = 2;
    assert_eq!(get(&s, 1, &b), Ok(Some([2; 32])));
    s[at(0, 4)] = 9;
    s[at(8, 4)] = 2;
    assert_eq!(get(&s, 1, &b), Ok(Some([2; 32])));
    // F's walk ends at A's leaf, 00; its right neighbour is B, below 01.
    s.copy_from_slice(&whole);
    let f = key(0x20, 0);
    s[at(3, 4)] = 9;
    assert_eq!((get(&s, 1, &f), proved(&s, &f)), (Ok(None), Err(spoiled(3))));
    s[at(0, 0)..at(1, 0)].fill(0);
    assert_eq!(proved(&s, &f), Err(spoiled(3)));
    s[at(2, 0)..at(3, 0)].fill(0);
    stops(&s, &f, alone(17));
    // The root: 3 with its slot in every read; lost, the version is empty.
    s.copy_from_slice(&whole);
    s[at(6, 0)] ^= 1;
    assert_eq!(root(&s, 1), Err(spoiled(6)));
    stops(&s, &a, spoiled(6));
    assert_eq!((root(&s, 0), root(&s, 2)), (Ok(ZEROS), Err(alone(8))));
    s[at(6, 0)..at(7, 0)].fill(0);
    assert_eq!((root(&s, 1), get(&s, 1, &a), proved(&s, &a)), (Ok(ZEROS), Ok(None), Err(alone(14))));
}

/// 2026-07 with 2026-13: a root agrees by empty place and a lifetime that covers the version, all as raw fields.
#[test]
fn spoiled_roots() {
    let (a, d) = (key(0, 0), key(0x80, 0));
    let mut s = fresh(6);
    apply(&mut s, 3, &batch(&[insert(a, 1)])).unwrap();
    let (_, seven, _) = apply(&mut s, 7, &batch(&[insert(d, 1)])).unwrap();
    apply(&mut s, 9, &[]).unwrap();
    // Roots: of 3 in slot 0 until 6, of 7 in slot 3 until 8, of 9 in slot 4.
    assert_eq!(places(&s), ["", "0", "1", "", "", "-"]);
    let whole = s.clone();
    s[at(0, 4)] = 9;
    assert_eq!([2, 3, 6].map(|v| root(&s, v)), [Ok(ZEROS), Err(spoiled(0)), Err(spoiled(0))]);
    assert_eq!(root(&s, 7), Ok(seven));
    // Its version or its retired-since changed too: what the raw fields cover decides; a root in form wins.
    s[at(0, 40)] = 5;
    assert_eq!([4, 5, 6].map(|v| root(&s, v)), [Ok(ZEROS), Err(spoiled(0)), Err(spoiled(0))]);
    s[at(0, 40)] = 0;
    assert_eq!([0, 2, 6].map(|v| root(&s, v)), [Err(spoiled(0)); 3]);
    s[at(0, 44)] = 0;
    assert_eq!((root(&s, 6), root(&s, 7)), (Err(spoiled(0)), Ok(seven)));
    s[at(0, 44)] = 3;
    assert_eq!([2, 3].map(|v| root(&s, v)), [Err(spoiled(0)), Ok(ZEROS)]);
    // A bit set, or a bit count: no root any more.
    s.copy_from_slice(&whole);
    s[at(0, 4)] = 9;
    s[at(0, 39)] = 1;
    assert_eq!(root(&s, 3), Ok(ZEROS));
    s[at(0, 39)] = 0;
    s[at(0, 7)] = 1;
    assert_eq!(root(&s, 3), Ok(ZEROS));
    // A used slot with nothing but zeros in its head agrees with version 0, and with every version that has no root; a free slot doesn't.
    s.copy_from_slice(&whole);
    assert_eq!(root(&s, 0), Ok(ZEROS));
    s[at(5, SLOT - 1)] = 1;
    assert_eq!([0, 2].map(|v| root(&s, v)), [Err(spoiled(5)); 2]);
    assert_eq!((root(&s, 7), get(&s, 2, &a), prove(&s, 0, &a, &mut [])), (Ok(seven), Err(spoiled(5)), Err(spoiled(5))));
    // Two spoiled: the lowest.
    s[at(0, 4)] = 9;
    assert_eq!([2, 3].map(|v| root(&s, v)), [Err(spoiled(5)), Err(spoiled(0))]);
}

/// 2026-07: walk, left descent, right descent, each lost or spoiled; 14 before 3 and 17, these before 9.
#[test]
fn first_met() {
    // 000 and 001 below 00, 10 and 11 below 1: a key at 01 walks to a missing child of 0, with a descent on each side.
    let ks = [key(0, 0), key(0x20, 0), key(0x80, 0), key(0xC0, 0)];
    let mut s = fresh(12);
    apply(&mut s, 1, &batch(&ks.map(|k| insert(k, 1)))).unwrap();
    let slots: Vec<String> = places(&s);
    let of = |p: &str| slots.iter().position(|q| q == p).unwrap();
    let (left, right, walked) = (of("001"), of("10"), of("0"));
    let asked = key(0x40, 0);
    let whole = s.clone();
    let length = prove(&s, 1, &asked, &mut [0; 600]).unwrap() as usize;
    let lose = |s: &mut [u8], i: usize| s[at(i, 0)..at(i + 1, 0)].fill(0);
    let spoil = |s: &mut [u8], i: usize| s[at(i, 5)] = 1;
    let wrong = |s: &mut [u8], i: usize| s[at(i, 48)] ^= 0x80;
    let kinds: [(&dyn Fn(&mut [u8], usize), &dyn Fn(usize) -> Stopped); 3] =
        [(&lose, &|_| alone(17)), (&spoil, &spoiled), (&wrong, &|_| alone(3))];
    for (harm, stop) in kinds {
        for (other, _) in kinds {
            for room in [0, length - 1, length] {
                let mut s = whole.clone();
                harm(&mut s, right);
                assert_eq!(prove(&s, 1, &asked, &mut vec![0; room]), Err(stop(right)));
                let mut s = whole.clone();
                other(&mut s, right);
                harm(&mut s, left);
                assert_eq!(prove(&s, 1, &asked, &mut vec![0; room]), Err(stop(left)));
                assert_eq!(get(&s, 1, &asked), Ok(None));
            }
        }
    }
    let mut s = whole.clone();
    spoil(&mut s, walked);
    lose(&mut s, left);
    assert_eq!((get(&s, 1, &asked), prove(&s, 1, &asked, &mut [])), (Err(spoiled(walked)), Err(spoiled(walked))));
    // A presence proof makes no descent.
    let mut s = whole;
    lose(&mut s, left);
    lose(&mut s, of("11"));
    assert_eq!(prove(&s, 1, &ks[2], &mut [0; 600]), Ok(72 + 2 * 33));
}
