//! 02, 2026-08: the desk's store damaged and rescued by the second program, expected values by hand from 02's words.

use second::bytes::{ask_bytes, slot, Ask, Slot, HEADER, SLOT};
use second::{apply, check, format, rescue, root, Bytes32, ZEROS};

fn key(first: u8) -> Bytes32 {
    let mut k = ZEROS;
    k[0] = first;
    k
}

/// M1 to M5 (and M6).
fn desk(versions: u32) -> Vec<u8> {
    let (a, b, c, d) = (key(0), key(0x40), key(0x60), key(0x80));
    let insert = |k, v: u8| Ask { key: k, value: Some([v; 32]) };
    let delete = |k| Ask { key: k, value: None };
    let batches: [&[Ask]; 6] = [
        &[insert(a, 1), insert(b, 2), insert(c, 3), insert(d, 4)],
        &[delete(b), insert(c, 5)],
        &[],
        &[delete(a)],
        &[delete(d)],
        &[delete(c)],
    ];
    let mut s = vec![7; HEADER + SLOT * 20];
    format(&mut s).unwrap();
    for v in 1..=versions {
        let bytes: Vec<u8> = batches[v as usize - 1].iter().flat_map(ask_bytes).collect();
        apply(&mut s, v, &bytes).unwrap();
    }
    s
}

fn at(i: usize) -> usize {
    HEADER + SLOT * i
}

fn used(s: &[u8]) -> Vec<usize> {
    (0..20).filter(|&i| matches!(slot(&s[at(i)..at(i + 1)]), Slot::Used(_))).collect()
}

fn rescued(s: &[u8], oldest: u32, latest: u32) -> Result<((u32, u32, u32, u32), Vec<u8>), u32> {
    let mut t = vec![9; s.len()];
    let report = rescue(s, oldest, latest, &mut t);
    if report.is_err() {
        assert_eq!(t, vec![9; s.len()]);
    } else {
        check(&t).unwrap();
    }
    report.map(|r| (r, t))
}

#[test]
fn whole_and_cut() {
    let five = desk(5);
    // Version 0 has no root, so the run begins at 1.
    let (report, t) = rescued(&five, 0, 5).unwrap();
    assert_eq!(report, (1, 14, 0, 0));
    assert_eq!(t[HEADER..], five[HEADER..]);
    // From version 3 on: what was retired by 3 is left out.
    let (report, t) = rescued(&five, 3, 5).unwrap();
    assert_eq!((report, used(&t)), ((3, 8, 0, 6), vec![2, 5, 7, 8, 10, 11, 12, 13]));
    // Up to version 4: its three records that M5 retired aren't retired, the root of 5 is left out.
    let (report, _) = rescued(&five, 1, 4).unwrap();
    assert_eq!(report, (1, 10, 3, 1));
}

#[test]
fn damaged() {
    let five = desk(5);
    // The leaf A lost: versions 1 to 3 had it.
    let mut s = five.clone();
    s[at(2)] ^= 1;
    assert_eq!(rescued(&s, 0, 5).unwrap().0, (4, 4, 0, 10));
    // The root of version 3 lost: version 3 isn't taken as empty, nor as version 2.
    let mut s = five.clone();
    s[at(10)..at(11)].fill(0);
    assert_eq!(rescued(&s, 0, 5).unwrap().0, (4, 4, 0, 9));
    // retired-since of two records lost or wrong: set afresh.
    let mut s = five.clone();
    s[at(5) + 44..at(5) + 48].fill(0);
    s[at(13) + 44] = 9;
    let (report, t) = rescued(&s, 0, 5).unwrap();
    assert_eq!(report, (1, 12, 2, 0));
    assert_eq!(t[HEADER..], five[HEADER..]);
    // The header has no say.
    let mut s = five.clone();
    s[..HEADER].fill(0xEE);
    assert_eq!(rescued(&s, 0, 5).unwrap().1[HEADER..], five[HEADER..]);
}

#[test]
fn refused() {
    let six = desk(6);
    // Version 6 is empty: no run ends there, but one ends before it.
    assert_eq!(rescued(&six, 0, 6), Err(3));
    assert_eq!(rescued(&six, 0, 5).unwrap().0, (1, 13, 1, 0));
    assert_eq!(rescued(&six, 0, 0), Err(3));
    assert_eq!(rescued(&six, 6, 5), Err(2));
    assert_eq!(rescue(&six, 6, 5, &mut vec![0; six.len() - SLOT]), Err(1));
    assert_eq!(rescue(&six[1..], 6, 5, &mut vec![0; six.len() - 1]), Err(1));
}

#[test]
fn again() {
    let mut s = desk(5);
    s[at(2)] ^= 1;
    let (report, t) = rescued(&s, 0, 5).unwrap();
    for oldest in [0, report.0] {
        let (again, u) = rescued(&t, oldest, 5).unwrap();
        assert_eq!((again, &u), ((report.0, 4, 0, 0), &t));
    }
    assert_eq!(root(&t, 5), root(&desk(5), 5));
}
