//! 2026-02: a record written as an ICS 23 message and read back, beside the second program: on the proofs of histories, on damaged messages and records, on any
//! bytes, every byte of the room and of the answer. And beside a verifier written from ICS 23's specification: what our check says of the record read, a partner
//! says of the message, on trees of histories and on trees that no store has.

use crate::both::lent;
use crate::cases::{self, Random};
use crate::ours;
use crate::tally::Tally;
use second::bytes::{ask_bytes, Ask};
use second::check::{decode, Proof};
use second::ics23::{member, no_member, our_spec};
use second::message::{answer, message, record, Leaf};
use second::proof::{absence_bytes, presence_bytes, Presence, Step};
use second::sha256::{inner_hash, leaf_hash, sha256};
use second::Bytes32;
use std::collections::BTreeMap;

/// What is lent beside a record.
#[derive(Clone, Default, PartialEq, Debug)]
struct Raw {
    asked: Vec<u8>,
    leaves: [[Vec<u8>; 2]; 2],
}

impl Raw {
    fn leaf(&self, i: usize) -> Leaf<'_> {
        Leaf { key: &self.leaves[i][0], value: &self.leaves[i][1] }
    }

    fn message(&self, record: &[u8]) -> Result<Vec<u8>, u32> {
        message(record, &self.asked, self.leaf(0), self.leaf(1))
    }
}

/// Writing on both sides, with this much room.
fn write(tally: &mut Tally, what: &str, seed: u64, record: &[u8], raw: &Raw, room: usize) -> Result<u32, u32> {
    let before: Vec<u8> = (0..room).map(|i| 0x3C ^ i as u8).collect();
    let (own, held) = (record.to_vec(), raw.clone());
    let (x, a) = lent(&before, |room| ours::ics23_write(record, &raw.asked, raw.leaf(0), raw.leaf(1), room));
    assert!(own == record && held == *raw, "{what}: what was lent to be read was written");
    let mut b = before;
    let y = second::ics23_write(record, &raw.asked, raw.leaf(0), raw.leaf(1), &mut b);
    tally.wrote("ics23_write", what, seed, (x, &a), (y, &b));
    y
}

/// Reading on both sides; the record, where it is read.
fn read(tally: &mut Tally, what: &str, seed: u64, m: &[u8], room: usize) -> Result<Vec<u8>, u32> {
    let before: Vec<u8> = (0..room).map(|i| 0x69 ^ i as u8).collect();
    let own = m.to_vec();
    let (x, a) = lent(&before, |room| ours::ics23_read(m, room));
    assert!(own == m, "{what}: the message was written");
    let mut b = before;
    let y = second::ics23_read(m, &mut b).map(|(length, parts)| answer(length, &parts));
    let length = |z: &Result<[u8; 44], u32>| z.map(|z| u32::from_le_bytes(z[..4].try_into().unwrap()));
    tally.wrote("ics23_read", what, seed, (length(&x), &a), (length(&y), &b));
    tally.equal(what, seed, x, y);
    y.map(|z| b[..u32::from_le_bytes(z[..4].try_into().unwrap()) as usize].to_vec())
}

/// A partner's answer for the message's own key beside our check of the record read, under a root.
fn partner(tally: &mut Tally, what: &str, seed: u64, root: &[u8], m: &[u8]) -> bool {
    let Some((own, parts)) = record(m) else { return false };
    let spec = our_spec();
    let asked = &m[parts.asked.clone()];
    let checked = ours::verify(root, &sha256(asked), &own);
    let [key, value] = &parts.leaves[0];
    let (key, value) = (&m[key.clone()], &m[value.clone()]);
    let held = match decode(&own).expect("a record") {
        Proof::Present(_) => {
            tally.equal(what, seed, no_member(&spec, root, m, asked), false);
            tally.equal(what, seed, member(&spec, root, m, key, value), checked == Ok(Some(sha256(value))));
            checked.is_ok()
        }
        Proof::Absent { .. } => {
            tally.equal(what, seed, member(&spec, root, m, key, value), false);
            tally.equal(what, seed, no_member(&spec, root, m, asked), checked == Ok(None));
            checked.is_ok()
        }
    };
    tally.count(format!("partner {}", if held { "accepts" } else { "refuses" }));
    held
}

/// Written with room just enough, one byte short and more; read with the same; the record comes back as it was.
fn there_and_back(tally: &mut Tally, what: &str, seed: u64, own: &[u8], raw: &Raw) -> Option<Vec<u8>> {
    let m = raw.message(own).ok()?;
    for room in [m.len(), m.len() - 1, m.len() + 7, 0] {
        let wanted = if room < m.len() { Err(9) } else { Ok(m.len() as u32) };
        let answer = write(tally, what, seed, own, raw, room);
        tally.equal(what, seed, answer, wanted);
    }
    for room in [own.len(), own.len() - 1, own.len() + 5, 0] {
        let wanted = if room < own.len() { Err(9) } else { Ok(own.to_vec()) };
        let answer = read(tally, what, seed, &m, room);
        tally.equal(what, seed, answer, wanted);
    }
    Some(m)
}

fn steps(random: &mut Random, n: usize) -> Vec<Step> {
    (0..n).map(|_| Step { side: random.one_in(2), sibling: if random.one_in(5) { [0; 32] } else { random.hash() } }).collect()
}

fn bytes(random: &mut Random, n: usize) -> Vec<u8> {
    (0..n).map(|_| random.byte()).collect()
}

fn shown(raw: &[Vec<u8>; 2], steps: Vec<Step>) -> Presence {
    Presence { key: sha256(&raw[0]), value: sha256(&raw[1]), steps }
}

/// A record of any shape with what fits it: a presence, or an absence with these neighbours (1 left, 2 right, 3 both), and these numbers of steps.
fn made(random: &mut Random, flags: usize, n: [usize; 2], sizes: [usize; 5]) -> (Vec<u8>, Raw) {
    let [asked, k, v, l, w] = sizes.map(|n| bytes(random, n));
    let mut raw = Raw { asked, leaves: [[k, v], [l, w]] };
    let first = shown(&raw.leaves[0], steps(random, n[0]));
    if flags == 0 {
        raw.asked = raw.leaves[0][0].clone();
        raw.leaves[1] = Default::default();
        return (presence_bytes(&first), raw);
    }
    let second = shown(&raw.leaves[1], steps(random, n[1]));
    let key = sha256(&raw.asked);
    let own = match flags {
        1 => absence_bytes(&key, Some(&first), None),
        2 => absence_bytes(&key, None, Some(&first)),
        _ => absence_bytes(&key, Some(&first), Some(&second)),
    };
    if flags < 3 {
        raw.leaves[1] = Default::default();
    }
    (own, raw)
}

/// Fields of a message at their front: where a varint begins, so that it can be made longer.
fn longer_varint(m: &[u8], at: usize) -> Vec<u8> {
    let mut out = m.to_vec();
    out[at] |= 128;
    out.insert(at + 1, 0);
    out
}

/// Messages that mean the same to a lenient protobuf reader and aren't the one encoding, or are off by one thing; each is 10.
fn off_encodings() -> Vec<(&'static str, Vec<u8>)> {
    let leaf = [26, 9, 8, 1, 16, 1, 24, 1, 42, 1, 1];
    let exist = |inside: &[u8]| -> Vec<u8> { [&[10, inside.len() as u8], inside].concat() };
    let nonexist = |inside: &[u8]| -> Vec<u8> { [&[18, inside.len() as u8], inside].concat() };
    let (key, value) = ([10, 1, 97], [18, 1, 98]);
    let plain = [&key[..], &value, &leaf].concat();
    let left = [&[34, 39, 8, 1, 18, 1, 0, 26, 32][..], &[3; 32]].concat();
    let right = [&[34, 37, 8, 1, 18, 33, 0][..], &[4; 32]].concat();
    let with = |op: &[u8]| exist(&[&plain[..], op].concat());
    let shown = [&[plain.len() as u8][..], &plain].concat();
    let neighbour = |field: u8| [&[field][..], &shown].concat();
    let whole = exist(&plain);
    let mut rows: Vec<(&'static str, Vec<u8>)> = vec![
        ("no byte", vec![]),
        ("a tag alone", vec![10]),
        ("an empty presence", vec![10, 0]),
        ("an empty absence", vec![18, 0]),
        ("a batch", [&[26, plain.len() as u8][..], &plain].concat()),
        ("a byte over", [&whole[..], &[0]].concat()),
        ("a byte short", whole[..whole.len() - 1].to_vec()),
        ("twice", [&whole[..], &whole].concat()),
        ("presence and absence", [&whole[..], &nonexist(&[&key[..], &neighbour(18)].concat())].concat()),
        ("an unknown field after it", [&whole[..], &[40, 1]].concat()),
        ("an unknown field in it", exist(&[&plain[..], &[40, 1]].concat())),
        ("the outer length not the shortest", longer_varint(&whole, 1)),
        ("the outer tag not the shortest", longer_varint(&whole, 0)),
        ("value before key", exist(&[&value[..], &key, &leaf].concat())),
        ("leaf before value", exist(&[&key[..], &leaf, &value].concat())),
        ("step before leaf", exist(&[&key[..], &value, &left, &leaf].concat())),
        ("no key", exist(&[&value[..], &leaf].concat())),
        ("an empty key", exist(&[&[10, 0][..], &value, &leaf].concat())),
        ("no value", exist(&[&key[..], &leaf].concat())),
        ("an empty value", exist(&[&key[..], &[18, 0], &leaf].concat())),
        ("no leaf", exist(&[&key[..], &value].concat())),
        ("an empty leaf", exist(&[&key[..], &value, &[26, 0]].concat())),
        ("key twice", exist(&[&key[..], &key, &value, &leaf].concat())),
        ("leaf twice", exist(&[&plain[..], &leaf].concat())),
        ("the default length op", exist(&[&key[..], &value, &[26, 11, 8, 1, 16, 1, 24, 1, 32, 0, 42, 1, 1]].concat())),
        ("another length op", exist(&[&key[..], &value, &[26, 11, 8, 1, 16, 1, 24, 1, 32, 1, 42, 1, 1]].concat())),
        ("another leaf hash", exist(&[&key[..], &value, &[26, 9, 8, 2, 16, 1, 24, 1, 42, 1, 1]].concat())),
        ("a key not hashed", exist(&[&key[..], &value, &[26, 7, 8, 1, 24, 1, 42, 1, 1]].concat())),
        ("a value not hashed", exist(&[&key[..], &value, &[26, 7, 8, 1, 16, 1, 42, 1, 1]].concat())),
        ("leaf prefix 0", exist(&[&key[..], &value, &[26, 9, 8, 1, 16, 1, 24, 1, 42, 1, 0]].concat())),
        ("a longer leaf prefix", exist(&[&key[..], &value, &[26, 10, 8, 1, 16, 1, 24, 1, 42, 2, 1, 1]].concat())),
        ("no leaf prefix", exist(&[&key[..], &value, &[26, 6, 8, 1, 16, 1, 24, 1]].concat())),
        ("an empty step", with(&[34, 0])),
        ("inner prefix 1", with(&[&[34, 39, 8, 1, 18, 1, 1, 26, 32][..], &[3; 32]].concat())),
        ("another inner hash", with(&[&[34, 39, 8, 2, 18, 1, 0, 26, 32][..], &[3; 32]].concat())),
        ("no inner hash", with(&[&[34, 37, 18, 1, 0, 26, 32][..], &[3; 32]].concat())),
        ("a suffix of 31", with(&[&[34, 38, 8, 1, 18, 1, 0, 26, 31][..], &[3; 31]].concat())),
        ("a suffix of 33", with(&[&[34, 40, 8, 1, 18, 1, 0, 26, 33][..], &[3; 33]].concat())),
        ("no suffix, prefix alone", with(&[34, 5, 8, 1, 18, 1, 0])),
        ("an empty suffix", with(&[&[34, 39, 8, 1, 18, 33, 0][..], &[4; 32], &[26, 0]].concat())),
        ("a prefix of 32", with(&[&[34, 36, 8, 1, 18, 32, 0][..], &[4; 31]].concat())),
        ("a prefix of 34", with(&[&[34, 38, 8, 1, 18, 34, 0][..], &[4; 33]].concat())),
        ("siblings on both sides", with(&[&[34, 71, 8, 1, 18, 33, 0][..], &[4; 32], &[26, 32], &[3; 32]].concat())),
        ("suffix before prefix", with(&[&[34, 39, 8, 1, 26, 32][..], &[3; 32], &[18, 1, 0]].concat())),
        ("a step of field 5", exist(&[&plain[..], &[&[42][..], &left[1..]].concat()].concat())),
        ("a key as a number", exist(&[&[8, 97][..], &value, &leaf].concat())),
        ("no neighbour", nonexist(&key)),
        ("the left one twice", nonexist(&[&key[..], &neighbour(18), &neighbour(18)].concat())),
        ("the right one twice", nonexist(&[&key[..], &neighbour(26), &neighbour(26)].concat())),
        ("right before left", nonexist(&[&key[..], &neighbour(26), &neighbour(18)].concat())),
        ("neighbour before key", nonexist(&[&neighbour(18)[..], &key].concat())),
        ("an absence without key", nonexist(&neighbour(18))),
        ("an empty neighbour", nonexist(&[&key[..], &[18, 0]].concat())),
        ("an absence in an absence", nonexist(&[&key[..], &[34, shown[0]], &plain].concat())),
        ("a length near 2^32", vec![10, 255, 255, 255, 255, 15]),
        ("a length near 2^64", vec![10, 255, 255, 255, 255, 255, 255, 255, 255, 255, 1]),
        ("a varint of eleven bytes", [&[10][..], &[128; 10], &[1]].concat()),
        ("a varint without end", [&[10][..], &[255; 40]].concat()),
    ];
    // Lengths that say less or more than what stands there, by a byte or by a step, in the whole and in a neighbour.
    let climbing = exist(&[&plain[..], &right].concat());
    let near = [&[18, (plain.len() + right.len()) as u8][..], &plain, &right].concat();
    let absent = nonexist(&[&key[..], &near].concat());
    for (m, at) in [(&climbing, 1), (&absent, 1), (&absent, 6)] {
        for less in [1, 39, 255] {
            let mut m = m.clone();
            m[at] = m[at].wrapping_sub(less);
            rows.push(("a length that isn't so", m));
        }
    }
    // Every varint of a message that has one of each, made longer by a byte, the lengths around it made to fit.
    for at in [0, 1, 3, 4, 6, 7] {
        rows.push(("a varint inside not the shortest", exist(&longer_varint(&plain, at))));
    }
    for at in 0..7 {
        let op = &leaf[2..];
        let op = longer_varint(op, at);
        rows.push(("a varint of the leaf op not the shortest", exist(&[&key[..], &value, &[26, op.len() as u8], &op].concat())));
    }
    for (step, at) in [(&left, 0), (&left, 1), (&left, 2), (&left, 3), (&left, 5), (&left, 6), (&right, 0), (&right, 1), (&right, 2), (&right, 3)] {
        let op = longer_varint(&step[2..], at);
        rows.push(("a varint of a step not the shortest", with(&[&[34, op.len() as u8][..], &op].concat())));
    }
    rows
}

/// Each pair of refusals next to each other, deserved at once; every bound and the byte beyond it; the longest messages; every other encoding.
pub fn named(tally: &mut Tally) {
    let mut random = Random(2);
    // 10 before 15 before 9, and 10 before 9.
    for flags in 0..4 {
        let (own, raw) = made(&mut random, flags, [3, 2], [5, 6, 7, 8, 9]);
        let m = there_and_back(tally, "in pairs", 0, &own, &raw).expect("it fits");
        let mut wrong = raw.clone();
        wrong.leaves[0][1][0] ^= 1;
        for (what, record, raw, room, wanted) in [
            ("ics23: 10 before 15", &own[..own.len() - 1], &wrong, 0, Err(10)),
            ("ics23: 10 before 9", &own[1..], &raw, 0, Err(10)),
            ("ics23: 15 before 9", &own[..], &wrong, 0, Err(15)),
            ("ics23: a byte short", &own[..], &raw, m.len() - 1, Err(9)),
            ("ics23: room just enough", &own[..], &raw, m.len(), Ok(m.len() as u32)),
        ] {
            let answer = write(tally, what, 0, record, raw, room);
            tally.equal(what, 0, answer, wanted);
        }
        let answer = read(tally, "ics23: 10 before 9, reading", 0, &m[..m.len() - 1], 0);
        tally.equal("ics23: 10 before 9, reading", 0, answer, Err(10));
        // 15: each raw part wrong by a bit, one byte more or less, absent; a leaf too many, and half of one.
        let parts = if flags == 3 { 5 } else { 3 };
        for part in 0..parts {
            let of = |raw: &mut Raw, change: &dyn Fn(&mut Vec<u8>)| change(if part == 0 { &mut raw.asked } else { &mut raw.leaves[(part - 1) / 2][(part - 1) % 2] });
            let changes: [(&str, &dyn Fn(&mut Vec<u8>)); 4] = [
                ("a bit of a raw part", &|x| x[0] ^= 128),
                ("a raw part longer", &|x| x.push(0)),
                ("a raw part shorter", &|x| {
                    x.pop();
                }),
                ("a raw part not lent", &|x| x.clear()),
            ];
            for (what, change) in changes {
                let mut wrong = raw.clone();
                of(&mut wrong, change);
                let answer = write(tally, what, 0, &own, &wrong, 40_000);
                tally.equal(what, 0, answer, Err(15));
            }
        }
        if flags != 3 {
            for (key, value) in [(&b"k"[..], &b"v"[..]), (b"k", b""), (b"", b"v")] {
                let mut many = raw.clone();
                many.leaves[1] = [key.to_vec(), value.to_vec()];
                let answer = write(tally, "a leaf too many", 0, &own, &many, 40_000);
                tally.equal("a leaf too many", 0, answer, Err(15));
            }
        } else {
            let mut turned = raw.clone();
            turned.leaves.swap(0, 1);
            let answer = write(tally, "leaves exchanged", 0, &own, &turned, 40_000);
            tally.equal("leaves exchanged", 0, answer, Err(15));
        }
        // Raw lengths: 0 and one beyond the most are 15 in writing though they hash right, and 10 in reading.
        for (what, sizes, right) in [
            ("an empty asked key", [0, 6, 7, 8, 9], flags == 0),
            ("an asked key of 256", [256, 6, 7, 8, 9], true),
            ("an asked key of 257", [257, 6, 7, 8, 9], flags == 0),
            ("an empty key", [5, 0, 7, 8, 9], false),
            ("a key of 1", [5, 1, 7, 8, 9], true),
            ("a key of 256", [5, 256, 7, 8, 9], true),
            ("a key of 257", [5, 257, 7, 8, 9], false),
            ("an empty value", [5, 6, 0, 8, 9], false),
            ("a value of 4,096", [5, 6, 4_096, 8, 9], true),
            ("a value of 4,097", [5, 6, 4_097, 8, 9], false),
            ("an empty second key", [5, 6, 7, 0, 9], flags < 3),
            ("a second key of 257", [5, 6, 7, 257, 9], flags < 3),
            ("a second value of 4,097", [5, 6, 7, 8, 4_097], flags < 3),
        ] {
            let (own, raw) = made(&mut random, flags, [1, 1], sizes);
            let answer = write(tally, what, 0, &own, &raw, 40_000).map(|_| ());
            tally.equal(what, 0, answer, if right { Ok(()) } else { Err(15) });
        }
    }
    // The same lengths in reading: a message of a lone leaf with this key and value.
    let alone = |key: usize, value: usize, steps: usize| -> Vec<u8> {
        let field = |n: u8, x: &[u8]| -> Vec<u8> {
            let mut out = vec![n << 3 | 2];
            let mut n = x.len();
            while n >= 128 {
                out.push(n as u8 | 128);
                n >>= 7;
            }
            out.push(n as u8);
            out.extend(x);
            out
        };
        let leaf = field(3, &[8, 1, 16, 1, 24, 1, 42, 1, 1]);
        let step = field(4, &[&[8, 1, 18, 33, 0][..], &[6; 32]].concat());
        field(1, &[field(1, &vec![5; key]), field(2, &vec![5; value]), leaf, step.repeat(steps)].concat())
    };
    for (what, key, value, steps, right) in [
        ("the shortest message", 1, 1, 0, true),
        ("256 steps", 1, 1, 256, true),
        ("257 steps", 1, 1, 257, false),
        ("300 steps", 1, 1, 300, false),
        ("a key of 256 to read", 256, 1, 0, true),
        ("a key of 257 to read", 257, 1, 0, false),
        ("a value of 4,096 to read", 1, 4_096, 0, true),
        ("a value of 4,097 to read", 1, 4_097, 0, false),
        ("a key of 0 to read", 0, 1, 0, false),
        ("a value of 0 to read", 1, 0, 0, false),
    ] {
        let m = alone(key, value, steps);
        let answer = read(tally, what, 0, &m, 17_080).map(|p| p.len());
        tally.equal(what, 0, answer, if right { Ok(72 + 33 * steps) } else { Err(10) });
    }
    // The longest messages: left children take 41 bytes a step.
    for (flags, most) in [(0, 14_868), (1, 0), (2, 0), (3, 29_999)] {
        let (mut own, raw) = made(&mut random, flags, [256, 256], [256, 256, 4_096, 256, 4_096]);
        let starts = if flags == 0 { vec![72] } else if flags == 3 { vec![112, 40 + 8_520 + 72] } else { vec![112] };
        for start in starts {
            (0..256).for_each(|i| own[start + 33 * i] = 0);
        }
        let m = there_and_back(tally, "the longest", 0, &own, &raw).expect("it fits");
        if most > 0 {
            tally.equal("the longest message", 0, m.len(), most);
        }
    }
    for (what, m) in off_encodings() {
        let answer = read(tally, what, 0, &m, 17_080);
        tally.equal(what, 0, answer, Err(10));
    }
}

/// A byte or a bit changed, bytes taken out, put in or doubled, a piece of another message.
fn damage(random: &mut Random, m: &mut Vec<u8>, other: &[u8]) {
    let at = random.below(m.len().max(1)).min(if random.one_in(2) { 60 } else { usize::MAX });
    match random.below(9) {
        0 | 1 if !m.is_empty() => m[at] ^= 1 << random.below(8),
        2 if !m.is_empty() => m[at] = random.byte(),
        3 if !m.is_empty() => {
            m.remove(at);
        }
        4 => m.insert(at, [0, 1, 128, 26, 10][random.below(5)]),
        5 => {
            let end = (at + random.below(45)).min(m.len());
            m.drain(at..end);
        }
        6 => {
            let end = (at + random.below(45)).min(m.len());
            let piece = m[at..end].to_vec();
            m.splice(end..end, piece);
        }
        7 if !other.is_empty() => {
            let from = random.below(other.len());
            m.truncate(at);
            m.extend(&other[from..]);
        }
        _ => m.push(random.byte()),
    }
}

/// A value with its raw bytes, and names as raw keys: publishings of names, some taken back.
fn history(random: &mut Random) -> (Vec<u8>, u32, BTreeMap<Bytes32, Vec<u8>>) {
    let names: Vec<Vec<u8>> = (0..2 + random.below(30))
        .map(|i| {
            let n = [1, 3, 9, 40, 127, 128, 256][random.below(7)];
            let mut name = bytes(random, n.max(2));
            name[0] = i as u8;
            name
        })
        .collect();
    let mut book: BTreeMap<Bytes32, Vec<u8>> = names.iter().map(|n| (sha256(n), n.clone())).collect();
    let mut s = cases::fresh(400, 0, 0);
    let mut latest = 0;
    for _ in 0..1 + random.below(3) {
        let mut asks: Vec<Ask> = vec![];
        for name in &names {
            if random.one_in(2) {
                let n = [1, 20, 127, 128, 300, 4_096][random.below(6)];
                let value = bytes(random, n);
                book.insert(sha256(&value), value.clone());
                asks.push(Ask { key: sha256(name), value: (!random.one_in(5)).then(|| sha256(&value)) });
            }
        }
        asks.sort_by_key(|a| a.key);
        let batch: Vec<u8> = asks.iter().flat_map(ask_bytes).collect();
        if second::apply(&mut s, latest + 1, &batch).is_ok() {
            latest += 1;
        }
    }
    (s, latest, book)
}

fn lent_for(own: &[u8], asked: &[u8], book: &BTreeMap<Bytes32, Vec<u8>>) -> Option<Raw> {
    let of = |hash: &Bytes32| book.get(hash).cloned();
    let mut raw = Raw { asked: asked.to_vec(), ..Raw::default() };
    let leaves = match decode(own)? {
        Proof::Present(p) => vec![p],
        Proof::Absent { left, right, .. } => [left, right].into_iter().flatten().collect(),
    };
    for (i, p) in leaves.iter().enumerate() {
        raw.leaves[i] = [of(&p.key)?, of(&p.value)?];
    }
    Some(raw)
}

/// Two leaves of a tree that no store has: any sides, zero siblings on some steps, and two paths that part as neighbours' do, or nearly.
fn made_up(tally: &mut Tally, random: &mut Random, seed: u64) {
    let hash_up = |mut h: Bytes32, steps: &[Step]| {
        for s in steps {
            h = if s.side { inner_hash(&s.sibling, &h) } else { inner_hash(&h, &s.sibling) };
        }
        h
    };
    let mut raws: Vec<[Vec<u8>; 2]> = (0..2)
        .map(|_| {
            let n = 1 + random.below(9);
            [bytes(random, n), bytes(random, 5)]
        })
        .collect();
    raws.sort_by_key(|r| sha256(&r[0]));
    let outermost = |random: &mut Random, side: bool| -> Vec<Step> {
        let n = random.below(5);
        let mut out = steps(random, n);
        for s in &mut out {
            // Now and then a step that keeps to neither.
            if s.side != side && !random.one_in(12) {
                s.sibling = [0; 32];
            }
        }
        out
    };
    let (mut lefts, mut rights) = (outermost(random, true), outermost(random, false));
    let leaf = |r: &[Vec<u8>; 2]| leaf_hash(&sha256(&r[0]), &sha256(&r[1]));
    let (l, r) = (hash_up(leaf(&raws[0]), &lefts), hash_up(leaf(&raws[1]), &rights));
    lefts.push(Step { side: false, sibling: r });
    rights.push(Step { side: true, sibling: l });
    let n = random.below(4);
    let above = steps(random, n);
    for path in [&mut lefts, &mut rights] {
        path.extend(above.iter().cloned());
    }
    let root = hash_up(leaf(&raws[0]), &lefts);
    assert!(root == hash_up(leaf(&raws[1]), &rights));
    // One leaf alone at an end of its tree: nothing beyond it, or, now and then, something.
    for (flags, side) in [(1, true), (2, false)] {
        let path = outermost(random, side);
        let root = hash_up(leaf(&raws[0]), &path);
        let p = shown(&raws[0], path);
        let asked = bytes(random, 4);
        let key = sha256(&asked);
        let own = if side { absence_bytes(&key, Some(&p), None) } else { absence_bytes(&key, None, Some(&p)) };
        let raw = Raw { asked, leaves: [raws[0].clone(), Default::default()] };
        let held = partner(tally, "a leaf at an end", seed, &root, &raw.message(&own).expect("it fits"));
        tally.count(format!("a leaf at an end, flags {flags}, {}", if held { "holds" } else { "doesn't hold" }));
    }
    let mut asked = bytes(random, 4);
    for _ in 0..40 {
        let h = sha256(&asked);
        if sha256(&raws[0][0]) < h && h < sha256(&raws[1][0]) {
            break;
        }
        asked = bytes(random, 4);
    }
    if random.one_in(10) {
        asked = raws[random.below(2)][0].clone();
    }
    if random.one_in(8) {
        raws.swap(0, 1);
        std::mem::swap(&mut lefts, &mut rights);
    }
    let (left, right) = (shown(&raws[0], lefts), shown(&raws[1], rights));
    let key = sha256(&asked);
    let [first, second] = [raws[0].clone(), raws[1].clone()];
    let none: [Vec<u8>; 2] = Default::default();
    for (own, leaves) in [
        (absence_bytes(&key, Some(&left), Some(&right)), [first.clone(), second.clone()]),
        (absence_bytes(&key, Some(&left), Some(&left)), [first.clone(), first.clone()]),
        (absence_bytes(&key, Some(&left), None), [first, none.clone()]),
        (absence_bytes(&key, None, Some(&right)), [second, none]),
    ] {
        let raw = Raw { asked: asked.clone(), leaves };
        let m = raw.message(&own).expect("it fits");
        let held = partner(tally, "a made-up tree", seed, &root, &m);
        tally.count(format!("made-up tree, flags {}, {}", own[6], if held { "holds" } else { "doesn't hold" }));
    }
}

pub fn round(seed: u64, tally: &mut Tally) {
    let mut random = Random(seed ^ 0x02);
    let random = &mut random;
    if random.one_in(4) {
        let (s, latest, book) = history(random);
        let names: Vec<Vec<u8>> = book.values().filter(|n| n.len() <= 256).cloned().collect();
        let mut messages: Vec<Vec<u8>> = vec![];
        for _ in 0..6 {
            let asked = if random.one_in(2) { names[random.below(names.len())].clone() } else { bytes(random, 3) };
            let version = 1 + random.below(latest.max(1) as usize) as u32;
            let Ok(own) = second::proof::proof(&s, version, &sha256(&asked)) else { continue };
            let root = second::root(&s, version).expect("a kept version");
            let Some(raw) = lent_for(&own, &asked, &book) else { continue };
            let m = there_and_back(tally, "of a history", seed, &own, &raw).expect("it fits");
            let held = partner(tally, "of a history", seed, &root, &m);
            tally.equal("a history's message", seed, held, true);
            let _ = partner(tally, "under another root", seed, &random.hash(), &m);
            messages.push(m);
            // Forged records, with what fitted the true one.
            let mut forged = own.clone();
            cases::forge(random, &mut forged, &[]);
            let room = messages.last().map_or(0, Vec::len) + 300;
            let _ = write(tally, "a forged record", seed, &forged, &raw, room);
        }
        for i in 0..messages.len() {
            let other = messages[random.below(messages.len())].clone();
            for _ in 0..6 {
                let mut m = messages[i].clone();
                for _ in 0..1 + random.below(2) {
                    damage(random, &mut m, &other);
                }
                let room = m.len() + 240 - random.below(20);
                let _ = read(tally, "a damaged message", seed, &m, room);
            }
        }
    }
    // Any record with what fits it; a sibling, a side or a raw byte of its message changed stays a message.
    let sizes = [0; 5].map(|_| [1, 2, 30, 127, 128, 200, 256][random.below(7)]);
    let (flags, n) = (random.below(4), [random.below(9), random.below(9)]);
    let (own, raw) = made(random, flags, n, sizes);
    if let Some(mut m) = there_and_back(tally, "of any shape", seed, &own, &raw) {
        let spots: Vec<usize> = (0..m.len()).filter(|&i| i > 12 && m[i] > 40).collect();
        if !spots.is_empty() {
            let at = spots[random.below(spots.len())];
            m[at] ^= 1 << random.below(8);
            let _ = read(tally, "another message", seed, &m, m.len() + 240);
        }
        let root = random.hash();
        let _ = partner(tally, "under any root", seed, &root, &m);
    }
    made_up(tally, random, seed);
    let n = random.below(90);
    let any = bytes(random, n);
    let _ = read(tally, "any bytes", seed, &any, 200);
    let mut near = any.clone();
    if near.len() > 4 {
        near[0] = [10, 18][random.below(2)];
        near[1] = (near.len() - 2) as u8;
        near[2] = 10;
        near[3] = random.below(4) as u8;
        let _ = read(tally, "nearly any bytes", seed, &near, 200);
    }
    let raw = Raw { asked: bytes(random, 3), leaves: [[bytes(random, 3), bytes(random, 3)], Default::default()] };
    let _ = write(tally, "any bytes as a record", seed, &any, &raw, 200);
}
