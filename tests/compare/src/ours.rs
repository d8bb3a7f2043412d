//! The exports of the proved library, as safe Rust. Each answer's array is handed in filled with a mark, between marked edges: a refused call
//! must leave the array so, and every call the edges. That is looked at here, for every call.

use calls::*;
use record::{array, kept, long, number, read, recorded, table as tabled, written};
use second::bytes::{b32_at, u32_at};
use second::forged::{Finding, Message};
use second::message::Leaf;
use second::{Bytes32, Refusal, Stopped};

#[path = "record.rs"]
#[allow(dead_code)] // the benchmarks, which have this file too, write no calls down
pub mod record;

#[path = "../../../rust/src/calls.rs"]
#[allow(dead_code)] // no comparison asks for the version
mod calls;

const MARK: u8 = 0xA5;

#[repr(C)]
struct Lent<const N: usize> {
    before: [u8; 16],
    answer: [u8; N],
    after: [u8; 16],
}

/// What a call gives that answers through an array of N bytes.
fn answered<const N: usize>(call: impl FnOnce(*mut [u8; N]) -> u32) -> Result<[u8; N], Refusal> {
    read_so(|a| call(a) as u64).map_err(|stopped| stopped.number)
}

/// The same of a read: all 64 bits of what it returns, the number in the low half, in the high half a slot + 1 or nothing.
fn read_so<const N: usize>(call: impl FnOnce(*mut [u8; N]) -> u64) -> Result<[u8; N], Stopped> {
    let mut lent = Lent { before: [MARK; 16], answer: [MARK; N], after: [MARK; 16] };
    let whole: *mut Lent<N> = &mut lent;
    // A pointer that may reach the edges too, so that the compiler does not take them for unchanged.
    let number = call(unsafe { std::ptr::addr_of_mut!((*whole).answer) });
    assert!(lent.before == [MARK; 16] && lent.after == [MARK; 16], "bytes beside the answer were written");
    if number == 0 {
        return Ok(lent.answer);
    }
    assert!(lent.answer == [MARK; N], "refused with {number}, and the answer was written");
    Err(Stopped { number: number as u32, slot: (number >> 32).checked_sub(1).map(|slot| slot as usize) })
}

fn verdict(found: [u8; 33]) -> Option<Bytes32> {
    let value: Bytes32 = found[1..].try_into().unwrap();
    match found[0] {
        1 => Some(value),
        0 => {
            assert!(value == [0; 32], "absent, and a value beside it");
            None
        }
        other => panic!("neither present nor absent: {other}"),
    }
}

pub fn format(store: &mut [u8]) -> Result<(), Refusal> {
    match recorded("format", &[written(store)], || unsafe { grants_format(store.as_mut_ptr(), store.len()) }) {
        0 => Ok(()),
        number => Err(number),
    }
}

pub fn check(store: &[u8]) -> Result<(), Refusal> {
    match recorded("check", &[read(store)], || unsafe { grants_check(store.as_ptr(), store.len()) }) {
        0 => Ok(()),
        number => Err(number),
    }
}

/// Version, root and count of new records.
pub fn apply(store: &mut [u8], version: u32, batch: &[u8]) -> Result<(u32, Bytes32, u32), Refusal> {
    let answer = answered(|a| {
        recorded("apply", &[written(store), number(version), read(batch), array(a)], || unsafe {
            grants_apply(store.as_mut_ptr(), store.len(), version, batch.as_ptr(), batch.len(), a)
        })
    })?;
    Ok((u32_at(&answer, 0), b32_at(&answer, 4), u32_at(&answer, 36)))
}

/// How many records were freed.
pub fn prune(store: &mut [u8], version: u32) -> Result<u32, Refusal> {
    answered(|freed| {
        recorded("prune", &[written(store), number(version), array(freed)], || unsafe {
            grants_prune(store.as_mut_ptr(), store.len(), version, freed)
        })
    })
    .map(u32::from_le_bytes)
}

pub fn root(store: &[u8], version: u32) -> Result<Bytes32, Stopped> {
    read_so(|root| {
        recorded("root", &[read(store), number(version), array(root)], || unsafe {
            grants_root(store.as_ptr(), store.len(), version, root)
        })
    })
}

pub fn get(store: &[u8], version: u32, key: &[u8]) -> Result<Option<Bytes32>, Stopped> {
    read_so(|found| {
        recorded("get", &[read(store), number(version), read(key), array(found)], || unsafe {
            grants_get(store.as_ptr(), store.len(), version, key.as_ptr(), key.len(), found)
        })
    })
    .map(verdict)
}

/// How many grants a version holds.
pub fn count(store: &[u8], version: u32) -> Result<u64, Stopped> {
    read_so(|count| {
        recorded("count", &[read(store), number(version), array(count)], || unsafe { grants_count(store.as_ptr(), store.len(), version, count) })
    })
    .map(u64::from_le_bytes)
}

/// Key and value at a position.
pub fn at(store: &[u8], version: u32, position: u64) -> Result<(Bytes32, Bytes32), Stopped> {
    read_so(|grant| {
        recorded("at", &[read(store), number(version), long(position), array(grant)], || unsafe {
            grants_at(store.as_ptr(), store.len(), version, position, grant)
        })
    })
    .map(|grant: [u8; 64]| (b32_at(&grant, 0), b32_at(&grant, 32)))
}

/// The length of the proof, at the front of the room.
pub fn prove(store: &[u8], version: u32, key: &[u8], room: &mut [u8]) -> Result<u32, Stopped> {
    let (to, most) = (room.as_mut_ptr(), room.len());
    read_so(|length| {
        recorded("prove", &[read(store), number(version), read(key), written(room), array(length)], || unsafe {
            grants_prove(store.as_ptr(), store.len(), version, key.as_ptr(), key.len(), to, most, length)
        })
    })
    .map(u32::from_le_bytes)
}

/// The length of all proofs together, at the front of the room.
pub fn palette(store: &[u8], version: u32, keys: &[u8], room: &mut [u8]) -> Result<u32, Stopped> {
    let (to, most) = (room.as_mut_ptr(), room.len());
    read_so(|length| {
        recorded("palette", &[read(store), number(version), read(keys), written(room), array(length)], || unsafe {
            grants_palette(store.as_ptr(), store.len(), version, keys.as_ptr(), keys.len(), to, most, length)
        })
    })
    .map(u32::from_le_bytes)
}

/// The number of records, at the front of the room.
pub fn changes(store: &[u8], first: u32, second: u32, limit: u32, room: &mut [u8]) -> Result<u32, Refusal> {
    let (to, most) = (room.as_mut_ptr(), room.len());
    answered(|records| {
        recorded("changes", &[read(store), number(first), number(second), number(limit), written(room), array(records)], || unsafe {
            grants_changes(store.as_ptr(), store.len(), first, second, limit, to, most, records)
        })
    })
    .map(u32::from_le_bytes)
}

/// The run's first version; records kept as they were, kept with another retired-since, used slots left out. The target is all written, or,
/// refused, not at all.
pub fn rescue(source: &[u8], oldest: u32, latest: u32, target: &mut [u8]) -> Result<(u32, u32, u32, u32), Refusal> {
    let (to, most) = (target.as_mut_ptr(), target.len());
    let answer = answered(|a| {
        recorded("rescue", &[read(source), number(oldest), number(latest), written(target), array(a)], || unsafe {
            grants_rescue(source.as_ptr(), source.len(), oldest, latest, to, most, a)
        })
    })?;
    Ok((u32_at(&answer, 0), u32_at(&answer, 4), u32_at(&answer, 8), u32_at(&answer, 12)))
}

/// Distinct records, and the sum of records over versions; the numbers of each version are at the front of the room.
pub fn figures(store: &[u8], first: u32, last: u32, room: &mut [u8]) -> Result<(u32, u32), Refusal> {
    let (to, most) = (room.as_mut_ptr(), room.len());
    let totals = answered(|totals| {
        recorded("figures", &[read(store), number(first), number(last), written(room), array(totals)], || unsafe {
            grants_figures(store.as_ptr(), store.len(), first, last, to, most, totals)
        })
    })?;
    Ok((u32_at(&totals, 0), u32_at(&totals, 4)))
}

/// The length of the proof, at the front of the room.
pub fn pocket_prove(store: &[u8], version: u32, key: &[u8], room: &mut [u8]) -> Result<u32, Stopped> {
    let (to, most) = (room.as_mut_ptr(), room.len());
    read_so(|length| {
        recorded("pocket_prove", &[read(store), number(version), read(key), written(room), array(length)], || unsafe {
            grants_pocket_prove(store.as_ptr(), store.len(), version, key.as_ptr(), key.len(), to, most, length)
        })
    })
    .map(u32::from_le_bytes)
}

pub fn pocket_verify(root: &[u8], key: &[u8], proof: &[u8]) -> Result<Option<Bytes32>, Refusal> {
    answered(|found| {
        recorded("pocket_verify", &[read(root), read(key), read(proof), array(found)], || unsafe {
            grants_pocket_verify(root.as_ptr(), root.len(), key.as_ptr(), key.len(), proof.as_ptr(), proof.len(), found)
        })
    })
    .map(verdict)
}

/// What is found of a proof for a key in a version.
pub fn finding(store: &[u8], version: u32, key: &[u8], proof: &[u8]) -> Result<Finding, Refusal> {
    let told = answered(|a| {
        recorded("finding", &[read(store), number(version), read(key), read(proof), array(a)], || unsafe {
            grants_finding(store.as_ptr(), store.len(), version, key.as_ptr(), key.len(), proof.as_ptr(), proof.len(), a)
        })
    })?;
    let part = |at: usize| -> Message { told[at..at + 65].try_into().unwrap() };
    match told[0] {
        0 => {
            assert!(told == [0; 131], "the truth, and bytes beside it");
            Ok(Finding::Nothing)
        }
        1 => Ok(Finding::Two(part(1), part(66))),
        2 => {
            assert!(part(66) == [0; 65], "one message, and bytes after it");
            Ok(Finding::Zero(part(1)))
        }
        other => panic!("no finding: {other}"),
    }
}

pub fn over(source: &[u8], target: &mut [u8]) -> Result<(), Refusal> {
    let (to, most) = (target.as_mut_ptr(), target.len());
    match recorded("over", &[read(source), written(target)], || unsafe { grants_over(source.as_ptr(), source.len(), to, most) }) {
        0 => Ok(()),
        number => Err(number),
    }
}

pub fn back(source: &[u8], target: &mut [u8]) -> Result<(), Refusal> {
    let (to, most) = (target.as_mut_ptr(), target.len());
    match recorded("back", &[read(source), written(target)], || unsafe { grants_back(source.as_ptr(), source.len(), to, most) }) {
        0 => Ok(()),
        number => Err(number),
    }
}

pub fn verify(root: &[u8], key: &[u8], proof: &[u8]) -> Result<Option<Bytes32>, Refusal> {
    answered(|found| {
        recorded("verify", &[read(root), read(key), read(proof), array(found)], || unsafe {
            grants_verify(root.as_ptr(), root.len(), key.as_ptr(), key.len(), proof.as_ptr(), proof.len(), found)
        })
    })
    .map(verdict)
}

pub fn shelf_verify(root: &[u8], bits: u32, key: &[u8], proof: &[u8]) -> Result<Option<Bytes32>, Refusal> {
    answered(|found| {
        recorded("shelf_verify", &[read(root), number(bits), read(key), read(proof), array(found)], || unsafe {
            grants_shelf_verify(root.as_ptr(), root.len(), bits, key.as_ptr(), key.len(), proof.as_ptr(), proof.len(), found)
        })
    })
    .map(verdict)
}

/// The length of the message, at the front of the room.
pub fn ics23_write(proof: &[u8], asked: &[u8], first: Leaf, second: Leaf, room: &mut [u8]) -> Result<u32, Refusal> {
    let (to, most) = (room.as_mut_ptr(), room.len());
    let (k, v, l, w) = (first.key, first.value, second.key, second.value);
    answered(|length| {
        let lent = [read(proof), read(asked), read(k), read(v), read(l), read(w), written(room), array(length)];
        recorded("ics23_write", &lent, || unsafe {
            grants_ics23_write(
                proof.as_ptr(),
                proof.len(),
                asked.as_ptr(),
                asked.len(),
                k.as_ptr(),
                k.len(),
                v.as_ptr(),
                v.len(),
                l.as_ptr(),
                l.len(),
                w.as_ptr(),
                w.len(),
                to,
                most,
                length,
            )
        })
    })
    .map(u32::from_le_bytes)
}

/// The record's length, and where the raw parts stand in the message; the record is at the front of the room.
pub fn ics23_read(message: &[u8], room: &mut [u8]) -> Result<[u8; 44], Refusal> {
    let (to, most) = (room.as_mut_ptr(), room.len());
    answered(|answer| {
        recorded("ics23_read", &[read(message), written(room), array(answer)], || unsafe {
            grants_ics23_read(message.as_ptr(), message.len(), to, most, answer)
        })
    })
}

/// 34 bytes for each key, at the front of the answers.
pub fn verify_many(root: &[u8], keys: &[u8], proofs: &[u8], answers: &mut [u8]) -> Result<(), Refusal> {
    let (to, most) = (answers.as_mut_ptr(), answers.len());
    match recorded("verify_many", &[read(root), read(keys), read(proofs), written(answers)], || unsafe {
        grants_verify_many(root.as_ptr(), root.len(), keys.as_ptr(), keys.len(), proofs.as_ptr(), proofs.len(), to, most)
    }) {
        0 => Ok(()),
        number => Err(number),
    }
}

pub fn sha256(bytes: &[u8]) -> Bytes32 {
    answered(|digest| {
        recorded("sha256", &[read(bytes), array(digest)], || unsafe { grants_sha256(bytes.as_ptr(), bytes.len(), digest) })
    })
    .expect("never refused")
}

fn alone(number: u32) -> Result<(), Refusal> {
    match number {
        0 => Ok(()),
        number => Err(number),
    }
}

pub fn index(store: &[u8], table: &mut [u32]) -> Result<(), Refusal> {
    alone(recorded("index", &[read(store), kept(table)], || unsafe {
        grants_index(store.as_ptr(), store.len(), table.as_mut_ptr(), table.len())
    }))
}

pub fn index_check(store: &[u8], table: &[u32]) -> Result<(), Refusal> {
    alone(recorded("index_check", &[read(store), tabled(table)], || unsafe {
        grants_index_check(store.as_ptr(), store.len(), table.as_ptr(), table.len())
    }))
}

pub fn format_indexed(store: &mut [u8], table: &mut [u32]) -> Result<(), Refusal> {
    alone(recorded("format_indexed", &[written(store), kept(table)], || unsafe {
        grants_format_indexed(store.as_mut_ptr(), store.len(), table.as_mut_ptr(), table.len())
    }))
}

pub fn apply_indexed(store: &mut [u8], table: &mut [u32], version: u32, batch: &[u8]) -> Result<(u32, Bytes32, u32), Refusal> {
    let answer = answered(|a| {
        recorded("apply_indexed", &[written(store), kept(table), number(version), read(batch), array(a)], || unsafe {
            grants_apply_indexed(store.as_mut_ptr(), store.len(), table.as_mut_ptr(), table.len(), version, batch.as_ptr(), batch.len(), a)
        })
    })?;
    Ok((u32_at(&answer, 0), b32_at(&answer, 4), u32_at(&answer, 36)))
}

pub fn prune_indexed(store: &mut [u8], table: &mut [u32], version: u32) -> Result<u32, Refusal> {
    answered(|freed| {
        recorded("prune_indexed", &[written(store), kept(table), number(version), array(freed)], || unsafe {
            grants_prune_indexed(store.as_mut_ptr(), store.len(), table.as_mut_ptr(), table.len(), version, freed)
        })
    })
    .map(u32::from_le_bytes)
}

pub fn root_indexed(store: &[u8], table: &[u32], version: u32) -> Result<Bytes32, Stopped> {
    read_so(|root| {
        recorded("root_indexed", &[read(store), tabled(table), number(version), array(root)], || unsafe {
            grants_root_indexed(store.as_ptr(), store.len(), table.as_ptr(), table.len(), version, root)
        })
    })
}

pub fn get_indexed(store: &[u8], table: &[u32], version: u32, key: &[u8]) -> Result<Option<Bytes32>, Stopped> {
    read_so(|found| {
        recorded("get_indexed", &[read(store), tabled(table), number(version), read(key), array(found)], || unsafe {
            grants_get_indexed(store.as_ptr(), store.len(), table.as_ptr(), table.len(), version, key.as_ptr(), key.len(), found)
        })
    })
    .map(verdict)
}

pub fn count_indexed(store: &[u8], table: &[u32], version: u32) -> Result<u64, Stopped> {
    read_so(|count| {
        recorded("count_indexed", &[read(store), tabled(table), number(version), array(count)], || unsafe {
            grants_count_indexed(store.as_ptr(), store.len(), table.as_ptr(), table.len(), version, count)
        })
    })
    .map(u64::from_le_bytes)
}

pub fn at_indexed(store: &[u8], table: &[u32], version: u32, position: u64) -> Result<(Bytes32, Bytes32), Stopped> {
    read_so(|grant| {
        recorded("at_indexed", &[read(store), tabled(table), number(version), long(position), array(grant)], || unsafe {
            grants_at_indexed(store.as_ptr(), store.len(), table.as_ptr(), table.len(), version, position, grant)
        })
    })
    .map(|grant: [u8; 64]| (b32_at(&grant, 0), b32_at(&grant, 32)))
}

pub fn prove_indexed(store: &[u8], table: &[u32], version: u32, key: &[u8], room: &mut [u8]) -> Result<u32, Stopped> {
    let (to, most) = (room.as_mut_ptr(), room.len());
    read_so(|length| {
        recorded("prove_indexed", &[read(store), tabled(table), number(version), read(key), written(room), array(length)], || unsafe {
            grants_prove_indexed(store.as_ptr(), store.len(), table.as_ptr(), table.len(), version, key.as_ptr(), key.len(), to, most, length)
        })
    })
    .map(u32::from_le_bytes)
}

pub fn palette_indexed(store: &[u8], table: &[u32], version: u32, keys: &[u8], room: &mut [u8]) -> Result<u32, Stopped> {
    let (to, most) = (room.as_mut_ptr(), room.len());
    read_so(|length| {
        recorded("palette_indexed", &[read(store), tabled(table), number(version), read(keys), written(room), array(length)], || unsafe {
            grants_palette_indexed(store.as_ptr(), store.len(), table.as_ptr(), table.len(), version, keys.as_ptr(), keys.len(), to, most, length)
        })
    })
    .map(u32::from_le_bytes)
}
