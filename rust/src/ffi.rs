//! The library's boundary, as functions over slices. All `unsafe` of the crate is here.
//!
//! What each block relies on, and what the library's contracts promise: a call reads and writes only the bytes it is lent, keeps no pointer,
//! and writes nothing where it refuses. A slice's pointer is never null, and Rust's borrows keep the buffers of one call apart, which is
//! all that `include/grants.h` asks of a caller.
#![allow(unsafe_code)]

use crate::calls::*;
use crate::Error;

/// 0 is accepted; the library gives no number that is not in the table.
fn accepted(number: u32) -> Result<(), Error> {
    match number {
        0 => Ok(()),
        number => Err(Error::from_number(number)
            .unwrap_or_else(|| panic!("the library gave {number}, which no table has"))),
    }
}

/// The same of a read: the number is the low half, and beside 3 a slot + 1 may stand in the high half.
fn read(answer: u64) -> Result<(), Error> {
    let (number, high) = (answer as u32, (answer >> 32) as u32);
    match high.checked_sub(1) {
        None => accepted(number),
        Some(slot) => {
            assert!(number == 3, "the library named a slot beside {number}");
            Err(Error::Spoilt { slot })
        }
    }
}

pub fn format(store: &mut [u8]) -> Result<(), Error> {
    accepted(unsafe { grants_format(store.as_mut_ptr(), store.len()) })
}

pub fn check(store: &[u8]) -> Result<(), Error> {
    accepted(unsafe { grants_check(store.as_ptr(), store.len()) })
}

pub fn apply(store: &mut [u8], number: u32, batch: &[u8]) -> Result<[u8; 40], Error> {
    let mut answer = [0; 40];
    accepted(unsafe {
        grants_apply(
            store.as_mut_ptr(),
            store.len(),
            number,
            batch.as_ptr(),
            batch.len(),
            &mut answer,
        )
    })?;
    Ok(answer)
}

pub fn prune(store: &mut [u8], version: u32) -> Result<[u8; 4], Error> {
    let mut freed = [0; 4];
    accepted(unsafe { grants_prune(store.as_mut_ptr(), store.len(), version, &mut freed) })?;
    Ok(freed)
}

pub fn root(store: &[u8], version: u32) -> Result<[u8; 32], Error> {
    let mut root = [0; 32];
    read(unsafe { grants_root(store.as_ptr(), store.len(), version, &mut root) })?;
    Ok(root)
}

pub fn get(store: &[u8], version: u32, key: &[u8]) -> Result<[u8; 33], Error> {
    let mut found = [0; 33];
    read(unsafe {
        grants_get(
            store.as_ptr(),
            store.len(),
            version,
            key.as_ptr(),
            key.len(),
            &mut found,
        )
    })?;
    Ok(found)
}

pub fn count(store: &[u8], version: u32) -> Result<[u8; 8], Error> {
    let mut count = [0; 8];
    read(unsafe { grants_count(store.as_ptr(), store.len(), version, &mut count) })?;
    Ok(count)
}

pub fn at(store: &[u8], version: u32, position: u64) -> Result<[u8; 64], Error> {
    let mut grant = [0; 64];
    read(unsafe { grants_at(store.as_ptr(), store.len(), version, position, &mut grant) })?;
    Ok(grant)
}

pub fn prove(store: &[u8], version: u32, key: &[u8], room: &mut [u8]) -> Result<[u8; 4], Error> {
    let mut length = [0; 4];
    read(unsafe {
        grants_prove(
            store.as_ptr(),
            store.len(),
            version,
            key.as_ptr(),
            key.len(),
            room.as_mut_ptr(),
            room.len(),
            &mut length,
        )
    })?;
    Ok(length)
}

pub fn palette(store: &[u8], version: u32, keys: &[u8], room: &mut [u8]) -> Result<[u8; 4], Error> {
    let mut length = [0; 4];
    read(unsafe {
        grants_palette(
            store.as_ptr(),
            store.len(),
            version,
            keys.as_ptr(),
            keys.len(),
            room.as_mut_ptr(),
            room.len(),
            &mut length,
        )
    })?;
    Ok(length)
}

pub fn changes(
    store: &[u8],
    first: u32,
    second: u32,
    limit: u32,
    room: &mut [u8],
) -> Result<[u8; 4], Error> {
    let mut records = [0; 4];
    accepted(unsafe {
        grants_changes(
            store.as_ptr(),
            store.len(),
            first,
            second,
            limit,
            room.as_mut_ptr(),
            room.len(),
            &mut records,
        )
    })?;
    Ok(records)
}

pub fn rescue(
    source: &[u8],
    oldest: u32,
    latest: u32,
    target: &mut [u8],
) -> Result<[u8; 16], Error> {
    let mut answer = [0; 16];
    accepted(unsafe {
        grants_rescue(
            source.as_ptr(),
            source.len(),
            oldest,
            latest,
            target.as_mut_ptr(),
            target.len(),
            &mut answer,
        )
    })?;
    Ok(answer)
}

pub fn finding(store: &[u8], version: u32, key: &[u8], proof: &[u8]) -> Result<[u8; 131], Error> {
    let mut finding = [0; 131];
    accepted(unsafe {
        grants_finding(
            store.as_ptr(),
            store.len(),
            version,
            key.as_ptr(),
            key.len(),
            proof.as_ptr(),
            proof.len(),
            &mut finding,
        )
    })?;
    Ok(finding)
}

pub fn over(source: &[u8], target: &mut [u8]) -> Result<(), Error> {
    accepted(unsafe {
        grants_over(
            source.as_ptr(),
            source.len(),
            target.as_mut_ptr(),
            target.len(),
        )
    })
}

pub fn back(source: &[u8], target: &mut [u8]) -> Result<(), Error> {
    accepted(unsafe {
        grants_back(
            source.as_ptr(),
            source.len(),
            target.as_mut_ptr(),
            target.len(),
        )
    })
}

pub fn verify(root: &[u8], key: &[u8], proof: &[u8]) -> Result<[u8; 33], Error> {
    let mut found = [0; 33];
    accepted(unsafe {
        grants_verify(
            root.as_ptr(),
            root.len(),
            key.as_ptr(),
            key.len(),
            proof.as_ptr(),
            proof.len(),
            &mut found,
        )
    })?;
    Ok(found)
}

pub fn shelf_verify(
    root: &[u8],
    bits: u32,
    key: &[u8],
    proof: &[u8],
) -> Result<[u8; 33], Error> {
    let mut found = [0; 33];
    accepted(unsafe {
        grants_shelf_verify(
            root.as_ptr(),
            root.len(),
            bits,
            key.as_ptr(),
            key.len(),
            proof.as_ptr(),
            proof.len(),
            &mut found,
        )
    })?;
    Ok(found)
}

/// 34 bytes for each key, at the front of the answers.
pub fn verify_many(
    root: &[u8],
    keys: &[u8],
    proofs: &[u8],
    answers: &mut [u8],
) -> Result<(), Error> {
    accepted(unsafe {
        grants_verify_many(
            root.as_ptr(),
            root.len(),
            keys.as_ptr(),
            keys.len(),
            proofs.as_ptr(),
            proofs.len(),
            answers.as_mut_ptr(),
            answers.len(),
        )
    })
}

pub fn figures(store: &[u8], first: u32, last: u32, room: &mut [u8]) -> Result<[u8; 8], Error> {
    let mut totals = [0; 8];
    accepted(unsafe {
        grants_figures(
            store.as_ptr(),
            store.len(),
            first,
            last,
            room.as_mut_ptr(),
            room.len(),
            &mut totals,
        )
    })?;
    Ok(totals)
}

pub fn pocket_prove(
    store: &[u8],
    version: u32,
    key: &[u8],
    room: &mut [u8],
) -> Result<[u8; 4], Error> {
    let mut length = [0; 4];
    read(unsafe {
        grants_pocket_prove(
            store.as_ptr(),
            store.len(),
            version,
            key.as_ptr(),
            key.len(),
            room.as_mut_ptr(),
            room.len(),
            &mut length,
        )
    })?;
    Ok(length)
}

pub fn pocket_verify(root: &[u8], key: &[u8], proof: &[u8]) -> Result<[u8; 33], Error> {
    let mut found = [0; 33];
    accepted(unsafe {
        grants_pocket_verify(
            root.as_ptr(),
            root.len(),
            key.as_ptr(),
            key.len(),
            proof.as_ptr(),
            proof.len(),
            &mut found,
        )
    })?;
    Ok(found)
}

pub fn version() -> [u8; 3] {
    let [major, minor, patch, _] = unsafe { grants_version() }.to_be_bytes();
    [major, minor, patch]
}

/// The proof, the raw key asked for, and raw key and value of two leaves; the message fills the front of the room.
pub fn ics23_write(
    proof: &[u8],
    asked: &[u8],
    leaves: [[&[u8]; 2]; 2],
    room: &mut [u8],
) -> Result<[u8; 4], Error> {
    let mut length = [0; 4];
    let [[key1, value1], [key2, value2]] = leaves;
    accepted(unsafe {
        grants_ics23_write(
            proof.as_ptr(),
            proof.len(),
            asked.as_ptr(),
            asked.len(),
            key1.as_ptr(),
            key1.len(),
            value1.as_ptr(),
            value1.len(),
            key2.as_ptr(),
            key2.len(),
            value2.as_ptr(),
            value2.len(),
            room.as_mut_ptr(),
            room.len(),
            &mut length,
        )
    })?;
    Ok(length)
}

pub fn ics23_read(message: &[u8], room: &mut [u8]) -> Result<[u8; 44], Error> {
    let mut answer = [0; 44];
    accepted(unsafe {
        grants_ics23_read(
            message.as_ptr(),
            message.len(),
            room.as_mut_ptr(),
            room.len(),
            &mut answer,
        )
    })?;
    Ok(answer)
}

pub fn sha256(bytes: &[u8]) -> [u8; 32] {
    let mut digest = [0; 32];
    accepted(unsafe { grants_sha256(bytes.as_ptr(), bytes.len(), &mut digest) })
        .expect("never refused");
    digest
}

pub fn index(store: &[u8], index: &mut [u32]) -> Result<(), Error> {
    accepted(unsafe {
        grants_index(store.as_ptr(), store.len(), index.as_mut_ptr(), index.len())
    })
}

pub fn index_check(store: &[u8], index: &[u32]) -> Result<(), Error> {
    accepted(unsafe {
        grants_index_check(store.as_ptr(), store.len(), index.as_ptr(), index.len())
    })
}

pub fn format_indexed(store: &mut [u8], index: &mut [u32]) -> Result<(), Error> {
    accepted(unsafe {
        grants_format_indexed(
            store.as_mut_ptr(),
            store.len(),
            index.as_mut_ptr(),
            index.len(),
        )
    })
}

pub fn apply_indexed(
    store: &mut [u8],
    index: &mut [u32],
    number: u32,
    batch: &[u8],
) -> Result<[u8; 40], Error> {
    let mut answer = [0; 40];
    accepted(unsafe {
        grants_apply_indexed(
            store.as_mut_ptr(),
            store.len(),
            index.as_mut_ptr(),
            index.len(),
            number,
            batch.as_ptr(),
            batch.len(),
            &mut answer,
        )
    })?;
    Ok(answer)
}

pub fn prune_indexed(
    store: &mut [u8],
    index: &mut [u32],
    version: u32,
) -> Result<[u8; 4], Error> {
    let mut freed = [0; 4];
    accepted(unsafe {
        grants_prune_indexed(
            store.as_mut_ptr(),
            store.len(),
            index.as_mut_ptr(),
            index.len(),
            version,
            &mut freed,
        )
    })?;
    Ok(freed)
}

pub fn root_indexed(store: &[u8], index: &[u32], version: u32) -> Result<[u8; 32], Error> {
    let mut root = [0; 32];
    read(unsafe {
        grants_root_indexed(
            store.as_ptr(),
            store.len(),
            index.as_ptr(),
            index.len(),
            version,
            &mut root,
        )
    })?;
    Ok(root)
}

pub fn get_indexed(
    store: &[u8],
    index: &[u32],
    version: u32,
    key: &[u8],
) -> Result<[u8; 33], Error> {
    let mut found = [0; 33];
    read(unsafe {
        grants_get_indexed(
            store.as_ptr(),
            store.len(),
            index.as_ptr(),
            index.len(),
            version,
            key.as_ptr(),
            key.len(),
            &mut found,
        )
    })?;
    Ok(found)
}

pub fn count_indexed(store: &[u8], index: &[u32], version: u32) -> Result<[u8; 8], Error> {
    let mut count = [0; 8];
    read(unsafe {
        grants_count_indexed(
            store.as_ptr(),
            store.len(),
            index.as_ptr(),
            index.len(),
            version,
            &mut count,
        )
    })?;
    Ok(count)
}

pub fn at_indexed(
    store: &[u8],
    index: &[u32],
    version: u32,
    position: u64,
) -> Result<[u8; 64], Error> {
    let mut grant = [0; 64];
    read(unsafe {
        grants_at_indexed(
            store.as_ptr(),
            store.len(),
            index.as_ptr(),
            index.len(),
            version,
            position,
            &mut grant,
        )
    })?;
    Ok(grant)
}

pub fn prove_indexed(
    store: &[u8],
    index: &[u32],
    version: u32,
    key: &[u8],
    room: &mut [u8],
) -> Result<[u8; 4], Error> {
    let mut length = [0; 4];
    read(unsafe {
        grants_prove_indexed(
            store.as_ptr(),
            store.len(),
            index.as_ptr(),
            index.len(),
            version,
            key.as_ptr(),
            key.len(),
            room.as_mut_ptr(),
            room.len(),
            &mut length,
        )
    })?;
    Ok(length)
}

pub fn palette_indexed(
    store: &[u8],
    index: &[u32],
    version: u32,
    keys: &[u8],
    room: &mut [u8],
) -> Result<[u8; 4], Error> {
    let mut length = [0; 4];
    read(unsafe {
        grants_palette_indexed(
            store.as_ptr(),
            store.len(),
            index.as_ptr(),
            index.len(),
            version,
            keys.as_ptr(),
            keys.len(),
            room.as_mut_ptr(),
            room.len(),
            &mut length,
        )
    })?;
    Ok(length)
}
