//! The exports of crates/check_trial, as safe Rust. Each reads the bytes that it is lent and nothing else.

extern "C" {
    fn check_store(store: *const u8, store_len: usize) -> u32;
    fn check_suspect(store: *const u8, store_len: usize) -> u32;
    fn check_hashes(store: *const u8, store_len: usize) -> u32;
}

/// Check's answer.
pub fn check(store: &[u8]) -> u32 {
    // SAFETY: pointer and length are a slice's.
    unsafe { check_store(store.as_ptr(), store.len()) }
}

/// 0: nothing wrong; 1: a suspect that fails the exact test; 2: one that passes it; 3: refused by size or header.
#[allow(dead_code)]
pub fn suspect(store: &[u8]) -> u32 {
    // SAFETY: pointer and length are a slice's.
    unsafe { check_suspect(store.as_ptr(), store.len()) }
}

/// Hashes each record once.
#[allow(dead_code)]
pub fn hashes(store: &[u8]) -> u32 {
    // SAFETY: pointer and length are a slice's.
    unsafe { check_hashes(store.as_ptr(), store.len()) }
}
