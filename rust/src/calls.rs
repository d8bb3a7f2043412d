//! The calls of `include/grants.h`, as the crate and the comparison with the second program (`tests/compare`) declare them: once. Nothing else is here.

extern "C" {
    pub fn grants_format(store: *mut u8, store_len: usize) -> u32;
    pub fn grants_check(store: *const u8, store_len: usize) -> u32;
    pub fn grants_apply(
        store: *mut u8,
        store_len: usize,
        number: u32,
        batch: *const u8,
        batch_len: usize,
        answer: *mut [u8; 40],
    ) -> u32;
    pub fn grants_prune(store: *mut u8, store_len: usize, version: u32, freed: *mut [u8; 4]) -> u32;
    pub fn grants_root(store: *const u8, store_len: usize, version: u32, root: *mut [u8; 32]) -> u64;
    pub fn grants_get(
        store: *const u8,
        store_len: usize,
        version: u32,
        key: *const u8,
        key_len: usize,
        found: *mut [u8; 33],
    ) -> u64;
    pub fn grants_count(store: *const u8, store_len: usize, version: u32, count: *mut [u8; 8]) -> u64;
    pub fn grants_at(
        store: *const u8,
        store_len: usize,
        version: u32,
        position: u64,
        grant: *mut [u8; 64],
    ) -> u64;
    pub fn grants_prove(
        store: *const u8,
        store_len: usize,
        version: u32,
        key: *const u8,
        key_len: usize,
        room: *mut u8,
        room_len: usize,
        length: *mut [u8; 4],
    ) -> u64;
    pub fn grants_palette(
        store: *const u8,
        store_len: usize,
        version: u32,
        keys: *const u8,
        keys_len: usize,
        room: *mut u8,
        room_len: usize,
        length: *mut [u8; 4],
    ) -> u64;
    pub fn grants_changes(
        store: *const u8,
        store_len: usize,
        first: u32,
        second: u32,
        limit: u32,
        room: *mut u8,
        room_len: usize,
        records: *mut [u8; 4],
    ) -> u32;
    pub fn grants_rescue(
        source: *const u8,
        source_len: usize,
        oldest: u32,
        latest: u32,
        target: *mut u8,
        target_len: usize,
        answer: *mut [u8; 16],
    ) -> u32;
    pub fn grants_figures(
        store: *const u8,
        store_len: usize,
        first: u32,
        last: u32,
        room: *mut u8,
        room_len: usize,
        totals: *mut [u8; 8],
    ) -> u32;
    pub fn grants_pocket_prove(
        store: *const u8,
        store_len: usize,
        version: u32,
        key: *const u8,
        key_len: usize,
        room: *mut u8,
        room_len: usize,
        length: *mut [u8; 4],
    ) -> u64;
    pub fn grants_pocket_verify(
        root: *const u8,
        root_len: usize,
        key: *const u8,
        key_len: usize,
        proof: *const u8,
        proof_len: usize,
        found: *mut [u8; 33],
    ) -> u32;
    pub fn grants_finding(
        store: *const u8,
        store_len: usize,
        version: u32,
        key: *const u8,
        key_len: usize,
        proof: *const u8,
        proof_len: usize,
        finding: *mut [u8; 131],
    ) -> u32;
    pub fn grants_over(
        source: *const u8,
        source_len: usize,
        target: *mut u8,
        target_len: usize,
    ) -> u32;
    pub fn grants_back(
        source: *const u8,
        source_len: usize,
        target: *mut u8,
        target_len: usize,
    ) -> u32;
    pub fn grants_verify(
        root: *const u8,
        root_len: usize,
        key: *const u8,
        key_len: usize,
        proof: *const u8,
        proof_len: usize,
        found: *mut [u8; 33],
    ) -> u32;
    pub fn grants_shelf_verify(
        root: *const u8,
        root_len: usize,
        bits: u32,
        key: *const u8,
        key_len: usize,
        proof: *const u8,
        proof_len: usize,
        found: *mut [u8; 33],
    ) -> u32;
    pub fn grants_verify_many(
        root: *const u8,
        root_len: usize,
        keys: *const u8,
        keys_len: usize,
        proofs: *const u8,
        proofs_len: usize,
        answers: *mut u8,
        answers_len: usize,
    ) -> u32;
    pub fn grants_version() -> u32;
    pub fn grants_ics23_write(
        proof: *const u8,
        proof_len: usize,
        asked: *const u8,
        asked_len: usize,
        key1: *const u8,
        key1_len: usize,
        value1: *const u8,
        value1_len: usize,
        key2: *const u8,
        key2_len: usize,
        value2: *const u8,
        value2_len: usize,
        room: *mut u8,
        room_len: usize,
        length: *mut [u8; 4],
    ) -> u32;
    pub fn grants_ics23_read(
        message: *const u8,
        message_len: usize,
        room: *mut u8,
        room_len: usize,
        answer: *mut [u8; 44],
    ) -> u32;
    pub fn grants_sha256(bytes: *const u8, len: usize, digest: *mut [u8; 32]) -> u32;
    pub fn grants_index(store: *const u8, len: usize, index: *mut u32, entries: usize) -> u32;
    pub fn grants_index_check(store: *const u8, len: usize, index: *const u32, entries: usize) -> u32;
    pub fn grants_format_indexed(store: *mut u8, len: usize, index: *mut u32, entries: usize) -> u32;
    pub fn grants_apply_indexed(
        store: *mut u8,
        len: usize,
        index: *mut u32,
        entries: usize,
        number: u32,
        batch: *const u8,
        batch_len: usize,
        answer: *mut [u8; 40],
    ) -> u32;
    pub fn grants_prune_indexed(
        store: *mut u8,
        len: usize,
        index: *mut u32,
        entries: usize,
        version: u32,
        freed: *mut [u8; 4],
    ) -> u32;
    pub fn grants_root_indexed(
        store: *const u8,
        len: usize,
        index: *const u32,
        entries: usize,
        version: u32,
        root: *mut [u8; 32],
    ) -> u64;
    pub fn grants_get_indexed(
        store: *const u8,
        len: usize,
        index: *const u32,
        entries: usize,
        version: u32,
        key: *const u8,
        key_len: usize,
        found: *mut [u8; 33],
    ) -> u64;
    pub fn grants_count_indexed(
        store: *const u8,
        len: usize,
        index: *const u32,
        entries: usize,
        version: u32,
        count: *mut [u8; 8],
    ) -> u64;
    pub fn grants_at_indexed(
        store: *const u8,
        len: usize,
        index: *const u32,
        entries: usize,
        version: u32,
        position: u64,
        grant: *mut [u8; 64],
    ) -> u64;
    pub fn grants_prove_indexed(
        store: *const u8,
        len: usize,
        index: *const u32,
        entries: usize,
        version: u32,
        key: *const u8,
        key_len: usize,
        room: *mut u8,
        room_len: usize,
        length: *mut [u8; 4],
    ) -> u64;
    pub fn grants_palette_indexed(
        store: *const u8,
        len: usize,
        index: *const u32,
        entries: usize,
        version: u32,
        keys: *const u8,
        keys_len: usize,
        room: *mut u8,
        room_len: usize,
        length: *mut [u8; 4],
    ) -> u64;
}
