//! The proved SHA-256 against plain safe Rust, in one run: short runs of the two in turn, and the best of each.

#[path = "../../tests/common/plain_sha256.rs"]
mod plain;
#[path = "../../tests/common/proved_sha256.rs"]
mod proved;
#[path = "../../tests/common/random.rs"]
mod random;

use random::Random;
use std::hint::black_box;
use std::time::Instant;

/// Milliseconds for `times` calls.
fn milliseconds(times: usize, call: &mut dyn FnMut()) -> f64 {
    let start = Instant::now();
    for _ in 0..times {
        call();
    }
    start.elapsed().as_secs_f64() * 1000.0
}

fn compare(name: &str, times: usize, mut ours: impl FnMut(), mut plain: impl FnMut()) {
    let (mut best_ours, mut best_plain) = (f64::MAX, f64::MAX);
    for _ in 0..150 {
        best_ours = best_ours.min(milliseconds(times, &mut ours));
        best_plain = best_plain.min(milliseconds(times, &mut plain));
    }
    println!(
        "bench {name} ratio {:.2} ours {best_ours:.3}ms plain {best_plain:.3}ms",
        best_ours / best_plain
    );
}

fn main() {
    let mut random = Random(1);
    for (name, length, times) in [
        ("digest-64B", 64, 4000),
        ("digest-4KiB", 4096, 120),
        ("digest-1MiB", 1 << 20, 1),
    ] {
        let mut message = vec![0; length];
        random.fill(&mut message);
        let message = &message;
        compare(
            name,
            times,
            || {
                black_box(proved::sha256(black_box(message)));
            },
            || {
                black_box(plain::sha256(black_box(message)));
            },
        );
    }
    let (left, right) = (random.hash(), random.hash());
    let mut grant = [0; 64];
    grant[..32].copy_from_slice(&left);
    grant[32..].copy_from_slice(&right);
    compare(
        "leaf-hash",
        4000,
        || {
            black_box(proved::leaf_hash(black_box(&grant)));
        },
        || {
            black_box(plain::leaf_hash_in_full(black_box(&left), black_box(&right)));
        },
    );
    compare(
        "leaf-hash-beside-the-trick",
        4000,
        || {
            black_box(proved::leaf_hash(black_box(&grant)));
        },
        || {
            black_box(plain::leaf_hash(black_box(&left), black_box(&right)));
        },
    );
    compare(
        "inner-hash",
        4000,
        || {
            black_box(proved::inner_hash(black_box(&left), black_box(&right)));
        },
        || {
            black_box(plain::inner_hash_in_full(black_box(&left), black_box(&right)));
        },
    );
    compare(
        "inner-hash-beside-the-trick",
        4000,
        || {
            black_box(proved::inner_hash(black_box(&left), black_box(&right)));
        },
        || {
            black_box(plain::inner_hash(black_box(&left), black_box(&right)));
        },
    );
}
