//! SHA-256 (FIPS 180-4) in plain safe Rust: all 64 rounds unrolled, sixteen words of the message schedule held at a time, no SIMD and no SHA
//! instructions. What the proved code is compared with, in its results and in its time.

const K: [u32; 64] = [
    0x428a2f98, 0x71374491, 0xb5c0fbcf, 0xe9b5dba5, 0x3956c25b, 0x59f111f1, 0x923f82a4, 0xab1c5ed5,
    0xd807aa98, 0x12835b01, 0x243185be, 0x550c7dc3, 0x72be5d74, 0x80deb1fe, 0x9bdc06a7, 0xc19bf174,
    0xe49b69c1, 0xefbe4786, 0x0fc19dc6, 0x240ca1cc, 0x2de92c6f, 0x4a7484aa, 0x5cb0a9dc, 0x76f988da,
    0x983e5152, 0xa831c66d, 0xb00327c8, 0xbf597fc7, 0xc6e00bf3, 0xd5a79147, 0x06ca6351, 0x14292967,
    0x27b70a85, 0x2e1b2138, 0x4d2c6dfc, 0x53380d13, 0x650a7354, 0x766a0abb, 0x81c2c92e, 0x92722c85,
    0xa2bfe8a1, 0xa81a664b, 0xc24b8b70, 0xc76c51a3, 0xd192e819, 0xd6990624, 0xf40e3585, 0x106aa070,
    0x19a4c116, 0x1e376c08, 0x2748774c, 0x34b0bcb5, 0x391c0cb3, 0x4ed8aa4a, 0x5b9cca4f, 0x682e6ff3,
    0x748f82ee, 0x78a5636f, 0x84c87814, 0x8cc70208, 0x90befffa, 0xa4506ceb, 0xbef9a3f7, 0xc67178f2,
];

const START: [u32; 8] = [
    0x6a09e667, 0xbb67ae85, 0x3c6ef372, 0xa54ff53a, 0x510e527f, 0x9b05688c, 0x1f83d9ab, 0x5be0cd19,
];

macro_rules! round {
    ($a:ident $b:ident $c:ident $d:ident $e:ident $f:ident $g:ident $h:ident, $k:expr, $w:expr) => {
        let t1 = $h
            .wrapping_add($e.rotate_right(6) ^ $e.rotate_right(11) ^ $e.rotate_right(25))
            .wrapping_add(($e & $f) ^ (!$e & $g))
            .wrapping_add($k)
            .wrapping_add($w);
        let t2 = ($a.rotate_right(2) ^ $a.rotate_right(13) ^ $a.rotate_right(22))
            .wrapping_add($b ^ (($a ^ $b) & ($b ^ $c)));
        $d = $d.wrapping_add(t1);
        $h = t1.wrapping_add(t2);
    };
}

macro_rules! eight {
    ($t:expr, $word:ident, $w:ident, $a:ident $b:ident $c:ident $d:ident $e:ident $f:ident $g:ident $h:ident) => {
        round!($a $b $c $d $e $f $g $h, K[$t], $word!($w, $t));
        round!($h $a $b $c $d $e $f $g, K[$t + 1], $word!($w, $t + 1));
        round!($g $h $a $b $c $d $e $f, K[$t + 2], $word!($w, $t + 2));
        round!($f $g $h $a $b $c $d $e, K[$t + 3], $word!($w, $t + 3));
        round!($e $f $g $h $a $b $c $d, K[$t + 4], $word!($w, $t + 4));
        round!($d $e $f $g $h $a $b $c, K[$t + 5], $word!($w, $t + 5));
        round!($c $d $e $f $g $h $a $b, K[$t + 6], $word!($w, $t + 6));
        round!($b $c $d $e $f $g $h $a, K[$t + 7], $word!($w, $t + 7));
    };
}

macro_rules! given {
    ($w:ident, $t:expr) => {
        $w[$t]
    };
}

macro_rules! made {
    ($w:ident, $t:expr) => {{
        let p = $w[($t + 14) % 16];
        let r = $w[($t + 1) % 16];
        $w[$t % 16] = (p.rotate_right(17) ^ p.rotate_right(19) ^ (p >> 10))
            .wrapping_add($w[($t + 9) % 16])
            .wrapping_add(r.rotate_right(7) ^ r.rotate_right(18) ^ (r >> 3))
            .wrapping_add($w[$t % 16]);
        $w[$t % 16]
    }};
}

/// The hash value after one block more, given its words. Inlined, so that words that are known are folded into the rounds.
#[inline(always)]
fn compress_words(s: &mut [u32; 8], mut w: [u32; 16]) {
    let [mut a, mut b, mut c, mut d, mut e, mut f, mut g, mut h] = *s;
    eight!(0, given, w, a b c d e f g h);
    eight!(8, given, w, a b c d e f g h);
    eight!(16, made, w, a b c d e f g h);
    eight!(24, made, w, a b c d e f g h);
    eight!(32, made, w, a b c d e f g h);
    eight!(40, made, w, a b c d e f g h);
    eight!(48, made, w, a b c d e f g h);
    eight!(56, made, w, a b c d e f g h);
    for (x, y) in s.iter_mut().zip([a, b, c, d, e, f, g, h]) {
        *x = x.wrapping_add(y);
    }
}

fn compress(s: &mut [u32; 8], block: &[u8; 64]) {
    let mut w = [0u32; 16];
    for (word, bytes) in w.iter_mut().zip(block.chunks_exact(4)) {
        *word = u32::from_be_bytes([bytes[0], bytes[1], bytes[2], bytes[3]]);
    }
    compress_words(s, w);
}

/// The second block of a message of 65 bytes, of which all but the first byte is known.
fn compress_second(s: &mut [u32; 8], last: u8) {
    let mut w = [0u32; 16];
    w[0] = u32::from_be_bytes([last, 0x80, 0, 0]);
    w[15] = 520;
    compress_words(s, w);
}

fn bytes(s: [u32; 8]) -> [u8; 32] {
    let mut out = [0; 32];
    for (part, word) in out.chunks_exact_mut(4).zip(s) {
        part.copy_from_slice(&word.to_be_bytes());
    }
    out
}

pub fn sha256(message: &[u8]) -> [u8; 32] {
    let mut s = START;
    let blocks = message.chunks_exact(64);
    let rest = blocks.remainder();
    for block in blocks {
        compress(&mut s, block.try_into().unwrap());
    }
    let mut last = [0; 64];
    last[..rest.len()].copy_from_slice(rest);
    last[rest.len()] = 0x80;
    if rest.len() >= 56 {
        compress(&mut s, &last);
        last = [0; 64];
    }
    last[56..].copy_from_slice(&(message.len() as u64 * 8).to_be_bytes());
    compress(&mut s, &last);
    bytes(s)
}

fn first(kind: u8, left: &[u8; 32], right: &[u8; 32]) -> [u8; 64] {
    let mut first = [0; 64];
    first[0] = kind;
    first[1..33].copy_from_slice(left);
    first[33..].copy_from_slice(&right[..31]);
    first
}

/// The hash of a node by two general compressions.
fn node_in_full(kind: u8, left: &[u8; 32], right: &[u8; 32]) -> [u8; 32] {
    let mut second = [0; 64];
    second[0] = right[31];
    second[1] = 0x80;
    second[62..].copy_from_slice(&520u16.to_be_bytes());
    let mut s = START;
    compress(&mut s, &first(kind, left, right));
    compress(&mut s, &second);
    bytes(s)
}

/// The same with what is known of the second block folded in (request 2026-06).
fn node(kind: u8, left: &[u8; 32], right: &[u8; 32]) -> [u8; 32] {
    let mut s = START;
    compress(&mut s, &first(kind, left, right));
    compress_second(&mut s, right[31]);
    bytes(s)
}

pub fn leaf_hash(key: &[u8; 32], value: &[u8; 32]) -> [u8; 32] {
    node(1, key, value)
}

pub fn inner_hash(left: &[u8; 32], right: &[u8; 32]) -> [u8; 32] {
    node(0, left, right)
}

#[allow(dead_code)]
pub fn leaf_hash_in_full(key: &[u8; 32], value: &[u8; 32]) -> [u8; 32] {
    node_in_full(1, key, value)
}

#[allow(dead_code)]
pub fn inner_hash_in_full(left: &[u8; 32], right: &[u8; 32]) -> [u8; 32] {
    node_in_full(0, left, right)
}
