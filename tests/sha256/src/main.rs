//! Compares the proved SHA-256 with NIST's vectors, and with plain Rust on pseudo-random messages and nodes.

#[path = "../../common/plain_sha256.rs"]
mod plain;
#[path = "../../common/proved_sha256.rs"]
mod proved;
#[path = "../../common/random.rs"]
mod random;

use random::Random;

const SHORT: &str = include_str!("../../vectors/SHA256ShortMsg.rsp");
const LONG: &str = include_str!("../../vectors/SHA256LongMsg.rsp");
const MONTE: &str = include_str!("../../vectors/SHA256Monte.rsp");

#[derive(Default)]
struct Tally {
    passed: u32,
    failed: u32,
}

impl Tally {
    fn same(&mut self, name: std::fmt::Arguments, found: &[u8], wanted: &[u8]) {
        if found == wanted {
            self.passed += 1;
        } else {
            self.failed += 1;
            println!("{name}: {found:02x?}, not {wanted:02x?}");
        }
    }
}

/// The values of the lines `NAME = VALUE`, in their order.
fn values<'a>(text: &'a str, name: &'a str) -> impl Iterator<Item = &'a str> {
    text.lines()
        .filter_map(move |line| line.trim().strip_prefix(name)?.strip_prefix(" = "))
}

fn unhex(text: &str) -> Vec<u8> {
    (0..text.len())
        .step_by(2)
        .map(|i| u8::from_str_radix(&text[i..i + 2], 16).unwrap())
        .collect()
}

/// Each message by itself. A length is in bits; the empty message is written `00`.
fn messages(text: &str, tally: &mut Tally) {
    let lengths = values(text, "Len").map(|n| n.parse::<usize>().unwrap() / 8);
    for ((length, message), digest) in lengths.zip(values(text, "Msg")).zip(values(text, "MD")) {
        tally.same(
            format_args!("message of {length} bytes"),
            &proved::sha256(&unhex(message)[..length]),
            &unhex(digest),
        );
    }
}

/// NIST's Monte Carlo test: 100 results, each after 1,000 digests of the last three digests together.
fn monte(text: &str, tally: &mut Tally) {
    let mut seed = unhex(values(text, "Seed").next().unwrap());
    for (count, digest) in values(text, "MD").enumerate() {
        let mut last = [seed.clone(), seed.clone(), seed.clone()];
        for _ in 0..1000 {
            let next = proved::sha256(&last.concat()).to_vec();
            last.rotate_left(1);
            last[2] = next;
        }
        seed = last[2].clone();
        tally.same(format_args!("Monte Carlo {count}"), &seed, &unhex(digest));
    }
}

fn against_plain(tally: &mut Tally) {
    let mut random = Random(1);
    for length in 0..=300 {
        for _ in 0..10 {
            let mut message = vec![0; length];
            random.fill(&mut message);
            tally.same(
                format_args!("random message of {length} bytes"),
                &proved::sha256(&message),
                &plain::sha256(&message),
            );
        }
    }
    for _ in 0..2000 {
        let (left, right) = (random.hash(), random.hash());
        let mut grant = [0; 64];
        grant[..32].copy_from_slice(&left);
        grant[32..].copy_from_slice(&right);
        tally.same(
            format_args!("leaf"),
            &proved::leaf_hash(&grant),
            &plain::leaf_hash(&left, &right),
        );
        tally.same(
            format_args!("inner node"),
            &proved::inner_hash(&left, &right),
            &plain::inner_hash(&left, &right),
        );
    }
    // Each last byte: what is known of the second block is folded into the node hashes, so they are held to the general hash.
    for last in 0..=255 {
        let (left, mut right) = (random.hash(), random.hash());
        right[31] = last;
        for kind in [0, 1] {
            let mut message = vec![kind];
            message.extend(left);
            message.extend(right);
            let mut grant = [0; 64];
            grant.copy_from_slice(&message[1..]);
            let found = match kind {
                0 => proved::inner_hash(&left, &right),
                _ => proved::leaf_hash(&grant),
            };
            tally.same(
                format_args!("node of kind {kind} that ends with {last}, by the plain general hash"),
                &found,
                &plain::sha256(&message),
            );
            tally.same(
                format_args!("node of kind {kind} that ends with {last}, by the proved general hash"),
                &found,
                &proved::sha256(&message),
            );
        }
    }
}

/// The examples of FIPS 180-4: what it says, and what the proved code gives.
fn demo() {
    let examples = [
        ("", "e3b0c44298fc1c149afbf4c8996fb92427ae41e4649b934ca495991b7852b855"),
        ("abc", "ba7816bf8f01cfea414140de5dae2223b00361a396177a9cb410ff61f20015ad"),
        (
            "abcdbcdecdefdefgefghfghighijhijkijkljklmklmnlmnomnopnopq",
            "248d6a61d20638b8e5c026930c3e6039a33ce45964ff2167f6ecedd419db06c1",
        ),
    ];
    for (message, says) in examples {
        let came: String = proved::sha256(message.as_bytes()).iter().map(|b| format!("{b:02x}")).collect();
        println!("SHA-256 of {message:?}\n  FIPS 180-4 says {says}\n  the proved code {came}");
        assert_eq!(came, says);
    }
}

fn main() {
    if std::env::args().any(|word| word == "--demo") {
        return demo();
    }
    let mut tally = Tally::default();
    messages(SHORT, &mut tally);
    messages(LONG, &mut tally);
    assert_eq!(tally.passed + tally.failed, 129);
    monte(MONTE, &mut tally);
    assert_eq!(tally.passed + tally.failed, 229);
    against_plain(&mut tally);
    println!(
        "sha256 vectors: {} passed, {} failed",
        tally.passed, tally.failed
    );
    std::process::exit((tally.failed != 0) as i32);
}
