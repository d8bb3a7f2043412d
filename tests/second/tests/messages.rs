//! 02, request 2026-02: a message worked out by hand, and a partner's verifier on the trees of the second program.

use second::bytes::{ask_bytes, put_header, Ask, HEADER, SLOT};
use second::ics23::{self, our_spec};
use second::message::{message, record, Leaf, Parts};
use second::sha256::sha256;
use second::{ics23_read, ics23_write, verify};

fn store(names: &[&str]) -> (Vec<u8>, [u8; 32]) {
    let mut s = vec![0; HEADER + SLOT * 200];
    put_header(&mut s, 0, 0);
    let mut asks: Vec<Ask> = names.iter().map(|n| Ask { key: sha256(n.as_bytes()), value: Some(sha256(format!("value of {n}").as_bytes())) }).collect();
    asks.sort_by_key(|a| a.key);
    let batch: Vec<u8> = asks.iter().flat_map(ask_bytes).collect();
    let (_, root, _) = second::apply(&mut s, 1, &batch).unwrap();
    (s, root)
}

/// A lone leaf with key `a` and value `b`: 10 17 (10 1 'a') (18 1 'b') (26 9 LeafOp).
#[test]
fn worked_out_by_hand() {
    let p = second::proof::presence_bytes(&second::proof::Presence { key: sha256(b"a"), value: sha256(b"b"), steps: vec![] });
    let m = message(&p, b"a", Leaf { key: b"a", value: b"b" }, Leaf::default()).unwrap();
    assert_eq!(m, [10, 17, 10, 1, 97, 18, 1, 98, 26, 9, 8, 1, 16, 1, 24, 1, 42, 1, 1]);
    let parts = Parts { asked: 4..5, leaves: [[4..5, 7..8], [0..0, 0..0]] };
    assert_eq!(record(&m), Some((p, parts)));
}

#[test]
fn partner_on_a_tree() {
    let names: Vec<String> = (0..60).map(|i| format!("name {i}")).collect();
    let words: Vec<&str> = names.iter().map(String::as_str).collect();
    let (s, root) = store(&words);
    let of = |hash: [u8; 32]| words.iter().find(|n| sha256(n.as_bytes()) == hash).unwrap();
    let spec = our_spec();
    let (mut shown, mut kinds) = (0, [0; 4]);
    for i in 0..2_000 {
        let name = format!("name {i}");
        let key = sha256(name.as_bytes());
        let p = second::proof::proof(&s, 1, &key).unwrap();
        let leaves: Vec<(String, String)> = match second::check::decode(&p).unwrap() {
            second::check::Proof::Present(p) => vec![p],
            second::check::Proof::Absent { left, right, .. } => [left, right].into_iter().flatten().collect(),
        }
        .iter()
        .map(|p| (of(p.key).to_string(), format!("value of {}", of(p.key))))
        .collect();
        let leaf = |i: usize| leaves.get(i).map_or(Leaf::default(), |(k, v)| Leaf { key: k.as_bytes(), value: v.as_bytes() });
        let mut room = vec![7; 30_000];
        let n = ics23_write(&p, name.as_bytes(), leaf(0), leaf(1), &mut room).unwrap() as usize;
        let m = &room[..n];
        let mut back = vec![9; p.len()];
        let (length, _) = ics23_read(m, &mut back).unwrap();
        assert_eq!((length as usize, &back), (p.len(), &p));
        assert!(ics23_read(m, &mut vec![9; p.len() - 1]) == Err(9));
        if i < 60 {
            assert!(ics23::member(&spec, &root, m, name.as_bytes(), format!("value of {name}").as_bytes()));
            assert!(!ics23::member(&spec, &root, m, name.as_bytes(), b"another value"));
            assert!(!ics23::no_member(&spec, &root, m, name.as_bytes()));
            assert!(matches!(verify(&root, &key, &p), Ok(Some(_))));
            shown += 1;
        } else {
            assert!(ics23::no_member(&spec, &root, m, name.as_bytes()));
            assert!(!ics23::no_member(&spec, &sha256(b"another root"), m, name.as_bytes()));
            assert_eq!(verify(&root, &key, &p), Ok(None));
            kinds[p[6] as usize] += 1;
        }
    }
    assert_eq!(shown, 60);
    assert!(kinds[1] > 0 && kinds[2] > 0 && kinds[3] > 0, "{kinds:?}");
}

/// The example of docs/PARTNERS.md: two grants, `oboe` and `viola`.
fn orchestra() -> (Vec<u8>, [u8; 32]) {
    let mut s = vec![0; HEADER + SLOT * 20];
    put_header(&mut s, 0, 0);
    let mut asks: Vec<Ask> = [("oboe", "may read"), ("viola", "may write")].map(|(k, v)| Ask { key: sha256(k.as_bytes()), value: Some(sha256(v.as_bytes())) }).to_vec();
    asks.sort_by_key(|a| a.key);
    let batch: Vec<u8> = asks.iter().flat_map(ask_bytes).collect();
    let (_, root, _) = second::apply(&mut s, 1, &batch).unwrap();
    (s, root)
}

/// Its two messages are the files beside it, and a partner takes them under its root.
#[test]
fn the_example_of_the_guide() {
    let (s, root) = orchestra();
    let of = |name: &str| second::proof::proof(&s, 1, &sha256(name.as_bytes())).unwrap();
    let viola = Leaf { key: b"viola", value: b"may write" };
    let oboe = Leaf { key: b"oboe", value: b"may read" };
    let present = message(&of("viola"), b"viola", viola, Leaf::default()).unwrap();
    let absent = of("flute");
    let leaves = match absent[6] {
        3 if sha256(b"oboe") < sha256(b"viola") => (oboe, viola),
        3 => (viola, oboe),
        _ if absent[48..80] == sha256(b"viola") => (viola, Leaf::default()),
        _ => (oboe, Leaf::default()),
    };
    let absent = message(&absent, b"flute", leaves.0, leaves.1).unwrap();
    let docs = concat!(env!("CARGO_MANIFEST_DIR"), "/../../docs/ics23/");
    let held = |name: &str, m: &[u8]| {
        let file = format!("{docs}{name}");
        if std::env::var_os("WRITE_EXAMPLES").is_some() {
            std::fs::write(&file, m).unwrap();
        }
        assert_eq!(std::fs::read(&file).unwrap(), m, "{name}");
    };
    held("viola.present.bin", &present);
    held("flute.absent.bin", &absent);
    let hex: String = root.iter().map(|b| format!("{b:02x}")).collect();
    let guide = std::fs::read_to_string(format!("{docs}../PARTNERS.md")).unwrap();
    assert!(guide.contains(&hex), "the root {hex} stands in docs/PARTNERS.md");
    assert!(ics23::member(&our_spec(), &root, &present, b"viola", b"may write"));
    assert!(ics23::no_member(&our_spec(), &root, &absent, b"flute"));
}
