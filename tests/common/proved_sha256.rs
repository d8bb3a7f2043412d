//! The proved code's exports, as safe Rust.

/// The archive is linked.
#[cfg(linked)]
mod code {
    extern "C" {
        fn grants_sha256(bytes: *const u8, length: usize, digest: *mut [u8; 32]) -> u32;
        fn grants_leaf_hash(grant: *const [u8; 64], digest: *mut [u8; 32]) -> u32;
        fn grants_inner_hash(
            left: *const [u8; 32],
            right: *const [u8; 32],
            digest: *mut [u8; 32],
        ) -> u32;
    }

    pub fn sha256(message: &[u8]) -> [u8; 32] {
        let mut digest = [0; 32];
        let code = unsafe { grants_sha256(message.as_ptr(), message.len(), &mut digest) };
        assert_eq!(code, 0);
        digest
    }

    pub fn leaf_hash(grant: &[u8; 64]) -> [u8; 32] {
        let mut digest = [0; 32];
        let code = unsafe { grants_leaf_hash(grant, &mut digest) };
        assert_eq!(code, 0);
        digest
    }

    pub fn inner_hash(left: &[u8; 32], right: &[u8; 32]) -> [u8; 32] {
        let mut digest = [0; 32];
        let code = unsafe { grants_inner_hash(left, right, &mut digest) };
        assert_eq!(code, 0);
        digest
    }
}

/// The x86-64 archive on another machine: it runs as the program `tests/sha256/serve.c`, which the command in PROVED_SHA256 starts.
#[cfg(not(linked))]
mod code {
    use std::cell::RefCell;
    use std::io::{Read, Write};
    use std::process::{ChildStdin, ChildStdout, Command, Stdio};

    thread_local!(static SERVER: RefCell<(ChildStdin, ChildStdout)> = RefCell::new(start()));

    fn start() -> (ChildStdin, ChildStdout) {
        let command = std::env::var("PROVED_SHA256").expect("PROVED_SHA256 is set");
        let mut words = command.split_whitespace();
        let child = Command::new(words.next().unwrap())
            .args(words)
            .stdin(Stdio::piped())
            .stdout(Stdio::piped())
            .spawn()
            .expect("the command in PROVED_SHA256 starts");
        (child.stdin.unwrap(), child.stdout.unwrap())
    }

    fn ask(kind: u8, bytes: &[u8]) -> [u8; 32] {
        SERVER.with(|server| {
            let (requests, answers) = &mut *server.borrow_mut();
            let mut request = vec![kind];
            request.extend((bytes.len() as u32).to_le_bytes());
            request.extend(bytes);
            requests.write_all(&request).unwrap();
            let mut digest = [0; 32];
            answers.read_exact(&mut digest).unwrap();
            digest
        })
    }

    pub fn sha256(message: &[u8]) -> [u8; 32] {
        ask(0, message)
    }

    pub fn leaf_hash(grant: &[u8; 64]) -> [u8; 32] {
        ask(1, grant)
    }

    pub fn inner_hash(left: &[u8; 32], right: &[u8; 32]) -> [u8; 32] {
        ask(2, &[*left, *right].concat())
    }
}

pub use code::{inner_hash, leaf_hash, sha256};
