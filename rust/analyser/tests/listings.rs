//! What the listings say: the original's answers, kept in `samples/` and for `test_replay`, against the entry and against the program `list`.
#![cfg(analyser)]

mod common;

use std::io::{ErrorKind, Write};
use std::process::{Command, Stdio};

#[test]
fn samples() {
    for k in common::samples() {
        common::same(&k.name, &analyser::listing_of(&k.image), &k.listing);
    }
}

#[test]
fn kept() {
    for k in common::kept() {
        common::same(&k.name, &analyser::listing_of(&k.image), &k.listing);
    }
}

/// The program's answer to a file on standard input, where the program was built.
fn list(file: &[u8]) -> Option<Vec<u8>> {
    let mut run = Command::new(common::root().join("crates/list/out/list"))
        .stdin(Stdio::piped())
        .stdout(Stdio::piped())
        .spawn()
        .ok()?;
    let mut input = run.stdin.take().expect("a pipe");
    match input.write_all(file) {
        // it reads no more than it needs
        Err(e) if e.kind() == ErrorKind::BrokenPipe => {}
        done => done.expect("the pipe can be written"),
    }
    drop(input);
    let done = run.wait_with_output().expect("an answer");
    assert!(done.status.success());
    Some(done.stdout)
}

#[test]
fn program() {
    for k in common::samples() {
        match list(&k.image) {
            Some(listing) => common::same(&k.name, &listing, &k.listing),
            None => return println!("crates/list/out/list isn't there: ./run builds it"),
        }
    }
    for length in [0, 1, 11, 57_356, 57_360, 65_535, 65_536, 65_537, 1 << 20] {
        let listing = list(&vec![1; length]).expect("a program");
        assert_eq!(listing, b"E 5\n", "{length} bytes");
    }
}
