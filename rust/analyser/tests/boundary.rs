//! The boundary: lengths that just fit and don't, the tail, memory that is not lent. What a listing says is for `listings.rs`.
#![cfg(analyser)]

mod common;

use analyser::{ENOUGH, listing, listing_of};
use common::{Guard, guarded};
use image::ast::*;

/// What a byte holds before the call.
const MARK: u8 = 0x55;

/// The longest image: 1,024 names of 16 bytes, all erased, and 8,191 statements of one word.
fn longest() -> Vec<u8> {
    let words =
        |ws: &mut dyn Iterator<Item = u32>| -> Vec<u8> { ws.flat_map(u32::to_le_bytes).collect() };
    let mut file = words(&mut [1_024, 8_192, 1_024].into_iter());
    file.extend(words(&mut (1..=1_024).map(|n| 16 * n)));
    file.extend(words(
        &mut std::iter::once(0x0100_1fff).chain((1..8_192).map(|_| 0x6b00_0001)),
    ));
    file.extend(words(&mut (0..1_024)));
    file.extend((0..1_024).flat_map(|n| format!("A{n:015}").into_bytes()));
    assert_eq!(file.len(), 57_356);
    file
}

/// The deepest trees: 100 statements in each other, and 99 expressions in a statement.
fn deepest() -> [Vec<u8>; 2] {
    let stmt = |kind| Stmt { line: 1, kind };
    let name = || Expr::Variable("A".into());
    let mut body = vec![stmt(StmtKind::Cls)];
    for _ in 0..99 {
        body = vec![stmt(StmtKind::If {
            condition: name(),
            then_branch: body,
            else_branch: None,
        })];
    }
    let mut value = name();
    for _ in 0..98 {
        value = Expr::FnCall {
            name: "F".into(),
            args: vec![value],
        };
    }
    let assign = stmt(StmtKind::Let {
        name: "A".into(),
        indices: None,
        value,
    });
    [body, vec![assign]].map(|program| image::build(&program, &[], &[]).to_bytes())
}

/// Files of every sort: none, damaged, short, long, deep, refused, listed.
fn files() -> Vec<Vec<u8>> {
    let mut files: Vec<_> = common::samples().into_iter().map(|s| s.image).collect();
    files.extend([
        vec![],
        vec![0],
        vec![0; 11],
        vec![0; 12],
        vec![255; 12],
        vec![1; 57_356],
    ]);
    files.extend(deepest());
    files.extend([
        longest(),
        [longest(), vec![0; 4]].concat(),
        vec![1; 1 << 20],
    ]);
    files
}

fn text(file: &[u8]) -> String {
    String::from_utf8(listing_of(file)).expect("ASCII")
}

#[test]
fn no_image() {
    for file in [
        &[][..],
        &[0],
        &[0; 11],
        &[255; 12],
        &[1; 57_356],
        &[0; 57_360],
        &vec![1; 1 << 20],
    ] {
        assert_eq!(text(file), "E 5\n", "{} bytes", file.len());
    }
    assert_eq!(text(&[0; 12]), "E 2\n", "no words: no list of statements");
}

#[test]
fn longest_image() {
    let file = longest();
    assert!(
        text(&file).starts_with('R'),
        "accepted: {:.20}",
        text(&file)
    );
    assert_eq!(text(&[&file[..], &[0; 4]].concat()), "E 5\n", "a word more");
    assert_eq!(text(&file[..57_355]), "E 5\n", "a byte less");
}

#[test]
fn deepest_trees() {
    for file in deepest() {
        assert!(text(&file).starts_with('R'), "accepted");
    }
}

#[test]
fn room() {
    for file in files() {
        let wanted = listing_of(&file);
        let n = wanted.len();
        for room in [n, n + 1, n + 100, ENOUGH] {
            let mut out = vec![MARK; room];
            assert_eq!(listing(&file, &mut out), Some(n));
            assert_eq!(out[..n], wanted);
            assert!(out[n..].iter().all(|b| *b == MARK), "the tail stays");
        }
        for room in [n - 1, n / 2, 1, 0] {
            let mut out = vec![MARK; room];
            assert_eq!(listing(&file, &mut out), None);
            assert!(out.iter().all(|b| *b == 0), "all zero");
        }
    }
}

#[test]
fn image_stays() {
    for file in files() {
        let copy = file.clone();
        listing_of(&file);
        assert!(file == copy);
    }
}

#[test]
fn guard_pages() {
    for file in files() {
        let wanted = listing_of(&file);
        let n = wanted.len();
        for room in [n, n + 1, n - 1, 0, ENOUGH] {
            for (a, b) in [
                (Guard::Before, Guard::Before),
                (Guard::Before, Guard::Behind),
                (Guard::Behind, Guard::Before),
                (Guard::Behind, Guard::Behind),
            ] {
                guarded(file.len(), a, |image| {
                    image.copy_from_slice(&file);
                    guarded(room, b, |out| {
                        let length = listing(image, out);
                        assert_eq!(length, (room >= n).then_some(n), "{a:?}, {b:?}");
                        assert!(length.is_none_or(|n| out[..n] == wanted));
                    });
                });
            }
        }
    }
}

/// The buffers of a call are on its stack, which need not be large.
#[test]
fn little_stack() {
    for file in files() {
        let wanted = listing_of(&file);
        let thread = std::thread::Builder::new().stack_size(1 << 19);
        let run = thread.spawn(move || listing_of(&file)).expect("a thread");
        assert_eq!(run.join().expect("no overflow"), wanted);
    }
}

/// No state: calls on several threads don't meet.
#[test]
fn threads() {
    std::thread::scope(|s| {
        for _ in 0..4 {
            s.spawn(|| {
                for file in files() {
                    assert_eq!(listing_of(&file), listing_of(&file));
                }
            });
        }
    });
}
