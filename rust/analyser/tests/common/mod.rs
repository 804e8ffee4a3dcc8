//! The repository's images and their listings, and memory with an end.
#![allow(dead_code)]

use std::ffi::c_void;
use std::fs;
use std::path::{Path, PathBuf};

/// An image, and the listing that the original has for it.
pub struct Kept {
    pub name: String,
    pub image: Vec<u8>,
    pub listing: Vec<u8>,
}

pub fn root() -> PathBuf {
    Path::new(env!("CARGO_MANIFEST_DIR")).join("../..")
}

fn files(folder: &str, ending: &str) -> Vec<PathBuf> {
    let entries = fs::read_dir(root().join(folder)).expect("a folder");
    let paths = entries.map(|e| e.expect("an entry").path());
    let mut paths: Vec<_> = paths
        .filter(|p| p.extension().is_some_and(|e| e == ending))
        .collect();
    paths.sort();
    assert!(!paths.is_empty(), "{folder} has .{ending} files");
    paths
}

/// The images of `samples/`.
pub fn samples() -> Vec<Kept> {
    let read = |p: &Path| fs::read(p).unwrap_or_else(|e| panic!("{}: {e}", p.display()));
    let paths = files("samples", "img").into_iter();
    paths
        .map(|p| Kept {
            name: p.display().to_string(),
            image: read(&p),
            listing: read(&p.with_extension("list")),
        })
        .collect()
}

/// The images of the list that `test_replay` replays: length, image, length, listing.
pub fn kept() -> Vec<Kept> {
    let list = fs::read(root().join("crates/test_replay/stdin")).expect("a list");
    let mut rest = &list[..];
    let mut part = || {
        let (length, after) = rest.split_first_chunk::<4>()?;
        let (part, after) = after.split_at(u32::from_le_bytes(*length) as usize);
        rest = after;
        Some(part.to_vec())
    };
    let mut all = vec![];
    while let Some(image) = part() {
        let listing = part().expect("a listing behind an image");
        let name = format!("kept image {}", all.len());
        all.push(Kept {
            name,
            image,
            listing,
        });
    }
    all
}

/// The two listings are equal; their first lines that differ otherwise.
pub fn same(name: &str, ours: &[u8], original: &[u8]) {
    if ours == original {
        return;
    }
    let (ours, original) = (
        String::from_utf8_lossy(ours),
        String::from_utf8_lossy(original),
    );
    let (mut a, mut b) = (ours.lines(), original.lines());
    loop {
        match (a.next(), b.next()) {
            (None, None) => panic!("{name}: the same lines, other ends"),
            (x, y) if x == y => {}
            (x, y) => panic!("{name}:\n  analyser {x:?}\n  original {y:?}"),
        }
    }
}

unsafe extern "C" {
    fn mmap(
        at: *mut c_void,
        len: usize,
        prot: i32,
        flags: i32,
        fd: i32,
        offset: i64,
    ) -> *mut c_void;
    fn mprotect(at: *mut c_void, len: usize, prot: i32) -> i32;
    fn munmap(at: *mut c_void, len: usize) -> i32;
}

const PAGE: usize = 4096;

/// Which end of lent bytes stands at a page without access. The other end is less than a page away from one.
#[derive(Clone, Copy, Debug)]
pub enum Guard {
    Before,
    Behind,
}

/// Run `f` on `len` bytes between two pages without access.
pub fn guarded<T>(len: usize, guard: Guard, f: impl FnOnce(&mut [u8]) -> T) -> T {
    let inside = len.div_ceil(PAGE).max(1) * PAGE;
    let from = match guard {
        Guard::Before => 0,
        Guard::Behind => inside - len,
    };
    // SAFETY: a mapping of its own, private and anonymous; its two outer pages lose all access.
    unsafe {
        let base = mmap(std::ptr::null_mut(), inside + 2 * PAGE, 3, 0x22, -1, 0);
        assert!(base as isize != -1, "mmap");
        assert_eq!(mprotect(base, PAGE, 0), 0);
        assert_eq!(mprotect(base.add(PAGE + inside), PAGE, 0), 0);
        let start = base.add(PAGE + from);
        let answer = f(std::slice::from_raw_parts_mut(start.cast(), len));
        munmap(base, inside + 2 * PAGE);
        answer
    }
}
