//! The proved analyser against the original, on the same images.

use crate::all::{Sizes, Space, spaces};
use crate::judged::features;
use crate::rng::Rng;
use crate::{Case, case};
use image::raw::Raw;
use std::collections::BTreeMap;
use std::ops::Range;

/// How many partings are shown in full.
const SHOWN: usize = 5;

/// Listings held side by side, and what was met.
struct Judge {
    out: Vec<u8>,
    met: BTreeMap<String, usize>,
    images: usize,
    partings: usize,
}

impl Judge {
    fn new() -> Judge {
        Judge {
            out: vec![0; analyser::ENOUGH],
            met: BTreeMap::new(),
            images: 0,
            partings: 0,
        }
    }

    /// Compare one image's listings; the original's where they are equal. The first few that part are shown.
    fn equal(&mut self, file: &[u8], called: impl FnOnce() -> String) -> Option<String> {
        let answer = oracle::analyse_file(file);
        let wanted = oracle::text(&answer);
        let length = analyser::listing(file, &mut self.out).expect("a listing fits");
        let ours = &self.out[..length];
        self.images += 1;
        for f in features(&answer) {
            *self.met.entry(f).or_default() += 1;
        }
        if ours == wanted.as_bytes() {
            return Some(wanted);
        }
        self.partings += 1;
        if self.partings <= SHOWN {
            show(&called(), &wanted, &String::from_utf8_lossy(ours));
        }
        None
    }

    /// Whether all were equal. Prints what was met.
    fn verdict(&self) -> bool {
        for (what, count) in &self.met {
            println!("{count:9} {what}");
        }
        println!("{} images, {} partings", self.images, self.partings);
        self.partings == 0
    }
}

/// Compare the listings of each seed's case, and the boundary on some; whether all were equal.
pub fn compare(seeds: Range<u64>) -> bool {
    let mut judge = Judge::new();
    for seed in seeds {
        let Case { file, group } = case(seed);
        *judge.met.entry(format!("of {group}")).or_default() += 1;
        let equal = judge.equal(&file, || format!("seed {seed}, {group}"));
        if let Some(wanted) = equal.filter(|_| seed.is_multiple_of(16)) {
            boundary(seed, &file, wanted.as_bytes());
        }
    }
    judge.verdict()
}

/// Compare the listings of every image of each space; whether all were equal.
pub fn compare_all(sizes: Sizes) -> bool {
    let mut judge = Judge::new();
    for Space { name, size, walk } in spaces(sizes) {
        let before = judge.images;
        walk(size, &mut |raw: &Raw| {
            let file = raw.to_bytes();
            judge.equal(&file, || image::text::print(&file));
        });
        println!("{:9} {name} {size}", judge.images - before);
    }
    judge.verdict()
}

/// The first line where two listings part.
fn show(called: &str, original: &str, ours: &str) {
    let mut lines = original.lines().zip(ours.lines());
    let (a, b) = lines
        .find(|(a, b)| a != b)
        .unwrap_or(("(more or fewer lines)", ""));
    println!("{called}:\n  original {a}\n  analyser {b}");
}

/// A buffer that just fits, one that doesn't, and a tail.
fn boundary(seed: u64, file: &[u8], wanted: &[u8]) {
    let n = wanted.len();
    let room = match Rng::new(seed).below(3) {
        0 => n,
        1 => n + 7,
        _ => n - 1,
    };
    let mut out = vec![0x55; room];
    if room < n {
        assert_eq!(analyser::listing(file, &mut out), None, "seed {seed}");
        assert!(out.iter().all(|b| *b == 0), "seed {seed}: all zero");
    } else {
        assert_eq!(analyser::listing(file, &mut out), Some(n), "seed {seed}");
        assert!(
            out[..n] == *wanted && out[n..].iter().all(|b| *b == 0x55),
            "seed {seed}: the tail stays"
        );
    }
}
