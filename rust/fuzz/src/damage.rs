//! Damage: one to three changes to an image that was right.

use crate::program;
use crate::rng::Rng;
use image::raw::Raw;

/// The image to damage.
pub fn source(rng: &mut Rng) -> Raw {
    if rng.one_in(8) {
        let file = crate::limit::case(rng).file;
        if let Ok(raw) = Raw::from_bytes(&file) {
            return raw;
        }
    }
    program::any(rng).0
}

/// Words that are right somewhere, and some that are right nowhere.
const WORDS: &[u32] = &[
    0,
    1,
    0x0100_0000,
    0x0100_0001,
    0x01ff_ffff,
    0x0200_0000,
    0x0200_0001,
    0x0200_03ff,
    0x0300_0000,
    0x0300_0001,
    0x0300_0002,
    0x0400_0000,
    0x0500_0000,
    0x0700_0041,
    0x0700_005b,
    0x0700_0040,
    0x0900_0000,
    0x0900_0002,
    0x0900_0011,
    0x0900_0012,
    0x1000_0000,
    0x1100_0000,
    0x1200_0000,
    0x1300_0000,
    0x1400_0000,
    0x1500_0000,
    0x1600_0000,
    0x1700_0000,
    0x1700_0001,
    0x1800_0000,
    0x1a00_0000,
    0x1c00_0000,
    0x1d00_0000,
    0x2000_0000,
    0x2200_0000,
    0x2300_0000,
    0x2400_0000,
    0x2600_0000,
    0x2700_0000,
    0x2800_0000,
    0x2d00_0000,
    0x2e00_0000,
    0x3000_0000,
    0x3100_0000,
    0x3400_0000,
    0x3600_0000,
    0x3700_0000,
    0x4000_0000,
    0x5d00_0001,
    0x7500_0000,
    0x7600_0000,
    0x7ff0_0000,
    0xfff0_0000,
    0x7ff8_0001,
    0xffff_ffff,
    0x8500_0000,
];

/// An image with its words or strings damaged.
pub fn image(rng: &mut Rng, mut raw: Raw) -> Vec<u8> {
    for _ in 0..*rng.pick(&[1, 1, 1, 2, 3]) {
        match rng.below(20) {
            0..5 => flip(rng, &mut raw.tree),
            5..8 => replace(rng, &mut raw.tree),
            8..10 => {
                let keep = raw.tree.len() - rng.below(raw.tree.len().min(8) + 1);
                raw.tree.truncate(keep);
            }
            10 => {
                let more = rng.within(1, 3);
                raw.tree.extend((0..more).map(|_| *rng.pick(WORDS)));
            }
            11 => {
                let at = rng.below(raw.tree.len() + 1);
                raw.tree.insert(at, *rng.pick(WORDS));
            }
            12 => remove(rng, &mut raw.tree),
            13 => not_finite(rng, &mut raw.tree),
            14..17 => strings(rng, &mut raw),
            _ => erased(rng, &mut raw),
        }
    }
    raw.to_bytes()
}

fn flip(rng: &mut Rng, words: &mut [u32]) {
    if !words.is_empty() {
        let at = rng.below(words.len());
        words[at] ^= 1 << rng.below(32);
    }
}

fn replace(rng: &mut Rng, words: &mut [u32]) {
    if !words.is_empty() {
        let at = rng.below(words.len());
        words[at] = *rng.pick(WORDS);
    }
}

fn remove(rng: &mut Rng, words: &mut Vec<u32>) {
    if !words.is_empty() {
        words.remove(rng.below(words.len()));
    }
}

/// Make a float's high word one of an infinity or of none.
fn not_finite(rng: &mut Rng, words: &mut [u32]) {
    let heads: Vec<usize> = (0..words.len().saturating_sub(2))
        .filter(|i| matches!(words[*i], 0x1a00_0000 | 0x1b00_0000))
        .collect();
    if !heads.is_empty() {
        let at = rng.pick(&heads) + 2;
        words[at] = *rng.pick(&[
            0x7ff0_0000,
            0xfff0_0000,
            0x7ff0_0001,
            0x7fff_ffff,
            0x7fef_ffff,
        ]);
    }
}

/// Strings out of order, twice, with wrong bytes, with wrong ends, no names.
fn strings(rng: &mut Rng, raw: &mut Raw) {
    let Ok(table) = raw.strings() else {
        return;
    };
    let mut all: Vec<Vec<u8>> = table.all.iter().map(|s| s.as_bytes().to_vec()).collect();
    if all.is_empty() {
        raw.ends.push(rng.below(5) as u32);
        raw.bytes.resize(raw.ends[0] as usize, b'A');
        return;
    }
    let at = rng.below(all.len());
    match rng.below(9) {
        0 => {
            let other = rng.below(all.len());
            all.swap(at, other);
        }
        1 => all.insert(at, all[at].clone()),
        2 => last_byte(rng, &mut all[at]),
        3 => all[at].push(*rng.pick(b"%A9.$ ~")),
        4 => {
            let long = *rng.pick(&[39, 40, 41, 42]);
            all[at].resize(long, b'Z');
        }
        5 => all[at].clear(),
        6 => return wrong_end(rng, raw, at),
        7 => {
            all.remove(at);
        }
        _ => {
            // Still right, but with a string that is no name at its front.
            all.insert(0, b" ".to_vec());
            all.dedup();
        }
    }
    if rng.coin() {
        all.sort_unstable();
    }
    raw.set_strings(&all);
}

/// A last byte at the edge of what strings and names may have.
fn last_byte(rng: &mut Rng, text: &mut [u8]) {
    if let Some(b) = text.last_mut() {
        *b = *rng.pick(&[31, 32, 126, 127, 0, 255, b'a', b'%', b'.', b'_']);
    }
}

/// A string's end moved by up to three, perhaps with the bytes made to fit.
fn wrong_end(rng: &mut Rng, raw: &mut Raw, at: usize) {
    raw.ends[at] = raw.ends[at]
        .wrapping_add(rng.below(7) as u32)
        .wrapping_sub(3);
    let count = raw.ends.last().copied().unwrap_or(0);
    if rng.coin() && count < 20_000 {
        raw.bytes.resize(count as usize, b'A');
    }
}

fn erased(rng: &mut Rng, raw: &mut Raw) {
    let count = raw.ends.len() as u32;
    match rng.below(6) {
        0 => raw.erased.push(count),
        1 => raw.erased.push(0),
        2 => raw.erased = (0..count.min(4)).rev().collect(),
        3 => raw.erased = (0..count).collect(),
        4 => raw.erased.push(0x0200_0000 | rng.below(5) as u32),
        _ => {
            let n = rng.below(raw.ends.len() + 2) as u32;
            raw.erased = vec![n];
        }
    }
}

/// A file damaged as bytes.
pub fn file(rng: &mut Rng, mut file: Vec<u8>) -> Vec<u8> {
    match rng.below(8) {
        0 => file.truncate(rng.below(file.len() + 1)),
        1 => file.truncate(4 * rng.below(file.len() / 4 + 1)),
        2 => file.extend([0; 4]),
        3 => file.push(0),
        4 => {
            if let Some(b) = file.last_mut() {
                *b = rng.bits() as u8;
            }
        }
        5 => {
            let at = 4 * rng.below(3);
            let add = *rng.pick(&[1, 0xff, 2]);
            file[at] = file[at].wrapping_add(add);
        }
        6 => {
            let at = rng.below(12);
            file[at] = rng.bits() as u8;
        }
        _ => {
            let at = rng.below(file.len());
            file[at] ^= 1 << rng.below(8);
        }
    }
    file
}
