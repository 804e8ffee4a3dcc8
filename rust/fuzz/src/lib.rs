//! Generated images: programs rich in what the passes care about, programs at the limits, and damaged ones.
//!
//! A case is a function of its seed and of nothing else, so a seed is all that a record of a run needs.

pub mod all;
pub mod bench;
#[cfg(all(original, analyser))]
pub mod compare;
pub mod damage;
#[cfg(original)]
pub mod judged;
pub mod limit;
pub mod program;
pub mod rng;
#[cfg(all(original, analyser))]
pub mod slow;

use image::raw::Raw;
use rng::Rng;

/// One generated file.
#[derive(Debug, Clone)]
pub struct Case {
    pub file: Vec<u8>,
    /// Which generator made it.
    pub group: &'static str,
}

/// The case of a seed: mostly programs, some at the limits, some damaged.
pub fn case(seed: u64) -> Case {
    let mut rng = Rng::new(seed);
    match rng.below(100) {
        0..64 => rich(&mut rng),
        64..74 => limit::case(&mut rng),
        74..97 => {
            let raw = damage::source(&mut rng);
            Case {
                file: damage::image(&mut rng, raw),
                group: "damaged image",
            }
        }
        _ => {
            let raw = damage::source(&mut rng);
            Case {
                file: damage::file(&mut rng, raw.to_bytes()),
                group: "damaged file",
            }
        }
    }
}

/// A program in one of the flavours.
pub fn rich(rng: &mut Rng) -> Case {
    let (raw, group) = program::any(rng);
    Case {
        file: raw.to_bytes(),
        group,
    }
}

/// A small program rich in declarations.
pub fn small(seed: u64) -> Raw {
    program::small(&mut Rng::new(seed))
}
