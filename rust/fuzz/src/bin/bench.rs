//! Times every side of this build on generated images, or on the images named.
//!
//!     bench [FILE..]

use fuzz::bench::{Set, report, sets};

fn main() {
    let named: Vec<String> = std::env::args().skip(1).collect();
    if named.is_empty() {
        return report(&sets(), 101);
    }
    let read = |f: &String| std::fs::read(f).unwrap_or_else(|e| panic!("{f}: {e}"));
    let set = Set {
        name: "named files".into(),
        files: named.iter().map(read).collect(),
        counts: true,
    };
    report(&[set], 1_001);
}
