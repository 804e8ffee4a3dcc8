//! Each sample's listing is the original's.
#![cfg(original)]

use std::fs;
use std::path::Path;

#[test]
fn listings_are_the_originals() {
    let folder = Path::new(env!("CARGO_MANIFEST_DIR")).join("../../samples");
    for entry in fs::read_dir(folder).expect("the samples") {
        let path = entry.expect("an entry").path();
        if path.extension().is_some_and(|e| e == "img") {
            let listing = oracle::listing(&fs::read(&path).expect("an image"));
            let kept = fs::read_to_string(path.with_extension("list")).expect("a listing");
            assert_eq!(listing, kept, "{}", path.display());
        }
    }
}
