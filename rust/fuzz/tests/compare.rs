//! Short comparisons of the proved analyser with the original; `fuzz compare` and `fuzz all` make longer ones.
#![cfg(all(original, analyser))]

#[test]
fn listings_are_equal() {
    assert!(fuzz::compare::compare(0..30_000));
}

#[test]
fn listings_of_all_small_programs_are_equal() {
    assert!(fuzz::compare::compare_all(fuzz::all::SHORT));
}
