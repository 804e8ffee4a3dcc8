//! What the program `test_calls` is run on is what this crate makes.
#![cfg(original)]

#[test]
fn the_kept_cases_are_these() {
    let folder = concat!(env!("CARGO_MANIFEST_DIR"), "/../../crates/test_calls");
    let (input, lines) = calls::files();
    assert!(std::fs::read(format!("{folder}/stdin")).expect("the cases") == input);
    assert!(std::fs::read(format!("{folder}/stdout")).expect("the lines") == lines.as_bytes());
}
