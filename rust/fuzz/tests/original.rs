//! Short runs of the original against itself; `fuzz self` and `fuzz steps` make longer ones.
#![cfg(original)]

#[test]
fn the_original_agrees_with_itself() {
    fuzz::judged::check_self(0..3_000);
}

#[test]
fn allowed_steps_change_nothing_and_forbidden_ones_do() {
    fuzz::judged::steps(0..2_000);
}
