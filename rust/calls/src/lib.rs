//! Cases for the public entries that the listing doesn't call, or calls with one length of buffers: what `crates/test_calls` reads and what it must print.
//!
//! A case is an entry with everything that is lent to it. Its line is made here, never by the proved code: by the original's own functions over tables
//! built from the lent rows, and where the original has no such thing (numbers, places, the rule of a lent table, buffers), from document 01.

pub mod case;
#[cfg(original)]
pub mod cases;
#[cfg(original)]
pub mod lent;
#[cfg(original)]
pub mod model;

/// The input of the program `test_calls` and the lines that it must print.
#[cfg(original)]
pub fn files() -> (Vec<u8>, String) {
    let cases = cases::all();
    let input = cases.iter().flat_map(case::Case::to_bytes).collect();
    (input, cases.iter().map(model::line).collect())
}
