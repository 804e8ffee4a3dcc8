//! Images of BASIC programs.
//!
//! * [`ast`]: the syntax tree, variant for variant and field for field as in xbasic64's `parser.rs`.
//! * [`codec`]: a tree's words, both ways, with document 01's refusals and their places.
//! * [`raw`]: the file around the words.
//! * [`text`]: a form that a person can read and write.
//!
//! A compiler builds an image with [`build`], hands its bytes to the analyser and reads the resolved words back with
//! [`resolved`]. `codec.rs` names the tree only as `crate::ast`, so a crate that has the original's own types can use
//! the same file over them.

pub mod ast;
pub mod codec;
pub mod raw;
pub mod schema;
pub mod text;

use ast::Stmt;
use raw::{Raw, Refusal};

/// The image of a program: its strings sorted and numbered, its tree as words.
///
/// `extra` are strings that nothing in the program mentions.
pub fn build(program: &[Stmt], erased: &[String], extra: &[String]) -> Raw {
    let mut found = codec::strings_of(program);
    found.extend(erased.iter().map(String::as_str));
    found.extend(extra.iter().map(String::as_str));
    found.sort_unstable();
    found.dedup();
    let numbers = codec::numbers(&found);
    let mut raw = Raw {
        tree: codec::encode(program, &numbers),
        erased: erased.iter().map(|n| numbers[n.as_str()]).collect(),
        ..Raw::default()
    };
    raw.erased.sort_unstable();
    raw.erased.dedup();
    raw.set_strings(&found);
    raw
}

/// The program and the erased names of an image, or why it is refused.
pub fn read(raw: &Raw) -> Result<(Vec<Stmt>, Vec<String>), Refusal> {
    let strings = raw.strings()?;
    let program = codec::decode(&raw.tree, &strings)?;
    let erased = raw.erased_names(&strings)?;
    Ok((program, erased.into_iter().map(str::to_string).collect()))
}

/// The tree that resolved words stand for, under the strings of the image that they came from.
pub fn resolved(raw: &Raw, words: &[u32]) -> Result<Vec<Stmt>, Refusal> {
    codec::decode(words, &raw.strings()?)
}
