//! The original, to compare with: xbasic64's own `collect`, `check_name_collisions` and `resolve_array_accesses`, run on an image,
//! and the listing that document 01 describes, from the original's tables, messages and tree.
//!
//! It is built from `docs/src`, or from the folder that `XBASIC64_SRC` names; where neither is there [`AVAILABLE`] is false and nothing else is here.

#[cfg(original)]
mod lexer;
#[cfg(original)]
include!(concat!(env!("OUT_DIR"), "/original.rs"));

/// The original's own types, under the name by which the codec knows a tree.
#[cfg(original)]
pub mod ast {
    pub use crate::parser::*;
}
#[cfg(original)]
#[path = "../../image/src/codec.rs"]
pub mod codec;
#[cfg(original)]
pub use image::raw;
#[cfg(original)]
mod limits;
#[cfg(original)]
mod run;
#[cfg(original)]
pub mod steps;
#[cfg(original)]
mod table;

#[cfg(original)]
pub use run::*;

/// Whether the original was there when this was built.
pub const AVAILABLE: bool = cfg!(original);
