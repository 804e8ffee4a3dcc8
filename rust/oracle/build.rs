//! Brings the original's `sema.rs` and `parser.rs` in, unchanged, from `docs/src` or from the folder that `XBASIC64_SRC` names.
//!
//! They are copied to the build's own folder. `sema.rs` gets an accessor appended there, since `Analyzer` is private; the missing
//! lexer is `src/lexer.rs`. Where neither folder is there the crate is empty.

use std::path::{Path, PathBuf};
use std::{env, fs};

fn main() {
    println!("cargo::rustc-check-cfg=cfg(original)");
    println!("cargo::rerun-if-env-changed=XBASIC64_SRC");
    println!("cargo::rerun-if-changed=src/accessor.rs");
    let named = env::var_os("XBASIC64_SRC").filter(|f| !f.is_empty());
    let folder = named.map_or_else(kept, PathBuf::from);
    if !folder.exists() {
        return;
    }
    let out = PathBuf::from(env::var_os("OUT_DIR").expect("cargo sets OUT_DIR"));
    let accessor = fs::read_to_string("src/accessor.rs").expect("the accessor");
    let mut modules = String::new();
    for (name, appended) in [("parser", ""), ("sema", accessor.as_str())] {
        let from = original(&folder, name);
        println!("cargo::rerun-if-changed={}", from.display());
        let source = fs::read_to_string(&from)
            .unwrap_or_else(|e| panic!("the original: {}: {e}", from.display()));
        let copy = out.join(name).with_extension("rs");
        fs::write(&copy, source + appended).expect("OUT_DIR can be written");
        // A `mod` with a path, since `include!` takes no file that opens with `//!`.
        modules += &format!("#[allow(warnings)]\n#[path = {copy:?}]\npub mod {name};\n");
    }
    fs::write(out.join("original.rs"), modules).expect("OUT_DIR can be written");
    println!("cargo::rustc-cfg=original");
    println!("cargo::metadata=available=1");
}

/// The original as it is kept in this repository.
fn kept() -> PathBuf {
    Path::new(env!("CARGO_MANIFEST_DIR")).join("../../docs/src")
}

/// The folder may be the original repository's root or its `src`.
fn original(folder: &Path, name: &str) -> PathBuf {
    let file = Path::new(name).with_extension("rs");
    let nested = folder.join("src").join(&file);
    if nested.exists() {
        nested
    } else {
        folder.join(file)
    }
}
