//! Finds the archive of the proved analyser, or has it made.
//!
//! 1. `PATSKNELI_ARCHIVE` names it.
//! 2. The repository has it, at `target/staticlib/liblisting.a`, and no source is newer.
//! 3. `tools/archive listing` makes it there, of the crate `listing_c`. This proves all that it stands on.
//!
//! Where there is none, the crate is empty, and what depends on it is told by the metadata `available`.

use std::path::{Path, PathBuf};
use std::process::Command;
use std::time::SystemTime;

fn main() {
    println!("cargo::rustc-check-cfg=cfg(analyser)");
    println!("cargo::rerun-if-env-changed=PATSKNELI_ARCHIVE");
    println!("cargo::rerun-if-changed=build.rs");
    let Some(archive) = archive() else {
        return;
    };
    println!("cargo::rerun-if-changed={}", archive.display());
    let folder = archive.parent().expect("an archive stands in a folder");
    let stem = archive.file_stem().and_then(|s| s.to_str()).unwrap_or("");
    let name = stem
        .strip_prefix("lib")
        .expect("an archive is called libNAME.a");
    println!("cargo::rustc-link-search=native={}", folder.display());
    println!("cargo::rustc-link-lib=static={name}");
    println!("cargo::rustc-cfg=analyser");
    println!("cargo::metadata=available=1");
}

fn archive() -> Option<PathBuf> {
    if let Some(named) = std::env::var_os("PATSKNELI_ARCHIVE").filter(|a| !a.is_empty()) {
        let named = PathBuf::from(named);
        assert!(
            named.exists(),
            "PATSKNELI_ARCHIVE: no file {}",
            named.display()
        );
        return Some(named);
    }
    let root = Path::new(env!("CARGO_MANIFEST_DIR")).join("../..");
    let crates = root.join("crates");
    if !crates.join("listing_c").exists() {
        return None;
    }
    let sources = sources(&crates);
    for folder in &sources {
        println!("cargo::rerun-if-changed={}", folder.display());
    }
    let made = root.join("target/staticlib/liblisting.a");
    let last = sources.iter().map(|f| newest(f)).max();
    let fresh = changed(&made).is_some_and(|t| last.is_none_or(|l| t >= l));
    if fresh {
        return Some(made);
    }
    let status = Command::new(root.join("tools/archive"))
        .arg("listing")
        .status();
    match status {
        Ok(s) if s.success() => Some(made),
        Ok(s) if s.code() != Some(NO_RT) => panic!("tools/archive listing: {s}"),
        _ if made.exists() => {
            println!("cargo::warning=no rt here: the archive is older than its sources");
            Some(made)
        }
        _ => None,
    }
}

/// What a shell says of a command that isn't there.
const NO_RT: i32 = 127;

/// The folders that a proof reads, of every crate; not `out`, which the proofs themselves write.
fn sources(crates: &Path) -> Vec<PathBuf> {
    let each = crates.read_dir().into_iter().flatten().flatten();
    let parts = each.flat_map(|e| ["src", "specs", "proofs"].map(|part| e.path().join(part)));
    parts.filter(|part| part.exists()).collect()
}

fn changed(file: &Path) -> Option<SystemTime> {
    file.metadata().and_then(|m| m.modified()).ok()
}

/// When the last change was made to a file below a folder.
fn newest(folder: &Path) -> SystemTime {
    let entries = folder.read_dir().into_iter().flatten().flatten();
    let times = entries.map(|e| match e.file_type() {
        Ok(t) if t.is_dir() => newest(&e.path()),
        _ => changed(&e.path()).unwrap_or(SystemTime::UNIX_EPOCH),
    });
    times.max().unwrap_or(SystemTime::UNIX_EPOCH)
}
