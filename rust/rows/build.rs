//! Finds the archive of the measured rows, or has it made by `tools/archive bench_rows`. Without it the program says so and does nothing.

use std::path::Path;
use std::process::Command;

fn main() {
    println!("cargo::rustc-check-cfg=cfg(rows)");
    println!("cargo::rerun-if-changed=build.rs");
    let root = Path::new(env!("CARGO_MANIFEST_DIR")).join("../..");
    let folder = root.join("target/staticlib");
    let archive = folder.join("libbench_rows.a");
    println!("cargo::rerun-if-changed={}", archive.display());
    if std::env::var_os("PATSKNELI_BENCH").is_some() && !archive.exists() {
        let made = Command::new(root.join("tools/archive"))
            .arg("bench_rows")
            .status();
        assert!(made.is_ok_and(|s| s.success()), "tools/archive bench_rows");
    }
    println!("cargo::rerun-if-env-changed=PATSKNELI_BENCH");
    if archive.exists() {
        println!("cargo::rustc-link-search=native={}", folder.display());
        println!("cargo::rustc-link-lib=static=bench_rows");
        println!("cargo::rustc-cfg=rows");
    }
}
