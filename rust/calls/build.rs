//! Learns from the oracle's build whether the original is there.

fn main() {
    println!("cargo::rustc-check-cfg=cfg(original)");
    println!("cargo::rerun-if-changed=build.rs");
    println!("cargo::rerun-if-env-changed=DEP_XBASIC64_AVAILABLE");
    if std::env::var_os("DEP_XBASIC64_AVAILABLE").is_some() {
        println!("cargo::rustc-cfg=original");
    }
}
