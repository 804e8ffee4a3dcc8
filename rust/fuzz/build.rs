//! Learns from the builds of the two sides whether each is there.

fn main() {
    println!("cargo::rustc-check-cfg=cfg(original)");
    println!("cargo::rustc-check-cfg=cfg(analyser)");
    println!("cargo::rerun-if-changed=build.rs");
    for (variable, name) in [
        ("DEP_XBASIC64_AVAILABLE", "original"),
        ("DEP_LISTING_AVAILABLE", "analyser"),
    ] {
        println!("cargo::rerun-if-env-changed={variable}");
        if std::env::var_os(variable).is_some() {
            println!("cargo::rustc-cfg={name}");
        }
    }
}
