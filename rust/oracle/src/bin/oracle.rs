//! Reads an image from standard input and prints the listing that the original's passes give.

use std::process::ExitCode;

#[cfg(original)]
fn main() -> ExitCode {
    use std::io::{Read, Write};
    let mut file = Vec::new();
    std::io::stdin()
        .read_to_end(&mut file)
        .expect("standard input can be read");
    let listing = oracle::listing(&file);
    std::io::stdout()
        .write_all(listing.as_bytes())
        .expect("standard output can be written");
    ExitCode::SUCCESS
}

#[cfg(not(original))]
fn main() -> ExitCode {
    eprintln!(
        "oracle: built without the original (docs/src, or the folder that XBASIC64_SRC names)"
    );
    ExitCode::from(2)
}
