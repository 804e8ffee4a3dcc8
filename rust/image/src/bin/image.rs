//! Turns a text into an image and an image into its text.
//!
//!     image write < case.txt > case.img
//!     image read < case.img > case.txt

use std::io::{Read, Write};
use std::process::ExitCode;

fn main() -> ExitCode {
    let mut input = Vec::new();
    let done = std::io::stdin().read_to_end(&mut input);
    done.expect("standard input can be read");
    let output = match std::env::args().nth(1).as_deref() {
        Some("read") => image::text::print(&input).into_bytes(),
        Some("write") => match image::text::parse(&String::from_utf8_lossy(&input)) {
            Ok(file) => file,
            Err(fault) => {
                eprintln!("image: {fault}");
                return ExitCode::FAILURE;
            }
        },
        _ => {
            eprintln!(
                "image: read (image to text) or write (text to image), from standard input to standard output"
            );
            return ExitCode::from(2);
        }
    };
    let done = std::io::stdout().write_all(&output);
    done.expect("standard output can be written");
    ExitCode::SUCCESS
}
