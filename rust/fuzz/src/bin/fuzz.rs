//! What the generator makes, and what the original says of it. Run without words for help.

use std::io::Write;
use std::process::ExitCode;

const HELP: &str = "\
fuzz image SEED                  the image of a seed, to standard output
fuzz small SEED                  a small program's image
fuzz self FIRST COUNT            the original against itself: whole and by steps, both codecs, the text form; a table of what came
fuzz compare FIRST COUNT         the analyser against the original, line by line; ends with 1 where they part
fuzz all                         the same on every small program: spaces that are gone through to their end (all.rs)
fuzz steps FIRST COUNT           demand 3 by running: random steps, allowed and forbidden
fuzz digest FIRST COUNT          a number for each listing, to compare two builds of the original
fuzz vectors FIRST COUNT         small programs as words, with their listings, as text
fuzz keep FIRST COUNT FILE       a list of small images with their listings, to be replayed
fuzz samples FOLDER              the image and the listing beside each text of a folder
";

fn main() -> ExitCode {
    let args: Vec<String> = std::env::args().skip(1).collect();
    let args: Vec<&str> = args.iter().map(String::as_str).collect();
    match run(&args) {
        Some(()) => ExitCode::SUCCESS,
        None => {
            eprint!("{HELP}");
            ExitCode::from(2)
        }
    }
}

/// Does what the words say, if they say something.
fn run(args: &[&str]) -> Option<()> {
    let number = |s: &str| s.parse::<u64>().ok();
    match *args {
        ["image", seed] => number(seed).map(|s| put(&fuzz::case(s).file)),
        ["small", seed] => number(seed).map(|s| put(&fuzz::small(s).to_bytes())),
        #[cfg(original)]
        ["self", first, count] => range(first, count).map(fuzz::judged::check_self),
        #[cfg(all(original, analyser))]
        ["compare", first, count] => {
            range(first, count).map(|seeds| equal(fuzz::compare::compare(seeds)))
        }
        #[cfg(all(original, analyser))]
        ["all"] => {
            equal(fuzz::compare::compare_all(fuzz::all::LONG));
            Some(())
        }
        #[cfg(original)]
        ["digest", first, count] => range(first, count).map(fuzz::judged::digest),
        #[cfg(original)]
        ["steps", first, count] => range(first, count).map(fuzz::judged::steps),
        #[cfg(original)]
        ["samples", folder] => {
            fuzz::judged::samples(folder.as_ref());
            Some(())
        }
        #[cfg(original)]
        ["vectors", first, count] => range(first, count).map(fuzz::judged::vectors),
        #[cfg(original)]
        ["keep", first, count, file] => {
            range(first, count).map(|seeds| fuzz::judged::keep(seeds, file.as_ref()))
        }
        _ => None,
    }
}

/// Ends with 1 where listings were not equal.
#[cfg(all(original, analyser))]
fn equal(all: bool) {
    if !all {
        std::process::exit(1);
    }
}

fn put(bytes: &[u8]) {
    let done = std::io::stdout().write_all(bytes);
    done.expect("standard output can be written");
}

#[cfg(original)]
fn range(first: &str, count: &str) -> Option<std::ops::Range<u64>> {
    let first: u64 = first.parse().ok()?;
    Some(first..first + count.parse::<u64>().ok()?)
}
