//! Searches for programs on which the proved side is slow against the original.
//!
//!     slow SECONDS SEED

#[cfg(all(original, analyser))]
fn main() {
    let number = |i| std::env::args().nth(i).and_then(|n| n.parse().ok());
    match (number(1), number(2)) {
        (Some(seconds), Some(seed)) => fuzz::slow::search(seconds, seed),
        _ => eprintln!("usage: slow SECONDS SEED"),
    }
}

#[cfg(not(all(original, analyser)))]
fn main() {
    eprintln!("slow: built without the original or without the proved archive");
}
