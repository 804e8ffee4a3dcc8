//! `calls FOLDER` writes the cases to FOLDER/stdin and the lines that they must give to FOLDER/stdout.

#[cfg(original)]
fn main() {
    let folder = std::env::args().nth(1).expect("calls FOLDER");
    let (input, lines) = calls::files();
    let folder = std::path::Path::new(&folder);
    std::fs::write(folder.join("stdin"), input).expect("stdin is written");
    std::fs::write(folder.join("stdout"), &lines).expect("stdout is written");
    println!("{} cases", lines.lines().count());
}

#[cfg(not(original))]
fn main() {
    eprintln!("built without the original: name its folder in XBASIC64_SRC");
    std::process::exit(1);
}
