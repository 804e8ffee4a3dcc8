//! Each sample's image is what its text says, and the text of the image says the same again.

use std::fs;
use std::path::Path;

#[test]
fn images_are_of_their_texts() {
    let folder = Path::new(env!("CARGO_MANIFEST_DIR")).join("../../samples");
    let mut seen = 0;
    for entry in fs::read_dir(folder).expect("the samples") {
        let path = entry.expect("an entry").path();
        if path.extension().is_none_or(|e| e != "txt") {
            continue;
        }
        let text = fs::read_to_string(&path).expect("a text");
        let written =
            image::text::parse(&text).unwrap_or_else(|f| panic!("{}: {f}", path.display()));
        let kept = fs::read(path.with_extension("img")).expect("an image");
        assert!(written == kept, "{}", path.display());
        let printed = image::text::print(&kept);
        assert_eq!(image::text::parse(&printed), Ok(kept), "{}", path.display());
        seen += 1;
    }
    assert!(seen > 10);
}
