//! xbasic64's collect and resolve passes, proved: an image's listing.
//!
//! The function behind [`listing`] is written in Rattle and proved, for every image and every buffer: it touches no memory but
//! the two it is lent, it ends, and what it writes is the listing that the passes' definitions give. It keeps no state and
//! allocates nothing.
//!
//! An image is made with the crate `image`, which has a compiler's syntax tree and reads the resolved words back.
//!
//! Without an archive to link (see `build.rs`) [`AVAILABLE`] is false and there is nothing else here.

/// Whether the analyser was there when this was built.
pub const AVAILABLE: bool = cfg!(analyser);

/// A buffer of this length holds every listing: 2,048 messages with their notes, 2,048 rows and 8,192 words.
pub const ENOUGH: usize = 1 << 20;

#[cfg(analyser)]
mod entry {
    unsafe extern "C" {
        // Two slices, each a pointer and a length.
        fn patskneli_listing(
            image: *const u8,
            image_len: usize,
            out: *mut u8,
            out_len: usize,
        ) -> usize;
    }

    /// Write the listing of `image` to `out`, and say how long it is.
    ///
    /// `None` where it doesn't fit; `out` is then all zero. Otherwise the bytes after the listing stay as they were.
    /// An image that is refused has a listing too, `E` and a number.
    pub fn listing(image: &[u8], out: &mut [u8]) -> Option<usize> {
        // SAFETY: both slices are valid for their lengths and don't overlap, and the function reads and writes within them.
        let length =
            unsafe { patskneli_listing(image.as_ptr(), image.len(), out.as_mut_ptr(), out.len()) };
        // No listing is empty: it has an R line or an E line.
        (length > 0).then_some(length)
    }

    /// The listing of `image`, in a buffer of its own.
    pub fn listing_of(image: &[u8]) -> Vec<u8> {
        let mut out = vec![0; super::ENOUGH];
        let length = listing(image, &mut out).expect("a listing fits");
        out.truncate(length);
        out
    }
}

#[cfg(analyser)]
pub use entry::{listing, listing_of};
