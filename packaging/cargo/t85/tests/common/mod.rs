//! Streams and options that the tests share.
use t85::Options;

/// A stream with a header of this width, height and rows in a stripe.
pub fn stream(sizes: [u32; 3], most_offset: u8, options: u8, body: &[u8]) -> Vec<u8> {
    let mut bytes = vec![0, 0, 1, 0];
    for size in sizes {
        bytes.extend(size.to_be_bytes());
    }
    bytes.extend([most_offset, 0, 0, options]);
    bytes.extend(body);
    bytes
}

/// Options without typical prediction.
pub fn plain() -> Options {
    Options {
        typical: false,
        ..Options::default()
    }
}
