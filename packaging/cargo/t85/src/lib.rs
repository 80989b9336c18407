//! JBIG1 (ITU-T T.82) in the fax profile T.85: encodes and decodes black-and-white images of one plane.
//!
//! ```
//! use t85::{decode, encode, Image, Options};
//!
//! // Two rows of eight pixels, a bit for each; 1 is black.
//! let image = Image::new(8, 2, vec![0b1111_0000, 0b0000_1111])?;
//! let stream = encode(&image, &Options::default())?;
//! assert_eq!(decode(&stream)?, image);
//! # Ok::<(), t85::Error>(())
//! ```
//!
//! [`Decoder`] reads a stream row by row, and [`Encoder`] writes one, in memory that grows only with the width.
//!
//! The engine below this crate is the same source as a proved library, without its contracts. It is not proved, and neither
//! is this crate.
#![forbid(unsafe_code)]
#![warn(missing_docs)]

mod decoder;
mod encoder;
mod error;
mod image;
mod options;

pub use decoder::{decode, decode_within, Decoder, Limits};
pub use encoder::{encode, Encoder};
pub use error::Error;
pub use image::Image;
pub use options::Options;
pub use pbm_core::row_bytes;
pub use t85_core::{Fault, Header};
