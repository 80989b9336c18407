use crate::image::Image;
use std::{error, fmt, io};
use t85_core::Fault;

/// Why an image cannot be encoded, or a stream cannot be decoded.
#[derive(Debug)]
#[non_exhaustive]
pub enum Error {
    /// The header is rejected, or the stream is broken or ends too early. `certain` has the rows that the stream determines
    /// nevertheless, if there are any and the call collects rows.
    Stream {
        /// The error nearest to the beginning of the stream.
        fault: Fault,
        /// The first rows of the image.
        certain: Option<Image>,
    },
    /// The image has more rows, or its rows take more bytes, than [`Limits`](crate::Limits) allows.
    TooLarge,
    /// The options are rejected.
    Options(Fault),
    /// The width is not 1 to 1,048,576, or the height is 0.
    Size,
    /// The rows are not as many bytes as the size requires.
    Rows {
        /// The number of bytes that the size requires.
        expected: u64,
        /// The number of bytes passed.
        found: u64,
    },
    /// More rows were passed than the image has, or the stream was ended before all rows were passed.
    Count,
    /// A read or a write failed.
    Io(io::Error),
}

impl Error {
    pub(crate) fn stream(fault: Fault) -> Error {
        Error::Stream {
            fault,
            certain: None,
        }
    }

    /// The rows that a broken stream determines, if there are any.
    pub fn certain(&self) -> Option<&Image> {
        match self {
            Error::Stream { certain, .. } => certain.as_ref(),
            _ => None,
        }
    }
}

impl fmt::Display for Error {
    fn fmt(&self, f: &mut fmt::Formatter<'_>) -> fmt::Result {
        match self {
            Error::Stream { fault, .. } | Error::Options(fault) => fault.fmt(f),
            Error::TooLarge => f.write_str("image is larger than the limit"),
            Error::Size => f.write_str("width is not 1 to 1048576, or height is zero"),
            Error::Rows { expected, found } => {
                write!(f, "rows are {found} bytes, and not {expected}")
            }
            Error::Count => f.write_str("too many or too few rows"),
            Error::Io(error) => error.fmt(f),
        }
    }
}

impl error::Error for Error {
    fn source(&self) -> Option<&(dyn error::Error + 'static)> {
        match self {
            Error::Stream { fault, .. } | Error::Options(fault) => Some(fault),
            Error::Io(error) => Some(error),
            _ => None,
        }
    }
}

impl From<io::Error> for Error {
    fn from(error: io::Error) -> Error {
        Error::Io(error)
    }
}
