use crate::error::Error;

/// How an image is encoded.
///
/// ```
/// let options = t85::Options { most_offset: 127, ..t85::Options::default() };
/// ```
#[derive(Clone, Debug, PartialEq, Eq)]
pub struct Options {
    /// The number of rows in a stripe, at least 1.
    pub stripe_rows: u32,
    /// The greatest offset of the adaptive template pixel, 0 to 127.
    pub most_offset: u8,
    /// Use the two-line template.
    pub two_lines: bool,
    /// Use typical prediction.
    pub typical: bool,
    /// The option VLENGTH, which `announced_height` also sets.
    pub variable_height: bool,
    /// The height in the header; a lower actual height follows the last row.
    pub announced_height: Option<u32>,
    /// Code each stripe independently of those before it.
    pub reset: bool,
    /// The bytes of a comment.
    pub comment: Option<Vec<u8>>,
}

impl Default for Options {
    fn default() -> Options {
        Options {
            stripe_rows: 128,
            most_offset: 0,
            two_lines: false,
            typical: true,
            variable_height: false,
            announced_height: None,
            reset: false,
            comment: None,
        }
    }
}

impl Options {
    /// The engine's options, if it accepts them.
    pub(crate) fn accepted(&self) -> Result<t85_core::Options<'_>, Error> {
        let bits = u32::from(self.two_lines) << 6
            | u32::from(self.variable_height) << 5
            | u32::from(self.typical) << 3;
        let most = u32::from(self.most_offset);
        t85_core::Options::new(
            bits,
            self.stripe_rows,
            most,
            self.announced_height,
            self.reset,
            self.comment.as_deref(),
        )
        .map_err(Error::Options)
    }
}
