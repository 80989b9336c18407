use crate::error::Error;
use pbm_core::{row_bytes, Size};

pub(crate) const MOST_WIDTH: u32 = 1 << 20;

/// A black-and-white image of at least one pixel.
#[derive(Clone, Debug, PartialEq, Eq)]
pub struct Image {
    width: u32,
    height: u32,
    rows: Vec<u8>,
}

impl Image {
    /// An image of packed rows without gaps: each takes [`row_bytes`] of the width, the first pixel in the most significant
    /// bit, and 1 is black. Bits after a row's last pixel are ignored.
    ///
    /// # Errors
    ///
    /// [`Error::Size`] if the width is not 1 to 1,048,576 or the height is 0, and [`Error::Rows`] if there are more or fewer
    /// bytes than the rows take.
    pub fn new(width: u32, height: u32, mut rows: Vec<u8>) -> Result<Image, Error> {
        size(width, height)?;
        let expected = row_bytes(width) as u64 * u64::from(height);
        if rows.len() as u64 != expected {
            return Err(Error::Rows {
                expected,
                found: rows.len() as u64,
            });
        }
        let last = 0xff << ((8 - width % 8) % 8);
        for row in rows.chunks_exact_mut(row_bytes(width)) {
            if let Some(byte) = row.last_mut() {
                *byte &= last;
            }
        }
        Ok(Image {
            width,
            height,
            rows,
        })
    }

    /// The rows of a decoder, whose padding is 0. Returns `None` if there is no row.
    pub(crate) fn of_rows(width: u32, rows: Vec<u8>) -> Option<Image> {
        let height = u32::try_from(rows.len() / row_bytes(width)).ok()?;
        (height > 0).then_some(Image {
            width,
            height,
            rows,
        })
    }

    /// The number of pixels in a row, 1 to 1,048,576.
    pub fn width(&self) -> u32 {
        self.width
    }

    /// The number of rows, at least 1.
    pub fn height(&self) -> u32 {
        self.height
    }

    /// The packed rows, without gaps; bits after a row's last pixel are 0.
    pub fn rows(&self) -> &[u8] {
        &self.rows
    }

    /// The packed rows as a vector.
    pub fn into_rows(self) -> Vec<u8> {
        self.rows
    }

    /// Whether a pixel is black. Returns `None` if it is outside of the image.
    pub fn pixel(&self, x: u32, y: u32) -> Option<bool> {
        if x >= self.width {
            return None;
        }
        let row = self
            .rows
            .chunks_exact(row_bytes(self.width))
            .nth(y as usize)?;
        Some(row[(x / 8) as usize] >> (7 - x % 8) & 1 == 1)
    }

    pub(crate) fn size(&self) -> Size {
        Size {
            width: self.width,
            height: self.height,
        }
    }
}

/// The size of an image, if it is accepted.
pub(crate) fn size(width: u32, height: u32) -> Result<Size, Error> {
    if width == 0 || width > MOST_WIDTH || height == 0 {
        return Err(Error::Size);
    }
    Ok(Size { width, height })
}
