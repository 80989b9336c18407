//! Texts of a limited length.
pub use std::fmt::*;

/// A text of at most `N` bytes, stored in place.
pub struct InlineText<const N: usize> {
    bytes: [u8; N],
    len: usize,
}

impl<const N: usize> Default for InlineText<N> {
    fn default() -> InlineText<N> {
        InlineText::new()
    }
}

impl<const N: usize> InlineText<N> {
    pub fn new() -> InlineText<N> {
        InlineText {
            bytes: [0; N],
            len: 0,
        }
    }

    /// The text that a value displays. If it does not fit, it is cut, and ends in three dots.
    pub fn of<T: Display>(value: T) -> InlineText<N> {
        let mut text = Cut {
            text: InlineText::new(),
            room: N,
            is_cut: false,
        };
        let _ = write(&mut text, format_args!("{}", value));
        text.dotted()
    }

    /// Appends a text, of which at most `room` bytes are used.
    pub fn and_str(self, more: &str, room: usize) -> InlineText<N> {
        let room = N.min(self.len + room);
        let mut text = Cut {
            text: self,
            room,
            is_cut: false,
        };
        let _ = text.write_str(more);
        text.dotted()
    }

    pub fn as_str(&self) -> &str {
        std::str::from_utf8(&self.bytes[..self.len]).unwrap_or("")
    }
}

struct Cut<const N: usize> {
    text: InlineText<N>,
    room: usize,
    is_cut: bool,
}

impl<const N: usize> Cut<N> {
    fn dotted(mut self) -> InlineText<N> {
        if self.is_cut {
            let mut at = self.room.saturating_sub(3).min(self.text.len);
            while at > 0 && self.text.bytes[at] & 0xc0 == 0x80 {
                at -= 1;
            }
            let end = N.min(at + 3);
            self.text.bytes[at..end].fill(b'.');
            self.text.len = end;
        }
        self.text
    }
}

impl<const N: usize> Write for Cut<N> {
    fn write_str(&mut self, part: &str) -> Result {
        let mut count = part.len().min(self.room - self.text.len);
        while !part.is_char_boundary(count) {
            count -= 1;
        }
        self.text.bytes[self.text.len..self.text.len + count]
            .copy_from_slice(&part.as_bytes()[..count]);
        self.text.len += count;
        if count < part.len() {
            self.is_cut = true;
            return Err(Error);
        }
        Ok(())
    }
}
