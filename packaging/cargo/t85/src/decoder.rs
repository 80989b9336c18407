use crate::error::Error;
use crate::image::Image;
use devices::FromRead;
use pbm_core::row_bytes;
use qm_core::Learned;
use raster_core::{window_bytes, Window};
use std::io::{self, Read};
use t85_core::{Fault, Header, HeldBytes, More, Outcome, PieceDecoder, Progress};

const HEADER_BYTES: usize = 20;
const PIECE: usize = 4096;

/// The largest image that a call decodes. By default, its rows may take 1 GiB.
#[derive(Clone, Copy, Debug, PartialEq, Eq)]
pub struct Limits {
    /// The greatest number of rows.
    pub max_rows: u32,
    /// The greatest number of bytes that all rows take together.
    pub max_bytes: u64,
}

impl Default for Limits {
    fn default() -> Limits {
        Limits {
            max_rows: u32::MAX,
            max_bytes: 1 << 30,
        }
    }
}

/// Decodes a stream whose image is within the default limits. Bytes after the stream are ignored.
///
/// # Errors
///
/// [`Error::Stream`], with the rows that the stream determines, or [`Error::TooLarge`].
pub fn decode(stream: &[u8]) -> Result<Image, Error> {
    decode_within(stream, Limits::default())
}

/// Decodes a stream whose image is within these limits.
///
/// Without the option VLENGTH, an image above the limits is rejected at its header; with it, once a row above the limits is
/// decoded, since the header has no more than the greatest height.
///
/// # Errors
///
/// As for [`decode`].
pub fn decode_within(stream: &[u8], limits: Limits) -> Result<Image, Error> {
    let mut decoder = Decoder::new(stream)?;
    let width = decoder.width();
    let most = u64::from(limits.max_rows).min(limits.max_bytes / row_bytes(width) as u64);
    if !decoder.is_variable() && u64::from(decoder.height()) > most {
        return Err(Error::TooLarge);
    }
    let mut rows = Vec::new();
    let mut count = 0;
    loop {
        match decoder.next_row() {
            Ok(Some(_)) if count == most => return Err(Error::TooLarge),
            Ok(Some(row)) => rows.extend_from_slice(row),
            Ok(None) => break,
            Err(Error::Stream { fault, .. }) => {
                return Err(Error::Stream {
                    fault,
                    certain: Image::of_rows(width, rows),
                });
            }
            Err(error) => return Err(error),
        }
        count += 1;
    }
    if u64::from(decoder.height()) > most {
        return Err(Error::TooLarge);
    }
    rows.truncate(decoder.height() as usize * row_bytes(width));
    Image::of_rows(width, rows).ok_or(Error::Size)
}

/// Decodes a stream row by row, in memory that grows only with its width.
///
/// ```
/// # let image = t85::Image::new(8, 2, vec![0xf0, 0x0f])?;
/// # let stream = t85::encode(&image, &t85::Options::default())?;
/// let mut decoder = t85::Decoder::new(&stream[..])?;
/// while let Some(row) = decoder.next_row()? {
///     println!("{:08b}", row[0]);
/// }
/// assert_eq!(decoder.height(), 2);
/// # Ok::<(), t85::Error>(())
/// ```
///
/// A reader that waits for bytes, such as a socket, is read only once a row needs them. While a new height may arrive (option
/// VLENGTH), rows may be returned that it cuts off: the image is the first rows, as many as [`height`](Decoder::height)
/// returns at the end.
pub struct Decoder<R> {
    reader: R,
    header: Header,
    decoder: PieceDecoder,
    learned: Box<Learned>,
    held: HeldBytes,
    memory: Vec<u8>,
    place: u8,
    piece: Box<[u8; PIECE]>,
    /// The first and the last byte of the piece that are not consumed.
    begin: usize,
    end: usize,
    state: State,
}

#[derive(Clone, Copy, PartialEq, Eq)]
enum State {
    Reading,
    /// The reader has no more bytes.
    AtEnd,
    Done,
    Broken(Fault),
}

impl<R: Read> Decoder<R> {
    /// Reads the header.
    ///
    /// # Errors
    ///
    /// [`Error::Stream`] if the header is rejected, or [`Error::Io`].
    pub fn new(mut reader: R) -> Result<Decoder<R>, Error> {
        let mut bytes = [0; HEADER_BYTES];
        let mut len = 0;
        while len < HEADER_BYTES {
            match read(&mut reader, &mut bytes[len..])? {
                0 => break,
                count => len += count,
            }
        }
        let header = Header::read(&mut FromRead::new(&bytes[..len])).map_err(Error::stream)?;
        let mut learned = Box::new(Learned::new());
        let mut memory = vec![0; window_bytes(header.xd)];
        let mut window = Window::over(&mut memory, header.xd);
        let decoder = PieceDecoder::start(header, &mut window, &mut learned);
        let place = window.place();
        let piece = Box::new([0; PIECE]);
        let (held, state) = (HeldBytes::none(), State::Reading);
        Ok(Decoder {
            reader,
            header,
            decoder,
            learned,
            held,
            memory,
            place,
            piece,
            begin: 0,
            end: 0,
            state,
        })
    }

    /// The number of pixels in a row.
    pub fn width(&self) -> u32 {
        self.header.xd
    }

    /// The current height: the header's until another has arrived.
    pub fn height(&self) -> u32 {
        self.decoder.height()
    }

    /// How many of the first rows belong to the image, whatever bytes follow.
    pub fn certain_rows(&self) -> u32 {
        self.decoder.certain()
    }

    /// The fields of the header.
    pub fn header(&self) -> &Header {
        &self.header
    }

    /// Whether the header allows a height that follows later.
    fn is_variable(&self) -> bool {
        self.header.options & 0x20 != 0
    }

    /// Decodes the next row, packed, the first pixel in the most significant bit. Returns `None` after the last row.
    ///
    /// # Errors
    ///
    /// [`Error::Stream`], also at each further call, once all rows that the broken stream determines were returned, or
    /// [`Error::Io`], after which the call may be repeated.
    pub fn next_row(&mut self) -> Result<Option<&[u8]>, Error> {
        loop {
            match self.state {
                State::Done => return Ok(None),
                State::Broken(fault) => return Err(Error::stream(fault)),
                State::Reading | State::AtEnd => {}
            }
            let progress = self.go_on();
            self.begin += progress.taken;
            match progress.outcome {
                Outcome::Row => {
                    let row = row_bytes(self.header.xd);
                    return Ok(Some(&self.memory[usize::from(self.place) * row..][..row]));
                }
                Outcome::More => self.fill()?,
                Outcome::Done(_) => self.state = State::Done,
                Outcome::Broken(fault) => self.state = State::Broken(fault),
            }
        }
    }

    /// Passes the bytes of the piece that are not consumed to the engine.
    fn go_on(&mut self) -> Progress {
        let mut window = Window::resume(&mut self.memory, self.header.xd, self.place);
        let bytes = &self.piece[self.begin..self.end];
        let more = if self.state == State::AtEnd {
            More::None
        } else {
            More::Comes
        };
        let progress =
            self.decoder
                .feed(&mut window, &mut self.learned, &mut self.held, bytes, more);
        self.place = window.place();
        progress
    }

    fn fill(&mut self) -> Result<(), Error> {
        self.begin = 0;
        self.end = 0;
        self.end = read(&mut self.reader, &mut self.piece[..])?;
        if self.end == 0 {
            self.state = State::AtEnd;
        }
        Ok(())
    }
}

/// Reads once more if a read was interrupted.
fn read<R: Read>(reader: &mut R, buffer: &mut [u8]) -> Result<usize, Error> {
    loop {
        match reader.read(buffer) {
            Err(error) if error.kind() == io::ErrorKind::Interrupted => {}
            other => return Ok(other?),
        }
    }
}
