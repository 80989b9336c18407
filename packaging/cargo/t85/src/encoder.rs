use crate::error::Error;
use crate::image::{size, Image};
use crate::options::Options;
use devices::{DeviceFailed, FromRead, Output};
use pbm_core::{row_bytes, Form};
use raster_core::{window_bytes, Window};
use std::io::{self, Write};
use t85_core::{Fault, Learning, RowEncoder};

/// Encodes an image, and returns the stream.
///
/// # Errors
///
/// [`Error::Options`] if the options are rejected, also because the announced height is below the image's.
pub fn encode(image: &Image, options: &Options) -> Result<Vec<u8>, Error> {
    let accepted = options.accepted()?;
    let mut memory = vec![0; window_bytes(image.width())];
    let mut window = Window::over(&mut memory, image.width());
    let mut output = Kept::new(Vec::new());
    t85_core::encode(
        image.size(),
        Form::Raw,
        &accepted,
        &mut window,
        &mut FromRead::new(image.rows()),
        &mut output,
    )
    .map_err(|fault| output.error(fault))?;
    Ok(output.writer)
}

/// Encodes an image row by row, in memory that grows only with its width.
///
/// ```
/// let mut encoder = t85::Encoder::new(Vec::new(), 8, 2, &t85::Options::default())?;
/// encoder.write_row(&[0b1111_0000])?;
/// encoder.write_row(&[0b0000_1111])?;
/// let stream = encoder.finish()?;
/// # assert_eq!(t85::decode(&stream)?.rows(), [0b1111_0000, 0b0000_1111]);
/// # Ok::<(), t85::Error>(())
/// ```
pub struct Encoder<W> {
    output: Kept<W>,
    encoder: RowEncoder,
    learning: Box<Learning>,
    memory: Vec<u8>,
    place: u8,
    width: u32,
}

impl<W: Write> Encoder<W> {
    /// Starts a stream, and writes its header. Each call writes the bytes that later rows cannot change.
    ///
    /// # Errors
    ///
    /// [`Error::Size`], [`Error::Options`] as from [`encode`], or [`Error::Io`].
    pub fn new(writer: W, width: u32, height: u32, options: &Options) -> Result<Encoder<W>, Error> {
        let size = size(width, height)?;
        let accepted = options.accepted()?;
        let mut output = Kept::new(writer);
        let mut learning = Box::new(Learning::new());
        let mut memory = vec![0; window_bytes(width)];
        let mut window = Window::over(&mut memory, width);
        let encoder = RowEncoder::start(size, &accepted, &mut window, &mut learning, &mut output)
            .map_err(|fault| output.error(fault))?;
        let place = window.place();
        Ok(Encoder {
            output,
            encoder,
            learning,
            memory,
            place,
            width,
        })
    }

    /// The number of rows that are not yet encoded.
    pub fn rows_left(&self) -> u32 {
        self.encoder.left()
    }

    /// Encodes the next row: [`row_bytes`] bytes, the first pixel in the most significant bit.
    ///
    /// # Errors
    ///
    /// [`Error::Rows`] for a row of another length and [`Error::Count`] after the last row, and then nothing changes;
    /// [`Error::Io`], and then no more rows are accepted.
    pub fn write_row(&mut self, row: &[u8]) -> Result<(), Error> {
        if row.len() != row_bytes(self.width) {
            return Err(Error::Rows {
                expected: row_bytes(self.width) as u64,
                found: row.len() as u64,
            });
        }
        if self.encoder.left() == 0 {
            return Err(Error::Count);
        }
        let mut window = Window::resume(&mut self.memory, self.width, self.place);
        let put = self
            .encoder
            .put_row(row, &mut window, &mut self.learning, &mut self.output);
        self.place = window.place();
        put.map_err(|fault| self.output.error(fault))
    }

    /// Ends the stream, and returns the writer. With an announced height, it may end before all rows were passed.
    ///
    /// # Errors
    ///
    /// [`Error::Count`] if rows are missing, or [`Error::Io`].
    pub fn finish(mut self) -> Result<W, Error> {
        if !self.encoder.is_closed() && !self.encoder.may_finish() {
            return Err(Error::Count);
        }
        let mut window = Window::resume(&mut self.memory, self.width, self.place);
        self.encoder
            .finish(&mut window, &mut self.learning, &mut self.output)
            .map_err(|fault| self.output.error(fault))?;
        self.output.writer.flush()?;
        Ok(self.output.writer)
    }
}

/// A writer as the engine's output. It keeps the error of a write, which the engine does not return.
struct Kept<W> {
    writer: W,
    error: Option<io::Error>,
    failures: u64,
}

impl<W: Write> Kept<W> {
    fn new(writer: W) -> Kept<W> {
        Kept {
            writer,
            error: None,
            failures: 0,
        }
    }

    /// The error behind a fault of the engine.
    fn error(&mut self, fault: Fault) -> Error {
        match (fault, self.error.take()) {
            (Fault::Write, Some(error)) => Error::Io(error),
            (Fault::Write, None) => Error::Io(io::ErrorKind::BrokenPipe.into()),
            _ => Error::Options(fault),
        }
    }

    fn failed(&mut self, error: io::Error) -> DeviceFailed {
        self.failures = self.failures.saturating_add(1);
        self.error = Some(error);
        DeviceFailed
    }
}

impl<W: Write> Output for Kept<W> {
    fn failures(&self) -> u64 {
        self.failures
    }

    fn write(&mut self, buf: &[u8]) -> Result<usize, DeviceFailed> {
        match self.writer.write_all(buf) {
            Ok(()) => Ok(buf.len()),
            Err(error) => Err(self.failed(error)),
        }
    }

    fn flush(&mut self) -> Result<(), DeviceFailed> {
        self.writer.flush().map_err(|error| self.failed(error))
    }
}
