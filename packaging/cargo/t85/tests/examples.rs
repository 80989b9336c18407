//! Worked examples of the standard's rules, whole and row by row.
mod common;

use common::{plain, stream};
use std::io::{self, Read, Write};
use t85::{decode, encode, Decoder, Encoder, Error, Fault, Image, Options};

/// Images, their options and their streams.
fn examples() -> Vec<(Image, Options, Vec<u8>)> {
    let image = |width, height, rows: &[u8]| Image::new(width, height, rows.to_vec()).unwrap();
    let rows = |stripe_rows| Options {
        stripe_rows,
        ..Options::default()
    };
    let late = Options {
        announced_height: Some(5),
        ..plain()
    };
    let moved = Options {
        stripe_rows: 1,
        most_offset: 3,
        ..plain()
    };
    let hello = Options {
        comment: Some(b"hi".to_vec()),
        ..Options::default()
    };
    vec![
        (
            image(8, 1, &[0]),
            Options::default(),
            stream([8, 1, 128], 0, 8, &[0xff, 2]),
        ),
        (
            image(8, 1, &[0]),
            plain(),
            stream([8, 1, 128], 0, 0, &[0x60, 0xff, 2]),
        ),
        (
            image(3, 3, &[0xff; 3]),
            plain(),
            stream([3, 3, 128], 0, 0, &[0xff, 0, 0xc0, 0xff, 2]),
        ),
        (
            image(1, 2, &[0x80; 2]),
            rows(1),
            stream([1, 2, 1], 0, 8, &[0xe0, 0xff, 2, 0xe0, 0xff, 2]),
        ),
        (
            image(1, 1, &[0x80]),
            late,
            stream(
                [1, 5, 128],
                0,
                0x20,
                &[0xc0, 0xff, 2, 0xff, 5, 0, 0, 0, 1, 0xff, 2],
            ),
        ),
        (
            image(8, 2, &[0xff; 2]),
            moved,
            stream(
                [8, 2, 1],
                3,
                0,
                &[0xf0, 0xff, 2, 0xff, 6, 0, 0, 0, 0, 3, 0, 0xf8, 0xff, 2],
            ),
        ),
        (
            image(8, 1, &[0]),
            hello,
            stream(
                [8, 1, 128],
                0,
                8,
                &[0xff, 7, 0, 0, 0, 2, b'h', b'i', 0xff, 2],
            ),
        ),
    ]
}

/// A reader and a writer that transfer at most this many bytes at a time, and are interrupted before each.
struct Slow<T>(T, usize, bool);

impl<R: Read> Read for Slow<R> {
    fn read(&mut self, buf: &mut [u8]) -> io::Result<usize> {
        self.2 = !self.2;
        let most = self.1.min(buf.len());
        if self.2 {
            Err(io::ErrorKind::Interrupted.into())
        } else {
            self.0.read(&mut buf[..most])
        }
    }
}

impl<W: Write> Write for Slow<W> {
    fn write(&mut self, buf: &[u8]) -> io::Result<usize> {
        self.2 = !self.2;
        let most = self.1.min(buf.len());
        if self.2 {
            Err(io::ErrorKind::Interrupted.into())
        } else {
            self.0.write(&buf[..most])
        }
    }

    fn flush(&mut self) -> io::Result<()> {
        self.0.flush()
    }
}

#[test]
fn whole_images() {
    for (image, options, stream) in examples() {
        assert_eq!(encode(&image, &options).unwrap(), stream);
        assert_eq!(decode(&stream).unwrap(), image);
    }
}

#[test]
fn row_by_row() {
    for (image, options, stream) in examples() {
        for most in [1, 2, 7, 4096] {
            let mut encoder = Encoder::new(
                Slow(Vec::new(), most, false),
                image.width(),
                image.height(),
                &options,
            )
            .unwrap();
            for row in image.rows().chunks(t85::row_bytes(image.width())) {
                encoder.write_row(row).unwrap();
            }
            assert_eq!(encoder.rows_left(), 0);
            assert_eq!(encoder.finish().unwrap().0, stream);
            let mut decoder = Decoder::new(Slow(&stream[..], most, false)).unwrap();
            let mut rows = Vec::new();
            while let Some(row) = decoder.next_row().unwrap() {
                rows.extend_from_slice(row);
            }
            assert_eq!(
                (decoder.width(), decoder.height()),
                (image.width(), image.height())
            );
            assert_eq!(rows, image.rows());
            assert!(decoder.next_row().unwrap().is_none());
        }
    }
}

#[test]
fn broken_streams() {
    // Three code bytes determine the first row; the sixth pixel of the second needs a fourth.
    let cut = stream([8, 2, 128], 0, 0, &[0xf0, 0, 0]);
    let error = decode(&cut).unwrap_err();
    assert!(matches!(
        error,
        Error::Stream {
            fault: Fault::Truncated,
            ..
        }
    ));
    assert_eq!(
        error.certain(),
        Some(&Image::new(8, 1, vec![0xff]).unwrap())
    );
    assert_eq!(error.to_string(), "input ends too early");
    let mut decoder = Decoder::new(&cut[..]).unwrap();
    assert_eq!(decoder.next_row().unwrap(), Some(&[0xff][..]));
    for _ in 0..2 {
        assert!(matches!(
            decoder.next_row(),
            Err(Error::Stream {
                fault: Fault::Truncated,
                certain: None
            })
        ));
    }
    assert!(matches!(
        decode(&cut[..19]),
        Err(Error::Stream {
            fault: Fault::ShortHeader,
            certain: None
        })
    ));
    assert!(decode(&cut[..21]).unwrap_err().certain().is_none());
}
