//! What each call rejects, and what a failed write leaves.
mod common;

use common::{plain, stream};
use std::io::{self, Write};
use t85::{decode, decode_within, encode, Encoder, Error, Fault, Image, Limits, Options};

/// A writer that is full after this many bytes.
struct Full(usize);

impl Write for Full {
    fn write(&mut self, buf: &[u8]) -> io::Result<usize> {
        let count = buf.len().min(self.0);
        self.0 -= count;
        Ok(count)
    }

    fn flush(&mut self) -> io::Result<()> {
        Ok(())
    }
}

#[test]
fn limits() {
    let limits = |max_rows, max_bytes| Limits {
        max_rows,
        max_bytes,
    };
    let rows = stream([1, 2, 1], 0, 8, &[0xe0, 0xff, 2, 0xe0, 0xff, 2]);
    assert!(decode_within(&rows, limits(2, 2)).is_ok());
    assert!(matches!(
        decode_within(&rows, limits(1, 2)),
        Err(Error::TooLarge)
    ));
    assert!(matches!(
        decode_within(&rows, limits(2, 1)),
        Err(Error::TooLarge)
    ));
    // 22 bytes that announce 4,294,967,295 white rows.
    assert!(matches!(
        decode(&stream([1 << 20, u32::MAX, u32::MAX], 0, 8, &[0xff, 2])),
        Err(Error::TooLarge)
    ));
    // With VLENGTH, the header's height is no reason to reject the image.
    let late = stream(
        [1, u32::MAX, 128],
        0,
        0x20,
        &[0xc0, 0xff, 2, 0xff, 5, 0, 0, 0, 1, 0xff, 2],
    );
    assert_eq!(decode_within(&late, limits(1, 1)).unwrap().height(), 1);
    assert!(matches!(
        decode_within(&late, limits(0, 1)),
        Err(Error::TooLarge)
    ));
}

#[test]
fn rejected_arguments() {
    for (width, height) in [(0, 1), (1, 0), ((1 << 20) + 1, 1)] {
        assert!(matches!(
            Image::new(width, height, vec![0; 131_073]),
            Err(Error::Size)
        ));
        assert!(matches!(
            Encoder::new(Vec::new(), width, height, &Options::default()),
            Err(Error::Size)
        ));
    }
    assert!(matches!(
        Image::new(9, 2, vec![0; 3]),
        Err(Error::Rows {
            expected: 4,
            found: 3
        })
    ));
    let image = Image::new(1, 2, vec![0xff, 0x7f]).unwrap();
    assert_eq!(image.rows(), [0x80, 0]);
    assert_eq!(
        (
            image.pixel(0, 0),
            image.pixel(0, 1),
            image.pixel(1, 0),
            image.pixel(0, 2)
        ),
        (Some(true), Some(false), None, None)
    );
    let fault = |options: Options| match encode(&image, &options) {
        Err(Error::Options(fault)) => fault,
        other => panic!("{other:?}"),
    };
    assert_eq!(
        fault(Options {
            stripe_rows: 0,
            ..plain()
        }),
        Fault::StripeZero
    );
    assert_eq!(
        fault(Options {
            most_offset: 128,
            ..plain()
        }),
        Fault::MoveLarge
    );
    assert_eq!(
        fault(Options {
            announced_height: Some(1),
            ..plain()
        }),
        Fault::AnnouncedLow
    );
}

#[test]
fn rows_too_many_or_too_few() {
    let mut encoder = Encoder::new(Vec::new(), 8, 1, &plain()).unwrap();
    assert!(matches!(
        encoder.write_row(&[0, 0]),
        Err(Error::Rows {
            expected: 1,
            found: 2
        })
    ));
    encoder.write_row(&[0]).unwrap();
    assert!(matches!(encoder.write_row(&[0]), Err(Error::Count)));
    assert_eq!(
        encoder.finish().unwrap(),
        stream([8, 1, 128], 0, 0, &[0x60, 0xff, 2])
    );
    assert!(matches!(
        Encoder::new(Vec::new(), 8, 1, &plain()).unwrap().finish(),
        Err(Error::Count)
    ));
}

#[test]
fn failed_writes() {
    for room in 0..23 {
        let made = Encoder::new(Full(room), 8, 1, &plain()).and_then(|mut encoder| {
            encoder.write_row(&[0xff])?;
            encoder.finish()
        });
        assert!(matches!(made, Err(Error::Io(_))), "{room}");
    }
    assert!(Encoder::new(Full(23), 8, 1, &plain())
        .unwrap()
        .write_row(&[0xff])
        .is_ok());
}
