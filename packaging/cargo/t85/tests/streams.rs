//! Streams beside another decoder. `T85_CASES` names a file of cases: the length of a stream, its bytes, a status, the number of
//! rows that the other decoder returns, the bytes in a row, and these rows. A number is four bytes, the least significant
//! first. Status 0 is a whole image, and 24 one of more than 1,000 rows; others reject the stream.
use t85::{decode_within, Decoder, Error, Limits};

const WHOLE: u32 = 0;
const TOO_LARGE: u32 = 24;

/// The rest of the file.
struct Cases<'a>(&'a [u8]);

impl<'a> Cases<'a> {
    fn bytes(&mut self, count: usize) -> &'a [u8] {
        let (first, rest) = self.0.split_at(count);
        self.0 = rest;
        first
    }

    fn number(&mut self) -> u32 {
        u32::from_le_bytes(self.bytes(4).try_into().unwrap())
    }
}

/// Decodes the whole stream.
fn check_whole(stream: &[u8], status: u32, rows: &[u8]) {
    let limits = Limits {
        max_rows: 1000,
        ..Limits::default()
    };
    match decode_within(stream, limits) {
        Ok(image) => assert_eq!((status, image.rows()), (WHOLE, rows)),
        Err(Error::TooLarge) => assert_eq!(status, TOO_LARGE),
        Err(error @ Error::Stream { .. }) => {
            assert_ne!(status, WHOLE);
            if status != TOO_LARGE {
                assert_eq!(error.certain().map_or(&[][..], |image| image.rows()), rows);
            }
        }
        Err(error) => panic!("{error}"),
    }
}

/// Decodes row by row, from a reader.
fn check_rows(stream: &[u8], status: u32, rows: &[u8]) {
    let mut decoder = match Decoder::new(stream) {
        Ok(decoder) => decoder,
        Err(error) => {
            assert!(
                matches!(error, Error::Stream { .. }) && status != WHOLE,
                "{error}"
            );
            return;
        }
    };
    let mut read = Vec::new();
    let is_whole = loop {
        match decoder.next_row() {
            Ok(Some(row)) => read.extend_from_slice(row),
            Ok(None) => break true,
            Err(Error::Stream { .. }) => break false,
            Err(error) => panic!("{error}"),
        }
    };
    if is_whole {
        read.truncate(decoder.height() as usize * t85::row_bytes(decoder.width()));
    }
    assert_eq!((is_whole, &read[..]), (status == WHOLE, rows));
}

#[test]
#[ignore = "needs a file of cases"]
fn streams() {
    let file = std::fs::read(std::env::var_os("T85_CASES").unwrap()).unwrap();
    let mut cases = Cases(&file);
    let mut count = 0;
    while !cases.0.is_empty() {
        let len = cases.number() as usize;
        let stream = cases.bytes(len);
        let (status, written, row) = (cases.number(), cases.number(), cases.number());
        let rows = cases.bytes(written as usize * row as usize);
        check_whole(stream, status, rows);
        if status != TOO_LARGE {
            check_rows(stream, status, rows);
        }
        count += 1;
    }
    assert!(count > 0);
    println!("{count} streams");
}
