//! Standard streams without buffers.
use std::fs::File;
pub use std::io::*;
use std::mem::ManuallyDrop;
use std::os::unix::io::FromRawFd;

/// A standard stream without a buffer: each read or write is one system call.
struct Stream(ManuallyDrop<File>);

impl Stream {
    fn of(place: i32) -> Stream {
        // It stays open when this value is dropped.
        Stream(ManuallyDrop::new(unsafe { File::from_raw_fd(place) }))
    }
}

pub struct Stdin(Stream);
pub struct Stdout(Stream);
pub struct Stderr(Stream);

pub fn stdin() -> Stdin {
    Stdin(Stream::of(0))
}

pub fn stdout() -> Stdout {
    Stdout(Stream::of(1))
}

pub fn stderr() -> Stderr {
    Stderr(Stream::of(2))
}

impl Read for Stdin {
    fn read(&mut self, buf: &mut [u8]) -> Result<usize> {
        self.0 .0.read(buf)
    }
}

impl Write for Stdout {
    fn write(&mut self, buf: &[u8]) -> Result<usize> {
        self.0 .0.write(buf)
    }

    fn flush(&mut self) -> Result<()> {
        Ok(())
    }
}

impl Write for Stderr {
    fn write(&mut self, buf: &[u8]) -> Result<usize> {
        self.0 .0.write(buf)
    }

    fn flush(&mut self) -> Result<()> {
        Ok(())
    }
}
