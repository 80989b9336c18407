//! The parts of Rattle's library that Rust's library does not have, or has in another form.
//!
//! This crate is hand-written and not proved. If memory runs out, its functions return an error instead of ending the
//! process, and a program reaches files and streams through a handle.

pub mod alloc;
pub mod fmt;
pub mod grown;
#[cfg(unix)]
pub mod io;

use alloc::{AllocError, Global};

/// `vec![in alloc; item; count]`
#[macro_export]
macro_rules! vec {
    (in $alloc:expr; $item:expr; $count:expr) => {
        $crate::filled($alloc, $item, $count)
    };
}

/// `format!(in alloc; ..)`
#[macro_export]
macro_rules! format {
    (in $alloc:expr; $($rest:tt)*) => {
        $crate::formatted($alloc, ::std::format_args!($($rest)*))
    };
}

/// `vec!` in tests.
#[macro_export]
macro_rules! grown_vec {
    (in $alloc:expr; $item:expr; $count:expr) => {
        $crate::grown::Vec::from_elem($alloc, $item, $count)
    };
    (in $alloc:expr; $($item:expr),* $(,)?) => {
        $crate::grown::Vec::of($alloc, [$($item),*])
    };
}

/// `format!` in tests.
#[macro_export]
macro_rules! grown_format {
    (in $alloc:expr; $($rest:tt)*) => {
        $crate::grown::String::from_str($alloc, &::std::format!($($rest)*))
    };
}

/// `assert!(rt; ..)`
#[macro_export]
macro_rules! assert {
    ($rt:expr; $($rest:tt)*) => {{
        let _ = &$rt;
        ::std::assert!($($rest)*)
    }};
}

/// `assert_eq!(rt; ..)`
#[macro_export]
macro_rules! assert_eq {
    ($rt:expr; $($rest:tt)*) => {{
        let _ = &$rt;
        ::std::assert_eq!($($rest)*)
    }};
}

/// `assert_ne!(rt; ..)`
#[macro_export]
macro_rules! assert_ne {
    ($rt:expr; $($rest:tt)*) => {{
        let _ = &$rt;
        ::std::assert_ne!($($rest)*)
    }};
}

/// Returns a vector of copies of one item.
pub fn filled<T: Copy>(_alloc: Global, item: T, count: usize) -> Result<Vec<T>, AllocError> {
    let mut items = Vec::new();
    items.try_reserve_exact(count)?;
    items.resize(count, item);
    Ok(items)
}

/// Formats a text, unless memory runs out.
pub fn formatted(_alloc: Global, text: std::fmt::Arguments<'_>) -> Result<String, AllocError> {
    struct Growing(String);
    impl std::fmt::Write for Growing {
        fn write_str(&mut self, part: &str) -> std::fmt::Result {
            self.0
                .try_reserve(part.len())
                .map_err(|_| std::fmt::Error)?;
            self.0.push_str(part);
            Ok(())
        }
    }
    let mut made = Growing(String::new());
    std::fmt::write(&mut made, text).map_err(|_| AllocError)?;
    Ok(made.0)
}

pub mod str {
    use crate::alloc::{AllocError, Global};

    /// `String::from_str(alloc, text)`
    pub trait FromStr: Sized {
        fn from_str(alloc: Global, text: &str) -> Result<Self, AllocError>;
    }

    impl FromStr for String {
        fn from_str(_alloc: Global, text: &str) -> Result<String, AllocError> {
            let mut made = String::new();
            made.try_reserve_exact(text.len())?;
            made.push_str(text);
            Ok(made)
        }
    }
}

pub mod convert {
    /// A type that contains a text.
    pub trait AsStr {
        fn as_str(&self) -> &str;
    }

    impl AsStr for String {
        fn as_str(&self) -> &str {
            self
        }
    }

    impl AsStr for &str {
        fn as_str(&self) -> &str {
            self
        }
    }
}

#[cfg(unix)]
pub mod os {
    pub mod fd {
        pub use std::os::unix::io::{AsRawFd, RawFd};
    }
}

pub mod fs {
    use crate::HostRuntime;
    pub use std::fs::{File, FileType};

    pub fn open(_rt: &HostRuntime, name: &str) -> std::io::Result<File> {
        File::open(name)
    }

    pub fn create(_rt: &HostRuntime, name: &str) -> std::io::Result<File> {
        File::create(name)
    }
}

pub mod env {
    use crate::alloc::{AllocError, Global};
    use crate::HostRuntime;

    /// The words of the command line.
    pub struct Args(Vec<String>);

    pub fn args(_rt: &HostRuntime) -> std::io::Result<Args> {
        let words: Result<Vec<String>, _> =
            std::env::args_os().map(|word| word.into_string()).collect();
        match words {
            Ok(words) => Ok(Args(words)),
            Err(_) => Err(std::io::ErrorKind::InvalidData.into()),
        }
    }

    impl Args {
        pub fn collect<C: From<Vec<String>>>(self, _alloc: Global) -> Result<C, AllocError> {
            Ok(self.0.into())
        }
    }
}

pub mod cell {
    pub use std::cell::Cell;
}

pub mod process {
    pub use std::process::*;

    /// The permission to end the process, as a failed `assert!` does.
    pub trait Abort {}
    impl Abort for crate::HostRuntime {}
}

pub mod test {
    /// Any error that ends a test. It is printed when it is converted, since a test returns no result here.
    pub struct Fail(());

    impl<E: std::fmt::Debug> From<E> for Fail {
        fn from(error: E) -> Fail {
            eprintln!("{:?}", error);
            Fail(())
        }
    }
}

/// The handle to the process that `main` and each test have.
pub struct HostRuntime(());

impl HostRuntime {
    #[allow(clippy::new_without_default)]
    pub fn new() -> HostRuntime {
        HostRuntime(())
    }

    pub fn alloc(&self) -> Global {
        Global
    }

    #[cfg(unix)]
    pub fn stdin(&self) -> io::Stdin {
        io::stdin()
    }

    #[cfg(unix)]
    pub fn stdout(&self) -> io::Stdout {
        io::stdout()
    }

    #[cfg(unix)]
    pub fn stderr(&self) -> io::Stderr {
        io::stderr()
    }

    #[cfg(unix)]
    pub fn eprintln<T: std::fmt::Display>(&self, text: T) -> std::io::Result<()> {
        let line = format_args!("{}\n", text).to_string();
        std::io::Write::write_all(&mut io::stderr(), line.as_bytes())
    }
}
