//! Why a stream could not be read or written.

use std::{fmt, io};

/// Why a stream could not be read or written.
#[derive(Debug)]
#[non_exhaustive]
pub enum Error {
    /// The stream that is read is refused, or what was to be written.
    Refused {
        /// The number of the refusal: 1 for F1 to 35 for F35, 101 for W1 to 110 for W10, and 206
        /// for X6. `docs/FAULTS.md` lists them.
        number: u32,
        /// The line that the program `arrowstream` prints, as in `F4 Truncated at message 2` or
        /// `W4 OutOfRange at row 0 path 1.0`.
        line: String,
    },
    /// The source failed.
    Read(io::Error),
    /// The sink failed.
    Write(io::Error),
    /// Memory ran out.
    OutOfMemory,
    /// A schema or an array of another library is not supported or not as it should be, or what is
    /// exported cannot be stated by the Arrow C data interface.
    Exchange {
        /// What is wrong.
        line: String,
    },
}

impl fmt::Display for Error {
    fn fmt(&self, f: &mut fmt::Formatter<'_>) -> fmt::Result {
        match self {
            Error::Refused { line, .. } | Error::Exchange { line } => f.write_str(line),
            Error::Read(cause) => write!(f, "the source failed: {cause}"),
            Error::Write(cause) => write!(f, "the sink failed: {cause}"),
            Error::OutOfMemory => f.write_str("out of memory"),
        }
    }
}

impl std::error::Error for Error {
    fn source(&self) -> Option<&(dyn std::error::Error + 'static)> {
        match self {
            Error::Read(cause) | Error::Write(cause) => Some(cause),
            _ => None,
        }
    }
}
