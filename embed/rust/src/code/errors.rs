//! Why a code is none, or has no text.
use super::Flaw;
use crate::canonical;
use std::fmt;

/// The bytes are the code of no list of such items.
#[derive(Clone, Copy, Debug, PartialEq, Eq, Hash)]
pub struct NoCode {
    offset: usize,
}

impl NoCode {
    pub(super) fn new(offset: usize) -> Self {
        NoCode { offset }
    }

    /// Where the first item begins that is none, in bytes.
    pub fn offset(&self) -> usize {
        self.offset
    }
}

impl fmt::Display for NoCode {
    fn fmt(&self, f: &mut fmt::Formatter<'_>) -> fmt::Result {
        write!(f, "no item begins at byte {} of the code", self.offset)
    }
}

impl std::error::Error for NoCode {}

/// Why a code gives no text.
#[derive(Clone, Debug, PartialEq, Eq)]
#[non_exhaustive]
pub enum Error {
    /// It is the code of no list of items of the kind.
    NoCode(NoCode),
    /// An item is not [well formed](crate::ast).
    #[non_exhaustive]
    NotWellFormed {
        /// The index of the item, from 0.
        index: usize,
        /// Its first flaw.
        flaw: Option<Flaw>,
    },
    /// Memory ran out.
    OutOfMemory,
    /// A text spells no list of items of the kind.
    Refused(canonical::Refusal),
    /// The library, a newer one, returned a status that this crate does not know.
    UnknownStatus(u32),
}

impl fmt::Display for Error {
    fn fmt(&self, f: &mut fmt::Formatter<'_>) -> fmt::Result {
        match self {
            Error::NoCode(error) => error.fmt(f),
            Error::NotWellFormed { index, flaw } => {
                write!(f, "item {index} is not well formed")?;
                flaw.iter().try_for_each(|flaw| write!(f, ": {flaw}"))
            }
            Error::OutOfMemory => f.write_str("out of memory"),
            Error::Refused(refusal) => refusal.fmt(f),
            Error::UnknownStatus(status) => canonical::show_status(*status, f),
        }
    }
}

/// The source is the [`NoCode`], the [`Flaw`] or the [`Refusal`](canonical::Refusal).
impl std::error::Error for Error {
    fn source(&self) -> Option<&(dyn std::error::Error + 'static)> {
        match self {
            Error::NoCode(error) => Some(error),
            Error::NotWellFormed { flaw, .. } => flaw.as_ref().map(|flaw| flaw as _),
            Error::Refused(refusal) => Some(refusal),
            Error::OutOfMemory | Error::UnknownStatus(_) => None,
        }
    }
}

impl From<NoCode> for Error {
    fn from(error: NoCode) -> Self {
        Error::NoCode(error)
    }
}

/// As [`read`](super::read) returns it, so that one `?` takes the errors of each function of the module.
impl From<canonical::Error> for Error {
    fn from(error: canonical::Error) -> Self {
        match error {
            canonical::Error::Refused(refusal) => Error::Refused(refusal),
            canonical::Error::OutOfMemory => Error::OutOfMemory,
            canonical::Error::UnknownStatus(status) => Error::UnknownStatus(status),
        }
    }
}
