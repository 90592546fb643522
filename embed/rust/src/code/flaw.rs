//! Why an item is not well formed.
use super::decoder::Decoder;
use crate::canonical::{self, Kind};
use crate::raw;
use std::fmt;

/// The first flaw of an item: of the statements that it needs, in their order, and then of its last lines.
#[derive(Clone, Debug, PartialEq, Eq, Hash)]
#[non_exhaustive]
pub struct Flaw {
    /// Where the item is not well formed.
    pub location: FlawLocation,
    /// Why: the first reason in the order of [`FlawReason`].
    pub reason: FlawReason,
    /// The name of the statement, if it is an assignment.
    pub name: Option<String>,
}

/// A statement or a last line of an item.
#[derive(Clone, Copy, Debug, PartialEq, Eq, Hash)]
#[non_exhaustive]
pub enum FlawLocation {
    /// The statement at this position, from 0.
    Statement(usize),
    /// The infer line.
    Infer,
    /// The result line.
    Result,
    /// The cand line.
    Cand,
    /// What a newer library calls by this number.
    Unknown(u32),
}

/// Which condition of a [well-formed](crate::ast) item fails.
#[derive(Clone, Copy, Debug, PartialEq, Eq, Hash)]
#[non_exhaustive]
pub enum FlawReason {
    /// The name is not `%` and letters, digits, `_` or `.`.
    InvalidName,
    /// A list of bits is empty.
    EmptyBits,
    /// A width is 0.
    ZeroWidth,
    /// An operand or the block is not a statement before this one.
    UseBeforeDefinition,
    /// An operand is no assignment.
    NotAnAssignment,
    /// What is used as a block is none.
    NotABlock,
    /// A phi has not one value per predecessor of its block.
    ValueCount,
    /// The block of a condition has no such predecessor.
    PredecessorOutOfRange,
    /// An assignment before it that the item needs has the same name.
    DuplicateName,
    /// What a newer library calls by this number.
    Unknown(u32),
}

// The location with that number of `souper.h`.
pub(super) fn location_of(number: u32, position: usize) -> FlawLocation {
    match number {
        1 => FlawLocation::Statement(position),
        2 => FlawLocation::Infer,
        3 => FlawLocation::Result,
        4 => FlawLocation::Cand,
        number => FlawLocation::Unknown(number),
    }
}

// Writes the location, with the name of the statement, if it has one.
pub(super) fn show_location(
    location: FlawLocation,
    name: Option<&str>,
    f: &mut fmt::Formatter<'_>,
) -> fmt::Result {
    match (location, name) {
        (FlawLocation::Statement(position), Some(name)) => {
            write!(f, "statement {position} ({name})")
        }
        (FlawLocation::Statement(position), None) => write!(f, "statement {position}"),
        (FlawLocation::Infer, _) => f.write_str("infer line"),
        (FlawLocation::Result, _) => f.write_str("result line"),
        (FlawLocation::Cand, _) => f.write_str("cand line"),
        (FlawLocation::Unknown(number), _) => write!(f, "unknown({number})"),
    }
}

impl Flaw {
    // The first flaw of the item that the code begins with; `None` if it is well formed.
    pub(super) fn of_code(kind: Kind, code: &[u8]) -> Result<Option<Self>, canonical::Error> {
        let found = raw::flaw(kind, code);
        match found.status {
            raw::DONE => Ok(None),
            raw::NOT_WELL_FORMED => Ok(Some(Flaw::new(found, code))),
            status => Err(canonical::Error::of_status(status)),
        }
    }

    // The flaw with these numbers of `souper.h`, of the item that the code begins with.
    fn new(found: raw::Flaw, code: &[u8]) -> Self {
        let location = location_of(found.location, found.position);
        let reason = match found.reason {
            1 => FlawReason::InvalidName,
            2 => FlawReason::EmptyBits,
            3 => FlawReason::ZeroWidth,
            4 => FlawReason::UseBeforeDefinition,
            5 => FlawReason::NotAnAssignment,
            6 => FlawReason::NotABlock,
            7 => FlawReason::ValueCount,
            8 => FlawReason::PredecessorOutOfRange,
            9 => FlawReason::DuplicateName,
            number => FlawReason::Unknown(number),
        };
        let name = match location {
            FlawLocation::Statement(position) => Decoder::name_at(code, position),
            _ => None,
        };
        Flaw {
            location,
            reason,
            name,
        }
    }
}

impl fmt::Display for FlawReason {
    fn fmt(&self, f: &mut fmt::Formatter<'_>) -> fmt::Result {
        f.write_str(match self {
            FlawReason::InvalidName => "the name is not % and letters, digits, _ or .",
            FlawReason::EmptyBits => "a list of bits is empty",
            FlawReason::ZeroWidth => "a width is 0",
            FlawReason::UseBeforeDefinition => "it uses what is not a statement before it",
            FlawReason::NotAnAssignment => "an operand is no assignment",
            FlawReason::NotABlock => "what it uses as a block is none",
            FlawReason::ValueCount => "it has not one value per predecessor of its block",
            FlawReason::PredecessorOutOfRange => "its block has no such predecessor",
            FlawReason::DuplicateName => "an assignment before it has the same name",
            FlawReason::Unknown(number) => return write!(f, "unknown({number})"),
        })
    }
}

impl fmt::Display for Flaw {
    fn fmt(&self, f: &mut fmt::Formatter<'_>) -> fmt::Result {
        show_location(self.location, self.name.as_deref(), f)?;
        write!(f, ": {}", self.reason)
    }
}

impl std::error::Error for Flaw {}

#[cfg(test)]
mod tests {
    use super::*;

    fn shown(location: u32, reason: u32, position: usize) -> String {
        let code = super::super::read(Kind::Lhs, "%x = var  pc %x 1  infer %x").unwrap();
        let found = raw::Flaw {
            status: raw::NOT_WELL_FORMED,
            location,
            reason,
            position,
        };
        Flaw::new(found, &code).to_string()
    }

    #[test]
    fn numbers_that_are_not_known_are_shown() {
        assert_eq!(shown(1, 3, 0), "statement 0 (%x): a width is 0");
        assert_eq!(shown(1, 10, 1), "statement 1: unknown(10)");
        assert_eq!(shown(1, 0, 7), "statement 7: unknown(0)");
        assert_eq!(shown(5, 3, 0), "unknown(5): a width is 0");
        assert_eq!(
            shown(u32::MAX, u32::MAX, 0),
            "unknown(4294967295): unknown(4294967295)"
        );
    }

    #[test]
    fn statuses_that_are_not_known_are_errors() {
        let error = canonical::Error::of_status(11);
        assert_eq!(error, canonical::Error::UnknownStatus(11));
        let shown = "the library returned the status unknown(11)";
        assert_eq!(error.to_string(), shown);
        assert_eq!(super::super::Error::from(error.clone()).to_string(), shown);
        assert_eq!(crate::stream::Error::from(error.clone()).to_string(), shown);
        assert_eq!(crate::parse::ParseError::from(error).to_string(), shown);
    }
}
