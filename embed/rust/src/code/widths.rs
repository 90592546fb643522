//! The widths of an item, or why it has none.
use super::decoder::Decoder;
use super::flaw::{location_of, show_location};
use super::{Error, Flaw, FlawLocation};
use crate::canonical::{self, Kind};
use crate::raw;
use std::fmt;

/// The widths of an item, in bits. A width is 0 where there is none, and of a statement that the item does not need.
#[derive(Clone, Debug, PartialEq, Eq, Hash)]
#[non_exhaustive]
pub struct Widths {
    /// Of the result of each statement, by position. A block and a path condition have none.
    pub results: Vec<u32>,
    /// Of the operands of each statement. The condition of a `select` has one bit besides, and the index of `extractvalue` has none.
    pub operands: Vec<u32>,
    /// Of the operands of the last lines.
    pub root: u32,
}

/// Where an item has no widths, and why: its first flaw.
#[derive(Clone, Debug, PartialEq, Eq, Hash)]
#[non_exhaustive]
pub struct WidthFlaw {
    /// The statement or the last line that has the flaw.
    pub location: FlawLocation,
    /// What is wrong there.
    pub reason: WidthReason,
    /// The name of the statement, if it is an assignment.
    pub name: Option<String>,
}

/// Why an item has no widths.
#[derive(Clone, Copy, Debug, PartialEq, Eq, Hash)]
#[non_exhaustive]
pub enum WidthReason {
    /// A block has a type.
    TypedBlock,
    /// A fact is about a value that is no input.
    FactOnComputed,
    /// An operand or a root is a block.
    BlockAsValue,
    /// An operand or a root is the value of a word that ends in `.with.overflow`.
    PairAsValue,
    /// The first operand of `extractvalue` is none.
    NotAPair,
    /// The second is not the constant 0 or 1.
    BadIndex,
    /// A width has to be both of these.
    Conflict {
        /// The one.
        left: u32,
        /// The other.
        right: u32,
    },
    /// Nothing says which width it is.
    Undetermined,
    /// The result of `zext` or `sext` is not wider than its operand.
    NotWider,
    /// The result of `trunc` is not narrower.
    NotNarrower,
    /// The width of `bswap` is not a multiple of 16.
    ByteSwap,
    /// A constant does not fit its width.
    ConstantTooWide,
    /// Known bits or demanded bits are not as many as the width.
    BitCount,
    /// There are more sign bits than the width has.
    SignBits,
    /// An end of a range does not fit, or its ends are equal and say neither that no number is in it nor that each is.
    Range,
    /// What a newer library calls by this number.
    Unknown(u32),
}

impl Widths {
    // Those of the item that the code begins with, or its first flaw.
    pub(super) fn of_code(kind: Kind, code: &[u8]) -> Result<Result<Self, WidthFlaw>, Error> {
        let (found, mut results) = raw::widths(kind, code);
        match found.status {
            raw::DONE => {
                let operands = results.split_off(results.len() / 2);
                let root = found.root;
                Ok(Ok(Widths {
                    results,
                    operands,
                    root,
                }))
            }
            raw::NO_WIDTHS => Ok(Err(WidthFlaw::new(found, code))),
            raw::NOT_WELL_FORMED => Err(Error::NotWellFormed {
                index: 0,
                flaw: Flaw::of_code(kind, code)?,
            }),
            status => Err(canonical::Error::of_status(status).into()),
        }
    }
}

impl WidthReason {
    fn new(found: raw::Widths) -> Self {
        match found.reason {
            1 => WidthReason::TypedBlock,
            2 => WidthReason::FactOnComputed,
            3 => WidthReason::BlockAsValue,
            4 => WidthReason::PairAsValue,
            5 => WidthReason::NotAPair,
            6 => WidthReason::BadIndex,
            7 => WidthReason::Conflict {
                left: found.left,
                right: found.right,
            },
            8 => WidthReason::Undetermined,
            9 => WidthReason::NotWider,
            10 => WidthReason::NotNarrower,
            11 => WidthReason::ByteSwap,
            12 => WidthReason::ConstantTooWide,
            13 => WidthReason::BitCount,
            14 => WidthReason::SignBits,
            15 => WidthReason::Range,
            number => WidthReason::Unknown(number),
        }
    }
}

impl WidthFlaw {
    // The flaw with these numbers of `souper.h`, of the item that the code begins with.
    fn new(found: raw::Widths, code: &[u8]) -> Self {
        let location = location_of(found.location, found.position);
        let name = match location {
            FlawLocation::Statement(position) => Decoder::name_at(code, position),
            _ => None,
        };
        WidthFlaw {
            location,
            reason: WidthReason::new(found),
            name,
        }
    }
}

impl fmt::Display for WidthReason {
    fn fmt(&self, f: &mut fmt::Formatter<'_>) -> fmt::Result {
        f.write_str(match self {
            WidthReason::TypedBlock => "a block has no width",
            WidthReason::FactOnComputed => "only an input has facts",
            WidthReason::BlockAsValue => "a block is no value",
            WidthReason::PairAsValue => {
                "only extractvalue takes the value of a word .with.overflow"
            }
            WidthReason::NotAPair => "extractvalue takes the value of a word .with.overflow",
            WidthReason::BadIndex => "the index of extractvalue is 0 or 1",
            WidthReason::Conflict { left, right } => {
                return write!(f, "i{left} and i{right} clash")
            }
            WidthReason::Undetermined => "a width is missing",
            WidthReason::NotWider => "the result is not wider than the operand",
            WidthReason::NotNarrower => "the result is not narrower than the operand",
            WidthReason::ByteSwap => "the width of bswap is a multiple of 16",
            WidthReason::ConstantTooWide => "a constant does not fit its width",
            WidthReason::BitCount => "not as many bits as the width",
            WidthReason::SignBits => "more sign bits than the width",
            WidthReason::Range => "not a range of the width",
            WidthReason::Unknown(number) => return write!(f, "unknown({number})"),
        })
    }
}

impl fmt::Display for WidthFlaw {
    fn fmt(&self, f: &mut fmt::Formatter<'_>) -> fmt::Result {
        show_location(self.location, self.name.as_deref(), f)?;
        write!(f, ": {}", self.reason)
    }
}

impl std::error::Error for WidthFlaw {}
