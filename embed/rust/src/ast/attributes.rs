//! Facts about values, and about the roots of items.
use std::fmt::{self, Write};

/// A fact about the value of an assignment.
#[derive(Clone, Debug, PartialEq, Eq, Hash)]
pub enum Attribute {
    /// `knownBits`: for each bit, in the order of the text, whether it is set, or `None` if that is not known.
    KnownBits(Vec<Option<bool>>),
    /// `powerOfTwo`: it is a power of two.
    PowerOfTwo,
    /// `negative`: it is below 0.
    Negative,
    /// `nonNegative`: it is not below 0.
    NonNegative,
    /// `nonZero`: it is not 0.
    NonZero,
    /// `hasExternalUses`: instructions outside of the item use it too.
    HasExternalUses,
    /// `signBits`: how many of the upper bits are known to equal the sign.
    SignBits(u8),
    /// `range`: it is not below the first number, and below the second.
    Range(i128, i128),
}

/// `(nonZero)`, with the parentheses.
impl fmt::Display for Attribute {
    fn fmt(&self, f: &mut fmt::Formatter<'_>) -> fmt::Result {
        match self {
            Attribute::KnownBits(bits) => {
                f.write_str("(knownBits=")?;
                bits.iter().try_for_each(|bit| {
                    f.write_char(match bit {
                        None => 'x',
                        Some(bit) => digit(*bit),
                    })
                })?;
                f.write_char(')')
            }
            Attribute::PowerOfTwo => f.write_str("(powerOfTwo)"),
            Attribute::Negative => f.write_str("(negative)"),
            Attribute::NonNegative => f.write_str("(nonNegative)"),
            Attribute::NonZero => f.write_str("(nonZero)"),
            Attribute::HasExternalUses => f.write_str("(hasExternalUses)"),
            Attribute::SignBits(number) => write!(f, "(signBits={number})"),
            Attribute::Range(low, high) => write!(f, "(range=[{low},{high}))"),
        }
    }
}

/// A fact about the root of an item.
#[derive(Clone, Debug, PartialEq, Eq, Hash)]
pub enum RootAttribute {
    /// `demandedBits`: for each bit, in the order of the text, whether it is used.
    DemandedBits(Vec<bool>),
    /// `harvestedFromUse`: the item was found where the value is used, not where it is defined.
    HarvestedFromUse,
}

/// `(harvestedFromUse)`, with the parentheses.
impl fmt::Display for RootAttribute {
    fn fmt(&self, f: &mut fmt::Formatter<'_>) -> fmt::Result {
        match self {
            RootAttribute::DemandedBits(bits) => {
                f.write_str("(demandedBits=")?;
                bits.iter().try_for_each(|bit| f.write_char(digit(*bit)))?;
                f.write_char(')')
            }
            RootAttribute::HarvestedFromUse => f.write_str("(harvestedFromUse)"),
        }
    }
}

fn digit(bit: bool) -> char {
    if bit {
        '1'
    } else {
        '0'
    }
}
