//! Operands: ids of values, and constants.
use super::{Id, Statement};
use std::fmt;

/// The id of an assignment, and so of the value that it defines.
#[derive(Copy, Clone, Debug, PartialEq, Eq, Hash)]
pub struct ValueId(pub(crate) Id<Statement>);

/// The id of an assignment whose right side is a [`Block`](super::Block).
#[derive(Copy, Clone, Debug, PartialEq, Eq, Hash)]
pub struct BlockId(pub(crate) ValueId);

impl From<ValueId> for Id<Statement> {
    fn from(value: ValueId) -> Self {
        value.0
    }
}

/// The value of the assignment with this id. That there is one is not tested.
impl From<Id<Statement>> for ValueId {
    fn from(id: Id<Statement>) -> Self {
        ValueId(id)
    }
}

impl From<BlockId> for ValueId {
    fn from(block: BlockId) -> Self {
        block.0
    }
}

impl From<BlockId> for Id<Statement> {
    fn from(block: BlockId) -> Self {
        block.0 .0
    }
}

/// An operand of an instruction, a phi, a path condition or a last line.
#[derive(Copy, Clone, Debug, PartialEq, Eq, Hash)]
pub enum Operand {
    /// The value of an earlier assignment.
    Value(ValueId),
    /// A number.
    Constant(Constant),
}

impl From<ValueId> for Operand {
    fn from(value: ValueId) -> Self {
        Operand::Value(value)
    }
}

/// The value of the assignment with this id. That there is one is not tested.
impl From<Id<Statement>> for Operand {
    fn from(id: Id<Statement>) -> Self {
        Operand::Value(id.into())
    }
}

impl From<Constant> for Operand {
    fn from(constant: Constant) -> Self {
        Operand::Constant(constant)
    }
}

/// A number, with or without a type.
#[derive(Copy, Clone, Debug, PartialEq, Eq, Hash)]
pub struct Constant {
    /// The number.
    pub value: i128,
    /// Its type, if the text gives one.
    pub r#type: Option<Type>,
}

impl Constant {
    /// The constant of a type of 1 to 128 bits that has these bits, of which the lowest `width` count.
    ///
    /// It is signed, as Souper prints constants. (`255:i8` is well formed too, and another graph with another text.)
    ///
    /// ```
    /// use souper_ir::ast::{Constant, Type};
    ///
    /// assert_eq!(Constant::from_bits(0xff, Type { width: 8 }).to_string(), "-1:i8");
    /// assert_eq!(Constant::from_bits(0x7f, Type { width: 8 }).to_string(), "127:i8");
    /// ```
    ///
    /// # Panics
    ///
    /// If the type has other bits.
    pub fn from_bits(bits: u128, r#type: Type) -> Constant {
        let width = r#type.width;
        assert!(
            (1..=128).contains(&width),
            "a width {width} is not in 1 to 128"
        );
        let above = 128 - u32::from(width);
        Constant {
            value: ((bits << above) as i128) >> above,
            r#type: Some(r#type),
        }
    }
}

/// `5`, or `5:i32`.
impl fmt::Display for Constant {
    fn fmt(&self, f: &mut fmt::Formatter<'_>) -> fmt::Result {
        write!(f, "{}", self.value)?;
        match self.r#type {
            Some(ty) => write!(f, ":{ty}"),
            None => Ok(()),
        }
    }
}

/// An integer type.
#[derive(Copy, Clone, Debug, PartialEq, Eq, Hash)]
pub struct Type {
    /// The number of bits, from 1.
    pub width: u16,
}

/// `i32`.
impl fmt::Display for Type {
    fn fmt(&self, f: &mut fmt::Formatter<'_>) -> fmt::Result {
        write!(f, "i{}", self.width)
    }
}
