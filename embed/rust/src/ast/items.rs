//! The three types of items, and their last lines.
use super::{assignment, Arena, Assignment, Operand, RootAttribute, Statement, ValueId};
use crate::code;
use std::hash::{Hash, Hasher};
use std::slice;

/// A left-hand side and a right-hand side for it.
#[derive(Clone, Debug)]
pub enum Replacement {
    /// The sides by a line `infer` and a line `result`.
    LhsRhs {
        /// The statements of both.
        statements: Arena<Statement>,
        /// The line `infer`, with the value that is to be replaced.
        lhs: Infer,
        /// The operand of the line `result`, which takes its place.
        rhs: Operand,
    },
    /// The sides by one line `cand`.
    Cand {
        /// The statements of both.
        statements: Arena<Statement>,
        /// The line `cand`.
        cand: Cand,
    },
}

impl Replacement {
    /// The assignment of a value.
    ///
    /// # Panics
    ///
    /// If the id is of no assignment of this replacement.
    pub fn assignment(&self, id: ValueId) -> &Assignment {
        let (Replacement::LhsRhs { statements, .. } | Replacement::Cand { statements, .. }) = self;
        assignment(statements, id)
    }
}

/// The line `cand`.
#[derive(Clone, Debug, PartialEq, Eq, Hash)]
pub struct Cand {
    /// The replaced operand.
    pub lhs: Operand,
    /// The operand that takes its place.
    pub rhs: Operand,
    /// Facts about the replaced operand.
    pub attributes: Vec<RootAttribute>,
}

/// A value for which something cheaper is wanted.
#[derive(Clone, Debug)]
pub struct LeftHandSide {
    /// The statements.
    pub statements: Arena<Statement>,
    /// The line `infer`, with the value.
    pub infer: Infer,
}

/// The line `infer`.
#[derive(Clone, Debug, PartialEq, Eq, Hash)]
pub struct Infer {
    /// The value that is to be replaced.
    pub value: ValueId,
    /// Facts about it.
    pub attributes: Vec<RootAttribute>,
}

/// An operand that may take the place of a value, with the statements that it needs.
#[derive(Clone, Debug)]
pub struct RightHandSide {
    /// The statements.
    pub statements: Arena<Statement>,
    /// The operand of the line `result`.
    pub result: Operand,
}

// Equality of items: that of their codes, in which a value is the position of its statement.
macro_rules! equal_by_code {
    ($item:ident) => {
        /// Two items are equal if their statements and their last lines are, one by one. Ids count by their positions, so that
        /// texts that are read twice give equal items; ids of other items are all alike. Names and the order of the statements
        /// count, needed or not. Two items are the same graph if their canonical texts are equal.
        impl PartialEq for $item {
            fn eq(&self, other: &Self) -> bool {
                code::encode(slice::from_ref(self)) == code::encode(slice::from_ref(other))
            }
        }

        impl Eq for $item {}

        impl Hash for $item {
            fn hash<H: Hasher>(&self, state: &mut H) {
                code::encode(slice::from_ref(self)).hash(state);
            }
        }
    };
}

equal_by_code!(LeftHandSide);
equal_by_code!(RightHandSide);
equal_by_code!(Replacement);
