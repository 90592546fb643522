//! Items of Souper IR as values: left-hand sides, right-hand sides, replacements, and their parts.
//!
//! The statements of an item are in an [`Arena`], in the order of the text; an operand names an earlier one by its id. Values are
//! made by [`parse`](crate::parse) or by a builder, and the three items have `Display`.
//!
//! A parsed item is *well formed*. An item that was built or changed is well formed if, in the statements that it needs,
//!
//! - each operand and each block is the id of an earlier assignment of the item, and a block is the id of a `block`;
//! - a phi has a value for each predecessor of its block, and a block path condition has the index of a predecessor;
//! - names are `%` and one or more of the characters `0` to `9`, `a` to `z`, `A` to `Z`, `_` and `.`, and no two are the same;
//! - no width is 0, and no list of bits is empty.
//!
//! An item needs the statements that its last lines and its path conditions use, directly or not, and the path conditions.
mod attributes;
mod builders;
mod instruction;
mod items;
mod last_lines;
mod operands;
mod order;
mod replacing;
mod statements;
mod users;
mod uses;

pub use crate::arena::{Arena, Id};
pub use attributes::{Attribute, RootAttribute};
pub use builders::{LeftHandSideBuilder, ReplacementBuilder, RightHandSideBuilder};
pub use instruction::Instruction;
pub use items::{Cand, Infer, LeftHandSide, Replacement, RightHandSide};
pub(crate) use last_lines::LastLines;
pub use operands::{BlockId, Constant, Operand, Type, ValueId};
pub(crate) use order::{insert_before, move_before, sort};
pub use replacing::Cycle;
pub(crate) use replacing::{replace_many, replace_uses};
pub use statements::{Assignment, AssignmentRhs, Block, BlockPc, Pc, Phi, Statement, Var};
pub use users::Users;
pub use uses::Use;

// The assignment of a value.
fn assignment(statements: &Arena<Statement>, id: ValueId) -> &Assignment {
    match statements.get(id.into()) {
        Some(Statement::Assignment(assignment)) => assignment,
        _ => panic!("the id is of no assignment among these statements"),
    }
}
