//! Statements, and the right sides of assignments.
use super::{Attribute, BlockId, Instruction, Operand, Type};
use std::fmt;

/// A line of an item before its last lines.
#[derive(Clone, Debug, PartialEq, Eq, Hash)]
pub enum Statement {
    /// An assignment.
    Assignment(Assignment),
    /// A path condition.
    Pc(Pc),
    /// A block path condition.
    BlockPc(BlockPc),
}

impl From<Assignment> for Statement {
    fn from(assignment: Assignment) -> Self {
        Statement::Assignment(assignment)
    }
}

impl From<Pc> for Statement {
    fn from(condition: Pc) -> Self {
        Statement::Pc(condition)
    }
}

impl From<BlockPc> for Statement {
    fn from(condition: BlockPc) -> Self {
        Statement::BlockPc(condition)
    }
}

/// Gives a name to a value.
#[derive(Clone, Debug, PartialEq, Eq, Hash)]
pub struct Assignment {
    /// The name, with its `%`.
    pub name: String,
    /// The type, if the text gives one.
    pub r#type: Option<Type>,
    /// The right side.
    pub value: AssignmentRhs,
    /// Facts about the value.
    pub attributes: Vec<Attribute>,
}

/// The right side of an assignment.
#[derive(Clone, Debug, PartialEq, Eq, Hash)]
pub enum AssignmentRhs {
    /// `var`: an input.
    Var,
    /// `block`: a basic block.
    Block(Block),
    /// `phi`: a value for each way into a block.
    Phi(Phi),
    /// `reservedinst`: an instruction that is yet to be found.
    ReservedInst,
    /// `reservedconst`: a constant that is yet to be found.
    ReservedConst,
    /// An instruction.
    Instruction(Instruction),
}

impl From<Block> for AssignmentRhs {
    fn from(block: Block) -> Self {
        AssignmentRhs::Block(block)
    }
}

impl From<Phi> for AssignmentRhs {
    fn from(phi: Phi) -> Self {
        AssignmentRhs::Phi(phi)
    }
}

impl From<Instruction> for AssignmentRhs {
    fn from(instruction: Instruction) -> Self {
        AssignmentRhs::Instruction(instruction)
    }
}

/// An input and the facts about it. As in the original, nothing else has this type.
#[derive(Clone, Debug, PartialEq, Eq, Hash)]
pub struct Var {
    /// Facts about the input.
    pub attributes: Vec<Attribute>,
}

/// A basic block.
#[derive(Clone, Debug, PartialEq, Eq, Hash)]
pub struct Block {
    /// The number of ways into the block.
    pub predecessors: u32,
}

/// `block 2`.
impl fmt::Display for Block {
    fn fmt(&self, f: &mut fmt::Formatter<'_>) -> fmt::Result {
        write!(f, "block {}", self.predecessors)
    }
}

/// The value that belongs to the predecessor from which control came.
///
/// Control comes from one predecessor, and so all phis of a block take the value at the same index: with
///
/// ```text
/// %bb = block 2
/// %a = phi %bb, 1, 2
/// %b = phi %bb, 3, 4
/// ```
///
/// `%a` is 1 if and only if `%b` is 3.
#[derive(Clone, Debug, PartialEq, Eq, Hash)]
pub struct Phi {
    /// The block.
    pub block: BlockId,
    /// A value for each predecessor of the block.
    pub values: Vec<Operand>,
}

/// A path condition: the item is for inputs with which `x` equals `y`.
#[derive(Clone, Debug, PartialEq, Eq, Hash)]
pub struct Pc {
    /// What equals `y`.
    pub x: Operand,
    /// What equals `x`.
    pub y: Operand,
}

/// A block path condition: if control comes to the block from a predecessor, `x` equals `y`.
#[derive(Clone, Debug, PartialEq, Eq, Hash)]
pub struct BlockPc {
    /// The block.
    pub block: BlockId,
    /// The index of the predecessor, from 0 and below the number of predecessors of the block.
    pub predecessor: u32,
    /// What equals `y`.
    pub x: Operand,
    /// What equals `x`.
    pub y: Operand,
}
