//! What a statement uses: values as operands, and blocks; and its operands.
use super::{Assignment, AssignmentRhs, BlockId, BlockPc, Operand, Pc, Statement, ValueId};

/// A use of a statement by another one: of its value, or of its block.
#[derive(Copy, Clone, Debug, PartialEq, Eq, Hash)]
pub enum Use {
    /// The value is an operand.
    Value(ValueId),
    /// The block is that of a phi or of a path condition.
    Block(BlockId),
}

impl Statement {
    /// What the statement uses, in the order of its text, repeats kept: the block of a phi or of a path condition first, and then
    /// each operand that is a value.
    ///
    /// ```
    /// use souper_ir::ast::Use;
    /// use souper_ir::parse::parse_left_hand_sides_str;
    ///
    /// let items = parse_left_hand_sides_str("%b = block 2  %x = var  %p = phi %b, %x, 1  infer %p", None)?;
    /// let phi = &items[0].statements[items[0].infer.value.into()];
    /// let positions: Vec<_> = phi
    ///     .uses()
    ///     .map(|it| match it {
    ///         Use::Block(block) => ("block", souper_ir::ast::Id::from(block).index()),
    ///         Use::Value(value) => ("value", souper_ir::ast::Id::from(value).index()),
    ///     })
    ///     .collect();
    /// assert_eq!(positions, [("block", 0), ("value", 1)]);
    /// # Ok::<(), souper_ir::parse::ParseError>(())
    /// ```
    pub fn uses(&self) -> impl Iterator<Item = Use> + '_ {
        let (block, few, many) = self.parts();
        let operands = few.into_iter().flatten().chain(many.iter().copied());
        let values = operands.filter_map(|operand| match operand {
            Operand::Value(id) => Some(Use::Value(id)),
            Operand::Constant(_) => None,
        });
        block.map(Use::Block).into_iter().chain(values)
    }

    /// The operands, from left to right: values and constants. The block of a phi or of a path condition is none.
    pub fn operands(&self) -> impl Iterator<Item = Operand> + '_ {
        let (_, few, many) = self.parts();
        few.into_iter().flatten().chain(many.iter().copied())
    }

    // The block, and the operands: of an instruction or a path condition, and of a phi.
    fn parts(&self) -> (Option<BlockId>, [Option<Operand>; 3], &[Operand]) {
        match self {
            Statement::Assignment(Assignment { value, .. }) => match value {
                AssignmentRhs::Phi(phi) => (Some(phi.block), [None; 3], &phi.values),
                AssignmentRhs::Instruction(instruction) => (None, instruction.up_to_three(), &[]),
                AssignmentRhs::Var
                | AssignmentRhs::Block(_)
                | AssignmentRhs::ReservedInst
                | AssignmentRhs::ReservedConst => (None, [None; 3], &[]),
            },
            Statement::Pc(Pc { x, y }) => (None, [Some(*x), Some(*y), None], &[]),
            Statement::BlockPc(BlockPc { block, x, y, .. }) => {
                (Some(*block), [Some(*x), Some(*y), None], &[])
            }
        }
    }
}
