//! What the last lines of items use.
use super::{
    Cand, Id, Infer, LeftHandSide, Operand, Replacement, RightHandSide, Statement, ValueId,
};

/// The last lines of an item.
pub trait LastLines {
    /// The value of an infer line, and then the operands of the other lines, from left to right.
    fn last_lines(&self) -> (Option<ValueId>, [Option<Operand>; 2]);

    /// The same, to be changed.
    fn last_lines_mut(&mut self) -> (Option<&mut ValueId>, [Option<&mut Operand>; 2]);

    /// The ids of the values that the lines use, in their order.
    fn last_uses(&self) -> impl Iterator<Item = Id<Statement>> {
        let (value, operands) = self.last_lines();
        let operands = operands.into_iter().flatten();
        let values = operands.filter_map(|operand| match operand {
            Operand::Value(value) => Some(value),
            Operand::Constant(_) => None,
        });
        value.into_iter().chain(values).map(Id::from)
    }
}

impl LastLines for LeftHandSide {
    fn last_lines(&self) -> (Option<ValueId>, [Option<Operand>; 2]) {
        (Some(self.infer.value), [None; 2])
    }

    fn last_lines_mut(&mut self) -> (Option<&mut ValueId>, [Option<&mut Operand>; 2]) {
        (Some(&mut self.infer.value), [None, None])
    }
}

impl LastLines for RightHandSide {
    fn last_lines(&self) -> (Option<ValueId>, [Option<Operand>; 2]) {
        (None, [Some(self.result), None])
    }

    fn last_lines_mut(&mut self) -> (Option<&mut ValueId>, [Option<&mut Operand>; 2]) {
        (None, [Some(&mut self.result), None])
    }
}

impl LastLines for Replacement {
    fn last_lines(&self) -> (Option<ValueId>, [Option<Operand>; 2]) {
        match self {
            Replacement::LhsRhs {
                lhs: Infer { value, .. },
                rhs,
                ..
            } => (Some(*value), [Some(*rhs), None]),
            Replacement::Cand {
                cand: Cand { lhs, rhs, .. },
                ..
            } => (None, [Some(*lhs), Some(*rhs)]),
        }
    }

    fn last_lines_mut(&mut self) -> (Option<&mut ValueId>, [Option<&mut Operand>; 2]) {
        match self {
            Replacement::LhsRhs {
                lhs: Infer { value, .. },
                rhs,
                ..
            } => (Some(value), [Some(rhs), None]),
            Replacement::Cand {
                cand: Cand { lhs, rhs, .. },
                ..
            } => (None, [Some(lhs), Some(rhs)]),
        }
    }
}
