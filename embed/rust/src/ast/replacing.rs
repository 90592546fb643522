//! Statements and last lines with other operands in place of theirs.
use super::{
    Arena, AssignmentRhs, BlockPc, Id, LeftHandSide, Operand, Pc, Replacement, RightHandSide,
    Statement, ValueId,
};
use crate::code::Item;
use std::fmt;

impl Statement {
    /// Puts in the place of each operand, from left to right, what `f` returns for it.
    ///
    /// The block of a phi or of a path condition is no operand, and stays.
    pub fn map_operands(&mut self, mut f: impl FnMut(Operand) -> Operand) {
        match self {
            Statement::Assignment(assignment) => match &mut assignment.value {
                AssignmentRhs::Phi(phi) => phi.values.iter_mut().for_each(|it| *it = f(*it)),
                AssignmentRhs::Instruction(instruction) => {
                    *instruction = instruction.map_operands(f);
                }
                AssignmentRhs::Var
                | AssignmentRhs::Block(_)
                | AssignmentRhs::ReservedInst
                | AssignmentRhs::ReservedConst => {}
            },
            Statement::Pc(Pc { x, y }) | Statement::BlockPc(BlockPc { x, y, .. }) => {
                *x = f(*x);
                *y = f(*y);
            }
        }
    }

    /// Puts `by` in the place of each operand that is the value `of`. Nothing else changes.
    pub fn replace_uses(&mut self, of: ValueId, by: impl Into<Operand>) {
        let by = by.into();
        self.map_operands(|operand| replaced(operand, |value| (value == of).then_some(by)));
    }
}

impl Arena<Statement> {
    /// Puts `by` in the place of each operand of the statements that is the value `of`. Nothing else changes.
    pub fn replace_uses(&mut self, of: ValueId, by: impl Into<Operand>) {
        let by = by.into();
        for (_, statement) in self {
            statement.replace_uses(of, by);
        }
    }
}

// The operand in its place, of a value the one that the function returns.
fn replaced(operand: Operand, by: impl Fn(ValueId) -> Option<Operand>) -> Operand {
    match operand {
        Operand::Value(value) => by(value).unwrap_or(operand),
        Operand::Constant(_) => operand,
    }
}

// Puts the operand that the function returns in the place of each that is a value, also in the last lines. An infer line has a value,
// and keeps it where a constant would take its place.
fn replace<T: Item>(item: &mut T, by: impl Fn(ValueId) -> Option<Operand>) {
    for (_, statement) in item.statements_mut() {
        statement.map_operands(|operand| replaced(operand, &by));
    }
    let (infer, operands) = item.last_lines_mut();
    if let Some(value) = infer {
        if let Some(Operand::Value(other)) = by(*value) {
            *value = other;
        }
    }
    for operand in operands.into_iter().flatten() {
        *operand = replaced(*operand, &by);
    }
}

/// See [`Item::replace_uses`].
pub(crate) fn replace_uses<T: Item>(item: &mut T, of: ValueId, by: Operand) {
    replace(item, |value| (value == of).then_some(by));
}

/// See [`Item::replace_many`].
pub(crate) fn replace_many<T: Item>(
    item: &mut T,
    pairs: impl IntoIterator<Item = (ValueId, Operand)>,
) -> Result<(), Cycle> {
    let statements = item.statements();
    let mut by = vec![None; statements.len()];
    for (of, other) in pairs {
        if let Some(place) = statements.own(of.0).and_then(|index| by.get_mut(index)) {
            *place = (other != of.into()).then_some(other);
        }
    }
    let first = statements.id(0);
    let index_of = |value: ValueId| value.0.is_beside(first).then_some(value.0.index());
    follow(&mut by, index_of).map_err(|index| Cycle(first.with_index(index)))?;
    replace(item, |value| by.get(index_of(value)?).copied().flatten());
    Ok(())
}

// Lets each chain end: where a comes by b and b by c, a comes by c. The error is the index of a value to which its chain comes back.
fn follow(
    by: &mut [Option<Operand>],
    index_of: impl Fn(ValueId) -> Option<usize>,
) -> Result<(), usize> {
    // The index at which the chain began in which a value was seen first.
    let mut begin_of = vec![None; by.len()];
    let mut chain = Vec::new();
    for begin in 0..by.len() {
        let mut next = Some(begin);
        let mut end = None;
        while let Some(at) = next {
            let Some(other) = by.get(at).copied().flatten() else {
                break;
            };
            end = Some(other);
            match begin_of[at] {
                Some(seen) if seen == begin => return Err(at),
                // It has the end of its chain.
                Some(_) => break,
                None => begin_of[at] = Some(begin),
            }
            chain.push(at);
            next = match other {
                Operand::Value(value) => index_of(value),
                Operand::Constant(_) => None,
            };
        }
        for at in chain.drain(..) {
            by[at] = end;
        }
    }
    Ok(())
}

/// A value whose replacements come back to it: [`Item::replace_many`].
#[derive(Clone, Copy, Debug, PartialEq, Eq, Hash)]
pub struct Cycle(Id<Statement>);

impl Cycle {
    /// The id of the value.
    pub fn value(&self) -> ValueId {
        ValueId(self.0)
    }
}

impl fmt::Display for Cycle {
    fn fmt(&self, f: &mut fmt::Formatter<'_>) -> fmt::Result {
        let index = self.0.index();
        write!(
            f,
            "statement {index}: the replacements of a value come back to it"
        )
    }
}

impl std::error::Error for Cycle {}

impl LeftHandSide {
    /// Puts `by` in the place of each operand that is the value `of`, also in the infer line, unless `by` is a constant.
    ///
    /// [`Item::replace_uses`] is the same for each type, and says more.
    pub fn replace_uses(&mut self, of: ValueId, by: impl Into<Operand>) {
        replace_uses(self, of, by.into());
    }
}

impl RightHandSide {
    /// Puts `by` in the place of each operand that is the value `of`, also in the result line.
    ///
    /// [`Item::replace_uses`] is the same for each type, and says more.
    pub fn replace_uses(&mut self, of: ValueId, by: impl Into<Operand>) {
        replace_uses(self, of, by.into());
    }
}

impl Replacement {
    /// Puts `by` in the place of each operand that is the value `of`, also in the last lines; in an infer line not if `by` is a
    /// constant.
    ///
    /// [`Item::replace_uses`] is the same for each type, and says more.
    pub fn replace_uses(&mut self, of: ValueId, by: impl Into<Operand>) {
        replace_uses(self, of, by.into());
    }
}
