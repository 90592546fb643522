//! Statements that are sorted, inserted and moved.
use super::builders::Numbers;
use super::{
    Arena, Assignment, AssignmentRhs, BlockId, BlockPc, Id, Operand, Phi, Statement, ValueId,
};
use crate::code::Item;
use std::mem;

type StatementId = Id<Statement>;

/// See [`Item::sort`].
pub(crate) fn sort(item: &mut impl Item) -> Vec<StatementId> {
    let statements = item.statements_mut();
    let order = sorted(statements);
    let mut ids = vec![statements.id(0); order.len()];
    let values = statements.values_mut();
    let mut unsorted: Vec<_> = mem::take(values).into_iter().map(Some).collect();
    values.extend(order.iter().filter_map(|index| unsorted[*index].take()));
    for (position, index) in order.into_iter().enumerate() {
        ids[index] = statements.id(position);
    }
    renumber(item, |index| ids.get(index).map_or(index, |id| id.index()));
    make_names(item.statements_mut());
    ids
}

/// See [`Item::insert_before`].
pub(crate) fn insert_before(
    item: &mut impl Item,
    place: StatementId,
    statement: Statement,
) -> StatementId {
    let statements = item.statements_mut();
    let at = place_of(statements, place);
    let inserted = statements.id(at);
    statements.alloc(statement);
    renumber(item, |index| index.saturating_add(usize::from(index >= at)));
    let statements = item.statements_mut();
    statements.values_mut()[at..].rotate_right(1);
    make_names(statements);
    inserted
}

/// See [`Item::move_before`].
pub(crate) fn move_before(
    item: &mut impl Item,
    which: StatementId,
    place: StatementId,
) -> StatementId {
    let statements = item.statements_mut();
    let (from, to) = (place_of(statements, which), place_of(statements, place));
    assert!(from < statements.len(), "an id of a statement");
    // Its new index, and the indexes between the two places.
    let at = if to > from { to - 1 } else { to };
    let between = from.min(at)..=from.max(at);
    let moved = &mut statements.values_mut()[between.clone()];
    if at < from {
        moved.rotate_right(1);
    } else {
        moved.rotate_left(1);
    }
    renumber(item, |index| match index {
        _ if index == from => at,
        _ if !between.contains(&index) => index,
        _ if at < from => index + 1,
        _ => index - 1,
    });
    let statements = item.statements_mut();
    make_names(statements);
    statements.id(at)
}

// The index of an id, or the length if it is past the end.
fn place_of(statements: &Arena<Statement>, id: StatementId) -> usize {
    let index = statements.own(id).expect("an id of this item");
    index.min(statements.len())
}

// The indexes of the statements in an order in which each assignment comes before its uses: a walk in depth, from each in turn.
fn sorted(statements: &Arena<Statement>) -> Vec<usize> {
    enum Step {
        Uses(usize),
        Itself(usize),
    }
    let mut order = Vec::with_capacity(statements.len());
    let mut seen = vec![false; statements.len()];
    let mut path = Vec::new();
    for from in 0..statements.len() {
        path.push(Step::Uses(from));
        while let Some(step) = path.pop() {
            let index = match step {
                Step::Uses(index) => index,
                Step::Itself(index) => {
                    order.push(index);
                    continue;
                }
            };
            if mem::replace(&mut seen[index], true) {
                continue;
            }
            path.push(Step::Itself(index));
            let begin = path.len();
            let Some((_, statement)) = statements.at(index) else {
                continue;
            };
            for used in statement.uses() {
                if let Some(Statement::Assignment(_)) = statements.get(used.id()) {
                    path.push(Step::Uses(used.id().index()));
                }
            }
            path[begin..].reverse();
        }
    }
    order
}

// Puts, in the place of each id of the item, the id of the index that the function returns for its own.
fn renumber<T: Item>(item: &mut T, number: impl Fn(usize) -> usize) {
    let statements = item.statements_mut();
    let first = statements.id(0);
    let value = |ValueId(id): ValueId| {
        ValueId(if id.is_beside(first) {
            id.with_index(number(id.index()))
        } else {
            id
        })
    };
    let operand = |operand| match operand {
        Operand::Value(used) => Operand::Value(value(used)),
        Operand::Constant(_) => operand,
    };
    for (_, statement) in statements {
        if let Statement::BlockPc(BlockPc { block, .. })
        | Statement::Assignment(Assignment {
            value: AssignmentRhs::Phi(Phi { block, .. }),
            ..
        }) = statement
        {
            *block = BlockId(value(block.0));
        }
        statement.map_operands(operand);
    }
    let (infer, operands) = item.last_lines_mut();
    if let Some(infer) = infer {
        *infer = value(*infer);
    }
    for last in operands.into_iter().flatten() {
        *last = operand(*last);
    }
}

// Gives each assignment without a name `%` and its position, or the next number that no name has.
fn make_names(statements: &mut Arena<Statement>) {
    let is_unnamed = |statement: &Statement| matches!(statement, Statement::Assignment(it) if it.name.is_empty());
    if !statements.iter().any(|(_, it)| is_unnamed(it)) {
        return;
    }
    let mut names = Numbers::of(statements);
    for (id, statement) in statements {
        if let Statement::Assignment(Assignment { name, .. }) = statement {
            if name.is_empty() {
                *name = names.make(id.index());
            }
        }
    }
}
