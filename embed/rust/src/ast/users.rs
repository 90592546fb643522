//! What uses each statement of an item.
use super::{Id, Statement, Use};
use crate::code::Item;
use std::mem;

/// What uses each statement of an item, made once: [`Item::users`]. It does not follow changes of the item.
#[derive(Clone, Debug)]
pub struct Users {
    first: Id<Statement>,
    // Where the users of each statement end in `all`.
    ends: Vec<usize>,
    all: Vec<Id<Statement>>,
    in_last: Vec<bool>,
}

impl Users {
    pub(crate) fn new(item: &impl Item) -> Self {
        let statements = item.statements();
        let mut ends = vec![0; statements.len()];
        each(item, |used, _| ends[used] += 1);
        let mut total = 0;
        for end in &mut ends {
            total += mem::replace(end, total);
        }
        let mut all = vec![statements.id(0); total];
        each(item, |used, user| {
            all[ends[used]] = user;
            ends[used] += 1;
        });
        let mut in_last = vec![false; statements.len()];
        for used in item.last_uses() {
            if let Some(used) = statements
                .own(used)
                .and_then(|index| in_last.get_mut(index))
            {
                *used = true;
            }
        }
        Users {
            first: statements.id(0),
            ends,
            all,
            in_last,
        }
    }

    /// The statements that use this one, each once, in their order.
    pub fn of(&self, id: impl Into<Id<Statement>>) -> &[Id<Statement>] {
        let id = id.into();
        match self.ends.get(id.index()) {
            Some(end) if id.is_beside(self.first) => {
                let before = id.index().checked_sub(1);
                &self.all[before.map_or(0, |before| self.ends[before])..*end]
            }
            _ => &[],
        }
    }

    /// Whether a last line uses this statement.
    pub fn in_last_lines(&self, id: impl Into<Id<Statement>>) -> bool {
        let id = id.into();
        id.is_beside(self.first) && self.in_last.get(id.index()).is_some_and(|used| *used)
    }
}

// Calls the function with the index of each statement that is used, and each of its users.
fn each(item: &impl Item, mut take: impl FnMut(usize, Id<Statement>)) {
    let statements = item.statements();
    // The last user that was seen of each.
    let mut user_of = vec![None; statements.len()];
    for (user, statement) in statements {
        for used in statement.uses() {
            let index = statements.own(used.id());
            let Some(last) = index.and_then(|index| user_of.get_mut(index)) else {
                continue;
            };
            if last.replace(user) != Some(user) {
                take(used.id().index(), user);
            }
        }
    }
}

impl Use {
    /// The id of the statement that is used.
    pub fn id(self) -> Id<Statement> {
        match self {
            Use::Value(value) => value.into(),
            Use::Block(block) => block.into(),
        }
    }
}
