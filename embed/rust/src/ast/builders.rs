//! Builders of items, statement by statement.
use super::{
    assignment, Arena, Assignment, AssignmentRhs, Attribute, Block, BlockId, BlockPc, Cand, Infer,
    LeftHandSide, Operand, Pc, Replacement, RightHandSide, RootAttribute, Statement, Type, ValueId,
};
use std::collections::BTreeSet;

/// Builds a [`LeftHandSide`].
#[derive(Clone, Debug, Default)]
pub struct LeftHandSideBuilder {
    statements: Arena<Statement>,
    names: Numbers,
}

/// Builds a [`RightHandSide`].
#[derive(Clone, Debug, Default)]
pub struct RightHandSideBuilder {
    statements: Arena<Statement>,
    names: Numbers,
}

/// Builds a [`Replacement`].
#[derive(Clone, Debug, Default)]
pub struct ReplacementBuilder {
    statements: Arena<Statement>,
    names: Numbers,
}

// The names that are numbers.
#[derive(Clone, Debug, Default)]
pub(super) struct Numbers {
    // Those that were given.
    given: BTreeSet<usize>,
    // The least that was not tried yet.
    next: usize,
}

impl Numbers {
    pub(super) fn of(statements: &Arena<Statement>) -> Self {
        let mut names = Numbers::default();
        for (_, statement) in statements {
            if let Statement::Assignment(Assignment { name, .. }) = statement {
                names.give(name);
            }
        }
        names
    }

    fn give(&mut self, name: &str) {
        let digits = name.strip_prefix('%').unwrap_or_default();
        if digits == "0" || digits.starts_with(|digit: char| digit.is_ascii_digit() && digit != '0')
        {
            self.given.extend(digits.parse::<usize>());
        }
    }

    // `%` and this number, or the next that was not given.
    pub(super) fn make(&mut self, position: usize) -> String {
        self.next = self.next.max(position);
        while self.given.contains(&self.next) {
            self.next += 1;
        }
        self.next += 1;
        format!("%{}", self.next - 1)
    }
}

// What the builders have.
macro_rules! statement_methods {
    () => {
        /// Appends an assignment, and returns the id of its value.
        ///
        /// Without a name, the value is called `%` and the number of statements before, or the next number that no name has.
        ///
        /// # Panics
        ///
        /// If the name does not begin with `%`.
        pub fn assignment(
            &mut self,
            name: Option<String>,
            r#type: Option<Type>,
            value: impl Into<AssignmentRhs>,
            attributes: Vec<Attribute>,
        ) -> ValueId {
            let name = match name {
                Some(name) => {
                    self.names.give(&name);
                    name
                }
                None => self.names.make(self.statements.len()),
            };
            assert!(
                name.starts_with('%'),
                "statement {} ({name}): a name begins with %",
                self.statements.len()
            );
            let value = value.into();
            let statement = Assignment {
                name,
                r#type,
                value,
                attributes,
            };
            ValueId(self.statements.alloc(statement.into()))
        }

        /// Appends a block that can be entered from that number of predecessors, and returns its id.
        ///
        /// # Panics
        ///
        /// If the name does not begin with `%`.
        pub fn block(&mut self, name: Option<String>, predecessors: u32) -> BlockId {
            BlockId(self.assignment(name, None, Block { predecessors }, Vec::new()))
        }

        /// Appends the path condition that `x` equals `y`.
        pub fn pc(&mut self, x: impl Into<Operand>, y: impl Into<Operand>) {
            let (x, y) = (x.into(), y.into());
            self.statements.alloc(Pc { x, y }.into());
        }

        /// Appends the condition that `x` equals `y` if control comes to the block from the predecessor.
        ///
        /// The item is not well formed if the predecessor is none of the block; this is not tested here.
        pub fn block_pc(
            &mut self,
            block: BlockId,
            predecessor: u32,
            x: impl Into<Operand>,
            y: impl Into<Operand>,
        ) {
            let (x, y) = (x.into(), y.into());
            let condition = BlockPc {
                block,
                predecessor,
                x,
                y,
            };
            self.statements.alloc(condition.into());
        }
    };
}

impl LeftHandSideBuilder {
    statement_methods!();

    /// The assignment of a value.
    ///
    /// # Panics
    ///
    /// If the id is not one that this builder returned.
    pub fn get_value(&self, id: ValueId) -> &Assignment {
        assignment(&self.statements, id)
    }

    /// The left-hand side whose root is the value `lhs`.
    pub fn finish(
        self,
        lhs: ValueId,
        attributes: impl IntoIterator<Item = RootAttribute>,
    ) -> LeftHandSide {
        LeftHandSide {
            statements: self.statements,
            infer: Infer {
                value: lhs,
                attributes: attributes.into_iter().collect(),
            },
        }
    }
}

impl ReplacementBuilder {
    statement_methods!();

    /// The replacement of the value `lhs` by `rhs`, in a line `infer` and a line `result`.
    pub fn finish(
        self,
        lhs: ValueId,
        rhs: impl Into<Operand>,
        attributes: impl IntoIterator<Item = RootAttribute>,
    ) -> Replacement {
        Replacement::LhsRhs {
            statements: self.statements,
            lhs: Infer {
                value: lhs,
                attributes: attributes.into_iter().collect(),
            },
            rhs: rhs.into(),
        }
    }

    /// The replacement of the operand `lhs` by `rhs`, in one line `cand`.
    pub fn finish_cand(
        self,
        lhs: impl Into<Operand>,
        rhs: impl Into<Operand>,
        attributes: impl IntoIterator<Item = RootAttribute>,
    ) -> Replacement {
        Replacement::Cand {
            statements: self.statements,
            cand: Cand {
                lhs: lhs.into(),
                rhs: rhs.into(),
                attributes: attributes.into_iter().collect(),
            },
        }
    }
}

impl RightHandSideBuilder {
    statement_methods!();

    /// The right-hand side that is `result`.
    pub fn finish(self, result: impl Into<Operand>) -> RightHandSide {
        RightHandSide {
            statements: self.statements,
            result: result.into(),
        }
    }
}

// A builder that continues after statements.
macro_rules! goes_on {
    ($builder:ident) => {
        /// A builder that continues after the statements. Each keeps its id, and names that are made are none of theirs.
        impl From<Arena<Statement>> for $builder {
            fn from(statements: Arena<Statement>) -> Self {
                let names = Numbers::of(&statements);
                $builder { statements, names }
            }
        }
    };
}

goes_on!(LeftHandSideBuilder);
goes_on!(RightHandSideBuilder);
goes_on!(ReplacementBuilder);

/// A builder that continues after the statements of the item. Each keeps its id; the last line is dropped.
impl From<LeftHandSide> for LeftHandSideBuilder {
    fn from(item: LeftHandSide) -> Self {
        item.statements.into()
    }
}

/// A builder that continues after the statements of the item. Each keeps its id; the last line is dropped.
impl From<RightHandSide> for RightHandSideBuilder {
    fn from(item: RightHandSide) -> Self {
        item.statements.into()
    }
}

/// A builder that continues after the statements of the item. Each keeps its id; the last line is dropped.
impl From<LeftHandSide> for ReplacementBuilder {
    fn from(item: LeftHandSide) -> Self {
        item.statements.into()
    }
}

/// A builder that continues after the statements of the item. Each keeps its id; the last lines are dropped.
impl From<Replacement> for ReplacementBuilder {
    fn from(item: Replacement) -> Self {
        let (Replacement::LhsRhs { statements, .. } | Replacement::Cand { statements, .. }) = item;
        statements.into()
    }
}
