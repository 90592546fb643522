//! The byte code of items, as the library reads and writes it. `crates/souper_code/src/lib.rt` describes it.
//!
//! A text is parsed by [`read`] and [`decode`], and an item is printed by [`encode`] and [`write()`]. The code of a list of items
//! is the codes of the items, one after the other.
//!
//! ```
//! use souper_ir::ast::LeftHandSide;
//! use souper_ir::canonical::Kind;
//! use souper_ir::code;
//!
//! let code = code::read(Kind::Lhs, "%unused = var  %x = var  infer %x")?;
//! let items: Vec<LeftHandSide> = code::decode(&code)?;
//! assert_eq!(code::encode(&items), code);
//! assert_eq!(code::write(Kind::Lhs, &code)?, "%x = var\ninfer %x\n\n");
//! # Ok::<(), Box<dyn std::error::Error>>(())
//! ```
mod decoder;
mod encoder;
mod errors;
mod flaw;
mod widths;

use crate::ast::{
    self, Arena, Cycle, Id, LastLines, LeftHandSide, Operand, Replacement, RightHandSide,
    Statement, Users, ValueId,
};
use crate::canonical::{self, Kind};
use crate::raw::{self, Call};
use decoder::{Decode, Decoder};
use encoder::Encode;
pub use errors::{Error, NoCode};
pub use flaw::{Flaw, FlawLocation, FlawReason};
pub use widths::{WidthFlaw, WidthReason, Widths};

/// A type of item: [`LeftHandSide`], [`RightHandSide`] or [`Replacement`].
pub trait Item: Decode + Encode + LastLines {
    /// The kind of the texts that spell such items.
    const KIND: Kind;

    /// The statements.
    fn statements(&self) -> &Arena<Statement>;

    /// The statements, to be changed. The last lines stay.
    fn statements_mut(&mut self) -> &mut Arena<Statement>;

    /// Puts `by` in the place of each operand that is the value `of`, also in the last lines.
    ///
    /// An infer line has a value, and keeps it if `by` is a constant. Nothing else changes: the blocks of phis and of path
    /// conditions are no operands. Whether the item is [well formed](crate::ast) then is not tested.
    ///
    /// ```
    /// use souper_ir::ast::{Assignment, AssignmentRhs, Constant, Instruction, LeftHandSide, Operand, Statement};
    /// use souper_ir::code::Item;
    /// use souper_ir::parse::parse_left_hand_sides_str;
    ///
    /// // What a sum is that adds 0.
    /// fn without_zero(statement: &Statement) -> Option<Operand> {
    ///     let Statement::Assignment(Assignment { value: AssignmentRhs::Instruction(sum), .. }) = statement else { return None };
    ///     match sum {
    ///         Instruction::Add { a, b: Operand::Constant(Constant { value: 0, .. }) } => Some(*a),
    ///         _ => None,
    ///     }
    /// }
    ///
    /// // Puts `a` in the place of each use of an `add a, 0`.
    /// fn drop_zeros<T: Item>(item: &mut T) {
    ///     let ids: Vec<_> = item.statements().iter().map(|(id, _)| id).collect();
    ///     for id in ids {
    ///         if let Some(a) = without_zero(&item.statements()[id]) {
    ///             item.replace_uses(id.into(), a);
    ///         }
    ///     }
    /// }
    ///
    /// let text = "%x:i8 = var  %1:i8 = add %x, 0:i8  %2:i8 = add %1, 0:i8  %3:i8 = mul %2, %1  infer %3";
    /// let mut item: LeftHandSide = parse_left_hand_sides_str(text, None)?.remove(0);
    /// drop_zeros(&mut item);
    /// assert_eq!(item.to_text()?, "%x:i8 = var\n%3:i8 = mul %x, %x\ninfer %3\n");
    /// # Ok::<(), Box<dyn std::error::Error>>(())
    /// ```
    fn replace_uses(&mut self, of: ValueId, by: impl Into<Operand>) {
        ast::replace_uses(self, of, by.into());
    }

    /// Puts an operand in the place of each use of each value, in one walk, as [`replace_uses`](Item::replace_uses) does of one value.
    ///
    /// What comes in the place of a value is replaced in turn: of a by b and b by 5, both become 5. A value by itself stays. If a value has
    /// two pairs, the last one counts.
    ///
    /// ```
    /// use souper_ir::ast::{Constant, LeftHandSide, Operand, ValueId};
    /// use souper_ir::code::Item;
    /// use std::collections::HashMap;
    ///
    /// let mut item: LeftHandSide = "%x = var  %1 = add %x, 0  %2 = add %1, 0  %3 = mul %2, %1  infer %3".parse()?;
    /// let ids: Vec<ValueId> = item.statements.iter().map(|(id, _)| id.into()).collect();
    /// item.replace_many(HashMap::from([(ids[1], ids[0].into()), (ids[2], ids[1].into())]))?;
    /// assert_eq!(item.to_text()?, "%x = var\n%3 = mul %x, %x\ninfer %3\n");
    /// # Ok::<(), Box<dyn std::error::Error>>(())
    /// ```
    ///
    /// # Errors
    ///
    /// If the replacements of a value come back to it, as of a by b and b by a. Nothing changes then.
    fn replace_many(
        &mut self,
        pairs: impl IntoIterator<Item = (ValueId, Operand)>,
    ) -> Result<(), Cycle> {
        ast::replace_many(self, pairs)
    }

    /// What uses each statement, made once, in time linear in the item.
    ///
    /// ```
    /// use souper_ir::ast::LeftHandSide;
    /// use souper_ir::code::Item;
    ///
    /// let item: LeftHandSide = "%x = var  %y = mul %x, %x  pc %x 1  infer %y".parse()?;
    /// let ids: Vec<_> = item.statements.iter().map(|(id, _)| id).collect();
    /// let users = item.users();
    /// assert_eq!(users.of(ids[0]), &ids[1..]);
    /// assert!(users.of(ids[1]).is_empty() && users.in_last_lines(ids[1]));
    /// # Ok::<(), Box<dyn std::error::Error>>(())
    /// ```
    fn users(&self) -> Users {
        Users::new(self)
    }

    /// Puts each assignment before the statements that use it, so that a pass may append statements and then call this.
    ///
    /// A statement that stands too late comes right before the first that uses it, and the order of the others stays. An assignment whose
    /// name is empty gets a name as from a builder. Where statements use one another in a cycle, a use before its definition remains.
    ///
    /// An id is a position, so the uses of statements that move get other ids. Returns the new id of each statement, by the index before.
    /// It takes time linear in the item, without recursion.
    ///
    /// ```
    /// use souper_ir::ast::{Assignment, Constant, Instruction, LeftHandSide, Statement};
    /// use souper_ir::code::Item;
    ///
    /// let mut item: LeftHandSide = "%x = var  %y = mul %x, 3  infer %y".parse()?;
    /// let (x, y) = (item.statements.iter().next().unwrap().0, item.infer.value);
    /// let shift = Instruction::Shl { a: x.into(), b: Constant { value: 1, r#type: None }.into() };
    /// let (name, value) = (String::new(), shift.into());
    /// let shift = item.statements.alloc(Assignment { name, r#type: None, value, attributes: vec![] }.into());
    /// let Statement::Assignment(product) = &mut item.statements[y.into()] else { unreachable!() };
    /// product.value = Instruction::Add { a: shift.into(), b: x.into() }.into();
    /// item.sort();
    /// assert_eq!(item.to_text()?, "%x = var\n%1 = shl %x, 1\n%y = add %1, %x\ninfer %y\n");
    /// # Ok::<(), Box<dyn std::error::Error>>(())
    /// ```
    fn sort(&mut self) -> Vec<Id<Statement>> {
        ast::sort(self)
    }

    /// Inserts a statement before the one at `place`, or at the end if that is the arena's `next_id`. Returns its id.
    ///
    /// The statements from `place` on are at the next position then, so that ids of them that the caller has are those of the statement
    /// before. The ids in the statement are, as `place` is, those from before. An assignment whose name is empty gets a name as from a
    /// builder. It takes time linear in the item: to insert many, append them and call [`sort`](Item::sort).
    ///
    /// # Panics
    ///
    /// If `place` is an id of another item.
    fn insert_before(
        &mut self,
        place: Id<Statement>,
        statement: impl Into<Statement>,
    ) -> Id<Statement> {
        ast::insert_before(self, place, statement.into())
    }

    /// Moves a statement before the one at `place`, or to the end if that is the arena's `next_id`. Returns its new id.
    ///
    /// The statements between the two places move by one position. An assignment whose name is empty gets a name as from a builder. It takes
    /// time linear in the item.
    ///
    /// # Panics
    ///
    /// If an id is of another item, or `which` is past the end.
    fn move_before(&mut self, which: Id<Statement>, place: Id<Statement>) -> Id<Statement> {
        ast::move_before(self, which, place)
    }

    /// The canonical text, as `Display` writes it, or an error if there is none. (`to_string` and `write!` panic if there is none.)
    ///
    /// ```
    /// use souper_ir::ast::LeftHandSide;
    /// use souper_ir::code::Item;
    /// use souper_ir::parse::parse_left_hand_sides_str;
    /// use std::io::Write;
    ///
    /// fn print(item: &LeftHandSide, out: &mut impl Write) -> Result<(), Box<dyn std::error::Error>> {
    ///     Ok(out.write_all(item.to_text()?.as_bytes())?)
    /// }
    ///
    /// let mut item = parse_left_hand_sides_str("%unused = var  %x = var  infer %x", None)?.remove(0);
    /// let mut out = Vec::new();
    /// print(&item, &mut out)?;
    /// assert_eq!(out, b"%x = var\ninfer %x\n");
    /// item.statements = Default::default();
    /// let error = print(&item, &mut out).unwrap_err();
    /// assert_eq!(error.to_string(), "item 0 is not well formed: infer line: an operand is no assignment");
    /// # Ok::<(), Box<dyn std::error::Error>>(())
    /// ```
    ///
    /// # Errors
    ///
    /// [`Error::NotWellFormed`], with the flaw, or [`Error::OutOfMemory`].
    fn to_text(&self) -> Result<String, Error> {
        let mut text = self.with_code(|code| write(Self::KIND, code))?;
        // The newline that the library writes after each item.
        text.pop();
        Ok(text)
    }

    /// The first flaw of the item, or `None` if it is [well formed](crate::ast).
    ///
    /// ```
    /// use souper_ir::ast::LeftHandSide;
    /// use souper_ir::code::Item;
    /// use souper_ir::parse::parse_left_hand_sides_str;
    ///
    /// let mut item = parse_left_hand_sides_str("%x = var  infer %x", None)?.remove(0);
    /// assert_eq!(item.flaw()?, None);
    /// item.statements = Default::default();
    /// let flaw = item.flaw()?.expect("the root is gone");
    /// assert_eq!(flaw.to_string(), "infer line: an operand is no assignment");
    /// # Ok::<(), Box<dyn std::error::Error>>(())
    /// ```
    ///
    /// # Errors
    ///
    /// [`Error::OutOfMemory`].
    fn flaw(&self) -> Result<Option<Flaw>, Error> {
        Ok(self.with_code(|code| Flaw::of_code(Self::KIND, code))?)
    }

    /// The widths of the item, or its first flaw if it has none.
    ///
    /// ```
    /// use souper_ir::ast::LeftHandSide;
    /// use souper_ir::code::Item;
    /// use souper_ir::parse::parse_left_hand_sides_str;
    ///
    /// let item = parse_left_hand_sides_str("%x:i8 = var  %y = add %x, 1  infer %y", None)?.remove(0);
    /// let widths = item.widths()??;
    /// assert_eq!(widths.results, [8, 8]);
    /// assert_eq!(widths.operands, [0, 8]);
    /// let item = parse_left_hand_sides_str("%x:i8 = var  %y:i9 = add %x, 1  infer %y", None)?.remove(0);
    /// let flaw = item.widths()?.unwrap_err();
    /// assert_eq!(flaw.to_string(), "statement 1 (%y): i8 and i9 clash");
    /// # Ok::<(), Box<dyn std::error::Error>>(())
    /// ```
    ///
    /// # Errors
    ///
    /// [`Error::NotWellFormed`], with the flaw, or [`Error::OutOfMemory`].
    fn widths(&self) -> Result<Result<Widths, WidthFlaw>, Error> {
        self.with_code(|code| Widths::of_code(Self::KIND, code))
    }
}

impl Item for LeftHandSide {
    const KIND: Kind = Kind::Lhs;

    fn statements(&self) -> &Arena<Statement> {
        &self.statements
    }

    fn statements_mut(&mut self) -> &mut Arena<Statement> {
        &mut self.statements
    }
}

impl Item for RightHandSide {
    const KIND: Kind = Kind::Rhs;

    fn statements(&self) -> &Arena<Statement> {
        &self.statements
    }

    fn statements_mut(&mut self) -> &mut Arena<Statement> {
        &mut self.statements
    }
}

impl Item for Replacement {
    const KIND: Kind = Kind::Rep;

    fn statements(&self) -> &Arena<Statement> {
        let (Replacement::LhsRhs { statements, .. } | Replacement::Cand { statements, .. }) = self;
        statements
    }

    fn statements_mut(&mut self) -> &mut Arena<Statement> {
        let (Replacement::LhsRhs { statements, .. } | Replacement::Cand { statements, .. }) = self;
        statements
    }
}

/// The code of the items that the text spells, with all their statements.
///
/// # Errors
///
/// If the text spells no list of items of the kind, or if memory runs out.
pub fn read(kind: Kind, text: &str) -> Result<Vec<u8>, canonical::Error> {
    canonical::written(Call::Read, kind, text, CODE)
}

// The code of `%1=fshl 1,2,3` has six times its length.
const CODE: usize = 7;

// The items that the text spells. The code is decoded part by part.
pub(crate) fn read_items<T, E>(text: &str) -> Result<Vec<T>, E>
where
    T: Item,
    E: From<canonical::Error> + From<NoCode>,
{
    canonical::in_parts(Call::Read, T::KIND, text, CODE, |items, code| {
        Ok(decode_to(code, items)?)
    })
}

/// The canonical text of each item of the code, a newline after each.
///
/// # Errors
///
/// If the bytes are no code of items of the kind, if an item is not well formed, with its first flaw, or if memory runs out.
pub fn write(kind: Kind, code: &[u8]) -> Result<String, Error> {
    let mut text = Vec::new();
    write_to(kind, code, &mut text)?;
    text.shrink_to_fit();
    Ok(String::from_utf8(text).expect("the library writes UTF-8"))
}

// As `write`, to a buffer that may have anything in it.
pub(crate) fn write_to(kind: Kind, code: &[u8], text: &mut Vec<u8>) -> Result<(), Error> {
    let outcome = raw::call(Call::Write, kind, code, 2 * code.len() + 64, text);
    match outcome.status {
        raw::DONE => Ok(()),
        raw::NO_CODE => Err(NoCode::new(outcome.offset).into()),
        raw::NOT_WELL_FORMED => {
            let item = code.get(outcome.offset..).unwrap_or_default();
            Err(Error::NotWellFormed {
                index: outcome.length,
                flaw: Flaw::of_code(kind, item)?,
            })
        }
        status => Err(canonical::Error::of_status(status).into()),
    }
}

/// The items of a code.
///
/// Every length and number is tested, and every operand must be an earlier assignment of its item. Whether the items are
/// [well formed](crate::ast) otherwise is not tested.
///
/// # Errors
///
/// If the bytes are no such code.
pub fn decode<T: Item>(code: &[u8]) -> Result<Vec<T>, NoCode> {
    let mut items = Vec::new();
    decode_to(code, &mut items)?;
    Ok(items)
}

fn decode_to<T: Item>(code: &[u8], items: &mut Vec<T>) -> Result<(), NoCode> {
    let mut decoder = Decoder::new(code);
    while !decoder.is_at_end() {
        let offset = decoder.offset();
        items.push(T::decode(&mut decoder).ok_or(NoCode::new(offset))?);
    }
    Ok(())
}

/// The code of the items.
///
/// An operand with an id of another arena gets a position past the end.
pub fn encode<T: Item>(items: &[T]) -> Vec<u8> {
    let mut code = Vec::new();
    for item in items {
        item.encode(&mut code);
    }
    code
}
