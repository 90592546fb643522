//! [Souper](https://github.com/google/souper) IR as Rust values: a drop-in for the crate `souper-ir` 2.1.0.
//!
//! One line of `Cargo.toml` takes this crate in place of the original, and programs stay as they are:
//!
//! ```toml
//! souper-ir = { package = "souper-ir-proved", path = "embed/rust" }
//! ```
//!
//! Texts are read and printed by `libsouper_c.a`, a library in Rattle. Its contracts are proved: which texts are valid and which
//! items they spell, and that a printed text reads back to the same graph. This crate turns the library's byte code into values and
//! values into byte code; it is tested, not proved. The build looks for the library in the folder that `SOUPER_LIB_DIR` names,
//! or else beside `build.rs`.
//!
//! # Read
//!
//! ```
//! use souper_ir::ast::{AssignmentRhs, Instruction, Operand, Replacement};
//! use souper_ir::parse::parse_replacements_str;
//! use std::path::Path;
//!
//! let text = "
//!     ; x + x is 2x
//!     %x = var
//!     %sum = add %x, %x
//!     %double = mul %x, 2
//!     cand %sum %double
//! ";
//! // The name is for errors.
//! let items = parse_replacements_str(text, Some(Path::new("sums.souper")))?;
//!
//! let Replacement::Cand { statements, cand } = &items[0] else { panic!("it has a cand line") };
//! let names: Vec<_> = statements.iter().map(|(id, _)| id.index()).collect();
//! assert_eq!(names, [0, 1, 2]);
//! let Operand::Value(double) = cand.rhs else { panic!("it is a value") };
//! let AssignmentRhs::Instruction(Instruction::Mul { a, b }) = &items[0].assignment(double).value else {
//!     panic!("it is a product")
//! };
//! let (Operand::Value(x), Operand::Constant(two)) = (a, b) else { panic!("x and 2") };
//! assert_eq!((items[0].assignment(*x).name.as_str(), two.value), ("%x", 2));
//! # Ok::<(), souper_ir::parse::ParseError>(())
//! ```
//!
//! # Build and print
//!
//! ```
//! use souper_ir::ast::{AssignmentRhs, Constant, Instruction, LeftHandSideBuilder, Type};
//! use std::fmt::Write;
//!
//! let mut lhs = LeftHandSideBuilder::default();
//! let width = Some(Type { width: 32 });
//! let x = lhs.assignment(Some("%x".into()), width, AssignmentRhs::Var, vec![]);
//! let two = Constant { value: 2, r#type: None };
//! let product = Instruction::Mul { a: x.into(), b: two.into() };
//! let y = lhs.assignment(Some("%y".into()), None, product, vec![]);
//! lhs.pc(x, Constant { value: 5, r#type: None });
//! let lhs = lhs.finish(y, vec![]);
//!
//! let mut text = String::new();
//! write!(text, "{lhs}")?;
//! assert_eq!(text, "%x:i32 = var\n%y = mul %x, 2\npc %x 5\ninfer %y\n");
//! # Ok::<(), std::fmt::Error>(())
//! ```
//!
//! # Differences
//!
//! | `souper-ir` 2.1.0 | This crate |
//! |---|---|
//! | `Display` drops path conditions | it prints the canonical text, with the path conditions and the statements that they need |
//! | `Display` prints texts that cannot be read, or panics | it gives `fmt::Error` for an item that is not [well formed](ast), and then `to_string` panics, and `write!` to an `io::Write` too; [`code::Item::to_text`] returns an error, and [`code::Item::flaw`] why |
//! | a builder's value without a name may get the name of another value | it gets the next number that no name of the builder has |
//! | a `blockpc` may name a predecessor that its block has not | the text is refused |
//! | `cand %1, %2` is refused | it is read, and printed without the comma |
//! | some messages about numbers out of range are the standard library's of the day; past column 65,535 an error panics | fixed messages; no panic |
//! | `Parser`, `Parse`, `Peek`: a parser of single nodes | not there: the library reads texts of whole items |
//! | `Arena` and `Id` are types of the crate `id_arena` | types of the module [`arena`], with the methods that users of the values call; their `Debug` prints other text |
//! | the features `parse` and `stringify` | accepted, without effect: parsing and printing are always there |
//! | memory that runs out ends the process | in the library it is an error; where this crate makes values, it ends the process |
//!
//! Besides the original, there are [`canonical`] (texts without values), [`code`] (the byte code of items), [`stream`] (items of a
//! stream that comes in parts), [`ast::Constant::from_bits`], and [`refusal`](parse::ParseError::refusal), [`location`](parse::ParseError::location) and
//! [`is_at_end`](parse::ParseError::is_at_end) of [`parse::ParseError`]. Passes have [`ast::Statement::uses`], [`map_operands`](ast::Statement::map_operands),
//! [`replace_uses`](code::Item::replace_uses) of statements and items, [`replace_many`](code::Item::replace_many),
//! [`users`](code::Item::users), [`sort`](code::Item::sort), [`insert_before`](code::Item::insert_before) and
//! [`move_before`](code::Item::move_before) of items, [`operands`](ast::Statement::operands), [`word`](ast::Instruction::word) of instructions,
//! [`ast::RightHandSideBuilder`], [`finish_cand`](ast::ReplacementBuilder::finish_cand), and builders that continue after an item. The values have `==` and `Hash`, and an item is `FromStr`: `text.parse::<LeftHandSide>()`.
//!
//! Enums that a newer library may extend are `non_exhaustive`. The types of the original stay exhaustive, as they are there. Each error
//! has the error that it wraps as its `source`; its own message has the text of that one.
//!
//! There is no state; calls may run on any threads at once.
//!
//! # Features
//!
//! - `heap` (by default): the heap that the library calls, over a buffer of each thread and `malloc` of the C library. Without
//!   it, the program links another, such as `embed/heap.c`. A dependency with `default-features = false` names this feature.
#![deny(unsafe_code)]
#![warn(missing_docs, missing_debug_implementations)]

pub mod arena;
pub mod ast;
pub mod canonical;
pub mod code;
mod display;
pub mod parse;
mod raw;
pub mod stream;
