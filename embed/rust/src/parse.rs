//! Reads the text of items, from a string or a file.
//!
//! ```
//! use souper_ir::ast::{AssignmentRhs, Operand, Replacement};
//! use souper_ir::parse::parse_replacements_str;
//! use std::path::Path;
//!
//! let text = "
//!     ; if 2 < x, then 1 < x
//!     %x:i32 = var
//!     %above2 = slt 2, %x
//!     pc %above2 1
//!     %above1 = slt 1, %x
//!     cand %above1 1
//!
//!     ; phis of one block
//!     %bb = block 2
//!     %p = phi %bb, 1:i32, 2
//!     %q = phi %bb, 2:i32, 4
//!     %twice = mul %p, 2
//!     cand %q %twice
//! ";
//! let items = parse_replacements_str(text, Some(Path::new("example.souper")))?;
//! assert_eq!(items.len(), 2);
//!
//! let Replacement::Cand { statements, cand } = &items[1] else { panic!() };
//! assert_eq!(statements.len(), 4);
//! let Operand::Value(replaced) = cand.lhs else { panic!() };
//! let assignment = items[1].assignment(replaced);
//! assert_eq!(assignment.name, "%q");
//! let AssignmentRhs::Phi(phi) = &assignment.value else { panic!() };
//! assert_eq!(items[1].assignment(phi.block.into()).name, "%bb");
//! # Ok::<(), souper_ir::parse::ParseError>(())
//! ```
use crate::ast::{LeftHandSide, Replacement, RightHandSide};
use crate::canonical::{self, Location, Refusal};
use crate::code::{self, Item, NoCode};
use std::path::{Path, PathBuf};
use std::str::FromStr;
use std::{fmt, io};

/// Why a text or a file gives no items.
///
/// `Display` and `Debug` show a refused text as the original crate does, in four lines without a newline at the end: the name of the
/// file, or `unknown`, with the line, the column and the message, and then the line with a mark below its byte, the one before
/// [`ParseError::location`].
pub struct ParseError {
    reason: Box<Reason>,
}

enum Reason {
    Refused(Refusal, Option<PathBuf>),
    Io(io::Error),
    // The library has no answer, for another reason.
    Failed(canonical::Error),
    // The library wrote a code that is damaged, or of a newer form.
    NoCode(NoCode),
    // One item is wanted, and the text spells so many.
    Count(usize),
}

impl ParseError {
    /// Why and where the text was refused. `None` if a file could not be read, or if memory ran out.
    pub fn refusal(&self) -> Option<&Refusal> {
        match &*self.reason {
            Reason::Refused(refusal, _) => Some(refusal),
            _ => None,
        }
    }

    /// Where the text is at fault: [`Refusal::location`]. `None` also if a file could not be read, or if memory ran out.
    pub fn location(&self) -> Option<Location> {
        self.refusal()?.location()
    }

    /// What the writer of the text may have meant: [`Refusal::hint`].
    pub fn hint(&self) -> Option<&str> {
        self.refusal()?.hint()
    }

    /// Whether the text ended where more is wanted: [`Refusal::is_at_end`]. False also if a file could not be read, or if memory
    /// ran out.
    pub fn is_at_end(&self) -> bool {
        self.refusal().is_some_and(Refusal::is_at_end)
    }
}

impl fmt::Display for ParseError {
    fn fmt(&self, f: &mut fmt::Formatter<'_>) -> fmt::Result {
        match &*self.reason {
            Reason::Refused(refusal, Some(file)) => {
                let shown = refusal.original();
                let place = shown.strip_prefix("unknown").unwrap_or(shown);
                write!(f, "{}{place}", file.display())
            }
            Reason::Refused(refusal, None) => f.write_str(refusal.original()),
            Reason::Io(error) => write!(f, "IO error: {error}"),
            Reason::Failed(error) => error.fmt(f),
            Reason::NoCode(error) => error.fmt(f),
            Reason::Count(count) => write!(f, "the text spells {count} items, not one"),
        }
    }
}

impl fmt::Debug for ParseError {
    fn fmt(&self, f: &mut fmt::Formatter<'_>) -> fmt::Result {
        write!(f, "{self}")
    }
}

/// The source is the [`Refusal`], the `io::Error` or the [`NoCode`].
impl std::error::Error for ParseError {
    fn source(&self) -> Option<&(dyn std::error::Error + 'static)> {
        match &*self.reason {
            Reason::Refused(refusal, _) => Some(refusal),
            Reason::Io(error) => Some(error),
            Reason::NoCode(error) => Some(error),
            Reason::Failed(_) | Reason::Count(_) => None,
        }
    }
}

impl From<io::Error> for ParseError {
    fn from(error: io::Error) -> Self {
        Reason::Io(error).into()
    }
}

impl From<Refusal> for ParseError {
    fn from(refusal: Refusal) -> Self {
        Reason::Refused(refusal, None).into()
    }
}

impl From<canonical::Error> for ParseError {
    fn from(error: canonical::Error) -> Self {
        match error {
            canonical::Error::Refused(refusal) => refusal.into(),
            error => Reason::Failed(error).into(),
        }
    }
}

impl From<NoCode> for ParseError {
    fn from(error: NoCode) -> Self {
        Reason::NoCode(error).into()
    }
}

impl From<Reason> for ParseError {
    fn from(reason: Reason) -> Self {
        ParseError {
            reason: Box::new(reason),
        }
    }
}

/// The result of the functions of this module.
pub type Result<T> = std::result::Result<T, ParseError>;

/// The replacements that the text spells. The name of a file is for the error.
///
/// # Errors
///
/// If the text spells no list of replacements, or if memory runs out.
pub fn parse_replacements_str(source: &str, filename: Option<&Path>) -> Result<Vec<Replacement>> {
    items(source, filename)
}

/// The replacements that the file spells.
///
/// # Errors
///
/// If the file cannot be read or is not UTF-8, and as for [`parse_replacements_str`].
pub fn parse_replacements_file(path: &Path) -> Result<Vec<Replacement>> {
    items(&std::fs::read_to_string(path)?, Some(path))
}

/// The left-hand sides that the text spells. The name of a file is for the error.
///
/// # Errors
///
/// If the text spells no list of left-hand sides, or if memory runs out.
pub fn parse_left_hand_sides_str(
    source: &str,
    filename: Option<&Path>,
) -> Result<Vec<LeftHandSide>> {
    items(source, filename)
}

/// The left-hand sides that the file spells.
///
/// # Errors
///
/// If the file cannot be read or is not UTF-8, and as for [`parse_left_hand_sides_str`].
pub fn parse_left_hand_sides_file(path: &Path) -> Result<Vec<LeftHandSide>> {
    items(&std::fs::read_to_string(path)?, Some(path))
}

/// The right-hand sides that the text spells. The name of a file is for the error.
///
/// # Errors
///
/// If the text spells no list of right-hand sides, or if memory runs out.
pub fn parse_right_hand_sides_str(
    source: &str,
    filename: Option<&Path>,
) -> Result<Vec<RightHandSide>> {
    items(source, filename)
}

/// The right-hand sides that the file spells.
///
/// # Errors
///
/// If the file cannot be read or is not UTF-8, and as for [`parse_right_hand_sides_str`].
pub fn parse_right_hand_sides_file(path: &Path) -> Result<Vec<RightHandSide>> {
    items(&std::fs::read_to_string(path)?, Some(path))
}

fn items<T: Item>(source: &str, filename: Option<&Path>) -> Result<Vec<T>> {
    code::read_items(source).map_err(|mut error: ParseError| {
        if let Reason::Refused(_, file) = &mut *error.reason {
            *file = filename.map(Path::to_path_buf);
        }
        error
    })
}

fn one<T: Item>(text: &str) -> Result<T> {
    let mut items = items(text, None)?;
    match (items.pop(), items.len()) {
        (Some(item), 0) => Ok(item),
        (last, others) => Err(Reason::Count(others + usize::from(last.is_some())).into()),
    }
}

macro_rules! from_str {
    ($item:ident) => {
        /// The one item that the text spells.
        ///
        /// # Errors
        ///
        /// As for the functions of [`parse`](crate::parse), and if the text spells another number of items.
        impl FromStr for $item {
            type Err = ParseError;

            fn from_str(text: &str) -> Result<Self> {
                one(text)
            }
        }
    };
}

from_str!(LeftHandSide);
from_str!(RightHandSide);
from_str!(Replacement);
