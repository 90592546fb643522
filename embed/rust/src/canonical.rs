//! Canonical texts, whether texts are canonical or have the same graphs, keys, and what replacements answer for left-hand sides;
//! without values.
//!
//! Two items have the same canonical text if and only if they are the same graph: a one-to-one map between the statements
//! that they need carries one to the other. Names and the order of path conditions count; the order of other statements
//! does not.
//!
//! ```
//! use souper_ir::canonical::{format, same, Error, Kind};
//!
//! let a = "%x:i8 = var  %y:i8 = var  %z:i8 = add %x, 1:i8  infer %z";
//! let b = "%x:i8 = var\n%z:i8 = add %x, 1:i8\ninfer %z";
//! assert_eq!(format(Kind::Lhs, a)?, "%x:i8 = var\n%z:i8 = add %x, 1:i8\ninfer %z\n\n");
//! assert!(same(Kind::Lhs, a, b)?);
//! # Ok::<(), Error>(())
//! ```
use crate::raw::{self, Call, Outcome};
use std::fmt;

/// A kind of items, which a text is read as.
#[derive(Clone, Copy, Debug, PartialEq, Eq, Hash)]
#[repr(u32)]
pub enum Kind {
    /// Left-hand sides, each ended by `infer`.
    Lhs = 0,
    /// Right-hand sides, each ended by `result`.
    Rhs = 1,
    /// Replacements, each ended by `cand`, or by `infer` and `result`.
    Rep = 2,
}

/// The form of the records of [`key()`]. By default a record is the canonical text and a newline.
#[derive(Clone, Copy, Debug, Default, PartialEq, Eq, Hash)]
pub struct Record {
    /// Before the text a line `; ` with the key: the SHA-256 of the text, in 64 hexadecimal digits.
    pub key: bool,
    /// Names `%0`, `%1` and so on, in the order in which the text has the values.
    pub renamed: bool,
    /// A byte 0 in place of that newline.
    pub null: bool,
}

/// Where a text is at fault: where the token at fault begins or, if the text ended where more is wanted, where it ends, without
/// the white space at its end.
#[derive(Clone, Copy, Debug, PartialEq, Eq, Hash)]
pub struct Location {
    /// In bytes, from the first byte of the text.
    pub offset: usize,
    /// From 1.
    pub line: usize,
    /// In bytes and from 1.
    pub column: usize,
}

/// Why and where a text was refused.
#[derive(Clone, Debug, PartialEq, Eq)]
pub struct Refusal {
    details: Box<Details>,
}

#[derive(Clone, Debug, PartialEq, Eq)]
struct Details {
    shown: String,
    // What the original crate shows: the line and the column of the byte before.
    original: String,
    offset: usize,
    line: usize,
    column: usize,
    input: usize,
    location: Option<Location>,
    at_end: bool,
    hint: Option<String>,
}

impl Refusal {
    /// Why and where, in four lines without a newline at the end: at [`Refusal::location`] or, without one, at [`Refusal::line`] and
    /// [`Refusal::column`]. `Display` writes it as well.
    pub fn shown(&self) -> &str {
        &self.details.shown
    }

    pub(crate) fn original(&self) -> &str {
        &self.details.original
    }

    /// The message alone: the first line of [`Refusal::shown`] without the place.
    ///
    /// ```
    /// use souper_ir::canonical::{format, Error, Kind};
    ///
    /// let Err(Error::Refused(refusal)) = format(Kind::Lhs, "infer %y") else { panic!("%y is unknown") };
    /// assert_eq!(refusal.message(), "no value named '%y' in scope");
    /// ```
    pub fn message(&self) -> &str {
        parts(&self.details.shown).map_or(&self.details.shown, |(message, _)| message)
    }

    /// How many bytes were read.
    pub fn offset(&self) -> usize {
        self.details.offset
    }

    /// The line of the last byte that was read, or of the first of the text if there is none; from 1.
    pub fn line(&self) -> usize {
        self.details.line
    }

    /// The column of that byte, in bytes and from 1.
    pub fn column(&self) -> usize {
        self.details.column
    }

    /// Where the text is at fault. The line and the column of [`Refusal::line`] and [`Refusal::column`] are of the byte before.
    /// `None` if memory ran out for it.
    ///
    /// ```
    /// use souper_ir::canonical::{format, Error, Kind, Location};
    ///
    /// let Err(Error::Refused(refusal)) = format(Kind::Lhs, "%x = var\ninfer %y") else { panic!("%y is unknown") };
    /// assert_eq!(refusal.location(), Some(Location { offset: 15, line: 2, column: 7 }));
    /// assert!(!refusal.is_at_end());
    /// ```
    pub fn location(&self) -> Option<Location> {
        self.details.location
    }

    /// Whether the text ended where more is wanted, so that a longer text might not be refused. False without a location.
    pub fn is_at_end(&self) -> bool {
        self.details.at_end
    }

    /// What the writer may have meant, for a person, in one line. `None` if there is no hint.
    ///
    /// ```
    /// use souper_ir::canonical::{format, Error, Kind};
    ///
    /// let Err(Error::Refused(refusal)) = format(Kind::Lhs, "%sum = var  infer %sun") else { panic!("%sun is unknown") };
    /// assert_eq!(refusal.hint(), Some("did you mean '%sum'?"));
    /// ```
    pub fn hint(&self) -> Option<&str> {
        self.details.hint.as_deref()
    }

    /// Which text of the call was refused: 0 for the first, 1 for the second.
    pub fn input(&self) -> usize {
        self.details.input
    }

    // Gives the refusal of a segment its place, its location and its hint in the stream.
    pub(crate) fn place(&mut self, before: &Before, kind: Kind, segment: &[u8]) {
        let own = &mut *self.details;
        if before.lines > 0 && own.hint.is_some() {
            own.hint = hint(kind, before.lines, segment);
        }
        let last_line = String::from_utf8_lossy(&before.last_line);
        let (Some((message, text)), Some((_, mut text_before))) =
            (parts(&own.shown), parts(&own.original))
        else {
            unreachable!("a refusal has four lines")
        };
        if own.offset == 0 && before.bytes > 0 {
            // The byte before is the newline of the line before.
            (own.line, own.column) = (before.lines, before.last_line.len());
            text_before = line_at(&last_line, own.column - 1);
        } else {
            own.line += before.lines;
        }
        let original = four_lines(message, own.line, own.column, text_before);
        own.shown = match &mut own.location {
            Some(at) => {
                at.offset += before.bytes;
                at.line += before.lines;
                four_lines(message, at.line, at.column, text)
            }
            None => original.clone(),
        };
        own.original = original;
        own.offset += before.bytes;
    }
}

// The message, and the line of the text, of the four lines that show a refusal.
fn parts(shown: &str) -> Option<(&str, &str)> {
    // From the end: the caret, the line, the bar, and the message, which begins with the place.
    let mut lines = shown.rsplitn(4, '\n');
    let (_, text) = lines.by_ref().nth(1)?.split_once(" | ")?;
    let (_, message) = lines.nth(1)?.split_once(": ")?;
    Some((message, text))
}

// The four lines that show a refusal.
fn four_lines(message: &str, line: usize, column: usize, text: &str) -> String {
    // A width of a format would panic past 65,535.
    let spaces = " ".repeat(column - 1);
    format!("unknown:{line}:{column}: {message}\n     |\n{line:>4} | {text}\n     | {spaces}^")
}

// The line of the byte at that offset, without its line end.
fn line_at(text: &str, offset: usize) -> &str {
    let (before, after) = (text.get(..offset), text.get(offset..));
    let (before, after) = (before.unwrap_or(text), after.unwrap_or_default());
    let start = before.rfind('\n').map_or(0, |newline| newline + 1);
    match after.find('\n') {
        Some(len) => {
            let line = &text[start..before.len() + len];
            line.strip_suffix('\r').unwrap_or(line)
        }
        None => &text[start..],
    }
}

// What comes before a segment in its stream.
#[derive(Default)]
pub(crate) struct Before {
    pub(crate) bytes: usize,
    pub(crate) lines: usize,
    pub(crate) last_line: Vec<u8>,
}

impl fmt::Display for Refusal {
    fn fmt(&self, f: &mut fmt::Formatter<'_>) -> fmt::Result {
        f.write_str(&self.details.shown)
    }
}

impl std::error::Error for Refusal {}

/// Why a call gives no answer.
#[derive(Clone, Debug, PartialEq, Eq)]
#[non_exhaustive]
pub enum Error {
    /// A text spells no list of items of the kind.
    Refused(Refusal),
    /// Memory ran out.
    OutOfMemory,
    /// The library, a newer one, returned a status that this crate does not know.
    UnknownStatus(u32),
}

impl Error {
    // Why a call with that status has no answer, where no text is refused.
    pub(crate) fn of_status(status: u32) -> Self {
        match status {
            raw::OUT_OF_MEMORY => Error::OutOfMemory,
            _ => Error::UnknownStatus(status),
        }
    }
}

// What each type of error says of such a status.
pub(crate) fn show_status(status: u32, f: &mut fmt::Formatter<'_>) -> fmt::Result {
    write!(f, "the library returned the status unknown({status})")
}

impl fmt::Display for Error {
    fn fmt(&self, f: &mut fmt::Formatter<'_>) -> fmt::Result {
        match self {
            Error::Refused(refusal) => refusal.fmt(f),
            Error::OutOfMemory => f.write_str("out of memory"),
            Error::UnknownStatus(status) => show_status(*status, f),
        }
    }
}

/// The source is the [`Refusal`].
impl std::error::Error for Error {
    fn source(&self) -> Option<&(dyn std::error::Error + 'static)> {
        match self {
            Error::Refused(refusal) => Some(refusal),
            Error::OutOfMemory | Error::UnknownStatus(_) => None,
        }
    }
}

impl From<Refusal> for Error {
    fn from(refusal: Refusal) -> Self {
        Error::Refused(refusal)
    }
}

/// The version of the library that is linked, as a number: 1,002,003 is 1.2.3.
pub fn library_version() -> u32 {
    raw::library_version()
}

/// The canonical text of each item that the text spells, a newline after each.
///
/// # Errors
///
/// [`Error::Refused`] if the text spells no list of items of the kind, with the place; [`Error::OutOfMemory`].
pub fn format(kind: Kind, text: &str) -> Result<String, Error> {
    written(Call::Format, kind, text, 2).map(string)
}

/// Whether the text is canonical: [`format()`] returns the text itself.
///
/// # Errors
///
/// As for [`format()`].
pub fn check(kind: Kind, text: &str) -> Result<bool, Error> {
    let outcome = raw::check(kind, text);
    answer(kind, &outcome, text)
}

/// Whether the texts spell lists of one length, in which each item is the same graph as the one at its index in the other.
///
/// # Errors
///
/// As for [`format()`], about the first text that has an error.
pub fn same(kind: Kind, a: &str, b: &str) -> Result<bool, Error> {
    let outcome = raw::same(kind, a, b);
    answer(kind, &outcome, if outcome.input == 0 { a } else { b })
}

/// The record of each item that the text spells, as the program `souper_items` writes it.
///
/// ```
/// use souper_ir::canonical::{key, Error, Kind, Record};
///
/// let record = Record { key: true, renamed: true, ..Record::default() };
/// let a = key(Kind::Lhs, "%a = var  %b = var  infer %a", record)?;
/// assert_eq!(a, key(Kind::Lhs, "%c = var  infer %c", record)?);
/// assert!(a.ends_with("\n%0 = var\ninfer %0\n\n"));
/// # Ok::<(), Error>(())
/// ```
///
/// # Errors
///
/// As for [`format()`].
pub fn key(kind: Kind, text: &str, record: Record) -> Result<String, Error> {
    let flags =
        u32::from(record.key) | u32::from(record.renamed) << 1 | u32::from(record.null) << 2;
    // The record of `result 1` has nine times its length.
    written(
        Call::Key(flags),
        kind,
        text,
        if record.key { 10 } else { 2 },
    )
    .map(string)
}

/// For each left-hand side of `queries`, in order, the canonical text of each of its answers in `store`, without the newline that
/// [`format()`] writes after it.
///
/// The answers are the replacements whose left-hand side is the same graph up to names, in the order in which `store` has them
/// first, with the names of the left-hand side that was asked for. Each call reads `store` anew, so many left-hand sides are best
/// asked for at once.
///
/// ```
/// use souper_ir::canonical::{find, Error};
///
/// let store = "%a = var  %b = add %a, %a  infer %b  %c = shl %a, 1  result %c";
/// let answers = find(store, "%x = var  %y = add %x, %x  infer %y")?;
/// assert_eq!(answers, [["%x = var\n%y = add %x, %x\ninfer %y\n%2 = shl %x, 1\nresult %2\n"]]);
/// # Ok::<(), Error>(())
/// ```
///
/// # Errors
///
/// As for [`format()`]: about `store`, whose [`Refusal::input`] is 0, or else about `queries`.
pub fn find(store: &str, queries: &str) -> Result<Vec<Vec<String>>, Error> {
    let mut out = Vec::new();
    // A second call reads the store again, and room that is not written costs nothing.
    let room = 4 * queries.len() + 2 * store.len() + SHOWN;
    let call = Call::Find(store);
    let outcome = raw::call(call, Kind::Lhs, queries.as_bytes(), room, &mut out);
    match (outcome.status, outcome.input) {
        (raw::DONE, _) => Ok(groups(&string(out))),
        (raw::REFUSED, 0) => Err(refused(Kind::Rep, store, &outcome, string(out))),
        (raw::REFUSED, _) => Err(refused(Kind::Lhs, queries, &outcome, string(out))),
        (status, _) => Err(Error::of_status(status)),
    }
}

// A byte 0 ends the answers for a left-hand side, and a newline, after its own last one, an answer.
fn groups(all: &str) -> Vec<Vec<String>> {
    let texts = |group: &str| {
        let texts = group.split_inclusive("\n\n");
        texts
            .map(|text| text[..text.len() - 1].to_string())
            .collect()
    };
    all.split_terminator('\0').map(texts).collect()
}

// The bytes of a text that are read at once: so many that calls are few, and so few that what is written stays in the processor's cache.
const PART: usize = 1 << 15;

// What an error shows is mostly shorter.
const SHOWN: usize = 4096;

// The first items of a text: up to the last cut between two in the first bytes, `len` of them or, if they have none, more.
fn first_part(kind: Kind, text: &str, mut len: usize) -> &str {
    while len < text.len() {
        let cut = raw::last_cut(kind, &text.as_bytes()[..len]);
        match text.get(..cut.length) {
            Some(part) if cut.status == raw::DONE && !part.is_empty() => return part,
            _ => len = len.saturating_mul(4),
        }
    }
    text
}

// Gives `take` what the call writes for each part of the text, which is cut between items, with what came of the parts before. The first
// guess is so many times the length of a part.
pub(crate) fn in_parts<T: Default, E: From<Error>>(
    call: Call<'_>,
    kind: Kind,
    text: &str,
    times: usize,
    take: impl Fn(&mut T, &[u8]) -> Result<(), E>,
) -> Result<T, E> {
    raw::with_buffer(|written| {
        let (mut all, mut rest, mut len, mut times) = (T::default(), text, PART, times);
        loop {
            let part = first_part(kind, rest, len);
            let room = times * part.len() + SHOWN;
            let outcome = raw::call(call, kind, part.as_bytes(), room, written);
            match outcome.status {
                raw::DONE => take(&mut all, written)?,
                // The place of an error is one in the whole text.
                raw::REFUSED if part.len() < text.len() => {
                    (all, rest, len, times) = (T::default(), text, text.len(), 0);
                    continue;
                }
                raw::REFUSED => {
                    let shown = string(written.clone());
                    return Err(refused(kind, text, &outcome, shown).into());
                }
                status => return Err(Error::of_status(status).into()),
            }
            rest = &rest[part.len()..];
            if rest.is_empty() {
                return Ok(all);
            }
        }
    })
}

// The bytes that the call writes for a text.
pub(crate) fn written(
    call: Call<'_>,
    kind: Kind,
    text: &str,
    times: usize,
) -> Result<Vec<u8>, Error> {
    in_parts(call, kind, text, times, |all: &mut Vec<u8>, written| {
        all.try_reserve(written.len())
            .map_err(|_| Error::OutOfMemory)?;
        all.extend_from_slice(written);
        Ok(())
    })
}

// The answer to a question; if it has none, the error, which is about that text.
fn answer(kind: Kind, outcome: &Outcome, text: &str) -> Result<bool, Error> {
    match outcome.status {
        raw::DONE => Ok(true),
        raw::DIFFERENT => Ok(false),
        raw::REFUSED => {
            let mut shown = Vec::new();
            let input = text.as_bytes();
            match raw::call(Call::Format, kind, input, outcome.length, &mut shown).status {
                raw::REFUSED => Err(refused(kind, text, outcome, string(shown))),
                status => Err(Error::of_status(status)),
            }
        }
        status => Err(Error::of_status(status)),
    }
}

fn string(bytes: Vec<u8>) -> String {
    String::from_utf8(bytes).expect("the library writes UTF-8")
}

// The hint for a refused text that this number of lines precedes. `None` also if memory ran out for it.
fn hint(kind: Kind, lines: usize, text: &[u8]) -> Option<String> {
    let mut out = Vec::new();
    let outcome = raw::call(Call::Hint(lines), kind, text, 256, &mut out);
    (outcome.status == raw::REFUSED && !out.is_empty()).then(|| string(out))
}

// The error of a text that was refused with that outcome.
fn refused(kind: Kind, text: &str, outcome: &Outcome, original: String) -> Error {
    let found = raw::locate(kind, text);
    let location = (found.status == raw::REFUSED).then_some(Location {
        offset: found.offset,
        line: found.line,
        column: found.column,
    });
    let shown = match (location, parts(&original)) {
        (Some(at), Some((message, _))) => {
            four_lines(message, at.line, at.column, line_at(text, at.offset))
        }
        _ => original.clone(),
    };
    let details = Box::new(Details {
        shown,
        original,
        offset: outcome.offset,
        line: outcome.line,
        column: outcome.column,
        input: outcome.input as usize,
        location,
        at_end: found.at_end != 0,
        hint: hint(kind, 0, text.as_bytes()),
    });
    Error::Refused(Refusal { details })
}
