//! The items of a stream that comes in parts, such as a socket, a pipe, or a file that is larger than memory.
//!
//! ```
//! use souper_ir::ast::LeftHandSide;
//! use souper_ir::stream::{items, Error};
//!
//! let stream: &[u8] = b"%x = var\ninfer %x\n%y = var\ninfer %z\n%w = var\ninfer %w";
//! let mut read = Vec::new();
//! for item in items::<LeftHandSide, _>(stream) {
//!     match item {
//!         Ok(item) => read.push(item),
//!         // Reading resumes after it.
//!         Err(Error::Refused(refusal)) => assert_eq!(refusal.location().map(|at| at.line), Some(4)),
//!         Err(error) => return Err(error.into()),
//!     }
//! }
//! assert_eq!(read.len(), 2);
//! # Ok::<(), Box<dyn std::error::Error>>(())
//! ```
//!
//! The stream is cut where an item ends and a line of the next begins, as the tokens of the lines show it. Between two cuts is a
//! *segment*. An invalid segment is an [`Error::Refused`], which gives no items, and reading resumes after it. In memory are the bytes
//! since the last cut, which is an unfinished segment, the part that came last, and the items of the segments that were cut last.
use crate::canonical::{Before, Refusal};
use crate::code::{self, Item, NoCode};
use crate::{canonical, raw};
use std::io::{self, BufRead};
use std::{fmt, str, vec};

/// Why a stream gives no item at a place, or takes no more bytes.
#[derive(Debug)]
#[non_exhaustive]
pub enum Error {
    /// A segment spells no list of items. Its place and its location are those in the stream. The next call reads on after it.
    Refused(Refusal),
    /// Bytes are not UTF-8. The segments that are whole before them came before. The stream cannot be read on.
    NotUtf8 {
        /// Where the first byte is that is in no character.
        offset: usize,
        /// Its line, from 1.
        line: usize,
    },
    /// The source of the stream could not be read. The segments that are whole before came before. The stream cannot be read on.
    Io(io::Error),
    /// Memory ran out. The stream cannot be read on.
    OutOfMemory,
    /// Bytes were pushed to a [`Reader`] after [`finish`](Reader::finish), or where the stream cannot be read on.
    Ended,
    /// The library, a newer one, returned a status that this crate does not know. The stream cannot be read on.
    UnknownStatus(u32),
    /// The library, a newer one, wrote a code that this crate does not know. The stream cannot be read on.
    NoCode(NoCode),
}

impl fmt::Display for Error {
    fn fmt(&self, f: &mut fmt::Formatter<'_>) -> fmt::Result {
        match self {
            Error::Refused(refusal) => refusal.fmt(f),
            Error::NotUtf8 { offset, line } => write!(f, "line {line}: not UTF-8 at byte {offset}"),
            Error::Io(error) => write!(f, "IO error: {error}"),
            Error::OutOfMemory => f.write_str("out of memory"),
            Error::Ended => f.write_str("the stream has ended"),
            Error::UnknownStatus(status) => canonical::show_status(*status, f),
            Error::NoCode(error) => error.fmt(f),
        }
    }
}

/// The source is the [`Refusal`], the `io::Error` or the [`NoCode`].
impl std::error::Error for Error {
    fn source(&self) -> Option<&(dyn std::error::Error + 'static)> {
        match self {
            Error::Refused(refusal) => Some(refusal),
            Error::Io(error) => Some(error),
            Error::NoCode(error) => Some(error),
            Error::NotUtf8 { .. } | Error::OutOfMemory | Error::Ended | Error::UnknownStatus(_) => {
                None
            }
        }
    }
}

impl From<Refusal> for Error {
    fn from(refusal: Refusal) -> Self {
        Error::Refused(refusal)
    }
}

impl From<io::Error> for Error {
    fn from(error: io::Error) -> Self {
        Error::Io(error)
    }
}

impl From<NoCode> for Error {
    fn from(error: NoCode) -> Self {
        Error::NoCode(error)
    }
}

impl From<canonical::Error> for Error {
    fn from(error: canonical::Error) -> Self {
        match error {
            canonical::Error::Refused(refusal) => Error::Refused(refusal),
            canonical::Error::OutOfMemory => Error::OutOfMemory,
            canonical::Error::UnknownStatus(status) => Error::UnknownStatus(status),
        }
    }
}

/// The items of the stream that `source` gives.
pub fn items<T: Item, R: BufRead>(source: R) -> Items<T, R> {
    Items {
        source,
        reader: Reader::new(),
    }
}

/// An iterator over the items of a stream: [`items`].
pub struct Items<T, R> {
    source: R,
    reader: Reader<T>,
}

impl<T, R> fmt::Debug for Items<T, R> {
    fn fmt(&self, f: &mut fmt::Formatter<'_>) -> fmt::Result {
        f.debug_struct("Items")
            .field("reader", &self.reader)
            .finish_non_exhaustive()
    }
}

impl<T: Item, R: BufRead> Iterator for Items<T, R> {
    type Item = Result<T, Error>;

    fn next(&mut self) -> Option<Self::Item> {
        loop {
            let next = self.reader.next();
            if next.is_some() || self.reader.ended {
                return next;
            }
            let len = match self.source.fill_buf() {
                Ok(part) => {
                    self.reader.append(part);
                    part.len()
                }
                Err(error) if error.kind() == io::ErrorKind::Interrupted => continue,
                Err(error) => {
                    self.reader.fail();
                    return Some(Err(Error::Io(error)));
                }
            };
            self.source.consume(len);
            if len == 0 {
                self.reader.finish();
            }
        }
    }
}

// The bytes of a segment from which on a cut is looked for only when an eighth more is there, so that looking takes little of the time.
const STEP: usize = 65536;

/// Reads the items of a stream that is pushed part by part.
///
/// As an iterator it ends when more of the stream is wanted, and resumes after the next [`push`](Reader::push).
///
/// ```
/// use souper_ir::ast::RightHandSide;
/// use souper_ir::stream::Reader;
///
/// let mut reader = Reader::<RightHandSide>::new();
/// reader.push(b"result 1\nres")?;
/// assert!(reader.next().is_none());
/// reader.push(b"ult 2\n")?;
/// assert!(reader.next().is_some_and(|item| item.is_ok()));
/// assert!(reader.next().is_none());
/// reader.finish();
/// assert!(reader.next().is_some_and(|item| item.is_ok()));
/// # Ok::<(), souper_ir::stream::Error>(())
/// ```
pub struct Reader<T> {
    by_segments: bool,
    ended: bool,
    buffer: Vec<u8>,
    // The read bytes of the buffer.
    start: usize,
    // The unread bytes up to the last newline.
    whole: usize,
    // A cut is looked for when so many bytes are there.
    goal: usize,
    // The bytes of a chunk that are read segment by segment.
    rejected: usize,
    before: Before,
    offset: usize,
    line: usize,
    items: vec::IntoIter<T>,
}

impl<T> fmt::Debug for Reader<T> {
    fn fmt(&self, f: &mut fmt::Formatter<'_>) -> fmt::Result {
        f.debug_struct("Reader")
            .field("offset", &self.offset)
            .field("line", &self.line)
            .finish_non_exhaustive()
    }
}

impl<T> Default for Reader<T> {
    fn default() -> Self {
        Reader {
            by_segments: false,
            ended: false,
            buffer: Vec::new(),
            start: 0,
            whole: 0,
            goal: 1,
            rejected: 0,
            before: Before::default(),
            offset: 0,
            line: 1,
            items: Vec::new().into_iter(),
        }
    }
}

impl<T> Reader<T> {
    /// A reader at the start of a stream.
    pub fn new() -> Self {
        Reader::default()
    }

    /// A reader that reads each segment by itself: [`offset`](Reader::offset) and [`line`](Reader::line) are then those of the item, if
    /// its segment has no other. It takes more time.
    pub fn by_segments() -> Self {
        Reader {
            by_segments: true,
            ..Reader::default()
        }
    }

    /// Takes the next bytes of the stream, cut anywhere.
    ///
    /// # Errors
    ///
    /// [`Error::Ended`] after [`finish`](Reader::finish), and where the stream cannot be read on.
    pub fn push(&mut self, part: &[u8]) -> Result<(), Error> {
        if self.ended {
            return Err(Error::Ended);
        }
        self.append(part);
        Ok(())
    }

    fn append(&mut self, part: &[u8]) {
        if self.start > 0 && self.start >= self.buffer.len() - self.start {
            self.buffer.drain(..self.start);
            self.start = 0;
        }
        self.buffer.extend_from_slice(part);
        if let Some(newline) = part.iter().rposition(|byte| *byte == b'\n') {
            self.whole = self.buffer.len() - self.start - (part.len() - newline - 1);
        }
    }

    /// Nothing comes after what was pushed.
    pub fn finish(&mut self) {
        self.ended = true;
    }

    /// Where the part begins that the last item came from, or that was refused: its first byte that is not in white space nor in a
    /// comment. A part is one segment or more.
    pub fn offset(&self) -> usize {
        self.offset
    }

    /// The line of that byte, from 1.
    pub fn line(&self) -> usize {
        self.line
    }

    // Nothing more is read.
    fn fail(&mut self) {
        self.ended = true;
        self.buffer = Vec::new();
        (self.start, self.rejected) = (0, 0);
    }
}

impl<T: Item> Iterator for Reader<T> {
    type Item = Result<T, Error>;

    fn next(&mut self) -> Option<Self::Item> {
        loop {
            if let Some(item) = self.items.next() {
                return Some(Ok(item));
            }
            match self.read_part() {
                Ok(true) => {}
                Ok(false) => return None,
                Err(error) => {
                    if !matches!(error, Error::Refused(_)) {
                        self.fail();
                    }
                    return Some(Err(error));
                }
            }
        }
    }
}

impl<T: Item> Reader<T> {
    // The length of the next chunk, which is cut at its end; 0 if there is none yet.
    fn next_chunk(&mut self) -> Result<usize, Error> {
        let unread = &self.buffer[self.start..];
        if self.ended {
            return Ok(unread.len());
        }
        if self.whole < self.goal {
            return Ok(0);
        }
        let cut = raw::last_cut(T::KIND, &unread[..self.whole]);
        let more = if self.whole > STEP { self.whole / 8 } else { 0 };
        match cut.status {
            raw::DONE if cut.length == 0 => self.goal = self.whole + 1 + more,
            raw::DONE => return Ok(cut.length),
            raw::NOT_UTF8 => return Ok(self.whole),
            status => return Err(canonical::Error::of_status(status).into()),
        }
        Ok(0)
    }

    // Reads the next part, if there is one.
    fn read_part(&mut self) -> Result<bool, Error> {
        if self.rejected == 0 {
            let len = self.next_chunk()?;
            if len == 0 {
                return Ok(false);
            }
            if !self.by_segments {
                match self.read_text(len) {
                    Ok(()) => return Ok(true),
                    Err(Error::Refused(_) | Error::NotUtf8 { .. }) => {}
                    Err(error) => return Err(error),
                }
            }
            self.rejected = len;
        }
        let rest = &self.buffer[self.start..][..self.rejected];
        let segment = raw::first_segment(T::KIND, rest);
        match segment.status {
            raw::DONE => {}
            raw::NOT_UTF8 => return Err(self.not_utf8(rest)),
            status => return Err(canonical::Error::of_status(status).into()),
        }
        let left = self.rejected - segment.length;
        let read = self.read_text(segment.length);
        if let Err(Error::Refused(mut refusal)) = read {
            let text = &self.buffer[self.start..][..segment.length];
            refusal.place(&self.before, T::KIND, text);
            self.pass(segment.length, Vec::new());
            self.rejected = left;
            return Err(Error::Refused(refusal));
        }
        read?;
        self.rejected = left;
        Ok(true)
    }

    // Reads the items of the first bytes, and passes over them.
    fn read_text(&mut self, len: usize) -> Result<(), Error> {
        let bytes = &self.buffer[self.start..][..len];
        let text = str::from_utf8(bytes).map_err(|_| self.not_utf8(bytes))?;
        let items = code::read_items::<_, Error>(text)?;
        self.pass(len, items);
        Ok(())
    }

    fn pass(&mut self, len: usize, items: Vec<T>) {
        let text = &self.buffer[self.start..][..len];
        let gap = &text[..gap(text)];
        self.offset = self.before.bytes + gap.len();
        self.line = self.before.lines + newlines(gap) + 1;
        let last = text[..len - 1].iter().rposition(|byte| *byte == b'\n');
        self.before = Before {
            bytes: self.before.bytes + len,
            lines: self.before.lines + newlines(text),
            last_line: text[last.map_or(0, |newline| newline + 1)..].to_vec(),
        };
        self.start += len;
        self.whole = self.whole.saturating_sub(len);
        self.goal = self.whole + 1;
        self.items = items.into_iter();
    }

    fn not_utf8(&self, bytes: &[u8]) -> Error {
        let valid = match str::from_utf8(bytes) {
            Ok(text) => text.as_bytes(),
            Err(error) => &bytes[..error.valid_up_to()],
        };
        Error::NotUtf8 {
            offset: self.before.bytes + valid.len(),
            line: self.before.lines + newlines(valid) + 1,
        }
    }
}

fn newlines(text: &[u8]) -> usize {
    text.iter().filter(|byte| **byte == b'\n').count()
}

// The length of the white space and the comments that the text begins with. (Of white space that is not ASCII it knows nothing.)
fn gap(text: &[u8]) -> usize {
    let mut at = 0;
    while let Some(byte) = text.get(at) {
        match byte {
            b';' => {
                at += text[at..]
                    .iter()
                    .position(|b| *b == b'\n')
                    .unwrap_or(text.len() - at)
            }
            b' ' | b'\t'..=b'\r' => at += 1,
            _ => break,
        }
    }
    at
}
