//! The calls of `souper.h`, and all unsafe code. The header's demands on a caller hold here for every argument.
#![allow(unsafe_code)]
use crate::canonical::Kind;
use std::cell::Cell;

#[cfg(feature = "heap")]
mod heap;

pub(crate) const DONE: u32 = 0;
pub(crate) const REFUSED: u32 = 1;
pub(crate) const OUT_OF_MEMORY: u32 = 3;
pub(crate) const NOT_UTF8: u32 = 4;
pub(crate) const SHORT: u32 = 5;
pub(crate) const DIFFERENT: u32 = 6;
pub(crate) const NO_CODE: u32 = 7;
pub(crate) const NOT_WELL_FORMED: u32 = 8;
pub(crate) const NO_WIDTHS: u32 = 10;

#[repr(C)]
#[derive(Clone, Copy, Default)]
pub(crate) struct Outcome {
    pub(crate) status: u32,
    pub(crate) input: u32,
    pub(crate) length: usize,
    pub(crate) offset: usize,
    pub(crate) line: usize,
    pub(crate) column: usize,
}

#[repr(C)]
#[derive(Clone, Copy)]
pub(crate) struct Flaw {
    pub(crate) status: u32,
    pub(crate) location: u32,
    pub(crate) reason: u32,
    pub(crate) position: usize,
}

#[repr(C)]
#[derive(Clone, Copy)]
pub(crate) struct Location {
    pub(crate) status: u32,
    pub(crate) at_end: u32,
    pub(crate) offset: usize,
    pub(crate) line: usize,
    pub(crate) column: usize,
}

#[repr(C)]
#[derive(Clone, Copy, Default)]
pub(crate) struct Widths {
    pub(crate) status: u32,
    pub(crate) location: u32,
    pub(crate) reason: u32,
    pub(crate) left: u32,
    pub(crate) right: u32,
    pub(crate) root: u32,
    pub(crate) position: usize,
    pub(crate) length: usize,
}

extern "C" {
    fn souper_version() -> u32;
    fn souper_format(kind: u32, text: *const u8, n: usize, out: *mut u8, room: usize) -> Outcome;
    fn souper_read(kind: u32, text: *const u8, n: usize, out: *mut u8, room: usize) -> Outcome;
    fn souper_write(kind: u32, code: *const u8, n: usize, out: *mut u8, room: usize) -> Outcome;
    fn souper_key(
        kind: u32,
        flags: u32,
        text: *const u8,
        n: usize,
        out: *mut u8,
        room: usize,
    ) -> Outcome;
    fn souper_check(kind: u32, text: *const u8, n: usize) -> Outcome;
    fn souper_same(kind: u32, a: *const u8, n: usize, b: *const u8, m: usize) -> Outcome;
    fn souper_find(
        store: *const u8,
        n: usize,
        queries: *const u8,
        m: usize,
        out: *mut u8,
        room: usize,
    ) -> Outcome;
    fn souper_flaw(kind: u32, code: *const u8, n: usize) -> Flaw;
    fn souper_widths(kind: u32, code: *const u8, n: usize, out: *mut u32, room: usize) -> Widths;
    fn souper_locate(kind: u32, text: *const u8, n: usize) -> Location;
    fn souper_hint(
        kind: u32,
        lines: usize,
        text: *const u8,
        n: usize,
        out: *mut u8,
        room: usize,
    ) -> Outcome;
    fn souper_last_cut(kind: u32, text: *const u8, n: usize) -> Outcome;
    fn souper_first_segment(kind: u32, text: *const u8, n: usize) -> Outcome;
}

/// A call that writes to a buffer.
#[derive(Clone, Copy)]
pub(crate) enum Call<'a> {
    Format,
    Read,
    Write,
    /// With the flags of the header.
    Key(u32),
    /// In this store; the kind is that of the queries.
    Find(&'a str),
    /// With the number of lines that precede the text.
    Hint(usize),
}

// A buffer that has more room than this, in bytes, is not kept.
const KEPT: usize = 1 << 16;

thread_local! {
    static BUFFER: Cell<Vec<u8>> = const { Cell::new(Vec::new()) };
}

/// Gives the function a buffer of this thread, which keeps its room from call to call. It may have anything in it.
pub(crate) fn with_buffer<R>(work: impl FnOnce(&mut Vec<u8>) -> R) -> R {
    // A call within the function finds no buffer, and makes one.
    let mut buffer = BUFFER.try_with(Cell::take).unwrap_or_default();
    let done = work(&mut buffer);
    if buffer.capacity() <= KEPT {
        let _ = BUFFER.try_with(|kept| kept.set(buffer));
    }
    done
}

/// The outcome of the call, whose output replaces the content of `out`. `room` is the first guess at the length, in bytes, which
/// ordinary input does not exceed; if it is too short, a second call has the right length, and does the work again.
pub(crate) fn call(
    call: Call<'_>,
    kind: Kind,
    input: &[u8],
    room: usize,
    out: &mut Vec<u8>,
) -> Outcome {
    let outcome = once(call, kind, input, room, out);
    if outcome.status != SHORT {
        return outcome;
    }
    once(call, kind, input, outcome.length, out)
}

// One call, to a buffer of that length.
fn once(call: Call<'_>, kind: Kind, input: &[u8], room: usize, out: &mut Vec<u8>) -> Outcome {
    out.clear();
    if out.try_reserve_exact(room).is_err() {
        return Outcome {
            status: OUT_OF_MEMORY,
            ..Outcome::default()
        };
    }
    let (kind, n, input, to) = (kind as u32, input.len(), input.as_ptr(), out.as_mut_ptr());
    // SAFETY: pointers of slices and vectors are not null. `out` has room for `room` bytes, and overlaps nothing, being
    // borrowed mutably.
    let outcome = unsafe {
        match call {
            Call::Format => souper_format(kind, input, n, to, room),
            Call::Read => souper_read(kind, input, n, to, room),
            Call::Write => souper_write(kind, input, n, to, room),
            Call::Key(flags) => souper_key(kind, flags, input, n, to, room),
            Call::Find(store) => souper_find(store.as_ptr(), store.len(), input, n, to, room),
            Call::Hint(lines) => souper_hint(kind, lines, input, n, to, room),
        }
    };
    if outcome.status == DONE || outcome.status == REFUSED {
        assert!(outcome.length <= room);
        // SAFETY: with these statuses the call has written `length` bytes.
        unsafe { out.set_len(outcome.length) }
    }
    outcome
}

pub(crate) fn library_version() -> u32 {
    // SAFETY: the call has no arguments.
    unsafe { souper_version() }
}

pub(crate) fn check(kind: Kind, text: &str) -> Outcome {
    // SAFETY: the pointer of a slice is not null.
    unsafe { souper_check(kind as u32, text.as_ptr(), text.len()) }
}

pub(crate) fn same(kind: Kind, a: &str, b: &str) -> Outcome {
    // SAFETY: the pointers of slices are not null.
    unsafe { souper_same(kind as u32, a.as_ptr(), a.len(), b.as_ptr(), b.len()) }
}

pub(crate) fn flaw(kind: Kind, code: &[u8]) -> Flaw {
    // SAFETY: the pointer of a slice is not null.
    unsafe { souper_flaw(kind as u32, code.as_ptr(), code.len()) }
}

/// The widths of the results and then of the operands of the item that the code begins with, if it has widths.
pub(crate) fn widths(kind: Kind, code: &[u8]) -> (Widths, Vec<u32>) {
    // A statement has two widths, and at least 19 bytes of code.
    let room = code.len() / 9;
    let mut out = Vec::new();
    if out.try_reserve_exact(room).is_err() {
        let found = Widths {
            status: OUT_OF_MEMORY,
            ..Widths::default()
        };
        return (found, out);
    }
    // SAFETY: pointers of slices and vectors are not null. `out` has room for `room` numbers, and overlaps nothing, being borrowed
    // mutably.
    let found = unsafe {
        souper_widths(
            kind as u32,
            code.as_ptr(),
            code.len(),
            out.as_mut_ptr(),
            room,
        )
    };
    if found.status == DONE {
        assert!(found.length <= room);
        // SAFETY: with this status the call has written `length` numbers.
        unsafe { out.set_len(found.length) }
    }
    (found, out)
}

pub(crate) fn locate(kind: Kind, text: &str) -> Location {
    // SAFETY: the pointer of a slice is not null.
    unsafe { souper_locate(kind as u32, text.as_ptr(), text.len()) }
}

pub(crate) fn last_cut(kind: Kind, text: &[u8]) -> Outcome {
    // SAFETY: the pointer of a slice is not null.
    unsafe { souper_last_cut(kind as u32, text.as_ptr(), text.len()) }
}

pub(crate) fn first_segment(kind: Kind, text: &[u8]) -> Outcome {
    // SAFETY: the pointer of a slice is not null.
    unsafe { souper_first_segment(kind as u32, text.as_ptr(), text.len()) }
}
