//! `Display` of items: their canonical text, by the library.
use crate::ast::{LeftHandSide, Replacement, RightHandSide};
use crate::code::{self, Item};
use std::cell::Cell;
use std::fmt;

// The buffers of a thread, which keep their room from item to item.
#[derive(Default)]
struct Buffers {
    code: Vec<u8>,
    text: Vec<u8>,
}

// A buffer that has more room than this, in bytes, is not kept.
const KEPT: usize = 1 << 16;

thread_local! {
    static BUFFERS: Cell<Buffers> = Cell::default();
}

fn show<T: Item>(item: &T, f: &mut fmt::Formatter<'_>) -> fmt::Result {
    // `f` may be one that prints items itself: these find no buffers, and make some.
    let mut buffers = BUFFERS.try_with(Cell::take).unwrap_or_default();
    let shown = show_by(item, f, &mut buffers);
    if buffers.code.capacity().max(buffers.text.capacity()) <= KEPT {
        let _ = BUFFERS.try_with(|kept| kept.set(buffers));
    }
    shown
}

fn show_by<T: Item>(item: &T, f: &mut fmt::Formatter<'_>, buffers: &mut Buffers) -> fmt::Result {
    let Buffers { code, text } = buffers;
    code.clear();
    item.encode(code);
    code::write_to(T::KIND, code, text).map_err(|_| fmt::Error)?;
    // The newline that the library writes after each item.
    text.pop();
    f.write_str(std::str::from_utf8(text).map_err(|_| fmt::Error)?)
}

/// The canonical text, with a newline at the end.
///
/// `fmt::Error` if the item is not [well formed](crate::ast) or memory runs out.
impl fmt::Display for LeftHandSide {
    fn fmt(&self, f: &mut fmt::Formatter<'_>) -> fmt::Result {
        show(self, f)
    }
}

/// The canonical text, without a newline at the end.
///
/// `fmt::Error` if the item is not [well formed](crate::ast) or memory runs out.
impl fmt::Display for RightHandSide {
    fn fmt(&self, f: &mut fmt::Formatter<'_>) -> fmt::Result {
        show(self, f)
    }
}

/// The canonical text, with a newline at the end.
///
/// `fmt::Error` if the item is not [well formed](crate::ast) or memory runs out.
impl fmt::Display for Replacement {
    fn fmt(&self, f: &mut fmt::Formatter<'_>) -> fmt::Result {
        show(self, f)
    }
}
