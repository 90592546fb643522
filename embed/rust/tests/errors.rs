//! Errors of the functions of `parse`, and where texts are at fault.
mod common;

use common::records;
use souper_ir::ast::LeftHandSide;
use souper_ir::canonical::{
    check, format, key, library_version, same, Error, Kind, Location, Record, Refusal,
};
use souper_ir::parse::{
    parse_left_hand_sides_file, parse_left_hand_sides_str, parse_replacements_file,
    parse_replacements_str, parse_right_hand_sides_file, parse_right_hand_sides_str, ParseError,
};
use souper_ir::{code, stream};
use std::path::{Path, PathBuf};

// A file of these bytes, which is removed after the test.
struct File(PathBuf);

impl File {
    fn new(name: &str, bytes: &[u8]) -> Self {
        let path = std::env::temp_dir().join(format!("souper_ir-{}-{name}", std::process::id()));
        std::fs::write(&path, bytes).unwrap();
        File(path)
    }
}

impl Drop for File {
    fn drop(&mut self) {
        std::fs::remove_file(&self.0).unwrap();
    }
}

#[test]
fn the_library_has_the_version_of_the_crate() {
    let part = |text: &str| text.parse::<u32>().unwrap();
    let version = part(env!("CARGO_PKG_VERSION_MAJOR")) * 1_000_000
        + part(env!("CARGO_PKG_VERSION_MINOR")) * 1_000
        + part(env!("CARGO_PKG_VERSION_PATCH"));
    assert_eq!(library_version(), version);
}

#[test]
fn a_refusal_shows_the_file_and_the_line() {
    let text = "%x = var\n%y = add %x, 1\ninfer %z\n";
    let error = parse_left_hand_sides_str(text, Some(Path::new("path/to/foo.txt"))).unwrap_err();
    let shown =
        "path/to/foo.txt:3:6: no value named '%z' in scope\n     |\n   3 | infer %z\n     |      ^";
    assert_eq!(error.to_string(), shown);
    assert_eq!(format!("{error:?}"), shown);
    let refusal = error.refusal().unwrap();
    assert_eq!(
        (refusal.offset(), refusal.line(), refusal.column()),
        (30, 3, 6)
    );
}

// The error of reading the text as values.
fn parse_error(kind: Kind, text: &str) -> ParseError {
    match kind {
        Kind::Lhs => parse_left_hand_sides_str(text, None).unwrap_err(),
        Kind::Rhs => parse_right_hand_sides_str(text, None).unwrap_err(),
        Kind::Rep => parse_replacements_str(text, None).unwrap_err(),
    }
}

// Each call finds the text at fault there.
fn is_located(kind: Kind, text: &str, (offset, line, column): (usize, usize, usize), at_end: bool) {
    let location = Some(Location {
        offset,
        line,
        column,
    });
    let error = parse_error(kind, text);
    assert_eq!(
        (error.location(), error.is_at_end()),
        (location, at_end),
        "{text}"
    );
    for error in [
        format(kind, text).unwrap_err(),
        key(kind, text, Record::default()).unwrap_err(),
        check(kind, text).unwrap_err(),
        same(kind, text, "x").unwrap_err(),
        same(kind, "", text).unwrap_err(),
        code::read(kind, text).unwrap_err(),
    ] {
        let Error::Refused(refusal) = error else {
            panic!("{error}")
        };
        assert_eq!(
            (refusal.location(), refusal.is_at_end()),
            (location, at_end),
            "{text}"
        );
    }
}

#[test]
fn a_text_is_located_where_the_token_at_fault_begins() {
    for (text, location) in [
        ("%x = var\n%y = frob %x\ninfer %y", (14, 2, 6)),
        ("%x = var\n%x = var\ninfer %x", (9, 2, 1)),
        ("%x = var\ninfer %x\n\n%y = var\ninfer %z\n", (34, 5, 7)),
        ("5", (0, 1, 1)),
        ("%x = var ; \u{e9}\ninfer\u{2003}%x 5", (25, 2, 12)),
    ] {
        is_located(Kind::Lhs, text, location, false);
    }
}

// Each call has that hint, and shows none.
fn is_hinted(kind: Kind, text: &str, hint: Option<&str>) {
    let error = parse_error(kind, text);
    assert_eq!(error.hint(), hint, "{text}");
    assert!(!error.to_string().contains("hint"));
    for error in [
        format(kind, text).unwrap_err(),
        key(kind, text, Record::default()).unwrap_err(),
        check(kind, text).unwrap_err(),
        same(kind, text, "x").unwrap_err(),
        same(kind, "", text).unwrap_err(),
        code::read(kind, text).unwrap_err(),
    ] {
        let Error::Refused(refusal) = error else {
            panic!("{error}")
        };
        assert_eq!(refusal.hint(), hint, "{text}");
        assert!(!refusal.to_string().contains("hint"));
    }
}

#[test]
fn a_text_may_have_a_hint() {
    let text = "%x = var\n%y = ad %x, 1\ninfer %y";
    is_hinted(Kind::Lhs, text, Some("did you mean 'add'?"));
    is_hinted(
        Kind::Rhs,
        "%x = var\nreslt %x",
        Some("did you mean 'result'?"),
    );
    is_hinted(Kind::Rep, "cnd 1 2", Some("did you mean 'cand'?"));
    let text = "%x = var\n%left = var\n%left = var\ninfer %left\n";
    is_hinted(Kind::Lhs, text, Some("'%left' is defined on line 2"));
    let text = "%x = var\n";
    is_hinted(
        Kind::Lhs,
        text,
        Some("the 'infer' line is missing at the end"),
    );
    is_hinted(Kind::Lhs, "%x = var\ninfer %y", None);
}

#[test]
fn a_text_that_ends_early_is_located_at_its_end_without_white_space() {
    for text in [
        "%x = var\ninfer",
        "%x = var\ninfer\n",
        "%x = var\ninfer \t\n  ",
    ] {
        is_located(Kind::Lhs, text, (14, 2, 6), true);
    }
    is_located(Kind::Rhs, "result 1\nresult", (15, 2, 7), true);
    is_located(Kind::Rep, "%x = var\ncand %x", (16, 2, 8), true);
}

#[test]
fn a_parse_error_alone_shows_the_byte_before() {
    let frame = "no value named '%q' in scope\n     |\n   2 | infer %q\n     |      ";
    let text = "%x = var\r\ninfer %q\r\n";
    let error = format(Kind::Lhs, text).unwrap_err();
    assert_eq!(error.to_string(), format!("unknown:2:7: {frame} ^"));
    let parse = parse_error(Kind::Lhs, text);
    assert_eq!(parse.to_string(), format!("unknown:2:6: {frame}^"));
    assert_eq!(ParseError::from(error).to_string(), parse.to_string());
    let item = stream::items::<LeftHandSide, _>(text.as_bytes()).next();
    let Some(Err(error)) = item else {
        panic!("it is refused")
    };
    assert_eq!(error.to_string(), format!("unknown:2:7: {frame} ^"));
}

#[test]
fn the_numbers_of_a_refusal_are_of_the_byte_before() {
    let error = parse_error(Kind::Lhs, "%x = var\n%x = var\ninfer %x");
    let refusal = error.refusal().unwrap();
    assert_eq!(
        (refusal.offset(), refusal.line(), refusal.column()),
        (9, 1, 9)
    );
    assert_eq!(refusal, &refusal.clone());
}

#[test]
fn a_file_is_read() {
    let file = File::new("lhs", b"%x = var infer %x %y = var infer %y");
    let items = parse_left_hand_sides_file(&file.0).unwrap();
    let texts: Vec<String> = items.iter().map(ToString::to_string).collect();
    assert_eq!(texts, ["%x = var\ninfer %x\n", "%y = var\ninfer %y\n"]);
    let shown = parse_right_hand_sides_file(&file.0)
        .unwrap_err()
        .to_string();
    let first = format!("{}:1:9: expected 'result'\n", file.0.display());
    assert!(shown.starts_with(&first), "{shown}");
    assert_eq!(shown.lines().count(), 4);
}

#[test]
fn a_file_that_is_not_there_is_an_io_error() {
    let path = Path::new("/no/such/file");
    let expected = std::fs::read_to_string(path).unwrap_err();
    for error in [
        parse_left_hand_sides_file(path).unwrap_err(),
        parse_right_hand_sides_file(path).unwrap_err(),
        parse_replacements_file(path).unwrap_err(),
    ] {
        assert_eq!(error.to_string(), format!("IO error: {expected}"));
        assert!(error.refusal().is_none());
        assert!(error.location().is_none() && !error.is_at_end() && error.hint().is_none());
    }
}

#[test]
fn a_file_that_is_not_utf8_is_an_io_error() {
    let file = File::new("rep", b"%x = var \xff");
    let error = parse_replacements_file(&file.0).unwrap_err();
    assert_eq!(
        error.to_string(),
        "IO error: stream did not contain valid UTF-8"
    );
}

#[test]
fn the_message_is_the_first_line_without_the_place() {
    for record in records().iter().filter(|record| record.is_refused) {
        let Err(Error::Refused(refusal)) = format(record.kind, &record.text) else {
            panic!("it is refused")
        };
        let place = format!("unknown:{}:{}: ", refusal.line(), refusal.column());
        let first = record.answer.rsplitn(4, '\n').last().unwrap();
        assert_eq!(format!("{place}{}", refusal.message()), first);
    }
}

// The error has this source.
fn has_source<T>(error: &dyn std::error::Error) -> &T
where
    T: std::error::Error + 'static,
{
    let source = error.source().expect("it has a source");
    source.downcast_ref().expect("it is of that type")
}

#[test]
fn errors_have_their_sources() {
    let error = parse_replacements_file(Path::new("/no/such/file")).unwrap_err();
    let source: &std::io::Error = has_source(&error);
    assert_eq!(source.kind(), std::io::ErrorKind::NotFound);
    let error = parse_error(Kind::Lhs, "infer %x");
    assert_eq!(has_source::<Refusal>(&error), error.refusal().unwrap());
    let error = format(Kind::Lhs, "infer %x").unwrap_err();
    assert_eq!(has_source::<Refusal>(&error).column(), 6);
    let no_code = code::decode::<LeftHandSide>(&[0]).unwrap_err();
    let error = code::write(Kind::Lhs, &[0]).unwrap_err();
    assert_eq!(has_source::<code::NoCode>(&error), &no_code);
    assert!(std::error::Error::source(&Error::OutOfMemory).is_none());
}

#[test]
fn errors_become_each_other() {
    let refused = || format(Kind::Lhs, "infer %x").unwrap_err();
    let shown = refused().to_string();
    let Error::Refused(refusal) = refused() else {
        panic!("it is refused")
    };
    assert_eq!(Error::from(refusal.clone()), refused());
    let parse = ParseError::from(refused());
    assert_eq!(parse.refusal(), Some(&refusal));
    assert_eq!(ParseError::from(refusal.clone()).refusal(), Some(&refusal));
    assert_eq!(stream::Error::from(refused()).to_string(), shown);
    assert!(
        matches!(stream::Error::from(refusal.clone()), stream::Error::Refused(it) if it == refusal)
    );
    assert_eq!(code::Error::from(refused()), code::Error::Refused(refusal));
    let no_code = code::decode::<LeftHandSide>(&[0]).unwrap_err();
    assert_eq!(code::Error::from(no_code), code::Error::NoCode(no_code));
    assert_eq!(ParseError::from(no_code).to_string(), no_code.to_string());
    let io = || std::io::Error::other("no more");
    assert_eq!(
        stream::Error::from(io()).to_string(),
        ParseError::from(io()).to_string()
    );
    let memory = ParseError::from(Error::OutOfMemory);
    assert_eq!(memory.to_string(), "out of memory");
    assert!(memory.refusal().is_none());
}

#[test]
fn errors_cross_threads() {
    fn crosses<T: std::error::Error + Send + Sync + 'static>() {}
    crosses::<ParseError>();
    crosses::<Error>();
    crosses::<code::Error>();
    crosses::<code::NoCode>();
    crosses::<code::Flaw>();
    crosses::<stream::Error>();
}
