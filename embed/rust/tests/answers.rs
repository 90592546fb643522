//! The stored answers by the calls that take and return texts, alone and on threads.
mod common;

use common::{records, Record};
use souper_ir::canonical::{check, format, same, Error, Kind, Location};
use souper_ir::parse::ParseError;

// The line and the column of the byte after that many.
fn place(text: &str, before: usize) -> (usize, usize) {
    let lines: Vec<_> = text.as_bytes()[..before]
        .split(|byte| *byte == b'\n')
        .collect();
    (lines.len(), lines[lines.len() - 1].len() + 1)
}

// What is shown of a text that is at fault there.
fn located(text: &str, message: &str, at: Location) -> String {
    let Location { line, column, .. } = at;
    let mut lines = text.split('\n').skip(line - 1);
    let source = lines.next().unwrap();
    let source = match lines.next() {
        Some(_) => source.strip_suffix('\r').unwrap_or(source),
        None => source,
    };
    let caret = " ".repeat(column - 1) + "^";
    format!("unknown:{line}:{column}: {message}\n     |\n{line:>4} | {source}\n     | {caret}")
}

fn refuses(error: Error, record: &Record, input: usize) {
    let Error::Refused(refusal) = &error else {
        panic!("{error}")
    };
    assert_eq!(refusal.input(), input);
    assert_eq!(ParseError::from(refusal.clone()).to_string(), record.answer);
    // The byte before the offset, or the first.
    assert_eq!(
        (refusal.line(), refusal.column()),
        place(&record.text, refusal.offset().saturating_sub(1))
    );
    let location = refusal.location().expect("there is memory");
    let shown = located(&record.text, refusal.message(), location);
    assert_eq!(
        (refusal.shown(), error.to_string()),
        (shown.as_str(), shown.clone())
    );
    let expected = if refusal.is_at_end() {
        record
            .text
            .trim_end_matches(|c| " \t\n\r\u{c}".contains(c))
            .len()
    } else {
        refusal.offset()
    };
    assert_eq!(location.offset, expected);
    assert_eq!(
        (location.line, location.column),
        place(&record.text, expected)
    );
}

fn is_as_stored(record: &Record) {
    let Record {
        kind, text, answer, ..
    } = record;
    if record.is_refused {
        refuses(format(*kind, text).unwrap_err(), record, 0);
        refuses(check(*kind, text).unwrap_err(), record, 0);
        refuses(same(*kind, text, "").unwrap_err(), record, 0);
        refuses(same(*kind, "", text).unwrap_err(), record, 1);
        return;
    }
    assert_eq!(format(*kind, text).as_ref(), Ok(answer));
    assert_eq!(check(*kind, text), Ok(text == answer));
    assert_eq!(check(*kind, answer), Ok(true));
    assert_eq!(same(*kind, text, answer), Ok(true));
    assert_eq!(same(*kind, "", text), Ok(answer.is_empty()));
}

#[test]
fn each_answer_is_as_stored() {
    let records = records();
    records.iter().for_each(is_as_stored);
    println!(
        "Rust: the stored answers: {} passed, 0 failed",
        records.len()
    );
}

#[test]
fn each_answer_is_as_stored_on_eight_threads() {
    let records = &records();
    std::thread::scope(|scope| {
        for first in 0..8 {
            scope.spawn(move || {
                records
                    .iter()
                    .cycle()
                    .skip(70 * first)
                    .take(records.len())
                    .for_each(is_as_stored)
            });
        }
    });
    println!(
        "Rust: eight threads: {} passed, 0 failed",
        8 * records.len()
    );
}

#[test]
fn neighbors_are_the_same_if_their_answers_are() {
    let mut records = records();
    records.retain(|record| record.kind == Kind::Lhs && !record.is_refused);
    for pair in records.windows(2) {
        let answers_are_equal = pair[0].answer == pair[1].answer;
        assert_eq!(
            same(Kind::Lhs, &pair[0].text, &pair[1].text),
            Ok(answers_are_equal)
        );
    }
}

#[test]
fn answers_may_be_longer_than_the_first_buffer() {
    let name = "n".repeat(2000);
    let line = format!("%{name} = var infer %{name}x");
    let Err(Error::Refused(refusal)) = format(Kind::Lhs, &line) else {
        panic!("it is refused")
    };
    assert!(refusal.shown().len() > line.len() + line.len() / 4 + 256);
    let place = line.len() - name.len() - 2;
    assert_eq!(
        (refusal.offset(), refusal.line(), refusal.column()),
        (place, 1, place)
    );
}

#[test]
fn out_of_memory_has_a_text() {
    assert_eq!(Error::OutOfMemory.to_string(), "out of memory");
}
