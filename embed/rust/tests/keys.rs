//! Records and keys of items.
mod common;

use common::records;
use souper_ir::canonical::{format, key, Error, Kind, Record};
use souper_ir::parse::ParseError;

const PLAIN: Record = Record {
    key: false,
    renamed: false,
    null: false,
};

#[test]
fn a_record_has_the_key_of_its_text() {
    let text = "%b = var %a = var %c = add %a, %b pc %c 1 infer %c";
    let record = Record {
        key: true,
        renamed: true,
        null: false,
    };
    let expected = "; 5c3aba6388404e1e1b78de05a4f8679dcfca76884a681a5c8b5902c32dcdbf52\n\
        %0 = var\n%1 = var\n%2 = add %0, %1\npc %2 1\ninfer %2\n\n";
    assert_eq!(key(Kind::Lhs, text, record).as_deref(), Ok(expected));
    let null = Record {
        null: true,
        ..record
    };
    let ended = expected.strip_suffix('\n').unwrap().to_string() + "\0";
    assert_eq!(key(Kind::Lhs, text, null), Ok(ended));
}

// Each form of records, by the file that tools/record-formats compares with the stored texts of `souper_items`.
#[test]
fn records_have_the_forms_of_the_program() {
    let path = concat!(env!("CARGO_MANIFEST_DIR"), "/../tests/record_formats.txt");
    let all = std::fs::read_to_string(path).expect(path);
    let text_of = |escaped: &str| escaped.replace("\\n", "\n").replace("\\0", "\0");
    let rows = all.lines().filter(|line| !line.starts_with('#'));
    let rows: Vec<_> = rows
        .map(|line| line.split('\t').collect::<Vec<_>>())
        .collect();
    assert!(rows.len() > 6);
    for row in rows {
        let kind = match row[0] {
            "lhs" => Kind::Lhs,
            "rhs" => Kind::Rhs,
            _ => Kind::Rep,
        };
        let has = |flag| row[1].split(',').any(|it| it == flag);
        let record = Record {
            key: has("key"),
            renamed: has("rename"),
            null: has("null"),
        };
        assert_eq!(key(kind, &text_of(row[2]), record), Ok(text_of(row[3])));
    }
}

#[test]
fn a_plain_record_is_the_canonical_text() {
    for record in records() {
        let plain = key(record.kind, &record.text, PLAIN);
        match plain {
            Err(error) => {
                assert!(record.is_refused);
                assert_eq!(ParseError::from(error).to_string(), record.answer);
            }
            Ok(plain) => assert_eq!(plain, record.answer),
        }
    }
    println!("Rust: the stored answers as records: 560 passed, 0 failed");
}

#[test]
fn many_small_records_are_longer_than_the_first_buffer() {
    let text = "result 1 ".repeat(1000);
    let record = Record { key: true, ..PLAIN };
    let written = key(Kind::Rhs, &text, record).unwrap();
    // A line with the key, and one with the result: the text of a right-hand side ends without a newline, so no empty line follows.
    assert_eq!(written.lines().count(), 2000);
    assert!(written.len() > 3 * text.len() + text.len() / 4 + 256);
    assert_eq!(format(Kind::Rhs, &written), format(Kind::Rhs, &text));
}

#[test]
fn a_refused_text_has_no_record() {
    let Err(Error::Refused(refusal)) = key(Kind::Rep, "%x = var", PLAIN) else {
        panic!("it is refused")
    };
    assert_eq!((refusal.offset(), refusal.line()), (7, 1));
}
