//! Long texts, which are read part by part: the items and the texts are those of the records, and an error has its place in the whole.
mod common;

use common::records;
use souper_ir::ast::{LeftHandSide, Replacement, RightHandSide};
use souper_ir::canonical::{check, format, key, Error, Kind, Record};
use souper_ir::code::{decode, encode, read, write, Item};
use souper_ir::parse::{parse_left_hand_sides_str, parse_replacements_str};
use std::path::Path;

// The records of a kind, often enough: their texts, their canonical texts, and their items.
fn many<T: Item>() -> (String, String, Vec<T>) {
    let records = records();
    let of_kind: Vec<_> = records
        .iter()
        .filter(|record| record.kind == T::KIND && !record.is_refused)
        .collect();
    let (mut text, mut answer, mut items) = (String::new(), String::new(), Vec::new());
    while text.len() < 200_000 {
        for record in &of_kind {
            text += &record.text;
            text.push('\n');
            answer += &record.answer;
            let code = read(T::KIND, &record.text).unwrap();
            items.extend(decode::<T>(&code).unwrap());
        }
    }
    (text, answer, items)
}

fn reads_and_writes<T: Item + PartialEq + std::fmt::Debug>() {
    let (text, answer, items) = many::<T>();
    let code = read(T::KIND, &text).unwrap();
    assert!(encode(&items) == code && decode::<T>(&code).unwrap() == items);
    assert!(format(T::KIND, &text).unwrap() == answer);
    assert!(write(T::KIND, &code).unwrap() == answer);
    let null = Record {
        null: true,
        ..Record::default()
    };
    let texts = key(T::KIND, &text, null).unwrap().replace('\0', "\n");
    assert!(texts == answer);
    let with_key = Record { key: true, ..null };
    let records = key(T::KIND, &text, with_key).unwrap();
    assert_eq!(records.split_terminator('\0').count(), items.len());
}

#[test]
fn long_texts_are_read_and_written() {
    reads_and_writes::<LeftHandSide>();
    reads_and_writes::<RightHandSide>();
    reads_and_writes::<Replacement>();
}

#[test]
fn items_of_long_texts_are_parsed() {
    let (text, _, items) = many::<LeftHandSide>();
    assert!(parse_left_hand_sides_str(&text, None).unwrap() == items);
    let (text, _, items) = many::<Replacement>();
    assert!(parse_replacements_str(&text, None).unwrap() == items);
}

#[test]
fn errors_have_their_place_in_the_whole() {
    fn refused<T: Item>() {
        let (text, ..) = many::<T>();
        for end in ["infer", "%x = var", "%x = add 1"] {
            let bad = format!("{text}{end}");
            // This call reads the text as one.
            let error = check(T::KIND, &bad).unwrap_err();
            let Error::Refused(refusal) = &error else {
                panic!("it is refused")
            };
            assert!(refusal.offset() >= text.len());
            assert_eq!(format(T::KIND, &bad).unwrap_err(), error);
            assert_eq!(key(T::KIND, &bad, Record::default()).unwrap_err(), error);
            assert_eq!(read(T::KIND, &bad).unwrap_err(), error);
        }
    }
    refused::<LeftHandSide>();
    refused::<RightHandSide>();
    refused::<Replacement>();
}

#[test]
fn a_file_has_its_name_in_the_error() {
    let (text, ..) = many::<LeftHandSide>();
    let bad = text + "infer";
    let error = parse_left_hand_sides_str(&bad, Some(Path::new("a file"))).unwrap_err();
    let Error::Refused(refusal) = check(Kind::Lhs, &bad).unwrap_err() else {
        panic!("it is refused")
    };
    assert_eq!(error.refusal(), Some(&refusal));
    assert!(error
        .to_string()
        .starts_with(&format!("a file:{}:", refusal.line())));
}

#[test]
fn an_item_may_be_longer_than_a_part() {
    let mut text = String::from("%0 = var\n");
    for last in 0..10_000 {
        text += &format!("%{}:i32 = add %{last}, {last}:i32\n", last + 1);
    }
    text += "infer %10000\n\n";
    let three = text.repeat(3);
    assert!(format(Kind::Lhs, &three).unwrap() == three);
    let items = parse_left_hand_sides_str(&three, None).unwrap();
    assert_eq!(items.len(), 3);
    assert!(items[2].to_text().unwrap() + "\n" == text);
}
