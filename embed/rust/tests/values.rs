//! The stored answers as values: read and printed again, and to their code and back.
mod common;

use common::{records, Record};
use souper_ir::ast::{
    Constant, Instruction, LeftHandSide, LeftHandSideBuilder, Operand, Replacement, RightHandSide,
    Statement, Type, ValueId,
};
use souper_ir::canonical::{format, Kind};
use souper_ir::code::{self, Item};
use souper_ir::parse::{
    parse_left_hand_sides_str, parse_replacements_str, parse_right_hand_sides_str, ParseError,
    Result,
};
use std::collections::HashSet;
use std::fmt::{Debug, Display};
use std::hash::{DefaultHasher, Hash, Hasher};
use std::path::Path;
use std::str::FromStr;

fn printed<T: Display>(items: Result<Vec<T>>) -> std::result::Result<String, String> {
    let print = |items: Vec<T>| items.iter().map(|item| format!("{item}\n")).collect();
    items.map(print).map_err(|error| error.to_string())
}

fn read_and_printed(record: &Record, file: Option<&Path>) -> std::result::Result<String, String> {
    let text = &record.text;
    match record.kind {
        Kind::Lhs => printed(parse_left_hand_sides_str(text, file)),
        Kind::Rhs => printed(parse_right_hand_sides_str(text, file)),
        Kind::Rep => printed(parse_replacements_str(text, file)),
    }
}

#[test]
fn each_answer_is_printed_as_stored() {
    let file = Path::new("some where/é.opt");
    for record in records() {
        let answer = record.answer.clone();
        if !record.is_refused {
            assert_eq!(read_and_printed(&record, None), Ok(answer));
            continue;
        }
        let named = answer.replacen("unknown", "some where/é.opt", 1);
        assert_eq!(read_and_printed(&record, Some(file)), Err(named));
        assert_eq!(read_and_printed(&record, None), Err(answer));
    }
    println!("Rust: the stored answers as values: 560 passed, 0 failed");
}

#[test]
fn each_answer_is_printed_as_stored_on_eight_threads() {
    let records = &records();
    std::thread::scope(|scope| {
        for first in 0..8 {
            scope.spawn(move || {
                for record in records.iter().cycle().skip(70 * first).take(560) {
                    let printed = read_and_printed(record, None);
                    assert_eq!(printed.is_err(), record.is_refused);
                    assert_eq!(printed.unwrap_or_else(|shown| shown), record.answer);
                }
            });
        }
    });
    println!("Rust: values on eight threads: 4480 passed, 0 failed");
}

// Each item by itself, and the items together.
fn comes_back<T: Item + Display + Clone>(record: &Record) -> usize {
    let code = code::read(T::KIND, &record.text).unwrap();
    let items: Vec<T> = code::decode(&code).unwrap();
    assert_eq!(code::encode(&items), code);
    assert_eq!(code::encode(&items.clone()), code);
    assert_eq!(code::write(T::KIND, &code).as_ref(), Ok(&record.answer));
    for item in &items {
        let text = item.to_string();
        assert_eq!(format(T::KIND, &text), Ok(format!("{text}\n")));
        let one = code::encode(std::slice::from_ref(item));
        assert_eq!(code::write(T::KIND, &one), Ok(format!("{text}\n")));
    }
    1
}

#[test]
fn each_code_comes_back() {
    let mut passed = 0;
    for record in records().iter().filter(|record| !record.is_refused) {
        passed += match record.kind {
            Kind::Lhs => comes_back::<LeftHandSide>(record),
            Kind::Rhs => comes_back::<RightHandSide>(record),
            Kind::Rep => comes_back::<Replacement>(record),
        };
    }
    assert!(passed > 300);
    println!("Rust: codes and back: {passed} passed, 0 failed");
}

#[test]
fn a_refused_text_has_no_code() {
    for record in records().iter().filter(|record| record.is_refused) {
        let error = code::read(record.kind, &record.text).unwrap_err();
        assert_eq!(ParseError::from(error).to_string(), record.answer);
    }
}

#[test]
fn a_code_may_be_longer_than_the_first_buffer() {
    let values = vec!["0"; 5000].join(",");
    let text = format!("%b=block 5000 %p=phi %b,{values} infer %p");
    let items = parse_left_hand_sides_str(&text, None).unwrap();
    assert!(code::encode(&items).len() > 4 * text.len() + 256);
    assert_eq!(format!("{}\n", items[0]), format(Kind::Lhs, &text).unwrap());
}

#[test]
fn a_text_may_be_longer_than_the_first_buffer() {
    let low = i128::MIN;
    let text = format!(
        "%x = var{}\ninfer %x\n",
        format!(" (range=[{low},{low}))").repeat(100)
    );
    let items = parse_left_hand_sides_str(&text, None).unwrap();
    assert!(text.len() > code::encode(&items).len() + 64);
    assert_eq!(items[0].to_string(), text);
}

fn hash(value: &impl Hash) -> u64 {
    let mut hasher = DefaultHasher::new();
    value.hash(&mut hasher);
    hasher.finish()
}

// Items that are read twice are equal. Each canonical text of one item gives that item.
fn is_equal_again<T>(record: &Record)
where
    T: Item + Clone + Debug + Display + Eq + Hash + FromStr<Err = ParseError>,
{
    let read = || code::decode::<T>(&code::read(T::KIND, &record.text).unwrap()).unwrap();
    let (items, again) = (read(), read());
    assert_eq!(items, again);
    assert_eq!(items, items.clone());
    for (item, other) in items.iter().zip(&again) {
        assert_eq!(hash(item), hash(other));
        let canonical: T = item.to_string().parse().unwrap();
        assert_eq!(canonical.to_string(), item.to_string());
        let parsed = canonical.to_string().parse::<T>();
        assert_eq!(parsed.as_ref().ok(), Some(&canonical));
    }
    // Statements of one arena, and of its clones.
    for (item, copy) in items.iter().zip(items.clone()) {
        let statements = item.statements().iter().zip(copy.statements().iter());
        for ((id, one), (_, other)) in statements {
            assert_eq!((one, hash(one)), (other, hash(other)));
            assert_eq!(one, &copy.statements()[id]);
        }
    }
}

#[test]
fn items_are_equal_by_value() {
    for record in records().iter().filter(|record| !record.is_refused) {
        match record.kind {
            Kind::Lhs => is_equal_again::<LeftHandSide>(record),
            Kind::Rhs => is_equal_again::<RightHandSide>(record),
            Kind::Rep => is_equal_again::<Replacement>(record),
        }
    }
    let items = parse_left_hand_sides_str(
        "%x = var infer %x  %y = var infer %y  %x = var %z = var infer %x  %x:i8 = var infer %x
         %x = var infer %x (harvestedFromUse)  %x = var infer %x",
        None,
    );
    let items = items.unwrap();
    assert_eq!(items[0], items[5]);
    assert_eq!(items.iter().collect::<HashSet<_>>().len(), 5);
}

#[test]
fn values_are_equal_by_value() {
    let ty = Type { width: 8 };
    let constant = |value, r#type| Constant { value, r#type };
    assert_eq!(constant(1, Some(ty)), Constant::from_bits(1, ty));
    assert_ne!(constant(1, Some(ty)), constant(1, None));
    let add = |value| Instruction::Add {
        a: constant(value, None).into(),
        b: constant(2, None).into(),
    };
    assert_eq!((add(1), hash(&add(1))), (add(1), hash(&add(1))));
    assert_ne!(add(1), add(2));
    // Values of two builders differ.
    let id = || LeftHandSideBuilder::default().assignment(None, None, add(1), vec![]);
    let x = id();
    assert_eq!(Operand::Value(x), x.into());
    assert_ne!(Operand::Value(x), id().into());
}

#[test]
fn a_text_of_another_number_of_items_is_no_item() {
    for (text, shown) in [
        ("", "the text spells 0 items, not one"),
        ("; no item", "the text spells 0 items, not one"),
        ("result 1 result 2", "the text spells 2 items, not one"),
        (
            "result 1\nresult 2\nresult 3",
            "the text spells 3 items, not one",
        ),
    ] {
        let error = text.parse::<RightHandSide>().unwrap_err();
        assert_eq!(error.to_string(), shown);
        assert!(error.refusal().is_none());
    }
    let error = "infer %x".parse::<LeftHandSide>().unwrap_err();
    assert_eq!(error.refusal().unwrap().column(), 6);
}

fn name(item: &LeftHandSide, value: ValueId) -> String {
    match &item.statements[value.into()] {
        Statement::Assignment(assignment) => assignment.name.clone(),
        _ => panic!("it is an assignment"),
    }
}

#[test]
fn operands_of_statements() {
    let text = "%x = var  %b = block 2  %p = phi %b, %x, 1:i8  blockpc %b 1 %x 5  pc %p 3
        %s = select %x, 2, %p  infer %s";
    let item: LeftHandSide = text.parse().unwrap();
    let shown = |statement: &Statement| -> Vec<String> {
        let operands = statement.operands().map(|operand| match operand {
            Operand::Value(value) => name(&item, value),
            Operand::Constant(constant) => constant.to_string(),
        });
        operands.collect()
    };
    let found: Vec<Vec<String>> = item.statements.iter().map(|(_, it)| shown(it)).collect();
    let none = || vec![];
    let wanted = [
        none(),
        none(),
        vec!["%x", "1:i8"],
        vec!["%x", "5"],
        vec!["%p", "3"],
        vec!["%x", "2", "%p"],
    ];
    assert_eq!(found, wanted);
}
