//! Codes that are cut off or have a changed byte: an error, or the code of other items.
use souper_ir::ast::{LeftHandSide, Replacement, RightHandSide};
use souper_ir::canonical::Kind;
use souper_ir::code::{self, Error, Flaw, FlawLocation, FlawReason, Item};
use std::error::Error as _;

// Decodes, and prints the decoded. Returns whether it was a code.
fn is_code<T: Item>(bytes: &[u8]) -> bool {
    let written = code::write(T::KIND, bytes);
    match code::decode::<T>(bytes) {
        Ok(items) => {
            assert_eq!(code::encode(&items), bytes);
            assert!(!matches!(written, Err(Error::NoCode(_))));
            true
        }
        Err(error) => {
            assert!(error.offset() < bytes.len());
            false
        }
    }
}

fn damage<T: Item>(text: &str) {
    let whole = code::read(T::KIND, text).unwrap();
    let items: Vec<T> = code::decode(&whole).unwrap();
    let ends: Vec<usize> = (0..=items.len())
        .map(|count| code::encode(&items[..count]).len())
        .collect();
    for end in 0..=whole.len() {
        assert_eq!(is_code::<T>(&whole[..end]), ends.contains(&end));
    }
    let (mut bytes, mut codes, mut tried) = (whole.clone(), 0, 0);
    for at in 0..whole.len() {
        for byte in (0..=255).filter(|byte| *byte != whole[at]) {
            bytes[at] = byte;
            codes += usize::from(is_code::<T>(&bytes));
            tried += 1;
        }
        bytes[at] = whole[at];
    }
    assert!(0 < codes && codes < tried);
    println!("Rust: damaged codes: {tried} passed, 0 failed");
}

#[test]
fn a_damaged_left_hand_side_gives_an_error() {
    damage::<LeftHandSide>(
        "%b = block 2 %p = phi %b, 1, 2:i8 blockpc %b 1 %p 2 \
         %x:i3 = var (knownBits=01x) (range=[1,-2)) (signBits=2) (negative) \
         pc %x 1 %s = select %x, %p, 3 infer %s (demandedBits=01) (harvestedFromUse) \
         %h = hole infer %h",
    );
}

#[test]
fn a_damaged_right_hand_side_gives_an_error() {
    damage::<RightHandSide>("%x = reservedconst %y = ctpop %x result %y result 5:i8");
}

#[test]
fn a_damaged_replacement_gives_an_error() {
    damage::<Replacement>(
        "%x = var %y = add %x, 1 infer %y (demandedBits=1) %z = reservedinst result %z \
         %x = var cand %x 0 (harvestedFromUse)",
    );
}

#[test]
fn a_code_of_another_kind_is_none() {
    let code = code::read(Kind::Lhs, "%x = var infer %x").unwrap();
    assert!(is_code::<LeftHandSide>(&code));
    assert!(!is_code::<RightHandSide>(&code));
    assert!(!is_code::<Replacement>(&code));
    assert!(matches!(
        code::write(Kind::Rhs, &code),
        Err(Error::NoCode(_))
    ));
}

#[test]
fn an_item_that_is_not_well_formed_is_told_with_its_flaw() {
    let good = code::read(Kind::Lhs, "%xy = var infer %xy").unwrap();
    let at = good.windows(3).position(|it| it == b"%xy").unwrap();
    let mut bad = good.clone();
    bad[at + 1] = b'-';
    let error = code::write(Kind::Lhs, &[&good[..], &good, &bad, &good].concat()).unwrap_err();
    let Error::NotWellFormed {
        index,
        flaw: Some(flaw),
        ..
    } = &error
    else {
        panic!("{error}")
    };
    assert_eq!((*index, flaw.location), (2, FlawLocation::Statement(0)));
    assert_eq!(flaw.reason, FlawReason::InvalidName);
    let why = "statement 0 (%-y): the name is not % and letters, digits, _ or .";
    assert_eq!(flaw.to_string(), why);
    assert_eq!(
        error.to_string(),
        format!("item 2 is not well formed: {why}")
    );
    let source = error.source().and_then(|it| it.downcast_ref::<Flaw>());
    assert_eq!(source, Some(flaw));
}

// A statement that uses one after it has no value in Rust, and its flaw has its name nevertheless.
#[test]
fn a_flaw_of_a_code_that_has_no_values() {
    let mut code = code::read(Kind::Rhs, "%x = var %y = freeze %x result %y").unwrap();
    let freeze = code.windows(2).position(|it| it == [5, 58]).unwrap();
    let operand = freeze + 2 + 8 + 1;
    assert_eq!(code[operand..operand + 8], [0; 8]);
    for position in [1, 2, 255] {
        code[operand] = position;
        assert!(code::decode::<RightHandSide>(&code).is_err());
        let error = code::write(Kind::Rhs, &code).unwrap_err();
        let shown =
            "item 0 is not well formed: statement 1 (%y): it uses what is not a statement before it";
        assert_eq!(error.to_string(), shown);
    }
}

#[test]
fn errors_say_where() {
    let mut code = code::read(Kind::Rhs, "result 1 result 2").unwrap();
    code.pop();
    let error = code::decode::<RightHandSide>(&code).unwrap_err();
    assert_eq!(error.to_string(), "no item begins at byte 27 of the code");
    assert_eq!(code::write(Kind::Rhs, &code), Err(Error::NoCode(error)));
    assert_eq!(Error::NoCode(error).to_string(), error.to_string());
    assert_eq!(Error::OutOfMemory.to_string(), "out of memory");
}
