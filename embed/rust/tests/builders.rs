//! Items from builders, and their texts.
use souper_ir::ast::{
    Assignment, AssignmentRhs, Attribute, Block, BlockPc, Constant, Id, Instruction,
    LeftHandSideBuilder, Operand, Pc, Phi, ReplacementBuilder, RootAttribute, Statement, Type,
    ValueId,
};
use souper_ir::code::{FlawLocation, FlawReason, Item as _};
use souper_ir::{code, parse};
use std::fmt::{Display, Write};

fn number(value: i128) -> Constant {
    Constant {
        value,
        r#type: None,
    }
}

fn var(lhs: &mut LeftHandSideBuilder, name: &str) -> ValueId {
    lhs.assignment(Some(name.into()), None, AssignmentRhs::Var, vec![])
}

// `Display` gives `fmt::Error`: the item is not well formed.
fn is_not_printed(item: &impl Display) {
    assert!(write!(String::new(), "{item}").is_err());
}

#[test]
fn a_left_hand_side_is_printed() {
    let mut lhs = LeftHandSideBuilder::default();
    let width = Some(Type { width: 32 });
    let bits = Attribute::KnownBits(vec![Some(false), None, Some(true)]);
    let x = lhs.assignment(
        None,
        width,
        AssignmentRhs::Var,
        vec![bits, Attribute::NonZero],
    );
    let (a, b) = (x.into(), number(-2).into());
    let y = lhs.assignment(Some("%y".into()), None, Instruction::Mul { a, b }, vec![]);
    lhs.pc(y, number(4));
    assert_eq!(lhs.get_value(x).name, "%0");
    assert_eq!(lhs.get_value(y).name, "%y");
    let root = RootAttribute::DemandedBits(vec![false, true]);
    let text = "%0:i32 = var (knownBits=0x1) (nonZero)\n%y = mul %0, -2\npc %y 4\ninfer %y (demandedBits=01) (harvestedFromUse)\n";
    let item = lhs.finish(y, [root, RootAttribute::HarvestedFromUse]);
    assert_eq!(item.to_string(), text);
    assert_eq!(item.clone().to_string(), text);
    assert_eq!(item.statements.len(), 3);
}

#[test]
fn a_replacement_with_a_block_is_printed() {
    let mut rep = ReplacementBuilder::default();
    let block = rep.block(Some("%b".into()), 2);
    let values = vec![number(1).into(), number(2).into()];
    let phi = rep.assignment(Some("%p".into()), None, Phi { block, values }, vec![]);
    rep.block_pc(block, 1, phi, number(2));
    let unused = rep.block(None, 7);
    assert_ne!(Id::<Statement>::from(block), Id::from(unused));
    let item = rep.finish(phi, number(3), vec![]);
    assert_eq!(item.assignment(unused.into()).name, "%3");
    let text = "%b = block 2\n%p = phi %b, 1, 2\nblockpc %b 1 %p 2\ninfer %p\nresult 3\n";
    assert_eq!(item.to_string(), text);
    let read = parse::parse_replacements_str(text, None).unwrap();
    assert_eq!(read[0].to_string(), text);
}

#[test]
fn nodes_are_printed() {
    let ty = Type { width: 8 };
    assert_eq!(ty.to_string(), "i8");
    let constant = |value| Constant {
        value,
        r#type: Some(ty),
    };
    assert_eq!(constant(-1).to_string(), "-1:i8");
    assert_eq!(number(i128::MIN).to_string(), i128::MIN.to_string());
    assert_eq!(Block { predecessors: 3 }.to_string(), "block 3");
    let bits = RootAttribute::DemandedBits(vec![true, false]);
    assert_eq!(bits.to_string(), "(demandedBits=10)");
    assert_eq!(
        RootAttribute::HarvestedFromUse.to_string(),
        "(harvestedFromUse)"
    );
}

#[test]
fn attributes_are_printed() {
    let texts = [
        (
            Attribute::KnownBits(vec![None, Some(true), Some(false)]),
            "(knownBits=x10)",
        ),
        (Attribute::PowerOfTwo, "(powerOfTwo)"),
        (Attribute::Negative, "(negative)"),
        (Attribute::NonNegative, "(nonNegative)"),
        (Attribute::NonZero, "(nonZero)"),
        (Attribute::HasExternalUses, "(hasExternalUses)"),
        (Attribute::SignBits(255), "(signBits=255)"),
        (Attribute::Range(-1, 2), "(range=[-1,2))"),
    ];
    for (attribute, text) in texts {
        assert_eq!(attribute.to_string(), text);
        let mut lhs = LeftHandSideBuilder::default();
        let x = lhs.assignment(None, None, AssignmentRhs::Var, vec![attribute]);
        assert_eq!(
            lhs.finish(x, []).to_string(),
            format!("%0 = var {text}\ninfer %0\n")
        );
    }
}

#[test]
fn right_sides_are_printed() {
    let texts = [
        (AssignmentRhs::Var, "var"),
        (AssignmentRhs::ReservedInst, "reservedinst"),
        (AssignmentRhs::ReservedConst, "reservedconst"),
        (
            Block {
                predecessors: u32::MAX,
            }
            .into(),
            "block 4294967295",
        ),
        (Instruction::Hole.into(), "hole"),
    ];
    for (value, text) in texts {
        let mut rep = ReplacementBuilder::default();
        let x = rep.assignment(None, None, value, vec![]);
        let expected = format!("%0 = {text}\ninfer %0\nresult -1\n");
        assert_eq!(rep.finish(x, number(-1), []).to_string(), expected);
    }
}

#[test]
fn an_item_that_is_not_well_formed_is_not_printed() {
    for name in ["%", "%a b", "%x\npc 0 1", "%é"] {
        let mut lhs = LeftHandSideBuilder::default();
        let x = var(&mut lhs, name);
        is_not_printed(&lhs.finish(x, []));
    }
    let mut lhs = LeftHandSideBuilder::default();
    let x = var(&mut lhs, "%x");
    let (a, b) = (x.into(), x.into());
    let again = lhs.assignment(Some("%x".into()), None, Instruction::Xor { a, b }, vec![]);
    is_not_printed(&lhs.clone().finish(again, []));
    // A statement that the item does not need may have the name.
    assert_eq!(lhs.finish(x, []).to_string(), "%x = var\ninfer %x\n");

    let mut rep = ReplacementBuilder::default();
    let block = rep.block(None, 1);
    rep.block_pc(block, 1, number(0), number(0));
    is_not_printed(&rep.finish(block.into(), number(0), []));

    let mut lhs = LeftHandSideBuilder::default();
    let none = Some(Type { width: 0 });
    let x = lhs.assignment(None, none, AssignmentRhs::Var, vec![]);
    is_not_printed(&lhs.finish(x, []));
}

#[test]
fn the_first_flaw_is_told() {
    let mut lhs = LeftHandSideBuilder::default();
    let x = var(&mut lhs, "%x");
    lhs.pc(x, number(1));
    let (a, b) = (x.into(), x.into());
    let again = lhs.assignment(Some("%x".into()), None, Instruction::Xor { a, b }, vec![]);
    let flaw = lhs.clone().finish(again, []).flaw().unwrap().unwrap();
    assert_eq!(flaw.location, FlawLocation::Statement(2));
    assert_eq!(flaw.reason, FlawReason::DuplicateName);
    assert_eq!(flaw.name.as_deref(), Some("%x"));
    let shown = "statement 2 (%x): an assignment before it has the same name";
    assert_eq!(flaw.to_string(), shown);
    let error = lhs.clone().finish(again, []).to_text().unwrap_err();
    assert_eq!(
        error.to_string(),
        format!("item 0 is not well formed: {shown}")
    );
    assert!(matches!(&error, code::Error::NotWellFormed { flaw: Some(it), .. } if *it == flaw));
    assert_eq!(lhs.finish(x, []).flaw(), Ok(None));
}

#[test]
fn an_id_of_another_builder_is_not_printed() {
    let (mut one, mut other) = (
        LeftHandSideBuilder::default(),
        LeftHandSideBuilder::default(),
    );
    let (x, y) = (var(&mut one, "%x"), var(&mut other, "%y"));
    let (a, b) = (y.into(), x.into());
    let z = one.assignment(None, None, Instruction::Add { a, b }, vec![]);
    let needed = one.clone().finish(z, []);
    is_not_printed(&needed);
    let code = code::encode(&[needed]);
    assert!(matches!(
        code::write(souper_ir::canonical::Kind::Lhs, &code),
        Err(code::Error::NotWellFormed { index: 0, .. })
    ));
    is_not_printed(&one.clone().finish(y, []));
    assert_eq!(one.finish(x, []).to_string(), "%x = var\ninfer %x\n");
}

#[test]
fn names_that_are_made_are_free() {
    let mut lhs = LeftHandSideBuilder::default();
    for name in [
        Some("%1"),
        None,
        Some("%3"),
        None,
        Some("%06"),
        Some("%7x"),
        None,
        None,
    ] {
        lhs.assignment(name.map(str::to_string), None, AssignmentRhs::Var, vec![]);
    }
    let last = lhs.assignment(None, None, AssignmentRhs::Var, vec![]);
    let lhs = lhs.finish(last, vec![]);
    let names = lhs.statements.iter().map(|(_, it)| match it {
        Statement::Assignment(assignment) => assignment.name.as_str(),
        _ => panic!("it is one"),
    });
    let names: Vec<_> = names.collect();
    assert_eq!(
        names,
        ["%1", "%2", "%3", "%4", "%06", "%7x", "%6", "%7", "%8"]
    );
}

#[test]
fn constants_by_their_bits() {
    for (bits, width, value) in [
        (255, 8, -1),
        (127, 8, 127),
        (128 + 256, 8, -128),
        (1, 1, -1),
        (u128::MAX, 128, -1),
        (1 << 127, 128, i128::MIN),
        (5, 128, 5),
    ] {
        let constant = souper_ir::ast::Constant::from_bits(bits, Type { width });
        let found = (constant.value, constant.r#type.map(|it| it.width));
        assert_eq!(found, (value, Some(width)));
    }
}

#[test]
#[should_panic(expected = "statement 1 (y): a name begins with %")]
fn a_name_without_a_percent_sign_panics() {
    let mut lhs = LeftHandSideBuilder::default();
    var(&mut lhs, "%x");
    var(&mut lhs, "y");
}

#[test]
#[should_panic(expected = "a width 129 is not in 1 to 128")]
fn bits_of_a_greater_width_panic() {
    Constant::from_bits(0, Type { width: 129 });
}

#[test]
#[should_panic(expected = "no assignment")]
fn the_assignment_of_another_builder_panics() {
    let (mut one, mut other) = (
        LeftHandSideBuilder::default(),
        LeftHandSideBuilder::default(),
    );
    let (_, y) = (var(&mut one, "%x"), var(&mut other, "%y"));
    one.get_value(y);
}

#[test]
fn an_item_can_be_changed() {
    let mut items = parse::parse_left_hand_sides_str("%x = var pc %x 1 infer %x", None).unwrap();
    let item = &mut items[0];
    let x: Id<Statement> = item.infer.value.into();
    for (_, statement) in item.statements.iter_mut() {
        match statement {
            Statement::Assignment(Assignment { name, .. }) => name.push_str("_1"),
            Statement::Pc(Pc { y, .. }) => *y = Operand::Constant(number(2)),
            Statement::BlockPc(BlockPc { .. }) => unreachable!(),
        }
    }
    let Statement::Assignment(assignment) = &mut item.statements[x] else {
        panic!("it is one")
    };
    assignment.r#type = Some(Type { width: 1 });
    assert_eq!(item.to_string(), "%x_1:i1 = var\npc %x_1 2\ninfer %x_1\n");
}
