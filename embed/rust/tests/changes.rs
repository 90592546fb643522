//! What statements use, operands that are replaced, and builders that continue after an item.
use souper_ir::ast::{
    Arena, AssignmentRhs, Constant, Id, Instruction, LeftHandSide, LeftHandSideBuilder, Operand,
    Replacement, ReplacementBuilder, RightHandSide, RightHandSideBuilder, RootAttribute, Statement,
    Use, ValueId,
};
use souper_ir::code::{decode, encode, read, Item};

// A variable, a block, a phi of the variable and 1, a condition on the block, a sum of both values, and a condition.
const BRANCHING: &str =
    "%x = var  %b = block 2  %p = phi %b, %x, 1  blockpc %b 1 %x %p  %y = add %p, %x  pc %y %p";

fn item<T: Item>(text: &str) -> T {
    decode(&read(T::KIND, text).unwrap()).unwrap().remove(0)
}

// The item of the statements above and these last lines.
fn branching<T: Item>(last_lines: &str) -> T {
    item(&format!("{BRANCHING}  {last_lines}"))
}

// The text spells the item, with all its statements.
fn is<T: Item>(item: T, text: &str) {
    assert_eq!(encode(&[item]), read(T::KIND, text).unwrap());
}

fn number(value: i128) -> Constant {
    Constant {
        value,
        r#type: None,
    }
}

// The value of the statement at a position.
fn value(item: &impl Item, position: usize) -> ValueId {
    item.statements().iter().nth(position).unwrap().0.into()
}

fn uses(statement: &Statement) -> Vec<(char, usize)> {
    let shown = |used| match used {
        Use::Value(value) => ('v', Id::from(value).index()),
        Use::Block(block) => ('b', Id::from(block).index()),
    };
    statement.uses().map(shown).collect()
}

#[test]
fn uses_come_in_the_order_of_the_text() {
    let item: LeftHandSide = branching("infer %y");
    let found: Vec<_> = item.statements.iter().map(|(_, it)| uses(it)).collect();
    let phi = vec![('b', 1), ('v', 0)];
    let on_block = vec![('b', 1), ('v', 0), ('v', 2)];
    let sum = vec![('v', 2), ('v', 0)];
    let condition = vec![('v', 4), ('v', 2)];
    assert_eq!(found, [vec![], vec![], phi, on_block, sum, condition]);
}

#[test]
fn an_instruction_uses_its_operands() {
    for (word, count) in [("hole", 0), ("freeze", 1), ("xor", 2), ("fshl", 3)] {
        let operands = ["%0", "%1", "%2"][..count].join(", ");
        let text = format!("%0 = var  %1 = var  %2 = var  %y = {word} {operands}  result %y");
        let item: RightHandSide = item(&text);
        let expected: Vec<_> = (0..count).map(|position| ('v', position)).collect();
        assert_eq!(uses(&item.statements[value(&item, 3).into()]), expected);
    }
}

#[test]
fn operands_are_mapped_from_left_to_right() {
    let mut item: RightHandSide = item(
        "%x = var  %b = block 2  %p = phi %b, %x, 0  %y = select %x, %p, %x  blockpc %b 0 %y %p  pc %x 1  %h = hole  result %y",
    );
    let mut next = 0;
    for (_, statement) in item.statements_mut() {
        statement.map_operands(|_| {
            next += 1;
            number(next).into()
        });
    }
    is(
        item,
        "%x = var  %b = block 2  %p = phi %b, 1, 2  %y = select 3, 4, 5  blockpc %b 0 6 7  pc 8 9  %h = hole  result %y",
    );
}

#[test]
fn uses_in_statements_are_replaced() {
    let expected =
        "%x = var  %b = block 2  %p = phi %b, 7, 1  blockpc %b 1 7 %p  %y = add %p, 7  pc %y %p";
    let mut lhs: LeftHandSide = branching("infer %y");
    lhs.replace_uses(value(&lhs, 0), number(7));
    is(lhs, &format!("{expected}  infer %y"));
    let mut rhs: RightHandSide = branching("result 0");
    rhs.replace_uses(value(&rhs, 0), number(7));
    is(rhs, &format!("{expected}  result 0"));
    let mut rep: Replacement = branching("infer %y  result 0");
    rep.replace_uses(value(&rep, 0), number(7));
    is(rep, &format!("{expected}  infer %y  result 0"));
    let mut rep: Replacement = branching("cand %y, 0");
    rep.replace_uses(value(&rep, 0), number(7));
    is(rep, &format!("{expected}  cand %y, 0"));
}

#[test]
fn uses_in_one_statement_are_replaced() {
    let mut item: LeftHandSide = branching("infer %y");
    let (x, p, y) = (value(&item, 0), value(&item, 2), value(&item, 4));
    item.statements[y.into()].replace_uses(x, p);
    let text = BRANCHING.replace("add %p, %x", "add %p, %p");
    is(item, &format!("{text}  infer %y"));
}

#[test]
fn a_value_takes_the_place_of_one_in_the_last_lines() {
    fn by_p<T: Item>(last_lines: &str, expected: &str) {
        let mut item: T = branching(last_lines);
        let (p, y) = (value(&item, 2), value(&item, 4));
        Item::replace_uses(&mut item, y, p);
        let text = BRANCHING.replace("pc %y %p", "pc %p %p");
        is(item, &format!("{text}  {expected}"));
    }
    by_p::<LeftHandSide>("infer %y (harvestedFromUse)", "infer %p (harvestedFromUse)");
    by_p::<LeftHandSide>("infer %x", "infer %x");
    by_p::<RightHandSide>("result %y", "result %p");
    by_p::<RightHandSide>("result %x", "result %x");
    by_p::<Replacement>("infer %y  result %y", "infer %p  result %p");
    by_p::<Replacement>("infer %x  result 3", "infer %x  result 3");
    by_p::<Replacement>(
        "cand %y, %y (demandedBits=1)",
        "cand %p, %p (demandedBits=1)",
    );
    by_p::<Replacement>("cand %x, 3", "cand %x, 3");
}

#[test]
fn an_infer_line_keeps_its_value_where_a_constant_comes() {
    fn by_5<T: Item>(last_lines: &str, expected: &str) {
        let mut item: T = branching(last_lines);
        let y = value(&item, 4);
        Item::replace_uses(&mut item, y, number(5));
        let text = BRANCHING.replace("pc %y %p", "pc 5 %p");
        is(item, &format!("{text}  {expected}"));
    }
    by_5::<LeftHandSide>("infer %y", "infer %y");
    by_5::<RightHandSide>("result %y", "result 5");
    by_5::<Replacement>("infer %y  result %y", "infer %y  result 5");
    by_5::<Replacement>("cand %y, %y", "cand 5, 5");
}

#[test]
fn blocks_and_ids_of_another_item_are_not_replaced() {
    let mut item: LeftHandSide = branching("infer %y");
    let other: LeftHandSide = branching("infer %y");
    item.replace_uses(value(&item, 1), number(7));
    item.replace_uses(value(&other, 0), number(7));
    is(item, &format!("{BRANCHING}  infer %y"));
}

#[test]
fn right_hand_sides_and_cand_lines_are_built() {
    let mut rhs = RightHandSideBuilder::default();
    let x = rhs.assignment(Some("%x".into()), None, AssignmentRhs::Var, vec![]);
    let block = rhs.block(None, 1);
    rhs.block_pc(block, 0, x, number(1));
    rhs.pc(x, number(2));
    let text = "%x = var  %1 = block 1  blockpc %1 0 %x 1  pc %x 2";
    is(rhs.clone().finish(x), &format!("{text}  result %x"));
    is(rhs.finish(number(3)), &format!("{text}  result 3"));

    let mut rep = ReplacementBuilder::default();
    let x = rep.assignment(None, None, AssignmentRhs::Var, vec![]);
    let bits = RootAttribute::DemandedBits(vec![true, false]);
    let cand = rep.clone().finish_cand(x, number(3), [bits]);
    is(cand, "%0 = var  cand %0, 3 (demandedBits=10)");
    is(rep.finish_cand(number(3), x, []), "%0 = var  cand 3, %0");
}

// Appends an `add` of the value and 1.
macro_rules! plus_one {
    ($builder:ident, $value:expr) => {{
        let (a, b): (Operand, Operand) = ($value.into(), number(1).into());
        $builder.assignment(None, None, Instruction::Add { a, b }, vec![])
    }};
}

#[test]
fn builders_go_on_where_an_item_ends() {
    // The next position is 2, and the name %2 is taken.
    let begun = "%2 = var  pc %2 0";
    let text = "%2 = var  pc %2 0  %3 = add %2, 1";
    let lhs: LeftHandSide = item(&format!("{begun}  infer %2"));
    let x = lhs.infer.value;
    let mut builder = LeftHandSideBuilder::from(lhs.clone());
    assert_eq!(builder.get_value(x).name, "%2");
    let y = plus_one!(builder, x);
    is(builder.finish(y, []), &format!("{text}  infer %3"));

    let mut builder = ReplacementBuilder::from(lhs);
    let y = plus_one!(builder, x);
    let rep = builder.finish(x, y, []);
    is(rep.clone(), &format!("{text}  infer %2  result %3"));
    let rep = ReplacementBuilder::from(rep).finish_cand(y, x, []);
    is(rep.clone(), &format!("{text}  cand %3, %2"));
    let rep = ReplacementBuilder::from(rep).finish_cand(x, x, []);
    is(rep, &format!("{text}  cand %2, %2"));

    let rhs: RightHandSide = item(&format!("{begun}  result %2"));
    let x = value(&rhs, 0);
    let mut builder = RightHandSideBuilder::from(rhs);
    let y = plus_one!(builder, x);
    is(builder.finish(y), &format!("{text}  result %3"));
}

#[test]
fn builders_go_on_where_statements_end() {
    let statements = || {
        let lhs: LeftHandSide = item("%x = var  infer %x");
        (lhs.infer.value, lhs.statements)
    };
    let (x, begun) = statements();
    is(
        RightHandSideBuilder::from(begun).finish(x),
        "%x = var  result %x",
    );
    let (x, begun) = statements();
    let rep = ReplacementBuilder::from(begun).finish_cand(x, number(0), []);
    is(rep, "%x = var  cand %x, 0");
    let (x, begun) = statements();
    is(
        LeftHandSideBuilder::from(begun).finish(x, []),
        "%x = var  infer %x",
    );
    let none = RightHandSideBuilder::from(Arena::new()).finish(number(1));
    is(none, "result 1");
}
