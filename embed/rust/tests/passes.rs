//! What passes over items call: users of values, values that are replaced at once, statements that are inserted, moved and sorted.
use souper_ir::ast::{
    Arena, Assignment, AssignmentRhs, Constant, Id, Instruction, LeftHandSide, Operand, Pc,
    Replacement, RightHandSide, Statement, ValueId,
};
use souper_ir::code::{decode, encode, read, Item};
use std::collections::HashMap;

// A variable, a block, a phi, a condition on the block, a sum, a condition.
const BRANCHING: &str =
    "%x = var  %b = block 2  %p = phi %b, %x, 1  blockpc %b 1 %x 0  %y = add %p, %x  pc %y %p";

fn item<T: Item>(text: &str) -> T {
    decode(&read(T::KIND, text).unwrap()).unwrap().remove(0)
}

fn branching<T: Item>(last_lines: &str) -> T {
    item(&format!("{BRANCHING}  {last_lines}"))
}

// The text spells the item, with all its statements.
fn is<T: Item>(item: &T, text: &str) {
    let code = encode(std::slice::from_ref(item));
    assert_eq!(code, read(T::KIND, text).unwrap(), "{text}");
}

fn number(value: i128) -> Operand {
    let r#type = None;
    Constant { value, r#type }.into()
}

fn ids(item: &impl Item) -> Vec<Id<Statement>> {
    item.statements().iter().map(|(id, _)| id).collect()
}

fn unnamed(value: impl Into<AssignmentRhs>) -> Statement {
    let (name, r#type, attributes) = (String::new(), None, vec![]);
    let value = value.into();
    let assignment = Assignment {
        name,
        r#type,
        value,
        attributes,
    };
    assignment.into()
}

fn freeze(a: impl Into<Operand>) -> Statement {
    unnamed(Instruction::Freeze { a: a.into() })
}

fn indexes(ids: &[Id<Statement>]) -> Vec<usize> {
    ids.iter().map(|id| id.index()).collect()
}

#[test]
fn users_come_in_order_and_once() {
    let item: Replacement = branching("infer %y  result %x");
    let (ids, users) = (ids(&item), item.users());
    let of: Vec<_> = ids.iter().map(|id| indexes(users.of(*id))).collect();
    assert_eq!(
        of,
        [
            vec![2, 3, 4],
            vec![2, 3],
            vec![4, 5],
            vec![],
            vec![5],
            vec![]
        ]
    );
    let last: Vec<_> = ids.iter().map(|id| users.in_last_lines(*id)).collect();
    assert_eq!(last, [true, false, false, false, true, false]);
    let past = item.statements().next_id();
    assert!(users.of(past).is_empty() && !users.in_last_lines(past));
}

#[test]
fn users_of_another_item_are_none() {
    let item: LeftHandSide = item("%x = var  %y = mul %x, %x  infer %y");
    let other: LeftHandSide = item.to_text().unwrap().parse().unwrap();
    let (users, others) = (item.users(), ids(&other));
    assert_eq!(indexes(users.of(ids(&item)[0])), [1]);
    assert!(users.of(others[0]).is_empty() && !users.in_last_lines(others[1]));
    let mut foreign = item.clone();
    foreign.statements.alloc(freeze(others[0]));
    foreign.infer.value = others[1].into();
    let users = foreign.users();
    assert_eq!(indexes(users.of(ids(&item)[0])), [1]);
    assert!(!users.in_last_lines(ids(&item)[1]));
}

// The values of the statements at these positions of an item, and operands, as pairs.
fn replaced<T: Item>(
    last_lines: &str,
    pairs: impl Fn(&[ValueId]) -> Vec<(ValueId, Operand)>,
    text: &str,
) {
    let mut item: T = branching(last_lines);
    let values: Vec<ValueId> = ids(&item).into_iter().map(ValueId::from).collect();
    let pairs = pairs(&values);
    item.replace_many(pairs).unwrap();
    is(&item, text);
}

#[test]
fn chains_are_followed() {
    let by_x =
        "%x = var  %b = block 2  %p = phi %b, %x, 1  blockpc %b 1 %x 0  %y = add %x, %x  pc %x %x";
    let to_x = |v: &[ValueId]| vec![(v[4], v[2].into()), (v[2], v[0].into())];
    replaced::<LeftHandSide>("infer %y", to_x, &format!("{by_x}  infer %x"));
    replaced::<RightHandSide>("result %p", to_x, &format!("{by_x}  result %x"));
    replaced::<Replacement>("cand %y %p", to_x, &format!("{by_x}  cand %x %x"));
    let backward = |v: &[ValueId]| vec![(v[2], v[0].into()), (v[4], v[2].into())];
    replaced::<LeftHandSide>("infer %y", backward, &format!("{by_x}  infer %x"));
}

#[test]
fn chains_end_in_constants() {
    let by_5 = "%x = var  %b = block 2  %p = phi %b, 5, 1  blockpc %b 1 5 0  %y = add 5, 5  pc 5 5";
    let to_5 = |v: &[ValueId]| {
        let pairs = [(v[4], v[2].into()), (v[2], v[0].into()), (v[0], number(5))];
        pairs.to_vec()
    };
    replaced::<LeftHandSide>("infer %y", to_5, &format!("{by_5}  infer %y"));
    replaced::<RightHandSide>("result %p", to_5, &format!("{by_5}  result 5"));
    replaced::<Replacement>(
        "infer %p result %p",
        to_5,
        &format!("{by_5}  infer %p result 5"),
    );
    replaced::<Replacement>("cand %p %x", to_5, &format!("{by_5}  cand 5 5"));
}

#[test]
fn what_is_no_use_stays() {
    let same = format!("{BRANCHING}  infer %y");
    let other: LeftHandSide = branching("infer %y");
    let foreign = ids(&other)[0];
    let pairs = |v: &[ValueId]| {
        vec![
            (v[1], number(1)),
            (v[0], v[0].into()),
            (foreign.into(), number(2)),
        ]
    };
    replaced::<LeftHandSide>("infer %y", pairs, &same);
    replaced::<LeftHandSide>("infer %y", |_| vec![], &same);
    // The last pair counts.
    let twice = |v: &[ValueId]| vec![(v[0], number(1)), (v[0], v[0].into())];
    replaced::<LeftHandSide>("infer %y", twice, &same);
}

#[test]
fn cycles_are_errors() {
    let item: LeftHandSide = branching("infer %y");
    let v: Vec<ValueId> = ids(&item).into_iter().map(ValueId::from).collect();
    let pairs = [
        (vec![(v[0], v[2].into()), (v[2], v[0].into())], 0),
        (
            vec![
                (v[0], v[2].into()),
                (v[2], v[4].into()),
                (v[4], v[2].into()),
            ],
            2,
        ),
        (
            vec![(v[0], number(1)), (v[2], v[4].into()), (v[4], v[2].into())],
            2,
        ),
    ];
    for (pairs, value) in pairs {
        let mut changed = item.clone();
        let error = changed.replace_many(pairs).unwrap_err();
        assert_eq!((error.value(), &changed), (v[value], &item));
        let shown = format!("statement {value}: the replacements of a value come back to it");
        assert_eq!(error.to_string(), shown);
    }
}

#[test]
fn statements_are_inserted() {
    let mut lhs: LeftHandSide = item("%x = var  %y = mul %x, 3  pc %y 0  infer %y");
    let at = ids(&lhs);
    let shift = Instruction::Shl {
        a: at[0].into(),
        b: number(1),
    };
    let shift = lhs.insert_before(at[1], unnamed(shift));
    assert_eq!(shift.index(), 1);
    let Statement::Assignment(product) = &mut lhs.statements[lhs.infer.value.into()] else {
        panic!("it is an assignment")
    };
    product.value = Instruction::Add {
        a: shift.into(),
        b: at[0].into(),
    }
    .into();
    let end = lhs.statements.next_id();
    let (x, y) = (lhs.infer.value.into(), number(1));
    assert_eq!(lhs.insert_before(end, Pc { x, y }).index(), 4);
    lhs.insert_before(at[0], unnamed(AssignmentRhs::Var));
    is(
        &lhs,
        "%0 = var  %x = var  %1 = shl %x, 1  %y = add %1, %x  pc %y 0  pc %y 1  infer %y",
    );
    let mut rep: Replacement = branching("cand %y %p");
    let at = ids(&rep);
    rep.insert_before(at[2], freeze(at[0]));
    let inserted = BRANCHING.replace("%p = phi", "%2 = freeze %x  %p = phi");
    is(&rep, &format!("{inserted}  cand %y %p"));
}

#[test]
fn statements_are_moved() {
    let all = "%a = var  %b = var  %c = var  %d = var";
    let moves = |which: usize, place: usize, now: usize, order: &str| {
        let mut item: Replacement = item(&format!("{all}  pc %a %b  cand %c %d"));
        let mut at = ids(&item);
        at.push(item.statements().next_id());
        assert_eq!(item.move_before(at[which], at[place]).index(), now);
        is(&item, &format!("{order}  cand %c %d"));
    };
    moves(0, 2, 1, "%b = var  %a = var  %c = var  %d = var  pc %a %b");
    moves(0, 4, 3, "%b = var  %c = var  %d = var  %a = var  pc %a %b");
    moves(3, 0, 0, "%d = var  %a = var  %b = var  %c = var  pc %a %b");
    moves(3, 2, 2, "%a = var  %b = var  %d = var  %c = var  pc %a %b");
    moves(2, 5, 4, "%a = var  %b = var  %d = var  pc %a %b  %c = var");
    moves(1, 1, 1, &format!("{all}  pc %a %b"));
    moves(1, 2, 1, &format!("{all}  pc %a %b"));
}

#[test]
#[should_panic(expected = "an id of this item")]
fn places_of_another_item_panic() {
    let other: LeftHandSide = branching("infer %y");
    let mut item: LeftHandSide = branching("infer %y");
    item.insert_before(ids(&other)[0], freeze(number(1)));
}

#[test]
#[should_panic(expected = "an id of a statement")]
fn the_end_is_not_moved() {
    let mut item: LeftHandSide = branching("infer %y");
    let (first, end) = (ids(&item)[0], item.statements.next_id());
    item.move_before(end, first);
}

#[test]
fn statements_are_sorted() {
    let mut item: LeftHandSide =
        item("%x = var  %y = mul %x, 3  pc %y 0  %z = mul %y, 5  infer %z");
    let at = ids(&item);
    let frozen = item.statements.alloc(freeze(at[0]));
    let shift = Instruction::Shl {
        a: frozen.into(),
        b: number(2),
    };
    let shift = item.statements.alloc(unnamed(shift));
    let sum = Instruction::Add {
        a: shift.into(),
        b: at[0].into(),
    };
    let Statement::Assignment(product) = &mut item.statements[at[1]] else {
        panic!("it is an assignment")
    };
    product.value = sum.into();
    assert_eq!(indexes(&item.sort()), [0, 3, 4, 5, 1, 2]);
    is(
        &item,
        "%x = var  %1 = freeze %x  %2 = shl %1, 2  %y = add %2, %x  pc %y 0  %z = mul %y, 5  infer %z",
    );
    let before = item.clone();
    assert_eq!(indexes(&item.sort()), [0, 1, 2, 3, 4, 5]);
    assert_eq!(item, before);
}

#[test]
fn a_cycle_stays() {
    let mut statements = Arena::new();
    let a = statements.alloc(freeze(number(1)));
    let b = statements.alloc(freeze(a));
    statements[a] = freeze(b);
    let result = a.into();
    let mut item = RightHandSide { statements, result };
    assert_eq!(indexes(&item.sort()), [1, 0]);
    assert_eq!(item.result, Operand::from(b));
    let flaw = item.flaw().unwrap().expect("it is not well formed");
    assert!(
        flaw.to_string().contains("not a statement before"),
        "{flaw}"
    );
}

#[test]
fn ids_of_other_items_and_past_the_end_stay() {
    let other: RightHandSide = item("%x = var  result %x");
    let mut item: RightHandSide = item("%x = var  result %x");
    let (foreign, first) = (ids(&other)[0], ids(&item)[0]);
    item.statements.alloc(freeze(foreign));
    let past = item.statements.next_id();
    item.result = past.into();
    item.insert_before(first, unnamed(AssignmentRhs::Var));
    item.sort();
    let used: Vec<_> = item
        .statements
        .iter()
        .flat_map(|(_, it)| it.operands())
        .collect();
    assert_eq!(used, [Operand::from(foreign)]);
    assert_eq!(item.result, item.statements.next_id().into());
}

#[test]
fn names_are_free() {
    let mut item: LeftHandSide = item("%2 = var  %x = add %2, 1  infer %x");
    for name in ["", "%4", "", "%007"] {
        let value = AssignmentRhs::Var;
        let (name, r#type, attributes) = (name.to_string(), None, vec![]);
        let var = Assignment {
            name,
            r#type,
            value,
            attributes,
        };
        item.statements.alloc(var.into());
    }
    item.sort();
    let names: Vec<_> = ids(&item)
        .into_iter()
        .map(|id| match &item.statements[id] {
            Statement::Assignment(assignment) => assignment.name.as_str(),
            _ => panic!("it is an assignment"),
        })
        .collect();
    assert_eq!(names, ["%2", "%x", "%3", "%4", "%5", "%007"]);
}

// A chain in which each statement is behind its user, and as many replacements: no step is quadratic, and no stack deep.
#[test]
fn long_chains_take_little_time() {
    const COUNT: usize = 200_000;
    let mut all = Arena::new();
    for _ in 0..COUNT {
        all.alloc(freeze(number(1)));
    }
    let at: Vec<_> = all.iter().map(|(id, _)| id).collect();
    for pair in at.windows(2) {
        all[pair[0]] = freeze(pair[1]);
    }
    all[at[COUNT - 1]] = unnamed(AssignmentRhs::Var);
    let result = at[0].into();
    let mut item = RightHandSide {
        statements: all,
        result,
    };
    let mut replaced = item.clone();
    assert_eq!(item.sort()[0], at[COUNT - 1]);
    assert_eq!(item.users().of(at[7]), [at[8]]);
    assert!(item.flaw().unwrap().is_none());
    let pairs = at.windows(2).map(|pair| (pair[0].into(), pair[1].into()));
    replaced
        .replace_many(pairs.collect::<HashMap<_, _>>())
        .unwrap();
    assert_eq!(replaced.users().of(at[COUNT - 1]).len(), COUNT - 1);
    assert_eq!(replaced.result, at[COUNT - 1].into());
}
