//! Strength reduction: reads items from standard input, and writes them with shifts and sums in the place of products by 3, 5 and 9, and
//! with shifts in that of products by powers of two.
//!
//!     strength lhs|rhs|rep <ITEMS
//!
//! Products of a width of at most 64 bits are looked at. `embed/tests/evaluate.cpp` compares the values before and after.
use souper_ir::ast::{
    Assignment, AssignmentRhs, Constant, Instruction, LeftHandSide, Operand, Replacement,
    RightHandSide, Statement, Type,
};
use souper_ir::code::{self, Item};
use std::collections::HashMap;
use std::io::{self, Read, Write};
use std::process::ExitCode;

// The product of a value by 2 to a power, and the value once more if `plus`.
struct Product {
    value: Operand,
    power: u16,
    plus: bool,
    r#type: Type,
}

fn product_of(value: Operand, by: Operand, r#type: Type) -> Option<Product> {
    let Operand::Constant(factor) = by else {
        return None;
    };
    let bits = factor.value as u64 & (u64::MAX >> (64 - r#type.width));
    (0..r#type.width).find_map(|power| {
        let shifted = 1 << power;
        let plus = bits == shifted + 1 && (1..=3).contains(&power);
        (plus || bits == shifted).then_some(Product {
            value,
            power,
            plus,
            r#type,
        })
    })
}

// What a statement multiplies, if it is a product by such a constant.
fn product(statement: &Statement) -> Option<Product> {
    let Statement::Assignment(Assignment {
        value: AssignmentRhs::Instruction(Instruction::Mul { a, b }),
        r#type: Some(ty),
        ..
    }) = statement
    else {
        return None;
    };
    if !(1..=64).contains(&ty.width) {
        return None;
    }
    product_of(*a, *b, *ty).or_else(|| product_of(*b, *a, *ty))
}

fn reduce<T: Item>(item: &mut T) {
    // The products by 1.
    let mut same = HashMap::new();
    let ids: Vec<_> = item.statements().iter().map(|(id, _)| id).collect();
    for id in ids {
        let statements = item.statements_mut();
        let Some(Product {
            value,
            power,
            plus,
            r#type,
        }) = product(&statements[id])
        else {
            continue;
        };
        if power == 0 && matches!(value, Operand::Value(_)) {
            same.insert(id.into(), value);
            continue;
        }
        let by = Constant::from_bits(power.into(), r#type);
        let shift = Instruction::Shl {
            a: value,
            b: by.into(),
        };
        let mut reduced = shift;
        if plus {
            // The shift is a statement more. Without a name, it gets one from `sort`, which puts it before the sum.
            let shift = Assignment {
                name: String::new(),
                r#type: Some(r#type),
                value: shift.into(),
                attributes: Vec::new(),
            };
            let a = statements.alloc(shift.into()).into();
            reduced = Instruction::Add { a, b: value };
        }
        if let Statement::Assignment(assignment) = &mut statements[id] {
            assignment.value = reduced.into();
        }
    }
    item.replace_many(same)
        .expect("a value comes in the place of a later one");
    item.sort();
}

fn reduced<T: Item>(text: &str) -> Result<String, code::Error> {
    let mut items: Vec<T> = code::decode(&code::read(T::KIND, text)?)?;
    items.iter_mut().for_each(reduce);
    code::write(T::KIND, &code::encode(&items))
}

fn main() -> Result<ExitCode, Box<dyn std::error::Error>> {
    let mut text = String::new();
    io::stdin().read_to_string(&mut text)?;
    let of_kind = match std::env::args().nth(1).as_deref() {
        Some("lhs") => reduced::<LeftHandSide>,
        Some("rhs") => reduced::<RightHandSide>,
        Some("rep") => reduced::<Replacement>,
        _ => {
            eprintln!("usage: strength lhs|rhs|rep <ITEMS");
            return Ok(ExitCode::from(2));
        }
    };
    match of_kind(&text) {
        Ok(text) => io::stdout().write_all(text.as_bytes())?,
        Err(code::Error::Refused(refusal)) => {
            let line = refusal.location().map_or(refusal.line(), |at| at.line);
            eprintln!("line {line} is refused");
            return Ok(ExitCode::FAILURE);
        }
        Err(error) => return Err(error.into()),
    }
    Ok(ExitCode::SUCCESS)
}
