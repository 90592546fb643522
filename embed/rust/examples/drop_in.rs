//! Walks the items of files through the API that this crate has in common with `souper-ir`, and prints them.
//!
//!     drop_in lhs|rhs|rep FILE...
//!
//! Of each file: a line `file` and its path. Of each item: its statements, with names, operands by index and attributes, its last
//! lines, a line `=`, its text as `Display` has it, and a line `==`. Of a file that is refused: the error. The source compiles
//! against either crate, and `embed/rust/compare` compares the outputs.
use souper_ir::ast::{
    Arena, Assignment, AssignmentRhs, Id, Infer, Instruction, LeftHandSide, Operand, Replacement,
    RightHandSide, RootAttribute, Statement,
};
use souper_ir::parse::{
    parse_left_hand_sides_file, parse_replacements_file, parse_right_hand_sides_file, Result,
};
use std::fmt::{Display, Write as _};
use std::io::{stdout, IsTerminal, Write as _};
use std::path::Path;

macro_rules! operands {
    ($instruction:expr, $one:ident: $($unary:ident)+, $two:ident: $($binary:ident)+, $three:ident: $($ternary:ident)+) => {
        match $instruction {
            Instruction::Hole => vec![],
            $(Instruction::$unary { a } => vec![*a],)+
            $(Instruction::$binary { a, b } => vec![*a, *b],)+
            $(Instruction::$ternary { a, b, c } => vec![*a, *b, *c],)+
        }
    };
}

fn operands(instruction: &Instruction) -> Vec<Operand> {
    operands!(instruction,
        one: Zext Sext Trunc Ctpop Bswap BitReverse Cttz Ctlz Freeze,
        two: Add AddNsw AddNuw AddNw Sub SubNsw SubNuw SubNw Mul MulNsw MulNuw MulNw Udiv Sdiv UdivExact SdivExact Urem Srem
            And Or Xor Shl ShlNsw ShlNuw ShlNw Lshr LshrExact Ashr AshrExact Eq Ne Ult Slt Ule Sle SaddWithOverflow
            UaddWithOverflow SsubWithOverflow UsubWithOverflow SmulWithOverflow UmulWithOverflow SaddSat UaddSat SsubSat
            UsubSat ExtractValue,
        three: Select Fshl Fshr)
}

// `#3` for the value of the statement at index 3.
fn index(id: impl Into<Id<Statement>>) -> String {
    format!("#{}", id.into().index())
}

fn operand(operand: &Operand) -> String {
    match operand {
        Operand::Value(id) => index(*id),
        Operand::Constant(constant) => match constant.r#type {
            Some(ty) => format!("{} of {} bits", constant.value, ty.width),
            None => constant.value.to_string(),
        },
    }
}

fn list(operands: &[Operand]) -> String {
    let shown: Vec<String> = operands.iter().map(operand).collect();
    shown.join(", ")
}

fn right_side(value: &AssignmentRhs) -> String {
    match value {
        AssignmentRhs::Var => "Var".into(),
        AssignmentRhs::Block(block) => format!("Block of {}", block.predecessors),
        AssignmentRhs::Phi(phi) => format!("Phi {}: {}", index(phi.block), list(&phi.values)),
        AssignmentRhs::ReservedInst => "ReservedInst".into(),
        AssignmentRhs::ReservedConst => "ReservedConst".into(),
        AssignmentRhs::Instruction(instruction) => {
            let shown = format!("{instruction:?}");
            let variant = shown.split(' ').next().unwrap_or_default();
            format!("{variant} {}", list(&operands(instruction)))
        }
    }
}

fn assignment(assignment: &Assignment) -> String {
    let Assignment {
        name,
        r#type,
        value,
        attributes,
    } = assignment;
    let width = r#type.map_or(0, |ty| ty.width);
    let value = right_side(value);
    format!("{name} of {width} bits: {value} {attributes:?}")
}

fn statement(statement: &Statement) -> String {
    match statement {
        Statement::Assignment(value) => assignment(value),
        Statement::Pc(condition) => {
            format!("Pc {} {}", operand(&condition.x), operand(&condition.y))
        }
        Statement::BlockPc(condition) => format!(
            "BlockPc {} {} {} {}",
            index(condition.block),
            condition.predecessor,
            operand(&condition.x),
            operand(&condition.y)
        ),
    }
}

fn statements(statements: &Arena<Statement>) -> String {
    let mut walk = String::new();
    for (id, one) in statements.iter() {
        assert_eq!(statement(&statements[id]), statement(one));
        let _ = writeln!(walk, "{}: {}", index(id), statement(one));
    }
    walk
}

fn infer(infer: &Infer) -> String {
    format!("Infer {} {:?}", index(infer.value), infer.attributes)
}

fn cand(lhs: &Operand, rhs: &Operand, attributes: &[RootAttribute]) -> String {
    format!("Cand {} {} {attributes:?}", operand(lhs), operand(rhs))
}

fn left_hand_side(item: &LeftHandSide) -> String {
    statements(&item.statements) + &infer(&item.infer)
}

fn right_hand_side(item: &RightHandSide) -> String {
    statements(&item.statements) + &format!("Result {}", operand(&item.result))
}

fn replacement(item: &Replacement) -> String {
    match item {
        Replacement::LhsRhs {
            statements: all,
            lhs,
            rhs,
        } => statements(all) + &format!("{}, Result {}", infer(lhs), operand(rhs)),
        Replacement::Cand {
            statements: all,
            cand: line,
        } => statements(all) + &cand(&line.lhs, &line.rhs, &line.attributes),
    }
}

// The text; at a terminal what that may obey is another character.
fn visible(text: String, is_terminal: bool) -> String {
    let other = |c: char| match c {
        '\n' => c,
        '\0'..='\x1f' => char::from_u32(0x2400 + c as u32).unwrap_or('\u{fffd}'),
        '\x7f' => '\u{2421}',
        '\u{80}'..='\u{9f}' | '\u{202a}'..='\u{202e}' | '\u{2066}'..='\u{2069}' => '\u{fffd}',
        _ => c,
    };
    if is_terminal {
        text.chars().map(other).collect()
    } else {
        text
    }
}

// The items of a file, or the error.
fn show<T: Display>(items: Result<Vec<T>>, walk: impl Fn(&T) -> String) -> String {
    match items {
        Ok(items) => items
            .iter()
            .map(|item| format!("{}\n=\n{item}\n==\n", walk(item)))
            .collect(),
        Err(error) => visible(format!("{error}\n"), stdout().is_terminal()),
    }
}

fn main() {
    let mut arguments = std::env::args().skip(1);
    let kind = arguments.next().expect("lhs, rhs or rep");
    let mut out = stdout().lock();
    for file in arguments {
        let path = Path::new(&file);
        let shown = match kind.as_str() {
            "lhs" => show(parse_left_hand_sides_file(path), left_hand_side),
            "rhs" => show(parse_right_hand_sides_file(path), right_hand_side),
            _ => show(parse_replacements_file(path), replacement),
        };
        writeln!(out, "file {file}\n{shown}").expect("standard output takes it");
    }
}
