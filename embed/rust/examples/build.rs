//! Builds a left-hand side and a replacement with every method of the builders, and prints their texts and their statements.
//!
//! The source compiles against either crate, as `drop_in.rs` does. The printed items have no path conditions.
use souper_ir::ast::{
    Assignment, AssignmentRhs, Attribute, Block, BlockId, BlockPc, Constant, Id, Instruction,
    LeftHandSideBuilder, Operand, Pc, Phi, Replacement, ReplacementBuilder, RootAttribute,
    Statement, Type, ValueId,
};

fn number(value: i128, width: Option<u16>) -> Operand {
    let r#type = width.map(|width| Type { width });
    Constant { value, r#type }.into()
}

fn left_hand_side() {
    let mut lhs = LeftHandSideBuilder::default();
    let facts = vec![
        Attribute::KnownBits(vec![Some(true), None, Some(false)]),
        Attribute::PowerOfTwo,
        Attribute::NonZero,
        Attribute::SignBits(3),
        Attribute::Range(-8, i128::MAX),
    ];
    let x: ValueId = lhs.assignment(None, Some(Type { width: 8 }), AssignmentRhs::Var, facts);
    let block: BlockId = lhs.block(Some("%b".to_string()), 2);
    let values = vec![x.into(), number(-5, Some(8))];
    let phi = lhs.assignment(None, None, Phi { block, values }, vec![Attribute::Negative]);
    let (a, b, c) = (x.into(), phi.into(), number(0, None));
    let select = Instruction::Select { a, b, c };
    let root = lhs.assignment(Some("%root".into()), None, select, Vec::new());
    println!(
        "{:?} {:?}",
        lhs.get_value(root).name,
        lhs.get_value(x).attributes
    );
    let mut other = lhs.clone();
    other.pc(x, number(1, None));
    other.block_pc(
        block,
        1,
        phi,
        Constant {
            value: 2,
            r#type: None,
        },
    );
    let other = other.finish(phi, vec![]);
    println!(
        "{:?} of {}",
        other.infer.value == phi,
        other.statements.len()
    );
    let bits = RootAttribute::DemandedBits(vec![true, false]);
    println!(
        "{}",
        lhs.finish(root, vec![bits, RootAttribute::HarvestedFromUse])
    );
}

fn replacement() {
    let mut rep = ReplacementBuilder::default();
    let x = rep.assignment(
        Some("%x".into()),
        None,
        AssignmentRhs::ReservedConst,
        vec![],
    );
    let (a, b) = (x.into(), x.into());
    let sum = rep.assignment(None, None, Instruction::Add { a, b }, vec![]);
    let (a, b) = (x.into(), number(1, None));
    let shift = rep.assignment(Some("%y".into()), None, Instruction::Shl { a, b }, vec![]);
    let unneeded = rep.block(None, 3);
    let statement: Id<Statement> = unneeded.into();
    let item = rep.finish(sum, shift, std::iter::once(RootAttribute::HarvestedFromUse));
    let name = &item.assignment(unneeded.into()).name;
    println!("{name} at {}\n{item}", statement.index());
    if let Replacement::LhsRhs { statements, .. } = item {
        let shown = statements.iter().map(|(id, statement)| match statement {
            Statement::Assignment(Assignment { name, value, .. }) => {
                format!(
                    "{} {name} {}",
                    id.index(),
                    matches!(value, AssignmentRhs::Block(Block { predecessors: 3 }))
                )
            }
            Statement::Pc(Pc { .. }) | Statement::BlockPc(BlockPc { .. }) => String::new(),
        });
        println!("{}", shown.collect::<Vec<_>>().join("\n"));
    }
}

fn main() {
    left_hand_side();
    replacement();
}
