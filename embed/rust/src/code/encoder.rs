//! The code of items.
use crate::ast::{
    Arena, Assignment, AssignmentRhs, Attribute, Cand, Id, Infer, LeftHandSide, Operand,
    Replacement, RightHandSide, RootAttribute, Statement, Type,
};
use crate::raw;

// The position of a statement that the item has not.
const NOWHERE: u64 = u64::MAX;

/// An item whose code can be written.
pub trait Encode {
    /// Appends the code.
    fn encode(&self, code: &mut Vec<u8>);

    /// Gives the code to the function.
    fn with_code<R>(&self, work: impl FnOnce(&[u8]) -> R) -> R {
        raw::with_buffer(|code| {
            code.clear();
            self.encode(code);
            work(code)
        })
    }
}

// Appends to the code of an item that has these statements.
struct Encoder<'a> {
    statements: &'a Arena<Statement>,
    code: &'a mut Vec<u8>,
}

impl Encoder<'_> {
    fn put<const N: usize>(&mut self, bytes: [u8; N]) {
        self.code.extend_from_slice(&bytes);
    }

    fn byte(&mut self, byte: u8) {
        self.code.push(byte);
    }

    fn size(&mut self, size: usize) {
        self.put((size as u64).to_le_bytes());
    }

    fn number(&mut self, number: i128) {
        self.put(number.to_le_bytes());
    }

    fn list<T>(&mut self, list: &[T], element: impl Fn(&mut Self, &T)) {
        self.size(list.len());
        for one in list {
            element(self, one);
        }
    }

    fn ty(&mut self, ty: Option<Type>) {
        match ty {
            None => self.byte(0),
            Some(ty) => {
                let [low, high] = ty.width.to_le_bytes();
                self.put([1, low, high]);
            }
        }
    }

    fn position(&self, id: impl Into<Id<Statement>>) -> [u8; 8] {
        let id = id.into();
        let position = match self.statements.get(id) {
            Some(_) => id.index() as u64,
            None => NOWHERE,
        };
        position.to_le_bytes()
    }

    fn operand(&mut self, operand: &Operand) {
        match operand {
            Operand::Value(id) => {
                let mut bytes = [0; 9];
                bytes[1..].copy_from_slice(&self.position(*id));
                self.put(bytes);
            }
            Operand::Constant(constant) => {
                let mut bytes = [1; 17];
                bytes[1..].copy_from_slice(&constant.value.to_le_bytes());
                self.put(bytes);
                self.ty(constant.r#type);
            }
        }
    }

    fn operands(&mut self, operands: &[Operand]) {
        self.list(operands, Self::operand);
    }

    fn instruction(&mut self, number: u8, operands: &[&Operand]) {
        self.put([5, number]);
        self.size(operands.len());
        for operand in operands {
            self.operand(operand);
        }
    }

    fn rhs(&mut self, rhs: &AssignmentRhs) {
        match rhs {
            AssignmentRhs::Var => self.byte(0),
            AssignmentRhs::Block(block) => {
                self.byte(1);
                self.put(block.predecessors.to_le_bytes());
            }
            AssignmentRhs::Phi(phi) => {
                self.byte(2);
                self.put(self.position(phi.block));
                self.operands(&phi.values);
            }
            AssignmentRhs::ReservedInst => self.byte(3),
            AssignmentRhs::ReservedConst => self.byte(4),
            AssignmentRhs::Instruction(instruction) => {
                instruction.with_code(|number, operands| self.instruction(number, operands));
            }
        }
    }

    fn attribute(&mut self, attribute: &Attribute) {
        match attribute {
            Attribute::KnownBits(bits) => {
                self.byte(0);
                self.list(bits, |to, bit| to.byte(bit.map_or(2, u8::from)));
            }
            Attribute::PowerOfTwo => self.byte(1),
            Attribute::Negative => self.byte(2),
            Attribute::NonNegative => self.byte(3),
            Attribute::NonZero => self.byte(4),
            Attribute::HasExternalUses => self.byte(5),
            Attribute::SignBits(number) => {
                self.byte(6);
                self.byte(*number);
            }
            Attribute::Range(low, high) => {
                self.byte(7);
                self.number(*low);
                self.number(*high);
            }
        }
    }

    fn root_attribute(&mut self, attribute: &RootAttribute) {
        match attribute {
            RootAttribute::DemandedBits(bits) => {
                self.byte(0);
                self.list(bits, |to, bit| to.byte(u8::from(*bit)));
            }
            RootAttribute::HarvestedFromUse => self.byte(1),
        }
    }

    fn root_attributes(&mut self, attributes: &[RootAttribute]) {
        self.list(attributes, Self::root_attribute);
    }

    fn assignment(&mut self, assignment: &Assignment) {
        self.size(assignment.name.len());
        self.code.extend_from_slice(assignment.name.as_bytes());
        self.ty(assignment.r#type);
        self.rhs(&assignment.value);
        self.list(&assignment.attributes, Self::attribute);
    }

    fn statement(&mut self, statement: &Statement) {
        match statement {
            Statement::Assignment(assignment) => {
                self.byte(0);
                self.assignment(assignment);
            }
            Statement::Pc(condition) => {
                self.byte(1);
                self.operand(&condition.x);
                self.operand(&condition.y);
            }
            Statement::BlockPc(condition) => {
                self.byte(2);
                self.put(self.position(condition.block));
                self.put(condition.predecessor.to_le_bytes());
                self.operand(&condition.x);
                self.operand(&condition.y);
            }
        }
    }

    fn statements(&mut self) {
        self.size(self.statements.len());
        for (_, statement) in self.statements {
            self.statement(statement);
        }
    }

    fn infer(&mut self, infer: &Infer) {
        self.put(self.position(infer.value));
        self.root_attributes(&infer.attributes);
    }

    fn cand(&mut self, cand: &Cand) {
        self.operand(&cand.lhs);
        self.operand(&cand.rhs);
        self.root_attributes(&cand.attributes);
    }
}

// An encoder that has written the statements, and the number of the last lines.
fn begun<'a>(
    statements: &'a Arena<Statement>,
    last_lines: u8,
    code: &'a mut Vec<u8>,
) -> Encoder<'a> {
    let mut encoder = Encoder { statements, code };
    encoder.statements();
    encoder.byte(last_lines);
    encoder
}

impl Encode for LeftHandSide {
    fn encode(&self, code: &mut Vec<u8>) {
        begun(&self.statements, 0, code).infer(&self.infer);
    }
}

impl Encode for RightHandSide {
    fn encode(&self, code: &mut Vec<u8>) {
        begun(&self.statements, 1, code).operand(&self.result);
    }
}

impl Encode for Replacement {
    fn encode(&self, code: &mut Vec<u8>) {
        match self {
            Replacement::LhsRhs {
                statements,
                lhs,
                rhs,
            } => {
                let mut encoder = begun(statements, 2, code);
                encoder.infer(lhs);
                encoder.operand(rhs);
            }
            Replacement::Cand { statements, cand } => begun(statements, 3, code).cand(cand),
        }
    }
}
