//! Items out of their code.
use crate::ast::{
    Arena, Assignment, AssignmentRhs, Attribute, Block, BlockId, BlockPc, Cand, Constant, Infer,
    Instruction, LeftHandSide, Operand, Pc, Phi, Replacement, RightHandSide, RootAttribute,
    Statement, Type, ValueId,
};
use std::mem;

// The lengths of the smallest elements of lists, in bytes. A list whose length does not fit into the rest is damaged.
const STATEMENT: usize = 19;
const OPERAND: usize = 9;
const BYTE: usize = 1;

/// An item that can be read from its code.
pub trait Decode: Sized {
    /// The next item; `None` if the code is damaged.
    fn decode(decoder: &mut Decoder<'_>) -> Option<Self>;
}

/// The unread rest of a code, and the statements of the current item. A damaged code reads as `None`.
#[derive(Debug)]
pub struct Decoder<'a> {
    length: usize,
    rest: &'a [u8],
    statements: Arena<Statement>,
    // Whether an operand may have any position.
    any_position: bool,
}

impl<'a> Decoder<'a> {
    pub(super) fn new(code: &'a [u8]) -> Self {
        Decoder {
            length: code.len(),
            rest: code,
            statements: Arena::new(),
            any_position: false,
        }
    }

    // The name of the statement at a position of the item that the code begins with, which need not be well formed.
    pub(super) fn name_at(code: &'a [u8], position: usize) -> Option<String> {
        let mut decoder = Decoder::new(code);
        decoder.any_position = true;
        decoder.statements()?;
        match decoder.statements.at(position)?.1 {
            Statement::Assignment(assignment) => Some(assignment.name.clone()),
            _ => None,
        }
    }

    pub(super) fn is_at_end(&self) -> bool {
        self.rest.is_empty()
    }

    pub(super) fn offset(&self) -> usize {
        self.length - self.rest.len()
    }

    fn take<const N: usize>(&mut self) -> Option<[u8; N]> {
        let (bytes, rest) = self.rest.split_first_chunk()?;
        self.rest = rest;
        Some(*bytes)
    }

    fn byte(&mut self) -> Option<u8> {
        self.take().map(u8::from_le_bytes)
    }

    fn size(&mut self) -> Option<usize> {
        usize::try_from(u64::from_le_bytes(self.take()?)).ok()
    }

    fn count(&mut self) -> Option<u32> {
        self.take().map(u32::from_le_bytes)
    }

    fn number(&mut self) -> Option<i128> {
        self.take().map(i128::from_le_bytes)
    }

    // The length of a list whose elements have that many bytes or more.
    fn length_of(&mut self, smallest: usize) -> Option<usize> {
        let length = self.size()?;
        (length <= self.rest.len() / smallest).then_some(length)
    }

    fn list<T>(
        &mut self,
        smallest: usize,
        element: impl Fn(&mut Self) -> Option<T>,
    ) -> Option<Vec<T>> {
        let length = self.length_of(smallest)?;
        let mut list = Vec::with_capacity(length);
        for _ in 0..length {
            list.push(element(self)?);
        }
        Some(list)
    }

    fn bytes(&mut self) -> Option<&'a [u8]> {
        let length = self.length_of(BYTE)?;
        let (bytes, rest) = self.rest.split_at(length);
        self.rest = rest;
        Some(bytes)
    }

    fn ty(&mut self) -> Option<Option<Type>> {
        match self.byte()? {
            0 => Some(None),
            1 => {
                let width = u16::from_le_bytes(self.take()?);
                Some(Some(Type { width }))
            }
            _ => None,
        }
    }

    fn value(&mut self) -> Option<ValueId> {
        let position = self.size()?;
        match self.statements.at(position) {
            Some((id, Statement::Assignment(_))) => Some(ValueId(id)),
            _ if self.any_position => Some(ValueId(self.statements.id(position))),
            _ => None,
        }
    }

    fn block(&mut self) -> Option<BlockId> {
        let value = self.value()?;
        match self.statements.get(value.into()) {
            Some(Statement::Assignment(Assignment {
                value: AssignmentRhs::Block(_),
                ..
            })) => Some(BlockId(value)),
            _ if self.any_position => Some(BlockId(value)),
            _ => None,
        }
    }

    fn operand(&mut self) -> Option<Operand> {
        match self.byte()? {
            0 => self.value().map(Operand::Value),
            1 => Some(Operand::Constant(Constant {
                value: self.number()?,
                r#type: self.ty()?,
            })),
            _ => None,
        }
    }

    fn operands(&mut self) -> Option<Vec<Operand>> {
        self.list(OPERAND, Self::operand)
    }

    #[inline]
    fn instruction(&mut self) -> Option<Instruction> {
        let number = self.byte()?;
        let count = self.size()?;
        let mut operands = [Operand::Constant(Constant {
            value: 0,
            r#type: None,
        }); 3];
        for operand in operands.get_mut(..count)? {
            *operand = self.operand()?;
        }
        Instruction::of_code(number, count, operands)
    }

    #[inline]
    fn rhs(&mut self) -> Option<AssignmentRhs> {
        Some(match self.byte()? {
            0 => AssignmentRhs::Var,
            1 => AssignmentRhs::Block(Block {
                predecessors: self.count()?,
            }),
            2 => AssignmentRhs::Phi(Phi {
                block: self.block()?,
                values: self.operands()?,
            }),
            3 => AssignmentRhs::ReservedInst,
            4 => AssignmentRhs::ReservedConst,
            5 => AssignmentRhs::Instruction(self.instruction()?),
            _ => return None,
        })
    }

    fn attribute(&mut self) -> Option<Attribute> {
        Some(match self.byte()? {
            0 => Attribute::KnownBits(self.list(BYTE, Self::known_bit)?),
            1 => Attribute::PowerOfTwo,
            2 => Attribute::Negative,
            3 => Attribute::NonNegative,
            4 => Attribute::NonZero,
            5 => Attribute::HasExternalUses,
            6 => Attribute::SignBits(self.byte()?),
            7 => Attribute::Range(self.number()?, self.number()?),
            _ => return None,
        })
    }

    fn known_bit(&mut self) -> Option<Option<bool>> {
        match self.byte()? {
            2 => Some(None),
            bit => flag(bit).map(Some),
        }
    }

    fn bit(&mut self) -> Option<bool> {
        self.byte().and_then(flag)
    }

    fn root_attribute(&mut self) -> Option<RootAttribute> {
        match self.byte()? {
            0 => self.list(BYTE, Self::bit).map(RootAttribute::DemandedBits),
            1 => Some(RootAttribute::HarvestedFromUse),
            _ => None,
        }
    }

    fn root_attributes(&mut self) -> Option<Vec<RootAttribute>> {
        self.list(BYTE, Self::root_attribute)
    }

    #[inline]
    fn assignment(&mut self) -> Option<Assignment> {
        Some(Assignment {
            name: std::str::from_utf8(self.bytes()?).ok()?.to_owned(),
            r#type: self.ty()?,
            value: self.rhs()?,
            attributes: self.list(BYTE, Self::attribute)?,
        })
    }

    #[inline]
    fn statement(&mut self) -> Option<Statement> {
        match self.byte()? {
            0 => self.assignment().map(Statement::Assignment),
            1 => Some(Statement::Pc(Pc {
                x: self.operand()?,
                y: self.operand()?,
            })),
            2 => Some(Statement::BlockPc(BlockPc {
                block: self.block()?,
                predecessor: self.count()?,
                x: self.operand()?,
                y: self.operand()?,
            })),
            _ => None,
        }
    }

    // The list of statements, which operands may then name.
    fn statements(&mut self) -> Option<()> {
        let length = self.length_of(STATEMENT)?;
        self.statements = Arena::with_capacity(length);
        for _ in 0..length {
            let statement = self.statement()?;
            self.statements.alloc(statement);
        }
        Some(())
    }

    fn infer(&mut self) -> Option<Infer> {
        Some(Infer {
            value: self.value()?,
            attributes: self.root_attributes()?,
        })
    }

    fn cand(&mut self) -> Option<Cand> {
        Some(Cand {
            lhs: self.operand()?,
            rhs: self.operand()?,
            attributes: self.root_attributes()?,
        })
    }

    fn take_statements(&mut self) -> Arena<Statement> {
        mem::take(&mut self.statements)
    }
}

fn flag(byte: u8) -> Option<bool> {
    match byte {
        0 => Some(false),
        1 => Some(true),
        _ => None,
    }
}

impl Decode for LeftHandSide {
    fn decode(decoder: &mut Decoder<'_>) -> Option<Self> {
        decoder.statements()?;
        let infer = match decoder.byte()? {
            0 => decoder.infer()?,
            _ => return None,
        };
        let statements = decoder.take_statements();
        Some(LeftHandSide { statements, infer })
    }
}

impl Decode for RightHandSide {
    fn decode(decoder: &mut Decoder<'_>) -> Option<Self> {
        decoder.statements()?;
        let result = match decoder.byte()? {
            1 => decoder.operand()?,
            _ => return None,
        };
        let statements = decoder.take_statements();
        Some(RightHandSide { statements, result })
    }
}

impl Decode for Replacement {
    fn decode(decoder: &mut Decoder<'_>) -> Option<Self> {
        decoder.statements()?;
        match decoder.byte()? {
            2 => {
                let (lhs, rhs) = (decoder.infer()?, decoder.operand()?);
                let statements = decoder.take_statements();
                Some(Replacement::LhsRhs {
                    statements,
                    lhs,
                    rhs,
                })
            }
            3 => {
                let cand = decoder.cand()?;
                let statements = decoder.take_statements();
                Some(Replacement::Cand { statements, cand })
            }
            _ => None,
        }
    }
}
