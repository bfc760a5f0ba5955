//! Small functions for writing programs down, and tables that can be damaged field by field.

use crate::expression::{Expression, One, Two};
use crate::program::{Block, Instruction, Kind, Procedure, Program};
use crate::value::Value;
use crate::write;

pub fn number(n: i32) -> Expression {
    Expression::Constant(Value::Whole(n))
}

pub fn location(l: u16) -> Expression {
    Expression::Constant(Value::Location(l))
}

pub fn truth(b: bool) -> Expression {
    Expression::Constant(Value::Truth(b))
}

pub fn local(x: u8) -> Expression {
    Expression::Local(x)
}

pub fn not(operand: Expression) -> Expression {
    Expression::One(One::Not, Box::new(operand))
}

pub fn negate(operand: Expression) -> Expression {
    Expression::One(One::Negate, Box::new(operand))
}

pub fn add(left: Expression, right: Expression) -> Expression {
    two(Two::Add, left, right)
}

pub fn subtract(left: Expression, right: Expression) -> Expression {
    two(Two::Subtract, left, right)
}

pub fn multiply(left: Expression, right: Expression) -> Expression {
    two(Two::Multiply, left, right)
}

pub fn less(left: Expression, right: Expression) -> Expression {
    two(Two::Less, left, right)
}

pub fn equal(left: Expression, right: Expression) -> Expression {
    two(Two::Equal, left, right)
}

pub fn and(left: Expression, right: Expression) -> Expression {
    two(Two::And, left, right)
}

pub fn two(operator: Two, left: Expression, right: Expression) -> Expression {
    Expression::Two(operator, Box::new(left), Box::new(right))
}

pub fn assign(target: u8, value: Expression) -> Instruction {
    Instruction::Assign { target, value }
}

/// pointer[index] := value
pub fn write(pointer: u8, index: Expression, value: Expression) -> Instruction {
    Instruction::Write {
        pointer,
        index,
        value,
    }
}

/// target := pointer[index]
pub fn read(target: u8, pointer: u8, index: Expression) -> Instruction {
    Instruction::Read {
        target,
        pointer,
        index,
    }
}

pub fn while_do(test: Expression, body: Block) -> Instruction {
    Instruction::While { test, body }
}

pub fn if_else(test: Expression, then: Block, otherwise: Block) -> Instruction {
    Instruction::If {
        test,
        then,
        otherwise,
    }
}

pub fn call(procedure: u16, arguments: Vec<Expression>) -> Instruction {
    Instruction::Call {
        procedure,
        arguments,
    }
}

pub fn atomic(body: Block) -> Instruction {
    Instruction::Atomic { body }
}

pub fn select(a: u16, b: u16) -> Instruction {
    Instruction::Select { a, b }
}

pub fn procedure(parameters: u8, locals: u8, body: Block) -> Procedure {
    Procedure {
        parameters,
        locals,
        body,
    }
}

/// A program whose mains are empty is sequential.
pub fn program(procedures: Vec<Procedure>, sizes: &[u16], mains: &[u16]) -> Program {
    Program {
        procedures,
        sizes: sizes.to_vec(),
        mains: mains.to_vec(),
    }
}

/// The table of a program, of the kind that its mains tell.
pub fn table(program: &Program) -> Vec<u8> {
    write::table(program, kind_of(program))
}

fn kind_of(program: &Program) -> Kind {
    if program.mains.is_empty() {
        Kind::Sequential
    } else {
        Kind::Concurrent
    }
}

/// An expression of exactly this depth.
pub fn of_depth(depth: usize) -> Expression {
    (1..depth).fold(number(1), |inner, _| negate(inner))
}

/// A block of instructions inside `blocks` further blocks of ifs, so that a body built this way
/// has depth `blocks` + 1.
pub fn nested(blocks: usize) -> Block {
    (0..blocks).fold(Vec::new(), |inner, _| {
        vec![if_else(truth(true), inner, Vec::new())]
    })
}

/// A table in its fields, each of which a test may damage.
#[derive(Clone, Debug)]
pub struct Fields {
    pub bodies: Vec<u8>,
    /// Parameters, locals and offset of each procedure.
    pub records: Vec<(u8, u8, u32)>,
    pub sizes: Vec<u16>,
    pub mains: Vec<u16>,
    pub marks: [u8; 2],
    /// P, M and T where they shall not be counted.
    pub counts: Option<[u16; 3]>,
    pub distance: Option<u32>,
    pub length: Option<u32>,
}

impl Fields {
    /// The fields of a right table.
    pub fn new(program: &Program) -> Fields {
        let mut fields = Fields {
            bodies: Vec::new(),
            records: Vec::new(),
            sizes: program.sizes.clone(),
            mains: program.mains.clone(),
            marks: match kind_of(program) {
                Kind::Concurrent => [0x43, 0x50],
                Kind::Sequential => [0x53, 0x50],
            },
            counts: None,
            distance: None,
            length: None,
        };
        for procedure in &program.procedures {
            let body = write::block(&procedure.body);
            fields.push(procedure.parameters, procedure.locals, &body);
        }
        fields
    }

    /// A table without procedures, locations and threads.
    pub fn empty(kind: Kind) -> Fields {
        Fields {
            marks: match kind {
                Kind::Concurrent => [0x43, 0x50],
                Kind::Sequential => [0x53, 0x50],
            },
            ..Fields::new(&program(Vec::new(), &[], &[]))
        }
    }

    /// One more procedure, whose body may be any bytes.
    pub fn push(&mut self, parameters: u8, locals: u8, body: &[u8]) {
        let offset = self.bodies.len() as u32;
        self.records.push((parameters, locals, offset));
        self.bodies.extend(body);
    }

    pub fn bytes(&self) -> Vec<u8> {
        let counted = [self.records.len(), self.sizes.len(), self.mains.len()];
        let counts = self.counts.unwrap_or(counted.map(|count| count as u16));
        let [p, m, t] = counts.map(u32::from);
        let mut out = self.bodies.clone();
        for (parameters, locals, offset) in &self.records {
            out.extend([*parameters, *locals]);
            out.extend(offset.to_le_bytes());
        }
        out.extend(self.sizes.iter().flat_map(|size| size.to_le_bytes()));
        out.extend(self.mains.iter().flat_map(|main| main.to_le_bytes()));
        let length = self.length.unwrap_or(out.len() as u32 + 16);
        out.extend(self.marks);
        out.extend(counts.iter().flat_map(|count| count.to_le_bytes()));
        out.extend(self.distance.unwrap_or(6 * p + 2 * m + 2 * t).to_le_bytes());
        out.extend(length.to_le_bytes());
        out
    }
}
