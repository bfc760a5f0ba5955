//! From the bytes of the bodies to trees. Refusal 4.

use crate::expression::{Expression, One, Two};
use crate::head::Record;
use crate::program::{Block, Instruction, Kind};
use crate::value::Value;

/// "An expression nests at most 16 deep; a leaf has depth 1."
const EXPRESSION_DEPTH: usize = 16;

/// "A body is at depth 1; depth at most 16."
const BLOCK_DEPTH: usize = 16;

/// "4: bodies aren't blocks as above, are too deep, hold an instruction not allowed there, leave a
/// gap or differ from an offset"
///
/// "Bodies in procedure order from byte 0 without gaps": each offset is where the body before it
/// ended, and the last body ends where the records begin.
pub fn refusal_4(bodies: &[u8], records: &[Record], kind: Kind) -> Result<Vec<Block>, u8> {
    let mut trees = Vec::new();
    let mut end = 0;
    for (procedure, record) in records.iter().enumerate() {
        if record.offset != end {
            return Err(4);
        }
        let mut reader = Reader {
            bytes: bodies,
            at: end,
            kind,
            procedure,
        };
        trees.push(reader.block(1, false).ok_or(4)?);
        end = reader.at;
    }
    if end == bodies.len() {
        Ok(trees)
    } else {
        Err(4)
    }
}

/// Where each of the first bodies ends, as far as there are bodies, and at most so many.
pub fn ends(bytes: &[u8], kind: Kind, most: usize) -> Vec<usize> {
    let mut ends = Vec::new();
    let mut at = 0;
    for procedure in 0..most {
        let mut reader = Reader {
            bytes,
            at,
            kind,
            procedure,
        };
        if reader.block(1, false).is_none() {
            break;
        }
        at = reader.at;
        ends.push(at);
    }
    ends
}

/// Reads one body. `None` is a fault of number 4.
struct Reader<'a> {
    bytes: &'a [u8],
    at: usize,
    kind: Kind,
    procedure: usize,
}

impl Reader<'_> {
    fn byte(&mut self) -> Option<u8> {
        let byte = *self.bytes.get(self.at)?;
        self.at += 1;
        Some(byte)
    }

    fn two_bytes(&mut self) -> Option<u16> {
        Some(u16::from_le_bytes([self.byte()?, self.byte()?]))
    }

    fn four_bytes(&mut self) -> Option<[u8; 4]> {
        Some([self.byte()?, self.byte()?, self.byte()?, self.byte()?])
    }

    /// "a block ends with byte 00". Depth counts blocks, so an empty one at depth 17 is a fault.
    fn block(&mut self, depth: usize, in_atomic: bool) -> Option<Block> {
        if depth > BLOCK_DEPTH {
            return None;
        }
        let mut block = Block::new();
        loop {
            match self.byte()? {
                0x00 => return Some(block),
                mark => block.push(self.instruction(mark, depth, in_atomic)?),
            }
        }
    }

    fn instruction(&mut self, mark: u8, depth: usize, in_atomic: bool) -> Option<Instruction> {
        match mark {
            0x20 => Some(Instruction::Assign {
                target: self.byte()?,
                value: self.expression()?,
            }),
            0x21 => Some(Instruction::Write {
                pointer: self.byte()?,
                index: self.expression()?,
                value: self.expression()?,
            }),
            0x22 => Some(Instruction::Read {
                target: self.byte()?,
                pointer: self.byte()?,
                index: self.expression()?,
            }),
            0x23 if !in_atomic => Some(Instruction::While {
                test: self.expression()?,
                body: self.block(depth + 1, false)?,
            }),
            0x24 => Some(Instruction::If {
                test: self.expression()?,
                then: self.block(depth + 1, in_atomic)?,
                otherwise: self.block(depth + 1, in_atomic)?,
            }),
            0x25 if !in_atomic => self.call(),
            0x26 if !in_atomic && self.kind == Kind::Concurrent => Some(Instruction::Atomic {
                body: self.block(depth + 1, true)?,
            }),
            0x27 if self.kind == Kind::Sequential && self.procedure == 0 => {
                Some(Instruction::Select {
                    a: self.two_bytes()?,
                    b: self.two_bytes()?,
                })
            }
            _ => None,
        }
    }

    /// "25 m(2) n(1) n expressions"
    fn call(&mut self) -> Option<Instruction> {
        let procedure = self.two_bytes()?;
        let count = self.byte()?;
        let mut arguments = Vec::new();
        for _ in 0..count {
            arguments.push(self.expression()?);
        }
        Some(Instruction::Call {
            procedure,
            arguments,
        })
    }

    fn expression(&mut self) -> Option<Expression> {
        self.expression_within(EXPRESSION_DEPTH)
    }

    /// "Prefix order". `depth` is how deep the expression may still nest.
    fn expression_within(&mut self, depth: usize) -> Option<Expression> {
        if depth == 0 {
            return None;
        }
        match self.byte()? {
            0x01 => {
                let number = i32::from_le_bytes(self.four_bytes()?);
                Some(Expression::Constant(Value::Whole(number)))
            }
            0x02 => {
                let location = self.two_bytes()?;
                Some(Expression::Constant(Value::Location(location)))
            }
            0x03 => Some(Expression::Constant(Value::Truth(false))),
            0x04 => Some(Expression::Constant(Value::Truth(true))),
            0x05 => Some(Expression::Local(self.byte()?)),
            0x10 => self.two(Two::Add, depth),
            0x11 => self.two(Two::Subtract, depth),
            0x12 => self.two(Two::Multiply, depth),
            0x13 => self.two(Two::Less, depth),
            0x14 => self.two(Two::Equal, depth),
            0x15 => self.two(Two::And, depth),
            0x16 => self.one(One::Not, depth),
            0x17 => self.one(One::Negate, depth),
            _ => None,
        }
    }

    fn one(&mut self, operator: One, depth: usize) -> Option<Expression> {
        let operand = self.expression_within(depth - 1)?;
        Some(Expression::One(operator, Box::new(operand)))
    }

    fn two(&mut self, operator: Two, depth: usize) -> Option<Expression> {
        let left = self.expression_within(depth - 1)?;
        let right = self.expression_within(depth - 1)?;
        Some(Expression::Two(operator, Box::new(left), Box::new(right)))
    }
}
