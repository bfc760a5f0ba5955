//! From trees to the bytes of a table.

use crate::expression::{Expression, One, Two};
use crate::head::{distance, marks, Counts, TRAILER};
use crate::program::{Block, Instruction, Kind, Program};
use crate::value::Value;

/// A whole table: bodies, records, sizes, mains and trailer.
pub fn table(program: &Program, kind: Kind) -> Vec<u8> {
    let mut bodies = Vec::new();
    let mut records = Vec::new();
    for procedure in &program.procedures {
        records.extend([procedure.parameters, procedure.locals]);
        records.extend(four_bytes(bodies.len()));
        write_block(&procedure.body, &mut bodies);
    }
    let sizes = program.sizes.iter().flat_map(|size| size.to_le_bytes());
    let mains = program.mains.iter().flat_map(|main| main.to_le_bytes());

    let mut out = bodies;
    out.extend(records);
    out.extend(sizes);
    out.extend(mains);
    let counts = Counts {
        procedures: program.procedures.len(),
        locations: program.sizes.len(),
        threads: program.mains.len(),
    };
    let length = out.len() + TRAILER;
    out.extend(trailer(kind, counts, length));
    out
}

/// "a 16-byte trailer: 43 50 concurrent or 53 50 sequential; procedures P, locations M, threads T
/// (2 each); the distance from the trailer back to the procedure records, 6P+2M+2T (4); the whole
/// length (4)"
pub fn trailer(kind: Kind, counts: Counts, length: usize) -> Vec<u8> {
    let mut out = marks(kind).to_vec();
    out.extend(two_bytes(counts.procedures));
    out.extend(two_bytes(counts.locations));
    out.extend(two_bytes(counts.threads));
    out.extend(four_bytes(distance(counts)));
    out.extend(four_bytes(length));
    out
}

/// The low two bytes of a count; the programs written here have smaller ones.
fn two_bytes(count: usize) -> [u8; 2] {
    (count as u16).to_le_bytes()
}

fn four_bytes(count: usize) -> [u8; 4] {
    (count as u32).to_le_bytes()
}

/// The bytes of one block, its 00 included.
pub fn block(block: &Block) -> Vec<u8> {
    let mut out = Vec::new();
    write_block(block, &mut out);
    out
}

fn write_block(block: &Block, out: &mut Vec<u8>) {
    for instruction in block {
        write_instruction(instruction, out);
    }
    out.push(0x00);
}

fn write_instruction(instruction: &Instruction, out: &mut Vec<u8>) {
    match instruction {
        Instruction::Assign { target, value } => {
            out.extend([0x20, *target]);
            write_expression(value, out);
        }
        Instruction::Write {
            pointer,
            index,
            value,
        } => {
            out.extend([0x21, *pointer]);
            write_expression(index, out);
            write_expression(value, out);
        }
        Instruction::Read {
            target,
            pointer,
            index,
        } => {
            out.extend([0x22, *target, *pointer]);
            write_expression(index, out);
        }
        Instruction::While { test, body } => {
            out.push(0x23);
            write_expression(test, out);
            write_block(body, out);
        }
        Instruction::If {
            test,
            then,
            otherwise,
        } => {
            out.push(0x24);
            write_expression(test, out);
            write_block(then, out);
            write_block(otherwise, out);
        }
        Instruction::Call {
            procedure,
            arguments,
        } => {
            out.push(0x25);
            out.extend(procedure.to_le_bytes());
            out.push(arguments.len() as u8);
            for argument in arguments {
                write_expression(argument, out);
            }
        }
        Instruction::Atomic { body } => {
            out.push(0x26);
            write_block(body, out);
        }
        Instruction::Select { a, b } => {
            out.push(0x27);
            out.extend(a.to_le_bytes());
            out.extend(b.to_le_bytes());
        }
    }
}

fn write_expression(expression: &Expression, out: &mut Vec<u8>) {
    match expression {
        Expression::Constant(Value::Whole(number)) => {
            out.push(0x01);
            out.extend(number.to_le_bytes());
        }
        Expression::Constant(Value::Location(location)) => {
            out.push(0x02);
            out.extend(location.to_le_bytes());
        }
        Expression::Constant(Value::Truth(false)) => out.push(0x03),
        Expression::Constant(Value::Truth(true)) => out.push(0x04),
        Expression::Local(x) => out.extend([0x05, *x]),
        Expression::One(operator, operand) => {
            out.push(match operator {
                One::Not => 0x16,
                One::Negate => 0x17,
            });
            write_expression(operand, out);
        }
        Expression::Two(operator, left, right) => {
            out.push(match operator {
                Two::Add => 0x10,
                Two::Subtract => 0x11,
                Two::Multiply => 0x12,
                Two::Less => 0x13,
                Two::Equal => 0x14,
                Two::And => 0x15,
            });
            write_expression(left, out);
            write_expression(right, out);
        }
    }
}
