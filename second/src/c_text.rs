//! A sequential program as C11 text, by the rules of docs/C-TEXT.md; comments quote them.

use crate::expression::{Expression, One, Two};
use crate::program::{Block, Instruction, Procedure, Program};
use crate::value::Value;

/// "It is the same for every table."
pub const PRELUDE: &str = include_str!("prelude.h");

/// "the longest text has 3,373,119 bytes"
pub const LONGEST: usize = 3_373_119;

/// "text = PRELUDE location* `const z_area z_areas[] = {\n` area* `  { 0, 0 }\n};\n\n`
/// declaration* definition*"
pub fn text(program: &Program) -> String {
    let mut out = PRELUDE.to_string();
    for (k, size) in program.sizes.iter().enumerate() {
        out += &format!("z_value m{k}[{size}];\n");
    }
    out += "const z_area z_areas[] = {\n";
    for (k, size) in program.sizes.iter().enumerate() {
        out += &format!("  {{ m{k}, {size} }},\n");
    }
    out += "  { 0, 0 }\n};\n\n";
    for (k, procedure) in program.procedures.iter().enumerate() {
        out += &format!("{};\n", head(k, procedure));
    }
    for (k, procedure) in program.procedures.iter().enumerate() {
        write_definition(k, procedure, &mut out);
    }
    out
}

/// "head = `void p<k>(` params `)`"
fn head(k: usize, procedure: &Procedure) -> String {
    let parameters = (0..procedure.parameters).map(|j| format!("z_value x{j}"));
    let parameters: Vec<String> = parameters.collect();
    match parameters.is_empty() {
        true => format!("void p{k}(void)"),
        false => format!("void p{k}({})", parameters.join(", ")),
    }
}

fn write_definition(k: usize, procedure: &Procedure, out: &mut String) {
    *out += &format!("\n{} {{\n  enum {{ here = {k} }};\n", head(k, procedure));
    for j in 0..procedure.parameters {
        *out += &format!("  x{j} = z_arg(x{j});\n");
    }
    for j in procedure.parameters..procedure.locals {
        *out += &format!("  z_value x{j} = z_unset(); (void)x{j};\n");
    }
    write_block(&procedure.body, 1, out);
    *out += "  z_return();\n}\n";
}

/// "IND(d) is 2d spaces"
pub fn indentation(depth: usize) -> String {
    "  ".repeat(depth)
}

/// "block(d) is the instructions of a block at depth d (1 to 16), each with 2d spaces before it"
fn write_block(block: &Block, depth: usize, out: &mut String) {
    for instruction in block {
        *out += &indentation(depth);
        write_instruction(instruction, depth, out);
    }
}

fn write_instruction(instruction: &Instruction, depth: usize, out: &mut String) {
    match instruction {
        Instruction::Assign { target, value } => {
            *out += &format!("x{target} = z_set({});\n", expression(value, 1));
        }
        Instruction::Write {
            pointer,
            index,
            value,
        } => {
            let (index, value) = (expression(index, 1), expression(value, 1));
            *out += &format!("z_write(here, x{pointer}, {index}, {value});\n");
        }
        Instruction::Read {
            target,
            pointer,
            index,
        } => {
            let index = expression(index, 1);
            *out += &format!("x{target} = z_read(here, x{pointer}, {index});\n");
        }
        Instruction::While { test, body } => {
            *out += &format!("while (z_test({})) {{\n", expression(test, 1));
            write_block(body, depth + 1, out);
            *out += &format!("{}}}\n", indentation(depth));
        }
        Instruction::If {
            test,
            then,
            otherwise,
        } => {
            *out += &format!("if (z_test({})) {{\n", expression(test, 1));
            write_block(then, depth + 1, out);
            *out += &format!("{}}} else {{\n", indentation(depth));
            write_block(otherwise, depth + 1, out);
            *out += &format!("{}}}\n", indentation(depth));
        }
        Instruction::Call {
            procedure,
            arguments,
        } => {
            let arguments: Vec<String> = arguments.iter().map(|e| expression(e, 1)).collect();
            *out += &format!("z_call(); p{procedure}({});\n", arguments.join(",\n"));
        }
        // No sequential program holds an atomic block (number 4).
        Instruction::Atomic { .. } => {}
        Instruction::Select { a, b } => *out += &format!("z_select({a}, {b});\n"),
    }
}

/// "E is E(e, 1), the expression at level 1; an operand is one level below its operator"
fn expression(e: &Expression, level: usize) -> String {
    match e {
        Expression::Constant(Value::Whole(number)) => format!("z_num({number})"),
        Expression::Constant(Value::Location(location)) => format!("z_loc({location})"),
        Expression::Constant(Value::Truth(false)) => "z_false()".to_string(),
        Expression::Constant(Value::Truth(true)) => "z_true()".to_string(),
        Expression::Local(x) => format!("x{x}"),
        Expression::One(operator, operand) => {
            format!("{}({})", one(*operator), expression(operand, level + 1))
        }
        Expression::Two(operator, left, right) => {
            let (left, right) = (expression(left, level + 1), expression(right, level + 1));
            format!("{}({left}{}{right})", two(*operator), separator(level))
        }
    }
}

pub fn one(operator: One) -> &'static str {
    match operator {
        One::Not => "z_not",
        One::Negate => "z_neg",
    }
}

pub fn two(operator: Two) -> &'static str {
    match operator {
        Two::Add => "z_add",
        Two::Subtract => "z_sub",
        Two::Multiply => "z_mul",
        Two::Less => "z_less",
        Two::Equal => "z_equal",
        Two::And => "z_and",
    }
}

/// "SEP(l) is `, ` for l = 1, 2, 3 and `,\n` from 4 on."
pub fn separator(level: usize) -> &'static str {
    match level {
        0..=3 => ", ",
        _ => ",\n",
    }
}
