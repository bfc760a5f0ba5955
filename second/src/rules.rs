//! Refusals 5 to 8, which judge trees.

use crate::expression::Expression;
use crate::labels;
use crate::program::{Block, Instruction, Procedure, Program};
use crate::value::Value;
use std::collections::BTreeSet;

fn refuse_unless(right: bool, number: u8) -> Result<(), u8> {
    if right {
        Ok(())
    } else {
        Err(number)
    }
}

/// "5: a local, location or procedure not below its count; n not the callee's parameters"
pub fn refusal_5(program: &Program) -> Result<(), u8> {
    let mut procedures = program.procedures.iter();
    let right =
        procedures.all(|procedure| counts_hold_in_block(program, procedure, &procedure.body));
    refuse_unless(right, 5)
}

fn counts_hold_in_block(program: &Program, procedure: &Procedure, block: &Block) -> bool {
    block
        .iter()
        .all(|instruction| counts_hold(program, procedure, instruction))
}

fn counts_hold(program: &Program, procedure: &Procedure, instruction: &Instruction) -> bool {
    let local = |x: &u8| *x < procedure.locals;
    let location = |l: &u16| usize::from(*l) < program.sizes.len();
    let expression = |e: &Expression| counts_hold_in_expression(program, procedure, e);
    let block = |b: &Block| counts_hold_in_block(program, procedure, b);
    match instruction {
        Instruction::Assign { target, value } => local(target) && expression(value),
        Instruction::Write {
            pointer,
            index,
            value,
        } => local(pointer) && expression(index) && expression(value),
        Instruction::Read {
            target,
            pointer,
            index,
        } => local(target) && local(pointer) && expression(index),
        Instruction::While { test, body } => expression(test) && block(body),
        Instruction::If {
            test,
            then,
            otherwise,
        } => expression(test) && block(then) && block(otherwise),
        Instruction::Call {
            procedure,
            arguments,
        } => takes(program, *procedure, arguments.len()) && arguments.iter().all(expression),
        Instruction::Atomic { body } => block(body),
        Instruction::Select { a, b } => location(a) && location(b),
    }
}

/// The callee exists and has that many parameters.
fn takes(program: &Program, procedure: u16, arguments: usize) -> bool {
    match program.procedures.get(usize::from(procedure)) {
        Some(callee) => usize::from(callee.parameters) == arguments,
        None => false,
    }
}

fn counts_hold_in_expression(
    program: &Program,
    procedure: &Procedure,
    expression: &Expression,
) -> bool {
    match expression {
        Expression::Constant(Value::Location(l)) => usize::from(*l) < program.sizes.len(),
        Expression::Constant(Value::Whole(_) | Value::Truth(_)) => true,
        Expression::Local(x) => *x < procedure.locals,
        Expression::One(_, operand) => counts_hold_in_expression(program, procedure, operand),
        Expression::Two(_, left, right) => {
            counts_hold_in_expression(program, procedure, left)
                && counts_hold_in_expression(program, procedure, right)
        }
    }
}

/// "6: concurrent: over 400 labels"; request #110: "labels to 1,000"
pub fn refusal_6(program: &Program) -> Result<(), u8> {
    refuse_unless(labels::of_program(program) <= 1_000, 6)
}

/// "7: some procedure can reach itself by calls"
///
/// Procedures that call nothing are taken away, then those that call only procedures taken away,
/// and so on. A procedure that stays calls another that stays, so one of them reaches itself; and
/// one that reaches itself can never be taken away.
pub fn refusal_7(program: &Program) -> Result<(), u8> {
    let calls: Vec<BTreeSet<u16>> = program.procedures.iter().map(callees).collect();
    let mut gone: BTreeSet<u16> = BTreeSet::new();
    loop {
        let before = gone.len();
        for (procedure, callees) in calls.iter().enumerate() {
            if callees.is_subset(&gone) {
                gone.insert(procedure as u16);
            }
        }
        if gone.len() == before {
            break;
        }
    }
    refuse_unless(gone.len() == calls.len(), 7)
}

/// The procedures that a text calls, dead code included.
pub fn callees(procedure: &Procedure) -> BTreeSet<u16> {
    let mut all = BTreeSet::new();
    gather_callees(&procedure.body, &mut all);
    all
}

fn gather_callees(block: &Block, all: &mut BTreeSet<u16>) {
    for instruction in block {
        match instruction {
            Instruction::Call { procedure, .. } => {
                all.insert(*procedure);
            }
            Instruction::While { body, .. } | Instruction::Atomic { body } => {
                gather_callees(body, all);
            }
            Instruction::If {
                then, otherwise, ..
            } => {
                gather_callees(then, all);
                gather_callees(otherwise, all);
            }
            _ => {}
        }
    }
}

/// "8: a local may be read before it is set"
pub fn refusal_8(program: &Program) -> Result<(), u8> {
    let mut procedures = program.procedures.iter();
    refuse_unless(procedures.all(reads_only_what_is_set), 8)
}

type Set = BTreeSet<u8>;

/// "parameters are set at entry"
fn reads_only_what_is_set(procedure: &Procedure) -> bool {
    let at_entry: Set = (0..procedure.parameters).collect();
    set_after_block(&procedure.body, at_entry).is_some()
}

/// What is set after a block, `None` where it mentions for its value a variable that is not set.
fn set_after_block(block: &Block, before: Set) -> Option<Set> {
    let mut set = before;
    for instruction in block {
        set = set_after(instruction, set)?;
    }
    Some(set)
}

/// "Every variable that an instruction mentions for its value must be set there."
fn set_after(instruction: &Instruction, before: Set) -> Option<Set> {
    match instruction {
        // "an assignment or read sets its target"
        Instruction::Assign { target, value } => {
            must_be_set(&before, value)?;
            Some(with(before, *target))
        }
        Instruction::Read {
            target,
            pointer,
            index,
        } => {
            must_be_set(&before, index)?;
            pointer_must_be_set(&before, *pointer)?;
            Some(with(before, *target))
        }
        Instruction::Write {
            pointer,
            index,
            value,
        } => {
            must_be_set(&before, value)?;
            must_be_set(&before, index)?;
            pointer_must_be_set(&before, *pointer)?;
            Some(before)
        }
        // "after an if, what both branches set"
        Instruction::If {
            test,
            then,
            otherwise,
        } => {
            must_be_set(&before, test)?;
            let after_then = set_after_block(then, before.clone())?;
            let after_otherwise = set_after_block(otherwise, before)?;
            Some(&after_then & &after_otherwise)
        }
        // "after a while, what was set before it"
        Instruction::While { test, body } => {
            must_be_set(&before, test)?;
            set_after_block(body, before.clone())?;
            Some(before)
        }
        Instruction::Call { arguments, .. } => {
            for argument in arguments {
                must_be_set(&before, argument)?;
            }
            Some(before)
        }
        // "after an atomic, what its block sets"
        Instruction::Atomic { body } => set_after_block(body, before),
        Instruction::Select { .. } => Some(before),
    }
}

fn with(mut set: Set, target: u8) -> Set {
    set.insert(target);
    set
}

fn must_be_set(set: &Set, expression: &Expression) -> Option<()> {
    expression.variables().is_subset(set).then_some(())
}

fn pointer_must_be_set(set: &Set, pointer: u8) -> Option<()> {
    set.contains(&pointer).then_some(())
}
