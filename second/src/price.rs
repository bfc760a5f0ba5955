//! Prices: how many steps of the copy's label procedure one step of the program costs.

use crate::concurrent::Done;
use crate::expression::Expression;
use crate::labels::{self, At};
use crate::program::{Block, Instruction, Program};

/// The least and the most that a step at one place can cost.
#[derive(Clone, Copy, PartialEq, Eq, Debug, Default)]
pub struct Span {
    pub least: u64,
    pub most: u64,
}

impl Span {
    fn only(price: u64) -> Span {
        Span {
            least: price,
            most: price,
        }
    }

    fn and(self, other: Span) -> Span {
        Span {
            least: self.least + other.least,
            most: self.most + other.most,
        }
    }

    fn or(self, other: Span) -> Span {
        Span {
            least: self.least.min(other.least),
            most: self.most.max(other.most),
        }
    }
}

/// The listed price of the step at a label, `None` if there is no such label. An atomic block has
/// a price for each way through its inner ifs.
pub fn at_label(program: &Program, label: u64) -> Option<Span> {
    Some(match labels::at(program, label)? {
        At::Instruction(Instruction::Atomic { body }) => of_ways(body).and(Span::only(2)),
        At::Instruction(instruction) => Span::only(of_label(instruction)),
        At::End(_) => Span::only(of_step(&Done::Return)),
    })
}

/// The prices of all ways through a block inside an atomic one.
fn of_ways(block: &Block) -> Span {
    let each = block.iter().map(|instruction| {
        let own = Span::only(in_place(instruction));
        match instruction {
            Instruction::If {
                then, otherwise, ..
            } => own.and(of_ways(then).or(of_ways(otherwise))),
            _ => own,
        }
    });
    each.fold(Span::default(), Span::and)
}

/// The price of a step that a thread took.
pub fn of_step(done: &Done) -> u64 {
    match done {
        Done::One(instruction) => of_label(instruction),
        // atomic: "inner prices (assign, read and write 2 lower) + 2"
        Done::Atomic(inner) => inner.iter().map(|i| in_place(i)).sum::<u64>() + 2,
        // end label
        Done::Return => 4,
    }
}

fn of_label(instruction: &Instruction) -> u64 {
    match instruction {
        Instruction::Assign { value, .. } => 2 * count(value) + 4,
        Instruction::Read { index, .. } => 2 * count(index) + 7,
        Instruction::Write { index, value, .. } => 2 * count(value) + 2 * count(index) + 5,
        Instruction::While { test, .. } | Instruction::If { test, .. } => 2 * count(test) + 3,
        Instruction::Call { arguments, .. } => {
            2 * count_together(arguments) + 2 * arguments.len() as u64 + 4
        }
        Instruction::Atomic { .. } | Instruction::Select { .. } => 0,
    }
}

/// Inside an atomic block: "an inner if keeps its blocks (2k+1 and the branch taken)".
fn in_place(instruction: &Instruction) -> u64 {
    match instruction {
        Instruction::If { test, .. } => 2 * count(test) + 1,
        Instruction::Assign { .. } | Instruction::Read { .. } | Instruction::Write { .. } => {
            of_label(instruction) - 2
        }
        _ => 0,
    }
}

fn count(expression: &Expression) -> u64 {
    expression.variables().len() as u64
}

/// "For a call, k counts the variables of all arguments together."
fn count_together(arguments: &[Expression]) -> u64 {
    let mut variables: Vec<u8> = arguments.iter().flat_map(Expression::variables).collect();
    variables.sort_unstable();
    variables.dedup();
    variables.len() as u64
}
