//! Programs as trees.

use crate::expression::Expression;

/// Which of the two languages a table is written in.
#[derive(Clone, Copy, PartialEq, Eq, Debug)]
pub enum Kind {
    Concurrent,
    Sequential,
}

/// "A block holds instructions and an instruction may hold blocks".
pub type Block = Vec<Instruction>;

#[derive(Clone, PartialEq, Eq, Debug)]
pub enum Instruction {
    /// x := e
    Assign {
        target: u8,
        value: Expression,
    },
    /// y[o] := e
    Write {
        pointer: u8,
        index: Expression,
        value: Expression,
    },
    /// x := y[o]
    Read {
        target: u8,
        pointer: u8,
        index: Expression,
    },
    While {
        test: Expression,
        body: Block,
    },
    If {
        test: Expression,
        then: Block,
        otherwise: Block,
    },
    Call {
        procedure: u16,
        arguments: Vec<Expression>,
    },
    /// "atomic, concurrent only; within it no while, call or atomic"
    Atomic {
        body: Block,
    },
    /// "select, sequential only, only in procedure 0"; its locations a and b.
    Select {
        a: u16,
        b: u16,
    },
}

#[derive(Clone, PartialEq, Eq, Debug)]
pub struct Procedure {
    pub parameters: u8,
    /// "locals (parameters first and included)"
    pub locals: u8,
    pub body: Block,
}

#[derive(Clone, PartialEq, Eq, Debug)]
pub struct Program {
    pub procedures: Vec<Procedure>,
    /// The size of each location.
    pub sizes: Vec<u16>,
    /// The main procedure of each thread; empty in a sequential program.
    pub mains: Vec<u16>,
}

impl Program {
    /// The number of cells: all sizes together.
    pub fn cells(&self) -> usize {
        self.sizes.iter().map(|size| usize::from(*size)).sum()
    }
}
