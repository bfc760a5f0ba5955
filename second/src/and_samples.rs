//! Every way through `and`: "a false left side gives false and the right side isn't evaluated. If
//! the left side is true the rule stays".
//!
//! An operand is written down with what it is for `and`: a truth value or a fault. The answer of a
//! row of operands, however they are bracketed, is then that of the first that is not true.

use crate::builder::*;
use crate::expression::Expression;
use crate::program::{Block, Instruction, Program};
use crate::reason::Reason::{self, *};
use crate::value::Value;

/// An expression whose outermost operator is `and`, and what it comes to.
#[derive(Clone, Debug)]
pub struct Joined {
    pub name: String,
    pub expression: Expression,
    pub result: Result<bool, Reason>,
}

/// An expression at one place of a program.
#[derive(Clone, Debug)]
pub struct Placed {
    pub name: String,
    pub body: Block,
    /// What is in cell 0 of location 0 at the end, or why the run blocks.
    pub shown: Result<Value, Reason>,
    /// A loop whose test stays true never ends.
    pub is_endless: bool,
}

impl Placed {
    /// "atomic, concurrent only"
    pub fn may_be_sequential(&self) -> bool {
        !matches!(self.body[..], [Instruction::Atomic { .. }])
    }
}

const POINTER: u8 = 0;
const NUMBER: u8 = 1;
const TRUE: u8 = 2;
const FALSE: u8 = 3;
const TARGET: u8 = 4;

type Operand = (&'static str, Expression, Result<bool, Reason>);

fn too_large() -> Expression {
    add(number(i32::MAX), number(1))
}

/// What may stand on either side.
fn operands() -> Vec<Operand> {
    vec![
        ("false", truth(false), Ok(false)),
        ("true", truth(true), Ok(true)),
        ("f", local(FALSE), Ok(false)),
        ("t", local(TRUE), Ok(true)),
        ("0 < 0", less(local(NUMBER), number(0)), Ok(false)),
        ("0", local(NUMBER), Err(WrongKind)),
        ("location", local(POINTER), Err(WrongKind)),
        ("MAX + 1", too_large(), Err(OutOfRange)),
        ("not 0", not(number(0)), Err(WrongKind)),
    ]
}

/// Three of them, for longer rows.
fn few_operands() -> Vec<Operand> {
    let few = ["f", "t", "MAX + 1"];
    let mut all = operands();
    all.retain(|(name, _, _)| few.contains(name));
    all
}

/// The answer of the first operand that is not true.
fn first_not_true(row: &[&Operand]) -> Result<bool, Reason> {
    let mut results = row.iter().map(|(_, _, result)| *result);
    results
        .find(|result| *result != Ok(true))
        .unwrap_or(Ok(true))
}

/// Every operand beside every other.
pub fn pairs() -> Vec<Joined> {
    let all = operands();
    let mut joined = Vec::new();
    for left in &all {
        for right in &all {
            joined.push(Joined {
                name: format!("{} and {}", left.0, right.0),
                expression: and(left.1.clone(), right.1.clone()),
                result: first_not_true(&[left, right]),
            });
        }
    }
    joined
}

/// Rows of four, three deep on the left and on the right.
pub fn rows() -> Vec<Joined> {
    let few = few_operands();
    let mut joined = Vec::new();
    for number in 0..few.len().pow(4) {
        let digit = |place: u32| &few[number / few.len().pow(place) % few.len()];
        let row = [digit(3), digit(2), digit(1), digit(0)];
        let [a, b, c, d] = row.map(|operand| operand.1.clone());
        let names = row.map(|operand| operand.0);
        let result = first_not_true(&row);
        let [p, q, r, s] = names;
        joined.push(Joined {
            name: format!("(({p} and {q}) and {r}) and {s}"),
            expression: and(and(and(a.clone(), b.clone()), c.clone()), d.clone()),
            result,
        });
        joined.push(Joined {
            name: format!("{p} and ({q} and ({r} and {s}))"),
            expression: and(a, and(b, and(c, d))),
            result,
        });
    }
    joined
}

/// The expression in an assignment.
pub fn assigned(joined: &Joined) -> Placed {
    let body = vec![
        assign(TARGET, joined.expression.clone()),
        write(POINTER, number(0), local(TARGET)),
    ];
    placed("assign", joined, body, joined.result.map(Value::Truth))
}

/// In every other place where an expression may stand, and inside atomic blocks.
pub fn places(joined: &Joined) -> Vec<Placed> {
    let e = || joined.expression.clone();
    let truth = joined.result.map(Value::Truth);
    let tell = |n| vec![write(POINTER, number(0), number(n))];
    let chosen = joined.result.map(|is| Value::Whole(if is { 1 } else { 2 }));
    let looped = joined.result.map(|is| Value::Whole(i32::from(is)));
    let no_index = joined.result.and(Err(WrongKind));
    let branches = || if_else(e(), tell(1), tell(2));
    let stored = || write(POINTER, number(0), e());
    let before = || write(POINTER, number(1), number(5));
    let is_endless = joined.result == Ok(true);
    vec![
        placed("write", joined, vec![stored()], truth),
        placed("if", joined, vec![branches()], chosen),
        Placed {
            is_endless,
            ..placed("while", joined, vec![while_do(e(), tell(1))], looped)
        },
        placed(
            "index of a read",
            joined,
            vec![read(TARGET, POINTER, e())],
            no_index,
        ),
        placed(
            "index of a write",
            joined,
            vec![write(POINTER, e(), number(1))],
            no_index,
        ),
        placed(
            "argument",
            joined,
            vec![call(1, vec![number(1), e()])],
            truth,
        ),
        placed(
            "operand",
            joined,
            vec![write(POINTER, number(0), not(not(e())))],
            truth,
        ),
        placed(
            "atomic write",
            joined,
            vec![atomic(vec![before(), stored()])],
            truth,
        ),
        placed(
            "atomic if",
            joined,
            vec![atomic(vec![before(), branches()])],
            chosen,
        ),
    ]
}

fn placed(place: &str, joined: &Joined, body: Block, shown: Result<Value, Reason>) -> Placed {
    Placed {
        name: format!("{place}: {}", joined.name),
        body,
        shown,
        is_endless: false,
    }
}

/// The steps before the place.
pub const READY_STEPS: u64 = 4;

/// The place behind assignments that set a local of each kind, beside a procedure that stores its
/// second argument in cell 0.
fn around(placed: &Placed, mains: &[u16]) -> Program {
    let mut body = vec![
        assign(POINTER, location(0)),
        assign(NUMBER, number(0)),
        assign(TRUE, truth(true)),
        assign(FALSE, truth(false)),
    ];
    body.extend(placed.body.clone());
    let stores = vec![assign(2, location(0)), write(2, number(0), local(1))];
    let procedures = vec![procedure(0, 5, body), procedure(2, 3, stores)];
    program(procedures, &[2], mains)
}

pub fn concurrent(placed: &Placed) -> Program {
    around(placed, &[0])
}

pub fn sequential(placed: &Placed) -> Program {
    around(placed, &[])
}

/// All of them.
pub fn all_placed() -> Vec<Placed> {
    let mut all: Vec<Placed> = pairs().iter().map(assigned).collect();
    all.extend(pairs().iter().flat_map(places));
    all.extend(rows().iter().map(assigned));
    all
}
