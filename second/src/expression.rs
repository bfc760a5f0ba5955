//! Expressions: trees, their values and their variables.

use crate::reason::Reason;
use crate::value::Value;
use std::collections::BTreeSet;

/// The local variables of one frame; `None` is a variable that is not set.
pub type Locals = [Option<Value>];

#[derive(Clone, PartialEq, Eq, Debug)]
pub enum Expression {
    Constant(Value),
    Local(u8),
    One(One, Box<Expression>),
    Two(Two, Box<Expression>, Box<Expression>),
}

/// Operators with one operand.
#[derive(Clone, Copy, PartialEq, Eq, Debug)]
pub enum One {
    Not,
    Negate,
}

/// Operators with two operands.
#[derive(Clone, Copy, PartialEq, Eq, Debug)]
pub enum Two {
    Add,
    Subtract,
    Multiply,
    Less,
    Equal,
    And,
}

impl Expression {
    /// The value of an expression, or the reason why it has none.
    ///
    /// "An operator with an operand that has no value, or of the wrong kind, has none itself". "The
    /// left operand, its kind included, is judged before the right, and the range of the result
    /// last". Of and "a false left side gives false and the right side isn't evaluated".
    pub fn value(&self, locals: &Locals) -> Result<Value, Reason> {
        match self {
            Expression::Constant(value) => Ok(*value),
            Expression::Local(x) => local(*x, locals),
            Expression::One(operator, operand) => {
                let operand = operand.value(locals)?;
                one(*operator, operand)
            }
            Expression::Two(operator, left, right) => {
                let left = left.value(locals)?;
                takes_on_its_left(*operator, left)?;
                if (*operator, left) == (Two::And, Value::Truth(false)) {
                    return Ok(left);
                }
                let right = right.value(locals)?;
                two(*operator, left, right)
            }
        }
    }

    /// The distinct variables of an expression, rising.
    pub fn variables(&self) -> BTreeSet<u8> {
        match self {
            Expression::Constant(_) => BTreeSet::new(),
            Expression::Local(x) => BTreeSet::from([*x]),
            Expression::One(_, operand) => operand.variables(),
            Expression::Two(_, left, right) => {
                let mut all = left.variables();
                all.extend(right.variables());
                all
            }
        }
    }

    /// "a leaf has depth 1".
    pub fn depth(&self) -> usize {
        match self {
            Expression::Constant(_) | Expression::Local(_) => 1,
            Expression::One(_, operand) => 1 + operand.depth(),
            Expression::Two(_, left, right) => 1 + left.depth().max(right.depth()),
        }
    }
}

/// A variable that is not set has no kind at all. Number 8 keeps it out of every run.
pub fn local(x: u8, locals: &Locals) -> Result<Value, Reason> {
    let value = locals.get(usize::from(x)).copied().flatten();
    value.ok_or(Reason::WrongKind)
}

/// A result, `None` where it is outside the range: "a result outside the range is no value: nothing
/// wraps and nothing is clamped".
fn in_range(result: Option<i32>) -> Result<Value, Reason> {
    result.map(Value::Whole).ok_or(Reason::OutOfRange)
}

fn one(operator: One, operand: Value) -> Result<Value, Reason> {
    match (operator, operand) {
        (One::Not, Value::Truth(truth)) => Ok(Value::Truth(!truth)),
        (One::Negate, Value::Whole(number)) => in_range(number.checked_neg()),
        _ => Err(Reason::WrongKind),
    }
}

/// The kind of the left operand, which is judged before the right one is looked at. Equal takes any.
fn takes_on_its_left(operator: Two, left: Value) -> Result<(), Reason> {
    match (operator, left) {
        (Two::Add | Two::Subtract | Two::Multiply | Two::Less, Value::Whole(_)) => Ok(()),
        (Two::And, Value::Truth(_)) => Ok(()),
        (Two::Equal, _) => Ok(()),
        _ => Err(Reason::WrongKind),
    }
}

fn two(operator: Two, left: Value, right: Value) -> Result<Value, Reason> {
    match (operator, left, right) {
        (Two::Add, Value::Whole(a), Value::Whole(b)) => in_range(a.checked_add(b)),
        (Two::Subtract, Value::Whole(a), Value::Whole(b)) => in_range(a.checked_sub(b)),
        (Two::Multiply, Value::Whole(a), Value::Whole(b)) => in_range(a.checked_mul(b)),
        (Two::Less, Value::Whole(a), Value::Whole(b)) => Ok(Value::Truth(a < b)),
        (Two::Equal, _, _) => equal(left, right),
        (Two::And, Value::Truth(a), Value::Truth(b)) => Ok(Value::Truth(a && b)),
        _ => Err(Reason::WrongKind),
    }
}

/// "equal (two of one kind)".
fn equal(left: Value, right: Value) -> Result<Value, Reason> {
    match (left, right) {
        (Value::Whole(a), Value::Whole(b)) => Ok(Value::Truth(a == b)),
        (Value::Location(a), Value::Location(b)) => Ok(Value::Truth(a == b)),
        (Value::Truth(a), Value::Truth(b)) => Ok(Value::Truth(a == b)),
        _ => Err(Reason::WrongKind),
    }
}
