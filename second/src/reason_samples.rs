//! Instructions that block, each with its reason: every fault alone, and every two faults at once.
//!
//! A fault is written down in the place where it is judged, so the reason of an instruction with
//! several is that of the first place that has one.

use crate::builder::*;
use crate::expression::{Expression, Two};
use crate::program::{Block, Instruction, Program};
use crate::reason::Reason::{self, *};

/// An instruction that blocks in the state that `ready` leaves.
#[derive(Clone, Debug)]
pub struct Blocks {
    pub name: String,
    pub instruction: Instruction,
    pub reason: Reason,
}

impl Blocks {
    /// "within it no while, call or atomic"
    pub fn may_be_in_atomic(&self) -> bool {
        !matches!(
            self.instruction,
            Instruction::While { .. } | Instruction::Call { .. }
        )
    }

    /// An assignment shows how expressions are judged.
    pub fn is_assign(&self) -> bool {
        matches!(self.instruction, Instruction::Assign { .. })
    }
}

/// The steps of `ready`.
pub const READY_STEPS: u64 = 3;
const POINTER: u8 = 0;
const NUMBER: u8 = 1;
const TRUTH: u8 = 2;
const TARGET: u8 = 3;

/// Locals of each kind: location 0, whose size is 2, the number 0 and true.
fn ready() -> Block {
    vec![
        assign(POINTER, location(0)),
        assign(NUMBER, number(0)),
        assign(TRUTH, truth(true)),
    ]
}

/// The instruction after `ready`, beside a procedure of two parameters.
fn after_ready(instruction: Instruction, mains: &[u16]) -> Program {
    let mut body = ready();
    body.push(instruction);
    let helper = procedure(2, 2, vec![]);
    program(vec![procedure(0, 4, body), helper], &[2], mains)
}

pub fn concurrent(blocks: &Blocks) -> Program {
    after_ready(blocks.instruction.clone(), &[0])
}

pub fn sequential(blocks: &Blocks) -> Program {
    after_ready(blocks.instruction.clone(), &[])
}

/// Between a write, which must leave no trace, and an instruction that would block by another
/// reason.
pub fn in_atomic(blocks: &Blocks) -> Program {
    let body = vec![
        write(POINTER, number(1), number(5)),
        blocks.instruction.clone(),
        another(blocks.reason),
    ];
    after_ready(atomic(body), &[0])
}

/// In a branch inside an atomic block; what would block by another reason stands in the other
/// branch and behind.
pub fn in_a_branch(blocks: &Blocks) -> Program {
    let branch = if_else(
        local(TRUTH),
        vec![assign(TARGET, number(1)), blocks.instruction.clone()],
        vec![another(blocks.reason)],
    );
    after_ready(atomic(vec![branch, another(blocks.reason)]), &[0])
}

/// An instruction that blocks by another reason.
fn another(reason: Reason) -> Instruction {
    match reason {
        OutOfRange => assign(TARGET, wrong_kind()),
        _ => assign(TARGET, too_large()),
    }
}

/// All the instructions.
pub fn blocks() -> Vec<Blocks> {
    let mut all = operators();
    all.extend(reads());
    all.extend(writes());
    all.extend(tests());
    all.extend(calls());
    all
}

// ---- operands ----

/// What may stand at one place: its name, its text, and the reason if it is a fault there.
#[derive(Clone, Debug)]
struct Choice {
    name: &'static str,
    expression: Expression,
    fault: Option<Reason>,
}

fn good(name: &'static str, expression: Expression) -> Choice {
    Choice {
        name,
        expression,
        fault: None,
    }
}

fn bad(name: &'static str, expression: Expression, reason: Reason) -> Choice {
    Choice {
        name,
        expression,
        fault: Some(reason),
    }
}

/// 2,147,483,647 + 1
fn too_large() -> Expression {
    add(number(i32::MAX), number(1))
}

/// not 0
fn wrong_kind() -> Expression {
    not(number(0))
}

/// The two that have no value.
fn nothings() -> Vec<Choice> {
    vec![
        bad("MAX + 1", too_large(), OutOfRange),
        bad("not 0", wrong_kind(), WrongKind),
    ]
}

/// Where a number is wanted.
fn for_a_number() -> Vec<Choice> {
    let mut all = vec![
        good("1", number(1)),
        bad("true", local(TRUTH), WrongKind),
        bad("location", local(POINTER), WrongKind),
    ];
    all.extend(nothings());
    all
}

/// Where a truth value is wanted.
fn for_a_truth() -> Vec<Choice> {
    let mut all = vec![
        good("true", local(TRUTH)),
        bad("0", local(NUMBER), WrongKind),
        bad("location", local(POINTER), WrongKind),
    ];
    all.extend(nothings());
    all
}

/// Where any value will do.
fn for_a_value() -> Vec<Choice> {
    let mut all = vec![good("true", local(TRUTH))];
    all.extend(nothings());
    all
}

/// The first fault in the order in which the places are judged.
fn first(places: &[&Choice]) -> Option<Reason> {
    places.iter().find_map(|choice| choice.fault)
}

/// The instruction, if something in it is a fault.
fn blocking(name: String, instruction: Instruction, fault: Option<Reason>) -> Option<Blocks> {
    fault.map(|reason| Blocks {
        name,
        instruction,
        reason,
    })
}

// ---- assignments ----

/// Operators of two with their sign.
const NUMBERS: [(Two, &str); 4] = [
    (Two::Add, "+"),
    (Two::Subtract, "-"),
    (Two::Multiply, "*"),
    (Two::Less, "<"),
];

fn operators() -> Vec<Blocks> {
    let mut all = Vec::new();
    for (operator, sign) in NUMBERS {
        all.extend(of_two(operator, sign, &for_a_number()));
    }
    all.extend(of_two(Two::And, "and", &for_a_truth()));
    all.extend(equals());
    all.extend(of_one("not", not, &for_a_truth()));
    all.extend(of_one("negate", negate, &for_a_number()));
    all.extend(out_of_range());
    all
}

/// "The left operand, its kind included, is judged before the right".
fn of_two(operator: Two, sign: &str, choices: &[Choice]) -> Vec<Blocks> {
    let mut all = Vec::new();
    for left in choices {
        for right in choices {
            let name = format!("assign: {} {sign} {}", left.name, right.name);
            let value = two(operator, left.expression.clone(), right.expression.clone());
            all.extend(blocking(name, assign(TARGET, value), first(&[left, right])));
        }
    }
    all
}

/// Equal takes every kind on its left; on its right stands a fault, or a value of another kind.
fn equals() -> Vec<Blocks> {
    let kinds = [
        good("0", local(NUMBER)),
        good("true", local(TRUTH)),
        good("location", local(POINTER)),
    ];
    let mut all = Vec::new();
    let lefts: Vec<Choice> = kinds.iter().cloned().chain(nothings()).collect();
    for left in &lefts {
        for right in kinds.iter().cloned().chain(nothings()) {
            let another_kind = (left.name != right.name).then_some(WrongKind);
            let fault = first(&[left, &right]).or(another_kind);
            let name = format!("assign: {} = {}", left.name, right.name);
            let value = equal(left.expression.clone(), right.expression);
            all.extend(blocking(name, assign(TARGET, value), fault));
        }
    }
    all
}

fn of_one(sign: &str, operator: fn(Expression) -> Expression, choices: &[Choice]) -> Vec<Blocks> {
    let of = |choice: &Choice| {
        let name = format!("assign: {sign} {}", choice.name);
        let value = operator(choice.expression.clone());
        blocking(name, assign(TARGET, value), choice.fault)
    };
    choices.iter().filter_map(of).collect()
}

/// Both ends of the range, and a fault deep inside on the left, on the right and on both sides.
fn out_of_range() -> Vec<Blocks> {
    let deep = |inner: Expression| add(number(0), subtract(multiply(inner, number(1)), number(0)));
    let expressions = [
        ("MIN + -1", add(number(i32::MIN), number(-1)), OutOfRange),
        ("MIN - 1", subtract(number(i32::MIN), number(1)), OutOfRange),
        (
            "0 - MIN",
            subtract(local(NUMBER), number(i32::MIN)),
            OutOfRange,
        ),
        (
            "MIN * -1",
            multiply(number(i32::MIN), number(-1)),
            OutOfRange,
        ),
        (
            "65,536 * 32,768",
            multiply(number(65_536), number(32_768)),
            OutOfRange,
        ),
        ("negate MIN", negate(number(i32::MIN)), OutOfRange),
        ("MAX + 1 deep inside", deep(too_large()), OutOfRange),
        ("true deep inside", deep(local(TRUTH)), WrongKind),
        (
            "both deep inside, range first",
            add(deep(too_large()), deep(wrong_kind())),
            OutOfRange,
        ),
        (
            "both deep inside, kind first",
            add(deep(wrong_kind()), deep(too_large())),
            WrongKind,
        ),
        // The right operand of the right operand comes last of all.
        (
            "range, then kind, on the right",
            add(number(1), less(too_large(), local(TRUTH))),
            OutOfRange,
        ),
        (
            "kind of a sum before its range",
            add(local(POINTER), number(i32::MAX)),
            WrongKind,
        ),
        (
            "range before the kind of the whole",
            not(too_large()),
            OutOfRange,
        ),
        (
            "a test of a number too large",
            and(less(too_large(), number(1)), number(0)),
            OutOfRange,
        ),
    ];
    let assigned = |(name, value, reason): (&str, Expression, Reason)| Blocks {
        name: format!("assign: {name}"),
        instruction: assign(TARGET, value),
        reason,
    };
    expressions.map(assigned).to_vec()
}

// ---- reads and writes ----

/// An index expression: what it is a fault for by itself, and whether it is outside the size.
fn indices() -> Vec<(Choice, bool)> {
    let outside = [
        good("2", number(2)),
        good("-1", number(-1)),
        good("65,536", number(65_536)),
        good("MIN", number(i32::MIN)),
    ];
    let inside = for_a_number().into_iter().map(|index| (index, false));
    inside.chain(outside.map(|index| (index, true))).collect()
}

/// A pointer that is one, and two that are none.
const POINTERS: [(&str, u8, Option<Reason>); 3] = [
    ("location", POINTER, None),
    ("0", NUMBER, Some(WrongKind)),
    ("true", TRUTH, Some(WrongKind)),
];

/// "then the index expression, then the pointer, then the index against the size"
fn access_fault(index: &Choice, pointer: Option<Reason>, is_outside: bool) -> Option<Reason> {
    let against_size = is_outside.then_some(IndexOutside);
    index.fault.or(pointer).or(against_size)
}

/// "a read does the same without a value"
fn reads() -> Vec<Blocks> {
    let mut all = Vec::new();
    for (index, is_outside) in indices() {
        for (pointer_name, pointer, pointer_fault) in POINTERS {
            let name = format!("read: {pointer_name}[{}]", index.name);
            let instruction = read(TARGET, pointer, index.expression.clone());
            let fault = access_fault(&index, pointer_fault, is_outside);
            all.extend(blocking(name, instruction, fault));
        }
    }
    all
}

/// "a write judges the value, then the index expression, then the pointer, then the index against
/// the size"
fn writes() -> Vec<Blocks> {
    let mut all = Vec::new();
    for value in for_a_value() {
        for (index, is_outside) in indices() {
            for (pointer_name, pointer, pointer_fault) in POINTERS {
                let name = format!("write: {pointer_name}[{}] := {}", index.name, value.name);
                let instruction =
                    write(pointer, index.expression.clone(), value.expression.clone());
                let fault = value
                    .fault
                    .or(access_fault(&index, pointer_fault, is_outside));
                all.extend(blocking(name, instruction, fault));
            }
        }
    }
    all
}

// ---- tests and calls ----

fn tests() -> Vec<Blocks> {
    let mut all = Vec::new();
    for test in for_a_truth() {
        let branches = if_else(test.expression.clone(), vec![], vec![]);
        let name = format!("if: {}", test.name);
        all.extend(blocking(name, branches, test.fault));
        let name = format!("while: {}", test.name);
        all.extend(blocking(
            name,
            while_do(test.expression, vec![]),
            test.fault,
        ));
    }
    all
}

/// "a call judges its arguments in order"
fn calls() -> Vec<Blocks> {
    let mut all = Vec::new();
    for one in for_a_value() {
        for other in for_a_value() {
            let name = format!("call: {}, {}", one.name, other.name);
            let arguments = vec![one.expression.clone(), other.expression.clone()];
            all.extend(blocking(name, call(1, arguments), first(&[&one, &other])));
        }
    }
    all
}

// ---- whole tables ----

/// A table as bytes, a schedule, and the line that the run program prints.
pub struct Worked {
    pub table: Vec<u8>,
    pub schedule: Vec<u8>,
    pub line: &'static str,
}

/// Tables with their exact lines. In the first eight: one location of size 1, one thread; p :=
/// location 0; v := 0; then the instruction that is named.
pub fn worked() -> Vec<Worked> {
    let mut all: Vec<Worked> = FIRST_EIGHT
        .iter()
        .map(|(_, third, length, line)| Worked {
            table: table_with(third, *length),
            schedule: vec![0; 4],
            line,
        })
        .collect();
    let mut turns = vec![1, 1, 0, 0, 0, 0, 0];
    turns.extend([1; 6]);
    all.push(Worked {
        table: bytes(LOOKS_WHERE_ONE_WAS_LOST),
        schedule: turns,
        line: "blocked 12 383 1 9 3",
    });
    let mut turns = vec![0; 7];
    turns.extend([1; 9]);
    all.push(Worked {
        table: bytes(LOOKS_WHERE_ONE_WAS_LOST),
        schedule: turns,
        line: "finished 16 480 0 10 0",
    });
    all.extend(AND_TABLES.map(|(_, text, line)| Worked {
        table: bytes(text),
        schedule: vec![0; 9],
        line,
    }));
    let b = table(&crate::samples::b());
    let schedules: [(&[u8], &'static str); 4] = [
        (&[0, 0, 1, 1, 0, 1, 0, 1], "finished 8 198 0 4 0"),
        (&[], "used 0 9 0 0 0"),
        (&[0, 0, 0, 0, 0, 1], "blocked 4 103 2 2 4"),
        (&[2], "refused 11"),
    ];
    for (schedule, line) in schedules {
        all.push(Worked {
            table: b.clone(),
            schedule: schedule.to_vec(),
            line,
        });
    }
    all
}

/// The instruction in words, its bytes, the table's length, the line.
const FIRST_EIGHT: [(&str, &str, u8, &str); 8] = [
    (
        "p[not 0] := MAX + 1",
        "21 00 16 01 00 00 00 00 10 01 FF FF FF 7F 01 01 00 00 00",
        0x3A,
        "blocked 2 57 2 0 1",
    ),
    (
        "p[MAX + 1] := not 0",
        "21 00 10 01 FF FF FF 7F 01 01 00 00 00 16 01 00 00 00 00",
        0x3A,
        "blocked 2 57 2 0 2",
    ),
    (
        "v[MAX + 1] := 0",
        "21 01 10 01 FF FF FF 7F 01 01 00 00 00 01 00 00 00 00",
        0x39,
        "blocked 2 57 2 0 1",
    ),
    (
        "v[1] := 0",
        "21 01 01 01 00 00 00 01 00 00 00 00",
        0x33,
        "blocked 2 57 2 0 2",
    ),
    (
        "p[1] := 0",
        "21 00 01 01 00 00 00 01 00 00 00 00",
        0x33,
        "blocked 2 57 2 0 3",
    ),
    (
        "v := true = (MAX + 1)",
        "20 01 14 04 10 01 FF FF FF 7F 01 01 00 00 00",
        0x36,
        "blocked 2 56 2 0 1",
    ),
    (
        "v := true + (MAX + 1)",
        "20 01 10 04 10 01 FF FF FF 7F 01 01 00 00 00",
        0x36,
        "blocked 2 56 2 0 2",
    ),
    (
        "v := (MAX + 1) + true",
        "20 01 10 10 01 FF FF FF 7F 01 01 00 00 00 04",
        0x36,
        "blocked 2 56 2 0 1",
    ),
];

/// Two threads add 1 to a cell; the last to be done looks into a place that is outside exactly if
/// one of them was lost.
const LOOKS_WHERE_ONE_WAS_LOST: &str = "
    20 00 02 00 00 22 01 00 01 00 00 00 00 21 00 01 00 00 00 00 10 05 01 01 01 00 00 00
    20 02 02 01 00 26 22 01 02 01 00 00 00 00 21 02 01 00 00 00 00 10 05 01 01 01 00 00 00 00
    24 14 05 01 01 01 00 00 00 22 01 00 01 00 00 00 00 22 01 00 11 01 02 00 00 00 05 01 00 00 00
    00 03 00 00 00 00 01 00 01 00 00 00 00 00
    43 50 01 00 02 00 02 00 0E 00 00 00 77 00 00 00";

/// x := true, then an empty if whose test is an `and`; one thread. The first one's x is on the right
/// of false: it is not evaluated, and loaded and priced all the same.
const AND_TABLES: [(&str, &str, &str); 2] = [
    (
        "false and (x < 0)",
        "20 00 04 24 15 03 13 05 00 01 00 00 00 00 00 00 00 00 01 00 00 00 00 00 00
        43 50 01 00 00 00 01 00 08 00 00 00 29 00 00 00",
        "finished 3 65 6 0 0",
    ),
    (
        "x and (x < 0)",
        "20 00 04 24 15 05 00 13 05 00 01 00 00 00 00 00 00 00 00 01 00 00 00 00 00 00
        43 50 01 00 00 00 01 00 08 00 00 00 2A 00 00 00",
        "blocked 1 36 8 0 2",
    ),
];

fn table_with(third: &str, length: u8) -> Vec<u8> {
    let mut all = bytes("20 00 02 00 00 20 01 01 00 00 00 00");
    all.extend(bytes(third));
    all.extend(bytes("00 00 02 00 00 00 00 01 00 00 00"));
    all.extend(bytes("43 50 01 00 01 00 01 00 0A 00 00 00"));
    all.extend([length, 0, 0, 0]);
    all
}

/// Bytes written in hexadecimal.
fn bytes(text: &str) -> Vec<u8> {
    let byte = |word| u8::from_str_radix(word, 16).expect("two hexadecimal digits");
    text.split_whitespace().map(byte).collect()
}
