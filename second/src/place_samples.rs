//! Programs for both modes of the translator, each with the places of its procedures' locals.

use crate::builder::*;
use crate::expression::Expression;
use crate::placement::Row;
use crate::program::{Block, Procedure, Program};

/// A program, and the row of its locals in both modes.
pub struct Placed {
    pub name: &'static str,
    pub program: Program,
    pub own: Row,
    pub shared: Row,
}

/// C: x0 := 5; call 1(x0); call 2(). 1: x1 := x0 + 1. 2: x0 := true.
pub fn c() -> Program {
    let main = vec![
        assign(0, number(5)),
        call(1, vec![local(0)]),
        call(2, vec![]),
    ];
    let first = vec![assign(1, add(local(0), number(1)))];
    let second = vec![assign(0, truth(true))];
    one_thread(vec![
        procedure(0, 1, main),
        procedure(1, 2, first),
        procedure(0, 1, second),
    ])
}

/// A copy of 65,538 bytes in the old mode and of 65,536 in the other: a block of long code in
/// procedure 0, and a local of procedure 1, which nobody calls. Each more byte makes both copies
/// one byte longer; at most 6.
pub fn edge_of_9(more: usize) -> Program {
    let copies = vec![write(0, local(0), local(0)); 1_812];
    let mut inner = vec![assign(0, nots(9 + more)), assign(0, nots(15))];
    inner.extend(copies);
    one_thread(vec![
        procedure(0, 1, vec![atomic(inner)]),
        procedure(0, 1, vec![]),
    ])
}

/// The same with two bytes less in each copy, so that the old mode's has 65,536.
pub fn edge_of_9_in_the_old_mode() -> Program {
    let mut program = edge_of_9(0);
    let short = vec![assign(0, nots(7)), assign(0, nots(15))];
    let copies = vec![write(0, local(0), local(0)); 1_812];
    program.procedures[0].body = vec![atomic([short, copies].concat())];
    program
}

fn nots(count: usize) -> Expression {
    (0..count).fold(truth(true), |operand, _| not(operand))
}

/// "A program with sixteen helpers reserves cells for all of them although few are alive
/// together": a main and fifteen procedures that it calls one after the other, each of which counts
/// its parameter up.
pub fn helpers() -> Program {
    let calls = (1..16).map(|helper| call(helper, vec![local(0)]));
    let main = [vec![assign(0, number(1))], calls.collect()].concat();
    let helper = |number: usize| {
        let locals = 1 + (number % 16) as u8;
        let mut body = Block::new();
        for x in 1..locals {
            body.push(assign(x, add(local(x - 1), crate::builder::number(1))));
        }
        procedure(1, locals, body)
    };
    let mut procedures = vec![procedure(0, 1, main)];
    procedures.extend((1..16).map(helper));
    program(procedures, &[], &[0, 0])
}

/// A procedure without parameters that calls these.
fn calling(locals: u8, callees: &[u16]) -> Procedure {
    let calls = callees.iter().map(|callee| call(*callee, vec![]));
    procedure(0, locals, calls.collect())
}

fn one_thread(procedures: Vec<Procedure>) -> Program {
    program(procedures, &[], &[0])
}

fn row(starts: &[u16], length: u16) -> Row {
    Row {
        starts: starts.to_vec(),
        length,
    }
}

fn sums(locals: &[u16]) -> Row {
    let mut end = 0;
    let mut starts = Vec::new();
    for count in locals {
        starts.push(end);
        end += count;
    }
    row(&starts, end)
}

fn placed(
    name: &'static str,
    procedures: Vec<Procedure>,
    starts: &[u16],
    length: u16,
    mains: &[u16],
) -> Placed {
    let locals: Vec<u16> = procedures.iter().map(|p| u16::from(p.locals)).collect();
    Placed {
        name,
        program: program(procedures, &[], mains),
        own: sums(&locals),
        shared: row(starts, length),
    }
}

pub fn samples() -> Vec<Placed> {
    let dead = vec![if_else(
        truth(true),
        vec![],
        vec![while_do(truth(false), vec![call(1, vec![])])],
    )];
    let inside = vec![
        if_else(truth(true), vec![call(1, vec![])], vec![call(2, vec![])]),
        while_do(truth(false), vec![call(3, vec![])]),
    ];
    let chain = (0..16).map(|number: u16| match number {
        15 => calling(16, &[]),
        _ => calling(16, &[number + 1]),
    });
    let multiples: Vec<u16> = (0..16).map(|number| 16 * number).collect();
    let after_main: Vec<u16> = [vec![0], vec![1; 15]].concat();
    let mut all = vec![
        placed("C", c().procedures, &[0, 1, 1], 3, &[0]),
        placed(
            "no locals",
            vec![calling(0, &[1]), calling(0, &[])],
            &[0, 0],
            0,
            &[0],
        ),
        placed("one procedure", vec![calling(5, &[])], &[0], 5, &[0]),
        // Callers are those as written, also of a procedure that no thread reaches.
        placed(
            "the caller is called by nobody",
            vec![calling(0, &[]), calling(16, &[2]), calling(16, &[])],
            &[0, 0, 16],
            32,
            &[0],
        ),
        placed(
            "two mains that call nothing",
            vec![calling(3, &[]), calling(7, &[])],
            &[0, 0],
            7,
            &[0, 1, 1],
        ),
        placed(
            "a call in dead code",
            vec![procedure(0, 2, dead), calling(3, &[])],
            &[0, 2],
            5,
            &[0],
        ),
        placed(
            "calls in blocks",
            vec![
                procedure(0, 2, inside),
                calling(1, &[]),
                calling(2, &[]),
                calling(3, &[]),
            ],
            &[0, 2, 2, 2],
            5,
            &[0],
        ),
        // Behind the longer of two ways: 0 to 1 to 3 is 3 long, 0 to 2 to 3 is 6.
        placed(
            "two ways",
            vec![
                calling(1, &[1, 2]),
                calling(2, &[3]),
                calling(5, &[3]),
                calling(4, &[]),
            ],
            &[0, 1, 1, 6],
            10,
            &[0],
        ),
        placed(
            "a way of one call and one of two",
            vec![calling(1, &[2, 1, 2]), calling(2, &[2]), calling(1, &[])],
            &[0, 1, 3],
            4,
            &[0],
        ),
        // The numbers of the procedures say nothing about who calls.
        placed(
            "called from behind",
            vec![calling(3, &[]), calling(2, &[0]), calling(1, &[1, 0])],
            &[3, 1, 0],
            6,
            &[2, 0],
        ),
        placed(
            "a procedure without locals between",
            vec![calling(2, &[1]), calling(0, &[2]), calling(2, &[])],
            &[0, 2, 2],
            4,
            &[0],
        ),
        placed("sixteen in a chain", chain.collect(), &multiples, 256, &[0]),
    ];
    all.push(placed(
        "sixteen helpers",
        helpers().procedures,
        &after_main,
        17,
        &[0, 0],
    ));
    all
}
