//! Programs with the prices of their labels, worked by hand.

use crate::builder::*;
use crate::expression::Expression;
use crate::price::Span;
use crate::program::{Block, Instruction, Kind, Program};
use crate::samples::{b, deepest, A};
use crate::verdict::verdict;

/// A program, and the least and the most price of each label from 1 on; of a long program those
/// that are worked.
#[derive(Clone, Debug)]
pub struct Priced {
    pub name: &'static str,
    pub program: Program,
    pub prices: Vec<(u64, Span)>,
}

/// "an expression nests at most 16 deep", so no expression here has more variables.
const MOST: u8 = 16;

fn span(least: u64, most: u64) -> Span {
    Span { least, most }
}

fn only(price: u64) -> Span {
    span(price, price)
}

/// Prices of the labels 1, 2, ..
fn from_1(prices: Vec<Span>) -> Vec<(u64, Span)> {
    (1..).zip(prices).collect()
}

/// Locals 0 to 15 as numbers 1, each priced 4.
fn all_set() -> Block {
    (0..MOST).map(|x| assign(x, number(1))).collect()
}

/// A sum over so many variables, the last first: x15 + (x14 + (.. + x0)) for 16.
fn sum(variables: u8) -> Expression {
    match variables {
        0 => number(7),
        _ => (1..variables).fold(local(0), |inner, x| add(local(x), inner)),
    }
}

/// One thread with 16 locals that are all set; the prices are of what follows, the end included.
fn behind_sets(name: &'static str, code: Block, prices: Vec<Span>) -> Priced {
    let code_labels = code.len() as u64;
    assert_eq!(
        code_labels,
        prices.len() as u64,
        "{name}: labels without blocks"
    );
    let first = u64::from(MOST) + 1;
    let mut all: Vec<_> = (first..).zip(prices).collect();
    all.push((first + code_labels, only(4)));
    Priced {
        name,
        program: program(
            vec![
                procedure(0, MOST, [all_set(), code].concat()),
                procedure(0, 0, vec![]),
                procedure(2, 2, vec![]),
                procedure(MOST, MOST, vec![]),
            ],
            &[2],
            &[0],
        ),
        prices: all,
    }
}

/// So many variables from 0 to 16, and a price for each.
fn by_count(
    name: &'static str,
    code: impl Fn(Expression) -> Instruction,
    price: impl Fn(u64) -> u64,
) -> Priced {
    let counts = 0..=MOST;
    behind_sets(
        name,
        counts.clone().map(|k| code(sum(k))).collect(),
        counts.map(|k| only(price(u64::from(k)))).collect(),
    )
}

pub fn priced() -> Vec<Priced> {
    let mut all = vec![
        worked_a(),
        worked_b(),
        by_count("assign", |e| assign(15, e), |k| 2 * k + 4),
        by_count("read", |e| read(0, 15, e), |k| 2 * k + 7),
        by_count(
            "write, its value",
            |e| write(15, number(0), e),
            |j| 2 * j + 5,
        ),
        by_count(
            "write, its index",
            |e| write(15, e, truth(true)),
            |k| 2 * k + 5,
        ),
        by_count("write, both", |e| write(0, e.clone(), e), |k| 4 * k + 5),
        by_count("if", |e| if_else(e, vec![], vec![]), |k| 2 * k + 3),
        by_count("while", |e| while_do(e, vec![]), |k| 2 * k + 3),
        by_count(
            "call, the same in both arguments",
            |e| call(2, vec![e.clone(), e]),
            |k| 2 * k + 8,
        ),
        by_count(
            "call, 16 arguments",
            |e| call(3, vec![e; usize::from(MOST)]),
            |k| 2 * k + 36,
        ),
        by_count(
            "atomic assign",
            |e| atomic(vec![assign(0, e)]),
            |k| 2 * k + 4,
        ),
        by_count(
            "atomic read",
            |e| atomic(vec![read(0, 15, e)]),
            |k| 2 * k + 7,
        ),
        by_count(
            "atomic if",
            |e| atomic(vec![if_else(e, vec![], vec![])]),
            |k| 2 * k + 3,
        ),
        twice(),
        calls(),
        unequal_branches(),
        labels_inside(),
        last_labels(),
        deep(),
    ];
    all.extend(long_blocks());
    all
}

fn worked_a() -> Priced {
    Priced {
        name: "A",
        program: verdict(&A, Kind::Concurrent).expect("A is accepted"),
        prices: from_1(vec![only(4)]),
    }
}

/// "prices *4, *7, *7, *4"
fn worked_b() -> Priced {
    Priced {
        name: "B",
        program: b(),
        prices: from_1([4, 7, 7, 4].map(only).to_vec()),
    }
}

/// A variable that stands twice in one expression is loaded once; one that stands in two parts is
/// loaded for each part.
fn twice() -> Priced {
    let square = || multiply(local(3), local(3));
    behind_sets(
        "variables that stand twice",
        vec![
            assign(3, square()),
            assign(4, add(square(), add(local(2), square()))),
            read(3, 3, square()),
            read(3, 3, local(3)),
            write(3, square(), square()),
            write(3, local(2), square()),
            write(3, local(3), number(0)),
            if_else(and(less(local(5), local(5)), truth(false)), vec![], vec![]),
            while_do(and(truth(false), equal(local(5), local(5))), vec![]),
        ],
        [6, 8, 9, 9, 9, 9, 7, 5, 5].map(only).to_vec(),
    )
}

/// "For a call, k counts the variables of all arguments together."
fn calls() -> Priced {
    behind_sets(
        "calls",
        vec![
            call(1, vec![]),
            call(2, vec![number(1), truth(false)]),
            call(2, vec![local(1), number(1)]),
            call(2, vec![local(1), local(1)]),
            call(2, vec![local(1), local(2)]),
            call(2, vec![add(local(1), local(2)), add(local(2), local(1))]),
            call(2, vec![add(local(1), local(2)), add(local(2), local(3))]),
            call(3, (0..MOST).map(local).collect()),
            call(3, vec![local(9); 16]),
        ],
        [4, 8, 10, 10, 12, 12, 14, 68, 38].map(only).to_vec(),
    )
}

/// Atomic blocks: 2, and each way through the inner ifs.
fn unequal_branches() -> Priced {
    // Inside an atomic block x := 1 costs 2, x := x 4, a write of x at x by x 7, an empty if 1.
    let two = || assign(0, number(1));
    let four = || assign(0, local(0));
    let seven = || write(0, local(0), local(0));
    let branch = |then: Block, otherwise: Block| if_else(truth(true), then, otherwise);
    let nested = branch(
        vec![branch(vec![seven()], vec![])],
        vec![two(), branch(vec![], vec![four(), four()])],
    );
    behind_sets(
        "atomic blocks with unequal branches",
        vec![
            atomic(vec![]),
            atomic(vec![two(), four(), seven()]),
            atomic(vec![branch(vec![], vec![])]),
            atomic(vec![branch(vec![two()], vec![])]),
            atomic(vec![branch(vec![], vec![two()])]),
            atomic(vec![branch(vec![seven()], vec![two(), four()])]),
            atomic(vec![branch(vec![two(), four()], vec![seven()])]),
            atomic(vec![branch(vec![four()], vec![two(), two()])]),
            atomic(vec![if_else(
                less(local(1), local(2)),
                vec![],
                vec![four()],
            )]),
            // then: 1, and 7 or nothing; else: 2 and 1, and 8 or nothing
            atomic(vec![nested.clone()]),
            atomic(vec![two(), nested.clone(), four(), nested.clone(), two()]),
            atomic(vec![branch(vec![], vec![]); 10]),
            atomic(vec![branch(vec![two()], vec![four()]); 10]),
        ],
        vec![
            only(2),
            only(15),
            only(3),
            span(3, 5),
            span(3, 5),
            span(9, 10),
            span(9, 10),
            only(7),
            span(7, 11),
            span(4, 14),
            span(14, 34),
            only(12),
            span(32, 52),
        ],
    )
}

/// Labels in blocks, in the order of the text.
fn labels_inside() -> Priced {
    let first = vec![
        assign(0, number(1)),
        while_do(
            equal(local(0), local(0)),
            vec![
                if_else(
                    truth(true),
                    vec![assign(1, local(0)), atomic(vec![assign(1, local(0))])],
                    vec![call(2, vec![local(0), local(0), local(0)])],
                ),
                while_do(truth(false), vec![]),
                assign(0, number(2)),
            ],
        ),
        if_else(less(local(0), number(1)), vec![], vec![call(1, vec![])]),
    ];
    let third = vec![
        assign(3, location(0)),
        read(3, 3, add(local(0), multiply(local(1), local(2)))),
    ];
    Priced {
        name: "labels inside blocks and of later procedures",
        program: program(
            vec![
                procedure(0, 2, first),
                procedure(0, 16, vec![]),
                procedure(3, 4, third),
            ],
            &[2],
            &[0, 1],
        ),
        prices: from_1(
            [4, 5, 3, 6, 6, 12, 3, 4, 5, 4, 4, 4, 4, 13, 4]
                .map(only)
                .to_vec(),
        ),
    }
}

/// 1,000 labels of 16 procedures.
fn last_labels() -> Priced {
    let body = |i: usize| vec![if_else(truth(true), vec![], vec![]); 61 + i % 2];
    let procedures = (0..16).map(|i| procedure(0, 0, body(i)));
    let mut program = program(procedures.collect(), &[], &[15]);
    // 16 ends, 8 times 61 and 8 times 62 tests: 1,000 labels.
    program.procedures[15].body.truncate(54);
    program.procedures[15].body.extend(vec![atomic(vec![]); 8]);
    Priced {
        name: "1,000 labels",
        program,
        prices: vec![
            (1, only(3)),
            (61, only(3)),
            (62, only(4)),
            (63, only(3)),
            (125, only(4)),
            (255, only(3)),
            (256, only(3)),
            (257, only(3)),
            (937, only(4)),
            (938, only(3)),
            (991, only(3)),
            (992, only(2)),
            (999, only(2)),
            (1_000, only(4)),
        ],
    }
}

/// The deepest program: 15 ifs around a call of 15 arguments in each procedure but the last, and 14
/// ifs inside an atomic block in that one, none with a variable.
fn deep() -> Priced {
    Priced {
        name: "the deepest program",
        program: deepest(Kind::Concurrent),
        prices: vec![
            (1, only(3)),
            (15, only(3)),
            (16, only(34)),
            (17, only(4)),
            (18, only(3)),
            (255, only(4)),
            (256, only(4)),
            // 2 and 14 ifs, a write 3, a read 5; or 2 and one if
            (257, span(3, 24)),
            (258, only(4)),
        ],
    }
}

/// Atomic blocks with prices of several thousand.
fn long_blocks() -> Vec<Priced> {
    let many = |count: usize, otherwise: Block| {
        let reads = vec![read(0, 0, local(0)); count];
        let inner = match otherwise.is_empty() {
            true => reads,
            false => vec![if_else(local(0), reads, otherwise)],
        };
        let body = vec![assign(0, location(0)), atomic(inner)];
        program(vec![procedure(0, 1, body)], &[1], &[0])
    };
    let half = || vec![write(0, local(0), local(0)); 1_300];
    vec![
        Priced {
            name: "3,269 reads in one block",
            program: many(3_269, vec![]),
            prices: from_1(vec![only(4), only(7 * 3_269 + 2), only(4)]),
        },
        Priced {
            name: "1,700 reads, or 1,300 writes",
            program: many(1_700, half()),
            prices: from_1(vec![only(4), span(9_100 + 5, 11_900 + 5), only(4)]),
        },
    ]
}
