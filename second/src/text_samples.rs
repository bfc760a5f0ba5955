//! Sequential programs whose C text shows each rule, and texts that are no program's.

use crate::builder::*;
use crate::c_text::{text, PRELUDE};
use crate::expression::{Expression, Two};
use crate::placement::Mode;
use crate::program::{Block, Procedure, Program};
use crate::samples::A;
use crate::translate::translate;
use crate::verdict::verdict;

/// Programs to be printed and read back, each with a name.
pub fn printed() -> Vec<(&'static str, Program)> {
    vec![
        ("the smallest", of_bodies(vec![(0, 0, vec![])], &[])),
        ("A's copy", copy_of_a()),
        ("each instruction", every_rule()),
        ("both ends of the numbers", numbers()),
        (
            "sizes",
            of_bodies(vec![(0, 0, vec![])], &[1, 9, 10, 99, 100, 255, 256]),
        ),
        ("parameters", parameters()),
        ("separators", separators()),
        ("blocks", blocks()),
        (
            "32 locals",
            of_bodies(vec![(0, 32, vec![assign(31, truth(true))])], &[]),
        ),
        ("numbers of three digits", three_digits()),
    ]
}

/// Parameters, locals and body of each procedure, and the sizes.
fn of_bodies(bodies: Vec<(u8, u8, Block)>, sizes: &[u16]) -> Program {
    let procedures = bodies.into_iter();
    let procedures =
        procedures.map(|(parameters, locals, body)| procedure(parameters, locals, body));
    program(procedures.collect(), sizes, &[])
}

pub fn copy_of_a() -> Program {
    let a = verdict(&A, crate::program::Kind::Concurrent).expect("A is accepted");
    translate(&a, Mode::Own)
}

/// Every instruction, every value and every operator.
pub fn every_rule() -> Program {
    let sum = add(
        subtract(number(1), number(-2)),
        multiply(number(3), local(1)),
    );
    let test = and(
        less(number(4), negate(number(5))),
        not(equal(location(1), location(0))),
    );
    let main = vec![
        assign(0, location(1)),
        assign(1, number(7)),
        write(0, number(0), sum),
        read(2, 0, local(1)),
        select(0, 1),
        if_else(
            test,
            vec![assign(1, truth(true))],
            vec![assign(1, truth(false))],
        ),
        while_do(truth(false), vec![call(1, vec![local(0), number(-5)])]),
        call(2, vec![]),
    ];
    let helper = vec![write(0, number(0), local(1))];
    of_bodies(
        vec![(0, 3, main), (2, 3, helper), (0, 0, vec![])],
        &[2, 256],
    )
}

fn numbers() -> Program {
    let all = [
        i32::MIN,
        i32::MIN + 1,
        -1_000_000_000,
        -10,
        -9,
        -1,
        0,
        1,
        9,
        10,
        99,
        100,
        i32::MAX,
    ];
    let body = all.map(|n| assign(0, number(n))).to_vec();
    of_bodies(vec![(0, 1, body)], &[])
}

/// 0, 1, 2 and 32 parameters, with and without further locals.
fn parameters() -> Program {
    let sums = (0..32).map(|n| add(number(n), local(0))).collect();
    let main = vec![
        assign(0, number(0)),
        call(1, vec![local(0)]),
        call(2, vec![truth(true), location(0)]),
        call(3, sums),
        call(4, vec![]),
    ];
    of_bodies(
        vec![
            (0, 1, main),
            (1, 1, vec![]),
            (2, 5, vec![]),
            (32, 32, vec![]),
            (0, 32, vec![]),
        ],
        &[1],
    )
}

/// Operators at each level: 16 deep on the left and on the right, and all operands five deep.
fn separators() -> Program {
    let left = (1..16).fold(number(1), |e, _| subtract(e, number(2)));
    let right = (1..16).fold(truth(true), |e, _| and(truth(false), e));
    let ones = (1..16).fold(number(3), |e, _| negate(e));
    let body = vec![
        assign(0, left),
        assign(0, right),
        assign(0, ones),
        assign(0, full(5)),
        write(0, full(4), full(4)),
        read(0, 0, full(4)),
        if_else(full(4), vec![], vec![]),
        call(1, vec![full(4), full(4)]),
    ];
    of_bodies(vec![(0, 1, body), (2, 2, vec![])], &[])
}

/// An expression with operators wherever its depth allows.
fn full(depth: usize) -> Expression {
    match depth {
        1 => number(1),
        _ => two(Two::Add, full(depth - 1), full(depth - 1)),
    }
}

/// Blocks at each depth, empty and not.
fn blocks() -> Program {
    let one = || assign(0, number(1));
    let body = (1..16).fold(vec![one()], |inner, depth| match depth % 3 {
        0 => vec![while_do(truth(true), inner), one()],
        1 => vec![one(), if_else(truth(true), inner, vec![])],
        _ => vec![if_else(truth(true), vec![one()], inner)],
    });
    let empty = vec![
        while_do(truth(false), vec![]),
        if_else(truth(true), vec![], vec![]),
    ];
    of_bodies(vec![(0, 1, body), (0, 0, empty)], &[])
}

/// 1,024 procedures and 512 locations.
fn three_digits() -> Program {
    let main = vec![
        call(1_023, vec![]),
        call(511, vec![]),
        call(99, vec![]),
        select(511, 100),
        assign(0, location(511)),
    ];
    let mut procedures: Vec<Procedure> = vec![procedure(0, 1, main)];
    procedures.extend(vec![procedure(0, 0, vec![]); 1_023]);
    program(procedures, &[32; 512], &[])
}

/// The program of the longest text: 32 parameters cost no byte of a table, and nothing is longer for
/// its bytes than an empty if at depth 15.
pub fn longest() -> Program {
    let mut body = vec![if_else(truth(false), vec![], vec![]); 14_577];
    for depth in (1..=14).rev() {
        body = match depth {
            13 | 14 => vec![if_else(truth(false), body, vec![])],
            _ => vec![while_do(truth(false), body)],
        };
    }
    let mut procedures = vec![procedure(32, 32, vec![]); 1_024];
    procedures[0].parameters = 0;
    procedures[1_023].body = body;
    program(procedures, &[], &[])
}

/// A text that is no program's, and how it came about.
#[derive(Clone, Debug)]
pub struct Foreign {
    pub name: String,
    pub text: Vec<u8>,
}

/// The texts of every rule's program and of A's copy, each changed at one place.
pub fn foreign() -> Vec<Foreign> {
    let mut all = Vec::new();
    let ours = text(&every_rule());
    let (_, behind) = ours.split_at(PRELUDE.len());
    for (old, new) in replacements() {
        let changed = behind.replacen(old, new, 1);
        assert_ne!(changed, behind, "{old} does not stand in the text");
        push(&mut all, &format!("{old:?} as {new:?}"), PRELUDE, &changed);
    }
    for (old, new) in [
        ("Zarukohen", "zarukohen"),
        ("INT32_MAX", "INT16_MAX"),
        ("z_none(1)", "z_num(0)"),
        ("}\n\n/*", "}\n/*"),
        ("/* A ", "/*  A "),
    ] {
        let changed = PRELUDE.replacen(old, new, 1);
        assert_ne!(changed, PRELUDE);
        push(
            &mut all,
            &format!("prelude, {old:?} as {new:?}"),
            &changed,
            behind,
        );
    }
    all.extend(cut_and_longer(&ours, behind));
    all.extend(refused_programs());
    all
}

fn push(all: &mut Vec<Foreign>, name: &str, prelude: &str, behind: &str) {
    all.push(Foreign {
        name: name.to_string(),
        text: [prelude, behind].concat().into_bytes(),
    });
}

/// What stands in the text of every rule's program, and what must not stand there.
fn replacements() -> Vec<(&'static str, &'static str)> {
    vec![
        ("z_num(-2)", "z_num(-02)"),
        ("z_num(-2)", "z_num(-0)"),
        ("z_num(7)", "z_num(+7)"),
        ("z_num(7)", "z_num(07)"),
        ("z_num(7)", "z_num(2147483648)"),
        ("z_num(-5)", "z_num(-2147483649)"),
        ("z_num(-5)", "z_num(- 5)"),
        ("z_num(7)", "z_num()"),
        ("z_num(7)", "z_num(7 )"),
        ("z_num(7)", "z_num( 7)"),
        ("z_num(7)", "z_num(7L)"),
        ("z_num(7)", "7"),
        ("z_loc(1)", "z_loc(2)"),
        ("z_loc(1)", "z_loc(-1)"),
        ("z_loc(1)", "z_loc(65537)"),
        ("z_loc(1)", "z_loc(01)"),
        ("z_true()", "z_true"),
        ("z_true()", "z_true(1)"),
        ("z_true()", "z_maybe()"),
        ("x1 = z_set(z_num(7))", "x3 = z_set(z_num(7))"),
        ("x1 = z_set(z_num(7))", "x01 = z_set(z_num(7))"),
        ("x1 = z_set(z_num(7))", "x257 = z_set(z_num(7))"),
        ("x1 = z_set(z_num(7));", "x1 = z_set(z_num(7)) ;"),
        ("x1 = z_set(z_num(7))", "x1 = z_set(x2)"),
        ("x1 = z_set(z_num(7))", "x1=z_set(z_num(7))"),
        ("  x1 = z_set(z_num(7))", "   x1 = z_set(z_num(7))"),
        ("  x1 = z_set(z_num(7))", "\tx1 = z_set(z_num(7))"),
        ("  x1 = z_set(z_num(7))", "x1 = z_set(z_num(7))"),
        ("    x1 = z_set(z_true())", "  x1 = z_set(z_true())"),
        ("z_set(z_num(7))", "z_set(z_num(7)"),
        ("z_set(z_num(7))", "(z_num(7))"),
        ("z_add(", "z_plus("),
        ("z_add(", "z_add ("),
        ("z_less(z_num(4), ", "z_less(z_num(4),"),
        ("z_less(z_num(4), ", "z_less(z_num(4),\n"),
        ("z_neg(z_num(5))", "z_neg(z_num(5), z_num(5))"),
        ("} else {", "}else {"),
        ("  } else {\n    x1 = z_set(z_false());\n  }\n", "  }\n"),
        ("while (z_test(", "while(z_test("),
        ("while (z_test(z_false()))", "while (z_false())"),
        ("z_call(); p1(", "p1("),
        ("z_call(); p1(", "z_call();\n    p1("),
        ("z_call(); p1(", "z_call(); p2("),
        ("z_call(); p1(", "z_call(); p3("),
        ("z_call(); p1(", "z_call(); p65537("),
        ("p1(x0,\nz_num(-5))", "p1(x0, z_num(-5))"),
        ("p1(x0,\nz_num(-5))", "p1(x0)"),
        ("p1(x0,\nz_num(-5))", "p1(x0,\nz_num(-5),\nx0)"),
        ("z_call(); p2();", "z_call(); p2(void);"),
        ("z_call(); p2();", "z_call(); p0();"),
        ("z_select(0, 1)", "z_select(0, 2)"),
        ("z_select(0, 1)", "z_select(0,1)"),
        ("z_select(0, 1)", "z_select(0, 1, 0)"),
        ("z_write(here, x0, z_num(0), x1)", "z_select(0, 1)"),
        ("z_write(here, ", "z_write(0, "),
        ("z_read(here, x0, x1)", "z_read(here, x0)"),
        ("z_value m0[2];", "z_value m0[02];"),
        ("z_value m0[2];", "z_value m0[3];"),
        ("z_value m0[2];", "z_value m1[2];"),
        ("  { m0, 2 },\n", ""),
        ("  { m0, 2 },\n", "  { m0, 2 },\n  { m0, 2 },\n"),
        ("  { m1, 256 },", "  { m0, 256 },"),
        ("  { 0, 0 }\n", ""),
        ("  { 0, 0 }\n", "  { 0, 0 },\n"),
        ("void p2(void);\n", ""),
        ("void p2(void);\n", "void p2();\n"),
        ("void p2(void);\n", "void p2(void);\nvoid p3(void);\n"),
        ("void p1(z_value x0, z_value x1);", "void p1(z_value x0);"),
        (
            "void p1(z_value x0, z_value x1);",
            "void p1(z_value x1, z_value x0);",
        ),
        ("void p1(z_value x0, z_value x1) {", "void p1(z_value x0) {"),
        ("void p0(void);\nvoid p1", "void p1(void);\nvoid p0"),
        ("here = 1", "here = 0"),
        ("enum { here = 1 };", "enum { here=1 };"),
        ("  x0 = z_arg(x0);\n", ""),
        (
            "  x0 = z_arg(x0);\n  x1 = z_arg(x1);\n",
            "  x1 = z_arg(x1);\n  x0 = z_arg(x0);\n",
        ),
        ("  z_value x2 = z_unset(); (void)x2;\n", ""),
        ("(void)x2;", "(void)x1;"),
        ("z_unset(); (void)x2;", "z_unset();"),
        ("  z_return();\n", ""),
        ("  z_return();\n", "  z_return();\n  z_return();\n"),
        (
            "\nvoid p1(z_value x0, z_value x1) {",
            "\n\nvoid p1(z_value x0, z_value x1) {",
        ),
        (
            "\nvoid p1(z_value x0, z_value x1) {",
            "\n/* */\nvoid p1(z_value x0, z_value x1) {",
        ),
    ]
}

/// Texts that end early, go on, or have other bytes.
fn cut_and_longer(ours: &str, behind: &str) -> Vec<Foreign> {
    let bytes = ours.as_bytes();
    let with = |tail: &[u8]| [bytes, tail].concat();
    let mut high = bytes.to_vec();
    high[ours.len() - 4] = 0x80;
    let texts: Vec<(&str, Vec<u8>)> = vec![
        ("no text", vec![]),
        ("the prelude alone", PRELUDE.as_bytes().to_vec()),
        ("no prelude", behind.as_bytes().to_vec()),
        (
            "the last byte is missing",
            bytes[..bytes.len() - 1].to_vec(),
        ),
        ("the first byte is missing", bytes[1..].to_vec()),
        (
            "half of it",
            bytes[..PRELUDE.len() + behind.len() / 2].to_vec(),
        ),
        ("a line feed more", with(b"\n")),
        ("a zero more", with(&[0])),
        ("twice", with(bytes)),
        (
            "lines end as on other systems",
            ours.replace('\n', "\r\n").into_bytes(),
        ),
        ("a byte over 7F", high),
        ("a mark before it", [&[0xEF, 0xBB, 0xBF], bytes].concat()),
    ];
    let foreign = |(name, text): (&str, Vec<u8>)| Foreign {
        name: name.to_string(),
        text,
    };
    texts.into_iter().map(foreign).collect()
}

/// Texts in the right form whose tables are refused: they are 1 too, never 2 to 8.
pub fn refused_programs() -> Vec<Foreign> {
    let of = |number: u8, program: Program| Foreign {
        name: format!("a table that is refused by {number}"),
        text: text(&program).into_bytes(),
    };
    let deep = (1..17).fold(truth(true), |e, _| not(e));
    let in_blocks = (1..17).fold(vec![], |inner, _| vec![while_do(truth(true), inner)]);
    vec![
        of(2, of_bodies(vec![], &[])),
        of(3, of_bodies(vec![(1, 1, vec![])], &[])),
        of(3, of_bodies(vec![(0, 33, vec![])], &[])),
        of(3, of_bodies(vec![(0, 0, vec![])], &[0])),
        of(3, of_bodies(vec![(0, 0, vec![])], &[257])),
        of(4, of_bodies(vec![(0, 1, vec![assign(0, deep)])], &[])),
        of(4, of_bodies(vec![(0, 1, in_blocks)], &[])),
        of(
            4,
            of_bodies(vec![(0, 0, vec![]), (0, 0, vec![select(0, 0)])], &[1]),
        ),
        of(
            5,
            of_bodies(vec![(0, 1, vec![assign(0, location(0))])], &[]),
        ),
        of(7, of_bodies(vec![(0, 0, vec![call(0, vec![])])], &[])),
        of(8, of_bodies(vec![(0, 2, vec![assign(0, local(1))])], &[])),
    ]
}

/// The same, with texts too long to be stored.
pub fn refused_long_programs() -> Vec<Foreign> {
    let of = |program: Program| Foreign {
        name: "a table that is refused by 2 or 3".to_string(),
        text: text(&program).into_bytes(),
    };
    let many = vec![assign(0, truth(true)); 22_000];
    vec![
        of(of_bodies(vec![(0, 0, vec![]); 1_025], &[])),
        of(of_bodies(vec![(0, 0, vec![])], &[1; 513])),
        of(of_bodies(vec![(0, 0, vec![])], &[256; 65])),
        of(of_bodies(vec![(0, 1, many)], &[])),
        of(of_bodies(vec![(0, 0, vec![]); 65_537], &[])),
    ]
}
