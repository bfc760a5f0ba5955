//! Bench runs by hand, each with the answer that the paper gives.

use crate::bench::COUNTS;
use crate::builder::*;
use crate::calls::BenchAnswer;
use crate::program::{Instruction, Program};
use crate::random::Random;
use crate::samples::{b, A};

/// A table, k and s, and what the bench must answer and write.
#[derive(Clone, Debug)]
pub struct Benched {
    pub name: &'static str,
    pub table: Vec<u8>,
    pub rounds: u64,
    pub most: u32,
    pub answer: BenchAnswer,
    /// The bytes of the last run's cells; none of a refusal.
    pub cells: Vec<u8>,
    /// How many allotments are tried.
    pub tried: u64,
}

/// D: it adds like B, and the last of the two threads to be done looks into a place that is outside
/// exactly if an addition was lost.
pub fn d() -> Program {
    let (p, v, q) = (0, 1, 2);
    let add_one = |pointer: u8| write(pointer, number(0), add(local(v), number(1)));
    let body = vec![
        assign(p, location(0)),
        read(v, p, number(0)),
        add_one(p),
        assign(q, location(1)),
        atomic(vec![read(v, q, number(0)), add_one(q)]),
        if_else(
            equal(local(v), number(1)),
            vec![
                read(v, p, number(0)),
                read(v, p, subtract(number(2), local(v))),
            ],
            vec![],
        ),
    ];
    program(vec![procedure(0, 3, body)], &[1, 1], &[0, 0])
}

/// Each thread takes so many steps that do nothing, then one that blocks.
pub fn blocks_after(steps: usize, threads: usize) -> Program {
    let mut body = vec![assign(0, truth(true)); steps];
    body.push(assign(0, not(number(0))));
    program(vec![procedure(0, 1, body)], &[1], &vec![0; threads])
}

/// Thread 0 finishes after so many steps, the last one its return; thread 1 blocks at its first.
pub fn one_finishes(steps: usize) -> Program {
    let idle = procedure(0, 1, vec![assign(0, truth(true)); steps - 1]);
    let bad = procedure(0, 1, vec![assign(0, not(number(0)))]);
    program(vec![idle, bad], &[1], &[0, 1])
}

/// Threads that never end, and never block.
fn spins(threads: usize) -> Program {
    let body = vec![while_do(truth(true), vec![])];
    program(vec![procedure(0, 0, body)], &[], &vec![0; threads])
}

/// Each thread counts its cell up to the number of its steps, with one write a step.
fn counts_up() -> Program {
    let body = |thread: u16| {
        let steps = (1..=5).map(|n| write(0, number(0), number(n)));
        let mut body = vec![assign(0, location(thread))];
        body.extend(steps);
        procedure(0, 1, body)
    };
    program(vec![body(0), body(1)], &[1, 1], &[0, 1])
}

/// Threads that read and write two shared cells and use what they read as an index: whether they
/// block goes by their order.
pub fn racing(random: &mut Random) -> Program {
    let threads = random.pick(&[1, 2, 2, 2, 3]);
    let procedures = (0..threads).map(|_| {
        let mut body = vec![assign(0, location(0)), assign(1, number(0))];
        let length = random.between(1, 4);
        body.extend((0..length).map(|_| racing_instruction(random)));
        body.push(read(1, 0, local(1)));
        procedure(0, 2, body)
    });
    let mains: Vec<u16> = (0..threads).collect();
    program(procedures.collect(), &[2], &mains)
}

fn racing_instruction(random: &mut Random) -> Instruction {
    let cell = number(random.below(2) as i32);
    let share = number(random.pick(&[-1, 1, 1, 1, 2]));
    match random.below(8) {
        0..=1 => read(1, 0, cell),
        2..=4 => write(0, cell, add(local(1), share)),
        5 => read(1, 0, local(1)),
        6 => atomic(vec![
            read(1, 0, cell.clone()),
            write(0, cell, add(local(1), share)),
        ]),
        _ => if_else(equal(local(1), number(1)), vec![read(1, 0, share)], vec![]),
    }
}

/// All of them.
pub fn benched() -> Vec<Benched> {
    [
        worked_of_b(),
        worked_of_d(),
        others(),
        refused_bounds(),
        huge_bounds(),
    ]
    .concat()
}

// ---- makers ----

/// Five bytes for each number.
fn numbers(values: &[i32]) -> Vec<u8> {
    let five = |value: &i32| [&[1][..], &value.to_le_bytes()].concat();
    values.iter().flat_map(five).collect()
}

fn none(
    name: &'static str,
    source: &Program,
    (rounds, most): (u64, u32),
    cells: &[i32],
) -> Benched {
    let counts = rounds as u32 * source.mains.len() as u32;
    Benched {
        name,
        table: table(source),
        rounds,
        most,
        answer: BenchAnswer::default(),
        cells: numbers(cells),
        tried: u64::from(most + 1).pow(counts),
    }
}

fn found(
    name: &'static str,
    source: &Program,
    (rounds, most): (u64, u32),
    allotment: u64,
    first_counts: &[u8],
    cells: &[i32],
) -> Benched {
    let mut counts = [0; COUNTS];
    counts[..first_counts.len()].copy_from_slice(first_counts);
    Benched {
        answer: BenchAnswer {
            number: 0,
            found: true,
            allotment,
            counts,
        },
        tried: allotment + 1,
        ..none(name, source, (rounds, most), cells)
    }
}

fn refused(name: &'static str, table: &[u8], (rounds, most): (u64, u32), number: u8) -> Benched {
    Benched {
        name,
        table: table.to_vec(),
        rounds,
        most,
        answer: BenchAnswer {
            number,
            ..BenchAnswer::default()
        },
        cells: Vec::new(),
        tried: 0,
    }
}

// ---- by hand ----

/// B never blocks.
fn worked_of_b() -> Vec<Benched> {
    let b = b();
    vec![
        none("B, one round", &b, (1, 4), &[2]),
        none("B, four allotments", &b, (1, 1), &[0]),
        none("B, the last run loses an addition", &b, (2, 2), &[1]),
        none("B, eight rounds of one step", &b, (6, 1), &[1]),
        none("B, four steps in two rounds", &b, (2, 4), &[2]),
        none("B, 64 steps", &b, (1, 64), &[2]),
        none("B, 1,000,000 allotments", &b, (3, 9), &[2]),
        none("B, 923,521 allotments", &b, (2, 30), &[2]),
    ]
}

/// D blocks in few orders only.
fn worked_of_d() -> Vec<Benched> {
    let d = d();
    let lost = &[1, 2];
    vec![
        none("D, one round loses nothing", &d, (1, 64), &[2, 2]),
        none("D, three steps are too few", &d, (2, 3), &[2, 2]),
        found("D, four steps", &d, (2, 4), 369, &[2, 4, 3, 4], lost),
        found("D, five steps", &d, (2, 5), 563, &[2, 3, 3, 5], lost),
        found("D, six steps", &d, (2, 6), 139, &[0, 2, 5, 6], lost),
        found("D, nine steps", &d, (2, 9), 256, &[0, 2, 5, 6], lost),
        found(
            "D, 923,521 allotments",
            &d,
            (2, 30),
            2_083,
            &[0, 2, 5, 6],
            lost,
        ),
        found(
            "D, three rounds",
            &d,
            (3, 3),
            2_803,
            &[2, 2, 3, 3, 0, 3],
            lost,
        ),
    ]
}

fn others() -> Vec<Benched> {
    let a = program(vec![procedure(0, 0, vec![])], &[], &[0]);
    let at_once = blocks_after(0, 1);
    let last = [&[0; 9][..], &[1; 10]].concat();
    vec![
        none("A, 524,288 allotments", &a, (19, 1), &[]),
        none("A, 4,096 allotments", &a, (12, 1), &[]),
        none("A, 64 steps", &a, (1, 64), &[]),
        none("A, two rounds of 64 steps", &a, (2, 64), &[]),
        found("not 0", &at_once, (1, 1), 1, &[1], &[0]),
        found(
            "not 0, 274,625 allotments",
            &at_once,
            (3, 64),
            1,
            &[0, 0, 1],
            &[0],
        ),
        found(
            "the last of 64 steps",
            &blocks_after(63, 1),
            (1, 64),
            64,
            &[64],
            &[0],
        ),
        none("one step too few", &blocks_after(64, 1), (1, 64), &[0]),
        found(
            "the last allotment",
            &blocks_after(4, 1),
            (1, 5),
            5,
            &[5],
            &[0],
        ),
        found(
            "the last of two rounds",
            &blocks_after(9, 1),
            (2, 5),
            35,
            &[5, 5],
            &[0],
        ),
        found(
            "all 19 counts",
            &blocks_after(9, 1),
            (19, 1),
            1_023,
            &last,
            &[0],
        ),
        found(
            "the last of eight",
            &blocks_after(0, 8),
            (1, 1),
            1,
            &[0, 0, 0, 0, 0, 0, 0, 1],
            &[0],
        ),
        found(
            "not the first thread",
            &blocks_after(1, 3),
            (1, 2),
            2,
            &[0, 0, 2],
            &[0],
        ),
        found(
            "two rounds of three",
            &blocks_after(2, 3),
            (2, 2),
            29,
            &[0, 0, 1, 0, 0, 2],
            &[0],
        ),
        found(
            "beside a finished thread",
            &one_finishes(1),
            (1, 9),
            1,
            &[0, 1],
            &[0],
        ),
        found(
            "19 threads",
            &blocks_after(0, 19),
            (1, 1),
            1,
            &[0, 0, 0, 0, 0, 0, 0, 0, 0, 0, 0, 0, 0, 0, 0, 0, 0, 0, 1],
            &[0],
        ),
        none("no thread ends", &spins(3), (2, 3), &[]),
        none("eight threads that never end", &spins(8), (1, 1), &[]),
        none("the last run's cells", &counts_up(), (1, 3), &[2, 2]),
        none("finished threads rest", &counts_up(), (1, 8), &[5, 5]),
        none("two rounds of steps", &counts_up(), (2, 2), &[3, 3]),
    ]
}

/// "13 for k below 1, s not 1..64, or more than 1,000,000 allotments".
fn refused_bounds() -> Vec<Benched> {
    let (b, three) = (table(&b()), table(&spins(3)));
    let (seven, eight) = (table(&spins(7)), table(&spins(8)));
    let (twenty, all) = (table(&spins(20)), table(&spins(32)));
    vec![
        refused("20 threads", &twenty, (1, 1), 13),
        refused("32 threads", &all, (1, 1), 13),
        refused("no round", &A, (0, 1), 13),
        refused("no round of 64 steps", &b, (0, 64), 13),
        refused("no step", &A, (1, 0), 13),
        refused("no round, no step", &b, (0, 0), 13),
        refused("65 steps", &A, (1, 65), 13),
        refused("256 steps", &A, (1, 256), 13),
        refused("257 steps", &b, (1, 257), 13),
        refused("65,537 steps", &A, (1, 65_537), 13),
        refused("20 counts", &A, (20, 1), 13),
        refused("20 counts of two threads", &b, (10, 1), 13),
        refused("1,771,561 allotments", &b, (3, 10), 13),
        refused("1,048,576 allotments of 31 steps", &b, (2, 31), 13),
        refused("1,048,576 allotments", &A, (4, 31), 13),
        refused("17,850,625 allotments", &A, (4, 64), 13),
        refused(
            "1,048,576 allotments of three counts a round",
            &three,
            (5, 2),
            13,
        ),
        refused("2,097,152 allotments of seven threads", &seven, (3, 1), 13),
        refused("16,777,216 allotments of eight threads", &eight, (3, 1), 13),
        refused("16,777,216 allotments in one round", &eight, (1, 7), 13),
    ]
}

/// Bounds for which kT, or the number of allotments, is small only where numbers wrap around.
fn huge_bounds() -> Vec<Benched> {
    let (b, eight) = (table(&b()), table(&spins(8)));
    vec![
        refused("4^16, which is 0 in 32 bits", &A, (16, 3), 13),
        refused("64^6, which is 0 in 32 bits", &A, (6, 63), 13),
        refused("16^16, which is 0 in 64 bits", &A, (16, 15), 13),
        refused("32^13, which is 0 in 64 bits", &A, (13, 31), 13),
        refused("64^11, which is 0 in 64 bits", &A, (11, 63), 13),
        refused("16^16 of two threads", &b, (8, 15), 13),
        refused("2^32", &A, (32, 1), 13),
        refused("2^64", &A, (64, 1), 13),
        refused("256 rounds", &A, (256, 1), 13),
        refused("257 rounds", &A, (257, 1), 13),
        refused("65,537 rounds", &A, (65_537, 1), 13),
        refused("2^32 rounds", &A, (1 << 32, 1), 13),
        refused("2^32 + 1 rounds", &A, ((1 << 32) + 1, 1), 13),
        refused("2^61 rounds of eight threads", &eight, (1 << 61, 1), 13),
        refused(
            "2^61 + 1 rounds of eight threads",
            &eight,
            ((1 << 61) + 1, 1),
            13,
        ),
        refused("2^63 rounds of two threads", &b, (1 << 63, 1), 13),
        refused("2^63 + 1 rounds of two threads", &b, ((1 << 63) + 1, 1), 13),
        refused("all rounds that there are", &A, (u64::MAX, 1), 13),
        refused("all rounds of 64 steps", &b, (u64::MAX, 64), 13),
        refused("all steps that there are", &A, (1, u32::MAX), 13),
        refused("all rounds and steps", &eight, (u64::MAX, u32::MAX), 13),
    ]
}
