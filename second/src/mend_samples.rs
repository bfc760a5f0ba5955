//! Tables with lost trailers, and what comes of them.

use crate::builder::*;
use crate::placement::Mode;
use crate::program::{Kind, Program};
use crate::samples::{b, table_of_length, A};
use crate::translate::translate;
use crate::write;

/// A table, the kind wanted, and what the mender makes of it.
#[derive(Clone, Debug)]
pub struct Worn {
    pub name: &'static str,
    pub kind: Kind,
    pub table: Vec<u8>,
    pub outcome: Outcome,
}

#[derive(Clone, PartialEq, Eq, Debug)]
pub enum Outcome {
    Nothing,
    /// The table afterwards.
    Mended(Vec<u8>),
    Refused(u8),
}

fn worn(name: &'static str, kind: Kind, table: Vec<u8>, outcome: Outcome) -> Worn {
    Worn {
        name,
        kind,
        table,
        outcome,
    }
}

/// The table with EE in its last sixteen bytes.
pub fn scrambled(table: &[u8]) -> Vec<u8> {
    let kept = &table[..table.len() - 16];
    [kept, &[0xEE; 16]].concat()
}

/// A table that comes back from its scrambled bytes.
fn comes_back(name: &'static str, kind: Kind, table: Vec<u8>) -> Worn {
    worn(name, kind, scrambled(&table), Outcome::Mended(table))
}

/// A table whose scrambled bytes are refused.
fn is_lost(name: &'static str, kind: Kind, table: &[u8], number: u8) -> Worn {
    worn(name, kind, scrambled(table), Outcome::Refused(number))
}

/// Two empty procedures; the second has so many parameters.
fn two_empty(parameters: u8, sizes: &[u16], mains: &[u16]) -> Program {
    let second = procedure(parameters, parameters, vec![]);
    program(vec![procedure(0, 0, vec![]), second], sizes, mains)
}

/// 00 00 / 00 00 00 00 00 00 / 00 00 01 00 00 00 / 01 00 / 01 00 / trailer: one location of size 1
/// and main 1; or no location and mains 1 and 1.
pub fn d() -> Program {
    two_empty(0, &[1], &[1])
}

/// The last size could be a main, but the body names location 0.
fn g() -> Program {
    Program {
        procedures: vec![
            procedure(0, 1, vec![assign(0, location(0))]),
            procedure(0, 0, vec![]),
        ],
        ..d()
    }
}

pub fn all_worn() -> Vec<Worn> {
    let mut all = worked();
    all.extend(several_choices());
    all.extend(one_choice());
    all.extend(short_ones());
    all.extend(single_bytes());
    all.extend(nothing_to_mend());
    all
}

/// The worked examples.
fn worked() -> Vec<Worn> {
    let (concurrent, sequential) = (Kind::Concurrent, Kind::Sequential);
    let copy = table(&translate(&b(), Mode::Own));
    let mut two = A.to_vec();
    (two[9], two[21]) = (0x00, 0x99);
    let main_0 = two_empty(0, &[1], &[0]);
    let size_2 = two_empty(0, &[2], &[0]);
    vec![
        comes_back("A", concurrent, A.to_vec()),
        worn("A, two bytes", concurrent, two, Outcome::Mended(A.to_vec())),
        is_lost("A as a sequential table", sequential, &A, 14),
        comes_back("B", concurrent, table(&b())),
        comes_back("B's copy", sequential, copy.clone()),
        is_lost("B's copy as a concurrent table", concurrent, &copy, 14),
        is_lost("size 1 and main 1", concurrent, &table(&d()), 15),
        is_lost("size 1 and main 0", concurrent, &table(&main_0), 15),
        comes_back("size 2 and main 0", concurrent, table(&size_2)),
        comes_back("location 0 is named", concurrent, table(&g())),
    ]
}

/// 15: sizes that could be mains, or mains that could be sizes.
fn several_choices() -> Vec<Worn> {
    let lost = |name, program: &Program| is_lost(name, Kind::Concurrent, &table(program), 15);
    vec![
        lost("three mains, three choices", &two_empty(0, &[], &[1; 3])),
        lost("32 mains, 32 choices", &two_empty(0, &[], &[1; 32])),
        lost(
            "the first main could be a size",
            &two_empty(0, &[], &[1, 0]),
        ),
        lost(
            "the last size could be a main",
            &two_empty(0, &[9, 1], &[0]),
        ),
        lost("63 locations, or 64", &two_empty(0, &[1; 63], &[1; 32])),
        lost(
            "2,048 cells, or fewer",
            &two_empty(0, &[256, 256, 256, 256, 256, 256, 256, 255, 1], &[0]),
        ),
    ]
}

/// Tables that look as if they had another choice.
fn one_choice() -> Vec<Worn> {
    let back = |name, program: &Program| comes_back(name, Kind::Concurrent, table(program));
    let five = Program {
        procedures: vec![procedure(0, 0, vec![]); 5],
        ..two_empty(0, &[5], &[4])
    };
    let mut all_but_the_first = [1; 32];
    all_but_the_first[0] = 0;
    let most = program(vec![procedure(0, 0, vec![]); 1_024], &[32; 512], &[]);
    vec![
        back("a size that is P", &two_empty(0, &[2], &[1])),
        back("procedure 1 has a parameter", &two_empty(1, &[1], &[0])),
        back("main 0 is no size", &two_empty(0, &[256], &[0, 0, 0])),
        back(
            "64 locations and 32 threads",
            &two_empty(0, &[1; 64], &[1; 32]),
        ),
        back("32 threads", &two_empty(0, &[3], &all_but_the_first)),
        back("main 1 is no cell 2,049", &two_empty(0, &[256; 8], &[1, 0])),
        back("five procedures", &five),
        comes_back(
            "sizes of a sequential table",
            Kind::Sequential,
            table(&two_empty(0, &[1, 1, 1], &[])),
        ),
        comes_back("1,024 and 512", Kind::Sequential, table(&most)),
    ]
}

/// Few bytes, all of them 0: one empty body, its record and some mains may come of them.
fn short_ones() -> Vec<Worn> {
    let one_empty = |mains: &[u16]| table(&program(vec![procedure(0, 0, vec![])], &[], mains));
    let mut all = Vec::new();
    for length in 0..=96 {
        for kind in [Kind::Concurrent, Kind::Sequential] {
            let outcome = match (kind, length) {
                (_, 0..=15) => Outcome::Refused(1),
                // 1 + 6 + 2T + 16 with T from 1 to 32
                (Kind::Concurrent, 25..=87) if length % 2 == 1 => {
                    Outcome::Mended(one_empty(&vec![0; (length - 23) / 2]))
                }
                (Kind::Sequential, 23) => Outcome::Mended(one_empty(&[])),
                _ => Outcome::Refused(14),
            };
            all.push(worn("zeros", kind, vec![0; length], outcome));
        }
    }
    all
}

/// Each byte of a trailer by itself.
fn single_bytes() -> Vec<Worn> {
    let mut all = Vec::new();
    for (kind, right) in [
        (Kind::Concurrent, table(&b())),
        (Kind::Sequential, table(&two_empty(0, &[7], &[]))),
    ] {
        for place in right.len() - 16..right.len() {
            for change in [0x01, 0xFF] {
                let mut bytes = right.clone();
                bytes[place] ^= change;
                let outcome = Outcome::Mended(right.clone());
                all.push(worn("one byte", kind, bytes, outcome));
            }
        }
    }
    all
}

/// "nothing to mend" also where another choice would be acceptable, so that 15 is not asked for.
fn nothing_to_mend() -> Vec<Worn> {
    let same = |name, program: &Program| {
        let kind = match program.mains.is_empty() {
            true => Kind::Sequential,
            false => Kind::Concurrent,
        };
        worn(name, kind, write::table(program, kind), Outcome::Nothing)
    };
    vec![
        same("B as it is", &b()),
        same("size 1 and main 1 as they are", &d()),
        same("mains 1 and 1 of these bytes", &two_empty(0, &[], &[1, 1])),
        same("a sequential table as it is", &two_empty(0, &[7], &[])),
    ]
}

/// The longest tables, and those that are a byte longer: "over length 2".
pub fn longest() -> Vec<Worn> {
    let mut all = Vec::new();
    for (kind, most) in [(Kind::Concurrent, 16_384), (Kind::Sequential, 65_536)] {
        all.push(comes_back("the longest", kind, table_of_length(kind, most)));
        let zeros = vec![0; most];
        all.push(worn("many zeros", kind, zeros, Outcome::Refused(14)));
        let longer = table_of_length(kind, most + 1);
        all.push(worn("too long", kind, longer, Outcome::Refused(2)));
    }
    all
}
