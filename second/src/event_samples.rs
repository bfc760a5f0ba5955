//! Runs with the label of each of their events, worked by hand.

use crate::builder::*;
use crate::calls::copy_in;
use crate::placement::Mode;
use crate::program::{Block, Kind, Program};
use crate::samples::{b, one_thread, sequential, A};

/// A run and the labels of its events in order; in a sequential run, numbers of procedures.
#[derive(Clone, Debug)]
pub struct Traced {
    pub name: &'static str,
    pub kind: Kind,
    pub table: Vec<u8>,
    pub schedule: Vec<u8>,
    /// For a sequential run.
    pub h: u32,
    pub labels: Vec<u16>,
}

fn of(name: &'static str, program: &Program, schedule: &[u8], labels: &[u16]) -> Traced {
    Traced {
        name,
        kind: match program.mains.is_empty() {
            true => Kind::Sequential,
            false => Kind::Concurrent,
        },
        table: table(program),
        schedule: schedule.to_vec(),
        h: program.sizes.len() as u32,
        labels: labels.to_vec(),
    }
}

/// p := location 0 (label 1); atomic (v := p[0]; if v = 0 then p[1] := 7) (2); call 1 with p (3),
/// end 4; procedure 1: p[0] := true (5), end 6.
pub fn e() -> Program {
    let seven = write(0, number(1), number(7));
    let inner = vec![
        read(1, 0, number(0)),
        if_else(equal(local(1), number(0)), vec![seven], vec![]),
    ];
    let main = vec![
        assign(0, location(0)),
        atomic(inner),
        call(1, vec![local(0)]),
    ];
    let helper = vec![write(0, number(0), truth(true))];
    program(
        vec![procedure(0, 2, main), procedure(1, 1, helper)],
        &[2],
        &[0],
    )
}

pub fn traced() -> Vec<Traced> {
    let mut all = vec![
        of("E", &e(), &[0; 6], &[2, 2, 5]),
        of("B", &b(), &[0, 0, 1, 1, 0, 1, 0, 1], &[2, 2, 3, 3]),
        of("two equal reads", &equal_reads(), &[0; 6], &[2, 3, 5]),
        of(
            "equal reads, sequential",
            &sequential(2, two_reads()),
            &[],
            &[0; 3],
        ),
    ];
    all.extend(copies());
    all.extend(calls());
    all.extend(loops());
    all.extend(branches());
    all.extend(atomics());
    all.extend(threads());
    all.extend(high_labels());
    all
}

/// Labels 1 to 5 and the end.
fn two_reads() -> Block {
    vec![
        assign(0, location(0)),
        read(1, 0, number(0)),
        read(1, 0, number(0)),
        assign(1, number(1)),
        read(1, 0, number(0)),
    ]
}

fn equal_reads() -> Program {
    one_thread(2, two_reads())
}

/// A copy with all its locations told: what it writes for itself is an event too.
fn copy(name: &'static str, source: &[u8], h: u32, schedule: &[u8], labels: &[u16]) -> Traced {
    Traced {
        name,
        kind: Kind::Sequential,
        table: copy_in(Mode::Own, source).expect("an accepted table"),
        schedule: schedule.to_vec(),
        h,
        labels: labels.to_vec(),
    }
}

fn copies() -> Vec<Traced> {
    let b = table(&b());
    // M = 1: location 0 is B's, 1 is ptid, 2 is pct, 3 is from, 4 and 5 are the locals.
    // pct of both threads and from of both; ptid and pct; p; pct; then pct of both threads.
    let first_round = [0, 0, 0, 0, 0, 0, 1, 1, 0, 0];
    // ptid, pct; p is loaded, v read and stored, pct; pct of both threads
    let second_round = [0, 0, 2, 2, 2, 2, 0, 0];
    vec![
        copy("copy of A, h is 3", &A, 3, &[0], &[0, 0, 0, 0, 1, 1, 0]),
        copy("copy of A, h is 0", &A, 0, &[0], &[]),
        copy("copy of E", &table(&e()), 1, &[0; 6], &[2, 2, 5]),
        copy("copy of B", &b, 1, &[0, 0, 1, 1, 0, 1, 0, 1], &[2, 2, 3, 3]),
        copy(
            "copy of B, all its locations",
            &b,
            6,
            &[1, 1],
            &[&first_round[..], &second_round].concat(),
        ),
    ]
}

/// Events before, in and after calls, also of procedures that are called twice.
fn calls() -> Vec<Traced> {
    let main = vec![
        assign(0, location(0)),        // 1
        read(1, 0, number(0)),         // 2
        call(1, vec![local(0)]),       // 3
        write(0, number(0), local(1)), // 4
        call(1, vec![local(0)]),       // 5
        read(1, 0, number(1)),         // 6
    ]; // 7
    let first = vec![
        read(1, 0, number(0)),         // 8
        call(2, vec![local(0)]),       // 9
        write(0, number(1), local(1)), // 10
    ]; // 11
    let second = vec![write(0, number(0), number(9))]; // 12, 13
    let procedures = vec![
        procedure(0, 2, main),
        procedure(1, 2, first),
        procedure(1, 1, second),
    ];
    let concurrent = program(procedures.clone(), &[2], &[0]);
    let sequential = program(procedures, &[2], &[]);
    let labels = [2, 8, 12, 10, 4, 8, 12, 10, 6];
    let procedures = [0, 1, 2, 1, 0, 1, 2, 1, 0];
    vec![
        of("calls", &concurrent, &[0; 30], &labels),
        of("calls, sequential", &sequential, &[], &procedures),
        of("calls, cut short", &concurrent, &[0; 7], &[2, 8, 12]),
    ]
}

fn loops() -> Vec<Traced> {
    let count = |x: u8| assign(x, add(local(x), number(1)));
    let inner = while_do(
        less(local(2), number(2)), // 6
        vec![
            write(0, number(1), local(2)), // 7
            count(2),                      // 8
        ],
    );
    let body = vec![
        assign(0, location(0)), // 1
        assign(1, number(0)),   // 2
        while_do(
            less(local(1), number(2)), // 3
            vec![
                read(3, 0, number(0)), // 4
                assign(2, number(0)),  // 5
                inner,
                count(1), // 9
            ],
        ),
        read(3, 0, number(1)), // 10
    ];
    vec![
        of(
            "loops",
            &one_thread(4, body.clone()),
            &[0; 40],
            &[4, 7, 7, 4, 7, 7, 10],
        ),
        of("loops, sequential", &sequential(4, body), &[], &[0; 7]),
    ]
}

/// Both branches, and what follows the if.
fn branches() -> Vec<Traced> {
    let branch = |truth_value: bool| {
        if_else(
            truth(truth_value),
            vec![read(1, 0, number(0)), write(0, number(0), number(1))],
            vec![write(0, number(1), number(2)), read(1, 0, number(0))],
        )
    };
    let body = vec![
        assign(0, location(0)), // 1
        branch(true),           // 2: 3, 4; 5, 6
        branch(false),          // 7: 8, 9; 10, 11
        read(1, 0, number(1)),  // 12
    ];
    vec![of(
        "branches",
        &one_thread(2, body),
        &[0; 9],
        &[3, 4, 10, 11, 12],
    )]
}

/// "inside an atomic block it is the block's label"
fn atomics() -> Vec<Traced> {
    let both = || vec![read(1, 0, number(0)), write(0, number(1), local(1))];
    let deep = if_else(
        truth(false),
        vec![],
        vec![if_else(truth(true), both(), vec![]), read(1, 0, number(1))],
    );
    let body = vec![
        assign(0, location(0)),                             // 1
        read(1, 0, number(0)),                              // 2
        atomic(both()),                                     // 3
        atomic(vec![]),                                     // 4
        atomic([both(), vec![deep], both()].concat()),      // 5
        write(0, number(0), number(5)),                     // 6
        if_else(truth(true), vec![atomic(both())], vec![]), // 7: 8
        while_do(
            equal(local(1), number(5)), // 9
            vec![atomic(vec![
                assign(1, number(0)),
                write(0, number(0), number(0)),
            ])], // 10
        ),
    ];
    let spoilt = vec![
        assign(0, location(0)),
        atomic(both()),
        atomic([both(), vec![read(1, 0, number(2))]].concat()),
    ];
    vec![
        of(
            "atomic blocks",
            &one_thread(2, body),
            &[0; 14],
            &[2, 3, 3, 5, 5, 5, 5, 5, 5, 5, 6, 8, 8, 10],
        ),
        of(
            "an atomic block that blocks",
            &one_thread(2, spoilt),
            &[0; 3],
            &[2, 2],
        ),
    ]
}

/// Threads at other labels, and with other mains.
fn threads() -> Vec<Traced> {
    let first = vec![assign(0, location(0)), read(0, 0, number(0))]; // 1, 2, 3
    let second = vec![
        assign(0, location(0)),         // 4
        write(0, number(0), number(4)), // 5
        read(0, 0, number(0)),          // 6
    ]; // 7
    let program = program(
        vec![procedure(0, 1, first), procedure(0, 1, second)],
        &[1],
        &[1, 0, 1],
    );
    vec![of(
        "threads with other mains",
        &program,
        &[2, 1, 0, 0, 1, 2, 2, 0, 0, 1, 2],
        &[5, 2, 5, 6, 6],
    )]
}

/// Labels and procedures of two bytes.
fn high_labels() -> Vec<Traced> {
    let touch = || vec![write(0, number(0), number(3)), read(0, 0, number(1))];
    let skip = |count: usize| vec![if_else(truth(true), vec![], vec![]); count];
    // 1; 2 to 254; 255 and 256; the second sets p to a number, so p is set again.
    let body = [
        vec![assign(0, location(0))],
        skip(253),
        touch(),
        skip(740),
        vec![assign(0, location(0))],
        touch(),
    ]
    .concat();
    let entries = vec![0; body.len() + 1];
    let long = one_thread(1, body);
    // Each of 1,024 procedures calls the next; some write.
    let chain = |number: u16| {
        let mut code = vec![assign(0, location(0))];
        if [0, 1, 255, 256, 257, 511, 1_023].contains(&number) {
            code.extend(touch());
        }
        if number < 1_023 {
            code.push(call(number + 1, vec![]));
        }
        if number == 300 {
            code.push(assign(0, location(0)));
            code.extend(touch());
        }
        procedure(0, 1, code)
    };
    let chain = program((0..1_024).map(chain).collect(), &[2], &[]);
    let numbers = [0, 1, 255, 256, 257, 511, 1_023, 300]
        .map(|n| [n, n])
        .concat();
    vec![
        of("label 998", &long, &entries, &[255, 256, 998, 999]),
        of("1,024 procedures", &chain, &[], &numbers),
    ]
}
