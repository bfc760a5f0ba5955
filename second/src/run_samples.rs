//! Runs written by hand, each with the answer that the paper gives for it.

use crate::builder::*;
use crate::calls::{copy_in, RunAnswer};
use crate::machine::End;
use crate::placement::Mode;
use crate::program::{Block, Kind, Program};
use crate::reason::Reason::{self, *};
use crate::samples::{b, one_thread, sequential, A};

/// A run and its answer. Budget and h are for sequential runs.
#[derive(Clone, Debug)]
pub struct Ran {
    pub name: &'static str,
    pub kind: Kind,
    pub table: Vec<u8>,
    pub schedule: Vec<u8>,
    pub budget: u64,
    pub h: u32,
    pub answer: RunAnswer,
}

impl Ran {
    fn new(name: &'static str, program: &Program, schedule: &[u8]) -> Ran {
        Ran {
            name,
            kind: match program.mains.is_empty() {
                true => Kind::Sequential,
                false => Kind::Concurrent,
            },
            table: table(program),
            schedule: schedule.to_vec(),
            budget: 1_000,
            h: program.sizes.len() as u32,
            answer: RunAnswer::default(),
        }
    }

    fn budget(self, budget: u64) -> Ran {
        Ran { budget, ..self }
    }

    fn h(self, h: u32) -> Ran {
        Ran { h, ..self }
    }

    fn gives(self, end: End, steps: u64, unused: u64, events: u64) -> Ran {
        Ran {
            answer: RunAnswer {
                number: 0,
                end: end.number(),
                steps,
                unused,
                events,
                reason: end.reason(),
            },
            ..self
        }
    }
}

/// All the runs.
pub fn ran() -> Vec<Ran> {
    let mut all = blocked_in_both();
    all.extend(blocked_concurrent());
    all.extend(other_concurrent());
    all.extend(selects());
    all.extend(judged_in_order());
    all.extend(budgets());
    all.extend(recorded());
    all
}

/// Bodies over 3 locals and one location of size 2 whose last step blocks, with its reason and the
/// number of steps and of events before it.
fn blocking_bodies() -> Vec<(&'static str, Reason, u64, u64, Block)> {
    let most = || number(i32::MAX);
    let point = || assign(0, location(0));
    let nothing = || add(most(), number(1));
    vec![
        (
            "assign: sum too large",
            OutOfRange,
            0,
            0,
            vec![assign(0, nothing())],
        ),
        (
            "assign: negate of the least number",
            OutOfRange,
            0,
            0,
            vec![assign(0, negate(number(i32::MIN)))],
        ),
        (
            "assign: product too large",
            OutOfRange,
            1,
            0,
            vec![
                assign(1, number(46_341)),
                assign(0, multiply(local(1), local(1))),
            ],
        ),
        (
            "assign: not of a number",
            WrongKind,
            0,
            0,
            vec![assign(0, not(number(1)))],
        ),
        (
            "assign: less of truths",
            WrongKind,
            0,
            0,
            vec![assign(0, less(truth(false), truth(true)))],
        ),
        (
            "assign: equal of two kinds",
            WrongKind,
            0,
            0,
            vec![assign(0, equal(number(0), truth(false)))],
        ),
        (
            "assign: right side of and",
            WrongKind,
            0,
            0,
            vec![assign(0, and(truth(true), number(1)))],
        ),
        (
            "assign: location plus number",
            WrongKind,
            0,
            0,
            vec![assign(0, add(location(0), number(1)))],
        ),
        (
            "read: index is the size",
            IndexOutside,
            1,
            0,
            vec![point(), read(1, 0, number(2))],
        ),
        (
            "read: index below 0",
            IndexOutside,
            1,
            0,
            vec![point(), read(1, 0, number(-1))],
        ),
        (
            "read: index 65,536",
            IndexOutside,
            1,
            0,
            vec![point(), read(1, 0, number(65_536))],
        ),
        (
            "read: index is a truth value",
            WrongKind,
            1,
            0,
            vec![point(), read(1, 0, truth(false))],
        ),
        (
            "read: index has no value",
            OutOfRange,
            1,
            0,
            vec![point(), read(1, 0, nothing())],
        ),
        (
            "read: pointer is a number",
            WrongKind,
            1,
            0,
            vec![assign(0, number(0)), read(1, 0, number(0))],
        ),
        (
            "write: index is the size",
            IndexOutside,
            1,
            0,
            vec![point(), write(0, number(2), number(1))],
        ),
        (
            "write: index below 0",
            IndexOutside,
            1,
            0,
            vec![point(), write(0, number(-1), number(1))],
        ),
        (
            "write: index is a location",
            WrongKind,
            1,
            0,
            vec![point(), write(0, location(0), number(1))],
        ),
        (
            "write: pointer is a truth value",
            WrongKind,
            1,
            0,
            vec![assign(0, truth(true)), write(0, number(0), number(1))],
        ),
        (
            "write: value has no value",
            OutOfRange,
            3,
            1,
            vec![
                point(),
                write(0, number(0), number(8)),
                assign(1, number(1)),
                write(0, number(0), add(most(), local(1))),
            ],
        ),
        (
            "if: test is a number",
            WrongKind,
            0,
            0,
            vec![if_else(number(1), vec![], vec![])],
        ),
        (
            "if: test has no value",
            OutOfRange,
            0,
            0,
            vec![if_else(equal(nothing(), number(1)), vec![], vec![])],
        ),
        (
            "while: test is a location",
            WrongKind,
            0,
            0,
            vec![while_do(location(0), vec![])],
        ),
        (
            "while: test turns into a number",
            WrongKind,
            3,
            0,
            vec![
                assign(0, truth(true)),
                while_do(local(0), vec![assign(0, number(1))]),
            ],
        ),
        (
            "if: test is the number 0 of a cell",
            WrongKind,
            2,
            1,
            vec![
                point(),
                read(1, 0, number(1)),
                if_else(local(1), vec![], vec![]),
            ],
        ),
        (
            "call: second argument has no value",
            OutOfRange,
            0,
            0,
            vec![call(1, vec![number(1), nothing()])],
        ),
    ]
}

/// The body as procedure 0 beside a procedure of two parameters.
fn with_helper(body: Block, mains: &[u16]) -> Program {
    let helper = procedure(2, 2, vec![]);
    program(vec![procedure(0, 3, body), helper], &[2], mains)
}

fn blocked_in_both() -> Vec<Ran> {
    let mut all = Vec::new();
    for (name, reason, steps, events, body) in blocking_bodies() {
        let blocked = End::Blocked(reason);
        let concurrent = with_helper(body.clone(), &[0]);
        let ran = Ran::new(name, &concurrent, &[0; 10]);
        all.push(ran.gives(blocked, steps, 10 - steps, events));
        let sequential = with_helper(body, &[]);
        all.push(Ran::new(name, &sequential, &[0; 10]).gives(blocked, steps, 10, events));
    }
    all
}

/// Atomic blocks that block inside, and a finished thread.
fn blocked_concurrent() -> Vec<Ran> {
    let point = || assign(0, location(0));
    let spoil = |last| {
        let inner = vec![
            write(0, number(0), number(7)),
            read(1, 0, number(0)),
            write(0, number(1), local(1)),
            last,
        ];
        one_thread(
            3,
            vec![point(), write(0, number(1), number(3)), atomic(inner)],
        )
    };
    let blocked = |name, reason, last| {
        let program = spoil(last);
        Ran::new(name, &program, &[0; 5]).gives(End::Blocked(reason), 2, 3, 1)
    };
    vec![
        blocked("atomic: assign blocks", WrongKind, assign(2, not(local(1)))),
        blocked("atomic: read blocks", IndexOutside, read(2, 0, local(1))),
        blocked(
            "atomic: write blocks",
            IndexOutside,
            write(0, number(2), local(1)),
        ),
        blocked(
            "atomic: test blocks",
            WrongKind,
            if_else(local(1), vec![], vec![]),
        ),
        blocked(
            "atomic: a branch blocks",
            WrongKind,
            if_else(
                equal(local(1), number(7)),
                vec![write(0, number(0), truth(true)), assign(0, not(number(1)))],
                vec![],
            ),
        ),
        Ran::new("a finished thread", &b(), &[1, 1, 1, 1, 1, 0]).gives(
            End::Blocked(FinishedThread),
            4,
            2,
            2,
        ),
        Ran::new(
            "a finished thread at once",
            &with_helper(vec![], &[0, 0]),
            &[0, 0, 1],
        )
        .gives(End::Blocked(FinishedThread), 1, 2, 0),
    ]
}

fn other_concurrent() -> Vec<Ran> {
    let spin = one_thread(0, vec![while_do(truth(true), vec![])]);
    let calls = program(
        vec![
            procedure(
                0,
                1,
                vec![
                    assign(0, number(2)),
                    call(1, vec![local(0), location(0)]),
                    call(1, vec![number(5), location(1)]),
                ],
            ),
            procedure(
                2,
                3,
                vec![
                    write(1, number(0), local(0)),
                    read(2, 1, number(0)),
                    call(2, vec![local(2)]),
                ],
            ),
            procedure(1, 1, vec![]),
        ],
        &[1, 1],
        &[0, 0],
    );
    let both: Vec<u8> = (0..40).map(|i| i % 2).collect();
    let in_place = one_thread(
        2,
        vec![
            assign(0, location(0)),
            atomic(vec![
                write(0, number(0), location(0)),
                read(0, 0, number(0)),
                if_else(
                    equal(local(0), location(0)),
                    vec![write(0, number(1), truth(true))],
                    vec![write(0, number(1), truth(false))],
                ),
            ]),
            read(1, 0, number(1)),
            while_do(local(1), vec![assign(1, not(local(1)))]),
        ],
    );
    vec![
        Ran::new("B, 2", &b(), &[0, 0, 0, 0, 1, 1, 1, 1]).gives(End::Finished, 8, 0, 4),
        Ran::new("B, 1", &b(), &[0, 0, 1, 1, 0, 1, 0, 1]).gives(End::Finished, 8, 0, 4),
        Ran::new("B, no entry", &b(), &[]).gives(End::Used, 0, 0, 0),
        Ran::new("B, half", &b(), &[0, 1, 0, 1, 0]).gives(End::Used, 5, 0, 3),
        Ran::new("B, entries left", &b(), &[0, 0, 0, 0, 1, 1, 1, 1, 0, 0, 1]).gives(
            End::Finished,
            8,
            3,
            4,
        ),
        Ran::new("an endless loop", &spin, &[0; 4_096]).gives(End::Used, 4_096, 0, 0),
        // Per thread 1 assignment, 2 calls with 6 steps each, 1 return.
        Ran::new("calls in two threads", &calls, &both).gives(End::Finished, 28, 12, 8),
        Ran::new("values of each kind", &in_place, &[0; 8]).gives(End::Finished, 7, 1, 4),
    ]
}

/// Locations 0 (size 1) and 1 (size 3); cells of location 1 are prepared, then select(0, 1).
fn selecting(prepare: Block, rest: Block) -> Program {
    let mut body = vec![assign(0, location(1))];
    body.extend(prepare);
    body.push(select(0, 1));
    body.extend(rest);
    program(vec![procedure(0, 2, body)], &[1, 3], &[])
}

fn selects() -> Vec<Ran> {
    let put = |index: i32, value| write(0, number(index), value);
    let open = || {
        selecting(
            vec![put(0, number(1)), put(2, number(-1))],
            vec![assign(0, location(0)), read(1, 0, number(0))],
        )
    };
    let blocked = |name, reason, program: &Program, schedule: &[u8], steps| {
        let (unused, events) = (schedule.len() as u64, steps - 1);
        Ran::new(name, program, schedule).gives(End::Blocked(reason), steps, unused, events)
    };
    let truths = selecting(vec![put(1, truth(true))], vec![]);
    let places = selecting(vec![put(1, location(0))], vec![]);
    let onto_itself = program(
        vec![procedure(
            0,
            2,
            vec![
                assign(0, location(0)),
                write(0, number(0), number(1)),
                write(0, number(1), number(1)),
                select(0, 0),
                select(0, 0),
                select(0, 0),
            ],
        )],
        &[3],
        &[],
    );
    vec![
        Ran::new("select", &open(), &[0, 9]).gives(End::Finished, 7, 1, 3),
        Ran::new("select a negative number", &open(), &[2]).gives(End::Finished, 7, 0, 3),
        Ran::new("select without an entry", &open(), &[]).gives(End::Used, 3, 0, 2),
        blocked("select a cell with 0", FinishedThread, &open(), &[1, 0], 3),
        blocked(
            "select an index that is the size",
            IndexOutside,
            &open(),
            &[3],
            3,
        ),
        blocked("select entry 255", IndexOutside, &open(), &[255, 0, 0], 3),
        blocked("select a truth value", WrongKind, &truths, &[1], 2),
        blocked("select a location", WrongKind, &places, &[1], 2),
        // Cell 0 is 1 when the third select takes entry 0.
        Ran::new("select into its own cells", &onto_itself, &[1, 1, 0]).gives(
            End::Finished,
            7,
            0,
            2,
        ),
        Ran::new("select shuts its own door", &onto_itself, &[1, 0, 0]).gives(
            End::Blocked(FinishedThread),
            5,
            1,
            2,
        ),
    ]
}

/// "Before each step a run is judged finished, at its budget, used up (select and no entry),
/// blocked, in this order."
fn judged_in_order() -> Vec<Ran> {
    let empty = sequential(0, vec![]);
    let only_select = sequential(0, vec![select(0, 0)]);
    let blocks = sequential(1, vec![assign(0, not(number(1)))]);
    let blocks_in_a_thread = one_thread(1, vec![assign(0, number(1)), assign(0, not(number(1)))]);
    vec![
        Ran::new("empty body, budget 0", &empty, &[1])
            .budget(0)
            .gives(End::Budget, 0, 1, 0),
        Ran::new("empty body, budget 1", &empty, &[1])
            .budget(1)
            .gives(End::Finished, 1, 1, 0),
        Ran::new("select without entry, budget 0", &only_select, &[])
            .budget(0)
            .gives(End::Budget, 0, 0, 0),
        Ran::new("select without entry, budget 1", &only_select, &[])
            .budget(1)
            .gives(End::Used, 0, 0, 0),
        Ran::new("select blocks, budget 0", &only_select, &[0])
            .budget(0)
            .gives(End::Budget, 0, 1, 0),
        Ran::new("select blocks, budget 1", &only_select, &[0])
            .budget(1)
            .gives(End::Blocked(FinishedThread), 0, 1, 0),
        Ran::new("assign blocks, budget 0", &blocks, &[])
            .budget(0)
            .gives(End::Budget, 0, 0, 0),
        Ran::new(
            "used up before a step that blocks",
            &blocks_in_a_thread,
            &[0],
        )
        .gives(End::Used, 1, 0, 0),
        Ran::new("a step that blocks", &blocks_in_a_thread, &[0, 0]).gives(
            End::Blocked(WrongKind),
            1,
            1,
            0,
        ),
        Ran::new("assign blocks, largest budget", &blocks, &[])
            .budget(u64::MAX)
            .gives(End::Blocked(WrongKind), 0, 0, 0),
    ]
}

/// The copy of a program, under a schedule and with h = M.
fn copy(name: &'static str, source: &[u8], h: u32, schedule: &[u8]) -> Ran {
    Ran {
        name,
        kind: Kind::Sequential,
        table: copy_in(Mode::Own, source).expect("an accepted table"),
        schedule: schedule.to_vec(),
        budget: 140_000_000,
        h,
        answer: RunAnswer::default(),
    }
}

fn budgets() -> Vec<Ran> {
    let a = |name| copy(name, &A, 0, &[0]);
    let b = |name| copy(name, &table(&b()), 1, &[0, 0, 1, 1, 0, 1, 0, 1]);
    let endless = sequential(0, vec![while_do(truth(true), vec![])]);
    vec![
        a("copy of A").gives(End::Finished, 24, 0, 0),
        a("copy of A, budget 24")
            .budget(24)
            .gives(End::Finished, 24, 0, 0),
        a("copy of A, budget 23")
            .budget(23)
            .gives(End::Budget, 23, 0, 0),
        a("copy of A, budget 6, before select")
            .budget(6)
            .gives(End::Budget, 6, 1, 0),
        a("copy of A, budget 7, after select")
            .budget(7)
            .gives(End::Budget, 7, 0, 0),
        copy("copy of A, no entry", &A, 0, &[]).gives(End::Used, 6, 0, 0),
        copy("copy of A, no entry, budget 6", &A, 0, &[])
            .budget(6)
            .gives(End::Budget, 6, 0, 0),
        copy("copy of A, an entry left", &A, 0, &[0, 0]).gives(End::Finished, 24, 1, 0),
        copy("copy of A, entry 1", &A, 0, &[1]).gives(End::Blocked(IndexOutside), 6, 1, 0),
        b("copy of B").gives(End::Finished, 198, 0, 4),
        b("copy of B, budget 198")
            .budget(198)
            .gives(End::Finished, 198, 0, 4),
        b("copy of B, budget 197")
            .budget(197)
            .gives(End::Budget, 197, 0, 4),
        copy("copy of B, no entry", &table(&self::b()), 1, &[]).gives(End::Used, 9, 0, 0),
        Ran::new("an endless loop, budget 1,000", &endless, &[]).gives(End::Budget, 1_000, 0, 0),
    ]
}

/// Which events a sequential run records.
fn recorded() -> Vec<Ran> {
    let body = vec![
        assign(0, location(0)),
        write(0, number(0), number(1)),
        assign(0, location(1)),
        write(0, number(0), truth(true)),
        select(0, 0),
        write(0, number(1), location(1)),
        read(1, 0, number(1)),
        assign(0, location(2)),
        read(1, 0, number(0)),
    ];
    let program = program(vec![procedure(0, 2, body)], &[1, 2, 1], &[]);
    let run = |name, h, events| {
        Ran::new(name, &program, &[0])
            .h(h)
            .gives(End::Finished, 10, 0, events)
    };
    vec![
        run("h is 0", 0, 0),
        run("h is 1", 1, 1),
        run("h is 2", 2, 4),
        run("h is 3", 3, 5),
        run("h is 4,294,967,295", u32::MAX, 5),
    ]
}
