//! Cases of runs written by hand: both machines and the run program.

use crate::maker::*;
use crate::Batch;
use second::and_samples::{self, all_placed};
use second::batch::{Case, LONGEST_EVENTS};
use second::builder::*;
use second::line::BUDGET;
use second::program::Kind;
use second::reason_samples::{self, blocks};
use second::run_samples::{ran, Ran};
use second::samples::{b, deepest, deepest_turns, one_thread, table_of_length, translating_to};

/// Every run written by hand, with buffers too short by one byte, exact and longer, all shown.
pub fn runs(batch: &mut Batch) {
    for sample in ran() {
        let cells = cell_bytes(sample.kind, &sample.table);
        let events = events(sample.answer.events as u32);
        let mut lengths = vec![(cells, events), (cells + 3, events + 12)];
        if cells > 0 {
            lengths.push((cells - 1, events));
        }
        if events > 0 {
            lengths.push((cells + 1, events - 1));
            lengths.push((cells, events / 2));
            lengths.push((cells, 0));
        }
        for (cells, events) in lengths {
            batch.add(shown(case_of(&sample, cells, events)));
        }
        if sample.kind == Kind::Concurrent {
            batch.add(line_case(&sample.schedule, &sample.table));
            copy_run(batch, &sample);
        }
    }
}

fn case_of(sample: &Ran, cells: u32, events: u32) -> Case {
    let case = run_case(sample.kind, &sample.table, &sample.schedule, cells, events);
    Case {
        budget: sample.budget,
        h: sample.h,
        ..case
    }
}

/// The same run of the copy.
fn copy_run(batch: &mut Batch, sample: &Ran) {
    let copy = copy_of(&sample.table).expect("the runs are of accepted tables");
    let cells = cell_bytes(Kind::Sequential, &copy);
    batch.add(Case {
        budget: BUDGET,
        h: sample.h,
        ..run_case(Kind::Sequential, &copy, &sample.schedule, cells, 200)
    });
}

/// Every instruction that blocks, in both machines and inside atomic blocks. An assignment, which
/// shows how an expression is judged, is not run in all of these ways, since there are many.
pub fn reasons(batch: &mut Batch) {
    for sample in reason_samples::worked() {
        blocked_program(batch, &sample.table, &sample.schedule);
        blocked_copy(batch, &sample.table, &sample.schedule);
    }
    for sample in blocks() {
        let sequential = table(&reason_samples::sequential(&sample));
        batch.add(run_case(Kind::Sequential, &sequential, &[0], 10, events(1)));
        let plain = table(&reason_samples::concurrent(&sample));
        let inside = table(&reason_samples::in_atomic(&sample));
        let branch = table(&reason_samples::in_a_branch(&sample));
        blocked_program(batch, &plain, &[0; 5]);
        if sample.may_be_in_atomic() {
            blocked_program(batch, &inside, &[0; 5]);
        }
        if sample.may_be_in_atomic() && !sample.is_assign() {
            blocked_program(batch, &branch, &[0; 5]);
            blocked_copy(batch, &branch, &[0; 5]);
        }
        if !sample.may_be_in_atomic() {
            blocked_copy(batch, &plain, &[0; 5]);
        }
    }
}

/// `and` with every operand at every place; of long rows, assignments alone.
pub fn ands(batch: &mut Batch) {
    for placed in all_placed() {
        if placed.may_be_sequential() {
            let sequential = table(&and_samples::sequential(&placed));
            let case = run_case(Kind::Sequential, &sequential, &[], 10, events(2));
            batch.add(Case { budget: 40, ..case });
        }
        blocked_program(batch, &table(&and_samples::concurrent(&placed)), &[0; 12]);
    }
}

fn blocked_program(batch: &mut Batch, source: &[u8], schedule: &[u8]) {
    let cells = cell_bytes(Kind::Concurrent, source);
    batch.add(run_case(
        Kind::Concurrent,
        source,
        schedule,
        cells,
        events(1),
    ));
    batch.add(line_case(schedule, source));
}

fn blocked_copy(batch: &mut Batch, source: &[u8], schedule: &[u8]) {
    let copy = copy_of(source).expect("an accepted table");
    batch.add(whole_run(&copy, schedule));
}

/// Number 11, and schedules of 4,096 entries.
pub fn schedules(batch: &mut Batch) {
    let b = table(&b());
    let refused: [&[u8]; 6] = [
        &[0; 4_097],
        &[0; 5_000],
        &[2],
        &[0, 1, 255],
        &[0, 0, 0, 0, 1, 1, 1, 1, 2],
        &[9; 4_097],
    ];
    for schedule in refused {
        for cells in [4, 5] {
            batch.add(run_case(Kind::Concurrent, &b, schedule, cells, events(4)));
        }
        batch.add(line_case(schedule, &b));
    }
    let copy = copy_of(&b).expect("B has a copy");
    let cells = cell_bytes(Kind::Sequential, &copy);
    for schedule in [
        vec![0; 4_096],
        vec![0; 4_097],
        vec![255; 4_097],
        vec![0; 5_000],
    ] {
        for cells in [0, cells - 1, cells] {
            batch.add(run_case(
                Kind::Sequential,
                &copy,
                &schedule,
                cells,
                events(4),
            ));
        }
    }
    long_runs(batch);
}

/// 4,096 entries and 32 threads, with few labels, with 400 and with 1,000.
fn long_runs(batch: &mut Batch) {
    let spin = vec![while_do(truth(true), vec![])];
    let few = program(vec![procedure(0, 0, spin)], &[1], &[0; 32]);
    let count = assign(0, add(local(0), number(1)));
    let body = vec![
        assign(0, number(0)),
        while_do(truth(true), vec![count; 397]),
    ];
    let many = program(vec![procedure(0, 1, body)], &[1], &[0; 32]);
    let entries: Vec<u8> = (0..4_096).map(|i| (i % 32) as u8).collect();
    let body = vec![while_do(truth(true), vec![assign(0, truth(false)); 998])];
    let most = program(vec![procedure(0, 1, body)], &[1], &[0; 32]);
    for source in [table(&few), table(&many), table(&most)] {
        let copy = copy_of(&source).expect("an accepted table");
        let cells = cell_bytes(Kind::Sequential, &copy);
        batch.add(read_case(Kind::Concurrent, &source));
        batch.add(run_case(Kind::Concurrent, &source, &entries, 5, 0));
        batch.add(line_case(&entries, &source));
        for budget in [50_000, BUDGET] {
            let case = run_case(Kind::Sequential, &copy, &entries[..1_000], cells, 0);
            batch.add(Case { budget, ..case });
        }
    }
    many_events(batch);
}

/// More events than the longest event buffer holds.
fn many_events(batch: &mut Batch) {
    let mut inner = vec![read(1, 0, number(1)); 9];
    inner.push(write(0, number(1), add(local(1), number(1))));
    let body = vec![
        assign(0, location(0)),
        while_do(truth(true), vec![atomic(inner)]),
    ];
    let source = table(&one_thread(2, body));
    let copy = copy_of(&source).expect("an accepted table");
    let cells = cell_bytes(Kind::Sequential, &copy);
    let entries = [0; 900];
    for events in [0, events(1_500) + 12, LONGEST_EVENTS - 1, LONGEST_EVENTS] {
        batch.add(run_case(Kind::Concurrent, &source, &entries, 10, events));
        let case = run_case(Kind::Sequential, &copy, &entries, cells, events);
        batch.add(Case {
            budget: BUDGET,
            ..case
        });
    }
    batch.add(line_case(&entries, &source));
}

/// Number 12.
pub fn cell_buffers(batch: &mut Batch) {
    for sizes in [vec![1], vec![2, 3], vec![256; 8], vec![32; 64]] {
        for kind in [Kind::Concurrent, Kind::Sequential] {
            let mains: &[u16] = match kind {
                Kind::Concurrent => &[0],
                Kind::Sequential => &[],
            };
            let table = table(&program(vec![procedure(0, 0, vec![])], &sizes, mains));
            let enough = cell_bytes(kind, &table);
            for cells in [0, enough - 5, enough - 1, enough, enough + 1] {
                batch.add(run_case(kind, &table, &[0], cells, 5));
            }
        }
    }
}

/// Number 12 of the most cells that a sequential table has.
pub fn all_cells(batch: &mut Batch) {
    let source = table(&program(vec![procedure(0, 0, vec![])], &[256; 64], &[]));
    for cells in [0, 81_919, 81_920, 81_921] {
        batch.add(run_case(Kind::Sequential, &source, &[], cells, 0));
    }
}

/// Inputs of the run program that end early, say a wrong length or are too long.
pub fn inputs(batch: &mut Batch) {
    let b = table(&b());
    for input in [
        &[][..],
        &[0],
        &[0, 0],
        &[1, 0],
        &[2, 0, 0],
        &[255, 255],
        &[0; 18],
    ] {
        batch.add(input_case(input));
    }
    let whole = line_case(&[0, 0, 1, 1], &b).table;
    for length in 0..=whole.len() {
        batch.add(input_case(&whole[..length]));
    }
    for (place, byte) in [(0, 3), (0, 5), (0, 61), (0, 62), (1, 1), (1, 16), (1, 255)] {
        let mut input = whole.clone();
        input[place] = byte;
        batch.add(input_case(&input));
    }
    // A right table that the length takes for the schedule, wholly or in part.
    for length in [1, 16, 41, 56, 57, 58, 200, 4_096, 65_535] {
        let input = [u16::to_le_bytes(length).to_vec(), b.clone()].concat();
        batch.add(input_case(&input));
    }
    for length in [20_481, 20_482, 20_483, 20_484] {
        batch.add(input_case(&vec![0; length]));
        let schedule = vec![0; length - 2 - b.len()];
        batch.add(line_case(&schedule, &b));
    }
}

/// The deepest programs and the longest tables, and runs of their copies.
pub fn largest_programs(batch: &mut Batch) {
    let turns = deepest_turns();
    let deep = table(&deepest(Kind::Concurrent));
    batch.add(read_case(Kind::Concurrent, &deep));
    batch.add(line_case(&turns, &deep));
    for (source, schedule) in [
        (deep, &turns[..]),
        (table_of_length(Kind::Concurrent, 16_384), &[0; 3]),
        (translating_to(65_536), &[0; 5]),
    ] {
        let copy = copy_of(&source).expect("the largest programs have copies");
        let cells = cell_bytes(Kind::Concurrent, &source);
        batch.add(translate_case(&source, copy.len() as u32));
        batch.add(run_case(Kind::Concurrent, &source, schedule, cells, 200));
        batch.add(whole_run(&copy, schedule));
    }
    let deep = table(&deepest(Kind::Sequential));
    batch.add(read_case(Kind::Sequential, &deep));
    for source in [deep, table_of_length(Kind::Sequential, 65_536)] {
        batch.add(whole_run(&source, &[]));
    }
}

/// A sequential run with demand 3's budget.
fn whole_run(source: &[u8], schedule: &[u8]) -> Case {
    let cells = cell_bytes(Kind::Sequential, source);
    Case {
        budget: BUDGET,
        ..run_case(Kind::Sequential, source, schedule, cells, 200)
    }
}
