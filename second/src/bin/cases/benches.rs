//! Cases of the bench.

use crate::maker::*;
use crate::random_tables::about;
use crate::Batch;
use second::bench_samples::{benched, blocks_after, d, racing};
use second::builder::table;
use second::program::{Kind, Program};
use second::random::{damaged, program_of, Random, Scale};
use second::reason_samples::{self, blocks};
use second::samples::{b, deepest, judged, table_of_length, Judged};
use second::write;

/// No stored bench tries more allotments.
const MOST_TRIED: u64 = 5_000;

/// The worked benches that do not take long, each instruction that blocks, and refusals.
pub fn benches(batch: &mut Batch) {
    for sample in benched() {
        if sample.tried <= MOST_TRIED {
            let cells = cell_bytes(Kind::Concurrent, &sample.table);
            let case = |cells| bench_case(&sample.table, sample.rounds, sample.most, cells);
            batch.add(shown(case(cells)));
            batch.add(case(cells + 7));
            batch.add(case(0));
        }
    }
    for sample in blocks() {
        if !sample.is_assign() {
            bench_of(batch, &table(&reason_samples::concurrent(&sample)));
        }
        if sample.may_be_in_atomic() && !sample.is_assign() {
            bench_of(batch, &table(&reason_samples::in_atomic(&sample)));
            bench_of(batch, &table(&reason_samples::in_a_branch(&sample)));
        }
    }
    refused_benches(batch);
    largest_benches(batch);
}

/// Two rounds of up to four steps.
fn bench_of(batch: &mut Batch, table: &[u8]) {
    let cells = cell_bytes(Kind::Concurrent, table);
    batch.add(bench_case(table, 2, 4, cells));
}

/// Numbers 1 to 8 come before 13, and 13 before 12.
fn refused_benches(batch: &mut Batch) {
    for Judged { kind, table, .. } in judged() {
        if table.len() > 20_000 {
            continue;
        }
        let cells = cell_bytes(Kind::Concurrent, &table);
        batch.add(bench_case(&table, 1, 1, cells));
        if kind == Kind::Concurrent && table.len() < 1_000 {
            batch.add(bench_case(&table, 0, 1, 0));
            batch.add(bench_case(&table, u64::MAX, u32::MAX, cells));
        }
    }
    for source in [table(&b()), table(&d())] {
        let enough = cell_bytes(Kind::Concurrent, &source);
        for (rounds, most) in [(1, 1), (0, 1), (1, 0), (1, 65), (10, 1)] {
            for cells in [0, enough - 1, enough, enough + 1] {
                batch.add(bench_case(&source, rounds, most, cells));
            }
        }
    }
}

/// The deepest program, all cells, and threads that block behind many steps.
fn largest_benches(batch: &mut Batch) {
    let deep = table(&deepest(Kind::Concurrent));
    let cells = cell_bytes(Kind::Concurrent, &deep);
    batch.add(bench_case(&deep, 1, 1, cells));
    let eight = Program {
        mains: vec![0; 8],
        ..deepest(Kind::Concurrent)
    };
    batch.add(bench_case(&table(&eight), 1, 1, cells));
    let chain = Program {
        mains: vec![0],
        ..deepest(Kind::Concurrent)
    };
    // Each of its 16 procedures takes 16 steps to call the next one.
    for (rounds, most) in [(1, 64), (2, 64), (4, 7)] {
        batch.add(bench_case(&table(&chain), rounds, most, cells));
    }
    let long = table_of_length(Kind::Concurrent, 16_384);
    batch.add(bench_case(&long, 3, 2, 10));
    for steps in [64, 65, 127, 128] {
        for threads in [1, 2] {
            let late = table(&blocks_after(steps, threads));
            batch.add(bench_case(&late, 2 / threads as u64, 64, 5));
        }
    }
}

/// Threads that race, or any random program, or a damaged table.
pub fn random_bench(number: usize, batch: &mut Batch, random: &mut Random) {
    let program = match number % 4 {
        0 => program_of(Kind::Concurrent, Scale::Small, random),
        _ => racing(random),
    };
    let good = write::table(&program, Kind::Concurrent);
    let table = match number % 16 {
        0 => damaged(&good, random),
        _ => good,
    };
    let cells = about(cell_bytes(Kind::Concurrent, &table), random);
    let (rounds, most) = bench_bounds(program.mains.len(), random);
    batch.add(bench_case(&table, rounds, most, cells));
}

/// Bounds with some thousand allotments at most, if there are so few.
fn bench_bounds(threads: usize, random: &mut Random) -> (u64, u32) {
    if threads > 12 {
        return (1, 1);
    }
    loop {
        let (rounds, most) = (random.between(1, 6), random.between(1, 20) as u32);
        let allotments = u64::from(most + 1).checked_pow((rounds * threads) as u32);
        if allotments.is_some_and(|allotments| allotments <= MOST_TRIED) {
            return (rounds as u64, most);
        }
    }
}
