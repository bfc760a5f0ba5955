//! Cases of prices.

use crate::maker::*;
use crate::Batch;
use second::batch::Case;
use second::builder::table;
use second::calls::read_concurrent;
use second::labels;
use second::price;
use second::price_samples::priced;
use second::program::Kind;
use second::random::{damaged, program_of, Random, Scale};
use second::samples::{judged, Judged, A};
use second::verdict::verdict;
use second::write;

const PRICED_PROGRAMS: usize = 12;

/// The labels whose prices are worked, of long tables some; and labels that there are not.
pub fn worked_prices(batch: &mut Batch) {
    for sample in priced() {
        let table = table(&sample.program);
        let (last, apart) = match table.len() {
            0..=900 => (0, 1),
            901..=2_000 => (0, 4),
            _ => (1, 16),
        };
        let some = sample.prices.iter().rev().skip(last).step_by(apart);
        for (label, _) in some {
            batch.add(prices_case(&table, *label));
        }
        let labels = labels::of_program(&sample.program) as u64;
        if table.len() < 100 {
            for label in other_labels(labels) {
                batch.add(prices_case(&table, label));
            }
        }
        if table.len() < 1_000 {
            batch.add(prices_case(&table, 0));
            batch.add(prices_case(&table, labels + 1));
        }
    }
    // No buffer is lent, so none is shown.
    batch.add(shown(Case {
        cells: 5,
        events: 5,
        out: 5,
        ..prices_case(&A, 1)
    }));
}

/// Labels that a program of so many labels does not have; cut off, most would be labels.
fn other_labels(labels: u64) -> Vec<u64> {
    let mut all = vec![u64::MAX];
    for high in [1 << 8, 1 << 16, 1 << 31, 1 << 32, 1 << 63] {
        let others = [0, 1, labels].map(|low| high + low);
        all.extend(others.into_iter().filter(|label| *label > labels));
    }
    all
}

/// Tables of each refusal, and the others of both kinds at their first and last label.
pub fn refused_prices(batch: &mut Batch) {
    for Judged { table, .. } in judged() {
        if table.len() > 1_300 {
            continue;
        }
        batch.add(prices_case(&table, 1));
        let answer = read_concurrent(&table);
        if answer.number == 0 {
            batch.add(prices_case(&table, answer.labels));
        }
    }
}

/// Every label of some short random programs, one behind them, and damaged tables. Each program has
/// an atomic block whose least and most prices differ.
pub fn random_prices(batch: &mut Batch, random: &mut Random) {
    let mut programs = 0;
    while programs < PRICED_PROGRAMS {
        let program = program_of(Kind::Concurrent, Scale::Small, random);
        let source = write::table(&program, Kind::Concurrent);
        let labels = labels::of_program(&program) as u64;
        let differ = |label| price::at_label(&program, label).is_some_and(|s| s.least < s.most);
        let is_short = source.len() < 400;
        if !is_short || !(1..=labels).any(differ) || verdict(&source, Kind::Concurrent).is_err() {
            continue;
        }
        programs += 1;
        for label in 0..=labels + 1 {
            batch.add(prices_case(&source, label));
        }
        batch.add(prices_case(&damaged(&source, random), 1));
    }
}
