//! Cases of the translator's second mode, in which locals share locations.

use crate::maker::*;
use crate::random_tables::{about, copy_case};
use crate::Batch;
use second::batch::Case;
use second::builder::table;
use second::calls::copy_in;
use second::line::BUDGET;
use second::place_samples::{c, edge_of_9, edge_of_9_in_the_old_mode, samples};
use second::placement::Mode;
use second::program::Kind;
use second::random::{damaged, program_of, schedule_for, Random, Scale};
use second::samples::{deepest, deepest_turns, judged, number_9, translating_to, Judged};
use second::verdict::verdict;
use second::write;

const RANDOM_PROGRAMS: usize = 150;
const LARGE_PROGRAMS: usize = 3;

/// A table in the second mode.
fn shared_case(table: &[u8], out: u32) -> Case {
    numbered_case(Mode::Shared.number(), table, out)
}

/// A whole run of a copy, with the events of so many locations.
fn copy_run(copy: &[u8], schedule: &[u8], h: u32) -> Case {
    let cells = cell_bytes(Kind::Sequential, copy);
    Case {
        budget: BUDGET,
        h,
        ..run_case(Kind::Sequential, copy, schedule, cells, 700)
    }
}

/// Programs by hand with both copies, and runs of the second.
pub fn placed_samples(batch: &mut Batch) {
    for sample in samples() {
        let source = table(&sample.program);
        let copy = copy_in(Mode::Shared, &source).expect("the samples have copies");
        let length = copy.len() as u32;
        batch.add(translate_case(&source, 30_000));
        for out in [length - 1, length, length + 9] {
            batch.add(shared_case(&source, out));
        }
        batch.add(read_case(Kind::Sequential, &copy));
        let threads = sample.program.mains.len();
        let turns: Vec<u8> = (0..60).map(|step| (step % threads) as u8).collect();
        batch.add(copy_run(&copy, &turns, 600));
    }
    let turns = deepest_turns();
    let deep = table(&deepest(Kind::Concurrent));
    let copy = copy_in(Mode::Shared, &deep).expect("the deepest program has a copy");
    batch.add(shared_case(&deep, copy.len() as u32));
    batch.add(copy_run(&copy, &turns, 1));
}

/// "A caller of the translator names the mode": 0 is the old one, any other number the second.
pub fn numbers_of_modes(batch: &mut Batch) {
    let c = table(&c());
    for mode in [0, 1, 2, 3, 255, 256, 65_536, u32::MAX] {
        for out in [0, 562, 563, 564, 565, 566] {
            let case = numbered_case(mode, &c, out);
            batch.add(if mode < 3 { shown(case) } else { case });
        }
    }
    batch.add(shown(read_case(Kind::Concurrent, &c)));
    batch.add(line_case(&[0; 8], &c));
    let copy = copy_in(Mode::Shared, &c).expect("C has a copy");
    batch.add(shown(copy_run(&copy, &[0; 8], 0)));
    batch.add(shown(copy_run(&copy, &[0; 8], 600)));
}

/// "Numbers 9 and 10 use the chosen mode's length."
pub fn edges_of_9_and_10(batch: &mut Batch) {
    let edge = table(&edge_of_9(0));
    for mode in [0, 1, 2] {
        batch.add(numbered_case(mode, &edge, 70_000));
        batch.add(numbered_case(mode, &edge, 0));
    }
    for out in [65_535, 65_536, 65_537] {
        batch.add(shared_case(&edge, out));
    }
    batch.add(line_case(&[0; 3], &edge));
    let longer = table(&edge_of_9(1));
    for mode in [0, 1] {
        batch.add(numbered_case(mode, &longer, 70_000));
    }
    let shorter = table(&edge_of_9_in_the_old_mode());
    for (mode, length) in [(0, 65_536), (1, 65_534)] {
        for out in [length - 1, length] {
            batch.add(numbered_case(mode, &shorter, out));
        }
    }
    // With one procedure both modes are the same.
    batch.add(shared_case(&translating_to(65_536), 65_536));
    batch.add(shared_case(&number_9()[0].table, 70_000));
}

/// Tables of each refusal, and accepted ones.
pub fn judged_in_the_second_mode(batch: &mut Batch) {
    for Judged { kind, table, .. } in judged() {
        if kind == Kind::Concurrent && table.len() < 1_000 {
            batch.add(shared_case(&table, 8_000));
        }
    }
}

/// Random programs and damaged tables, and runs of copies.
pub fn random_placements(batch: &mut Batch, random: &mut Random) {
    for number in 0..RANDOM_PROGRAMS + LARGE_PROGRAMS {
        let scale = match number {
            0..RANDOM_PROGRAMS => Scale::Small,
            _ => Scale::Large,
        };
        let program = program_of(Kind::Concurrent, scale, random);
        let source = write::table(&program, Kind::Concurrent);
        if verdict(&source, Kind::Concurrent).is_ok() {
            let schedule = schedule_for(&program, 80, random);
            let copy = copy_in(Mode::Shared, &source).expect("random programs have copies");
            let room = about(copy.len() as u32, random);
            batch.add(shared_case(&source, room));
            let locations = program.sizes.len() as u32;
            batch.add(copy_case(&copy, locations, &schedule, random));
        }
        if number % 5 == 0 {
            batch.add(shared_case(&damaged(&source, random), 8_000));
        }
    }
}
