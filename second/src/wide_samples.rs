//! Request #110, "More workers, longer programs": tables at the new bounds and one beyond, each with
//! a schedule and the run program's line.

use crate::builder::*;
use crate::program::Program;
use crate::samples::one_thread;

#[derive(Clone, Debug)]
pub struct Wide {
    pub name: &'static str,
    pub table: Vec<u8>,
    pub schedule: Vec<u8>,
    pub line: &'static str,
}

/// So many threads with an empty body.
pub fn idle(threads: usize) -> Program {
    program(vec![procedure(0, 0, vec![])], &[], &vec![0; threads])
}

/// x := false, so many times: one label more.
pub fn falses(count: usize) -> Program {
    Program {
        sizes: Vec::new(),
        ..one_thread(1, vec![assign(0, truth(false)); count])
    }
}

fn wide(name: &'static str, source: &Program, schedule: &[u8], line: &'static str) -> Wide {
    Wide {
        name,
        table: table(source),
        schedule: schedule.to_vec(),
        line,
    }
}

pub fn all() -> Vec<Wide> {
    let falling: Vec<u8> = (0..32).rev().collect();
    let (board, thousand) = (idle(32), falses(999));
    vec![
        wide("32 workers", &board, &falling, "finished 32 2628 0 0 0"),
        wide("entry 31", &board, &[31], "used 1 178 0 0 0"),
        wide("entry 32", &board, &[32], "refused 11"),
        wide("entry 31 of 31 workers", &idle(31), &[31], "refused 11"),
        wide("33 workers", &idle(33), &[31], "refused 2"),
        wide(
            "1,000 labels",
            &thousand,
            &[0; 1_001],
            "finished 1000 1016007 1 0 0",
        ),
        wide("1,001 labels", &falses(1_000), &[0; 1_001], "refused 6"),
    ]
}
