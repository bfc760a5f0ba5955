//! The round-robin bench: "k rounds, threads in rising order, each given from 0 to s steps in each
//! round". By brute force: each allotment is run from the beginning.

use crate::concurrent::Concurrent;
use crate::machine::Heap;
use crate::program::Program;

/// "at most 19 counts, the rest 0"
pub const COUNTS: usize = 19;

/// "more than 1,000,000 allotments"
const MOST_ALLOTMENTS: u64 = 1_000_000;

/// The counts of an allotment, "in the order they are run": round by round, in each round the
/// threads in rising order.
pub type Allotment = Vec<u8>;

/// What the bench found.
#[derive(Clone, PartialEq, Eq, Debug)]
pub struct Search {
    /// The number of the first allotment whose run blocks, and that allotment.
    pub blocked: Option<(u64, Allotment)>,
    /// "The cell buffer keeps the last run's cells."
    pub heap: Heap,
}

/// The first allotment, which gives no steps. "13 for k below 1, s not 1..64, or more than
/// 1,000,000 allotments".
pub fn first_allotment(k: u64, s: u64, threads: usize) -> Result<Allotment, u8> {
    if k < 1 || !(1..=64).contains(&s) {
        return Err(13);
    }
    let mut allotment = Allotment::new();
    let mut allotments = 1;
    // There are at least two counts to choose from, so that this ends soon, however large k is.
    for _ in 0..u128::from(k) * threads as u128 {
        allotment.push(0);
        allotments *= s + 1;
        if allotments > MOST_ALLOTMENTS {
            return Err(13);
        }
    }
    Ok(allotment)
}

/// The next allotment "in rising order, their counts compared in the order they are run, the first
/// thread's first round varying slowest"; false behind the last one.
pub fn advance(allotment: &mut Allotment, s: u8) -> bool {
    for count in allotment.iter_mut().rev() {
        if *count < s {
            *count += 1;
            return true;
        }
        *count = 0;
    }
    false
}

/// "It takes allotments in rising order [..] and stops at the first allotment whose run of the
/// concurrent program blocks."
pub fn search(program: &Program, mut allotment: Allotment, s: u8) -> Search {
    let mut number = 0;
    loop {
        let (is_blocked, heap) = run(program, &allotment);
        if is_blocked {
            let blocked = Some((number, allotment));
            return Search { blocked, heap };
        }
        if !advance(&mut allotment, s) {
            let blocked = None;
            return Search { blocked, heap };
        }
        number += 1;
    }
}

/// Whether the run of an allotment blocks, and its cells. It "leaves out each step of a finished
/// thread".
fn run(program: &Program, allotment: &Allotment) -> (bool, Heap) {
    let mut machine = Concurrent::new(program);
    let threads = program.mains.len();
    for (place, count) in allotment.iter().enumerate() {
        let thread = place % threads;
        for _ in 0..*count {
            let is_finished = machine.threads[thread].is_empty();
            if !is_finished && machine.step(thread).is_err() {
                return (true, machine.heap);
            }
        }
    }
    (false, machine.heap)
}
