//! The round-robin bench: by hand, and against runs of each allotment's schedule.

use second::bench::{advance, first_allotment, COUNTS};
use second::bench_samples::{benched, d, one_finishes, racing, Benched};
use second::builder::table;
use second::calls::*;
use second::program::{Kind, Program};
use second::random::{program_of, Random, Scale};
use second::samples::{b, judged};
use second::verdict::verdict;

const BLOCKED: u8 = 2;
const FINISHED_THREAD: u8 = 4;

/// What the bench answers and leaves in a cell buffer of this length, which held 200 in each byte.
fn bench_with(table: &[u8], rounds: u64, most: u64, length: usize) -> (BenchAnswer, Vec<u8>) {
    let mut cells = vec![200; length];
    let answer = bench(table, rounds, most, &mut cells);
    (answer, cells)
}

#[test]
fn each_bench_gives_its_answer() {
    for sample in benched() {
        let Benched { table, rounds, .. } = &sample;
        let length = sample.cells.len() + 7;
        let (answer, cells) = bench_with(table, *rounds, sample.most.into(), length);
        assert_eq!(answer, sample.answer, "{}", sample.name);
        let (written, behind) = cells.split_at(sample.cells.len());
        assert_eq!(written, sample.cells, "{}", sample.name);
        assert!(behind.iter().all(|byte| *byte == 200), "{}", sample.name);
    }
}

#[test]
fn d_is_as_it_is_written() {
    let by_hand = "20 00 02 00 00 / 22 01 00 01 00 00 00 00 / 21 00 01 00 00 00 00 10 05 01 01 01 \
        00 00 00 / 20 02 02 01 00 / 26 22 01 02 01 00 00 00 00 21 02 01 00 00 00 00 10 05 01 01 01 \
        00 00 00 00 / 24 14 05 01 01 01 00 00 00 22 01 00 01 00 00 00 00 22 01 00 11 01 02 00 00 00 \
        05 01 00 00 / 00 / 00 03 00 00 00 00 / 01 00 01 00 / 00 00 00 00 / 43 50 01 00 02 00 02 00 \
        0E 00 00 00 77 00 00 00";
    let words = by_hand.split(' ').filter(|word| *word != "/");
    let bytes: Vec<u8> = words.map(|w| u8::from_str_radix(w, 16).unwrap()).collect();
    assert_eq!(table(&d()), bytes);
    assert_eq!(read_concurrent(&bytes).labels, 9);
}

/// "The smallest number that applies is answered": 1 to 8, then 13, then 12.
#[test]
fn the_order_of_refusals() {
    let numbers = |table: &[u8], cells: usize| {
        [(1, 1), (0, 1), (1, 0), (u64::MAX, u64::MAX)].map(|(rounds, most)| {
            let (answer, cells) = bench_with(table, rounds, most, cells);
            let written = cells.iter().any(|byte| *byte != 200);
            assert!(!written || answer.number == 0);
            answer.number
        })
    };
    let b = table(&b());
    assert_eq!(numbers(&b, 5), [0, 13, 13, 13]);
    assert_eq!(numbers(&b, 4), [12, 13, 13, 13]);
    for sample in judged() {
        let number = read_concurrent(&sample.table).number;
        if number != 0 {
            assert_eq!(numbers(&sample.table, 0), [number; 4], "{}", sample.name);
        }
    }
}

/// No program has so many threads today; from 20 counts on there is no allotment that is allowed.
#[test]
fn the_most_threads() {
    assert_eq!(first_allotment(1, 1, 19), Ok(vec![0; 19]));
    assert_eq!(first_allotment(1, 1, 20), Err(13));
    assert_eq!(first_allotment(19, 1, 1), Ok(vec![0; 19]));
    assert_eq!(first_allotment(3, 9, 2), Ok(vec![0; 6]));
    assert_eq!(first_allotment(3, 10, 2), Err(13));
}

/// "An allotment's number reads its counts as digits of base s + 1, the first the highest": each is
/// tried once, and in this order.
#[test]
fn allotments_in_rising_order() {
    for (counts, s) in [(1, 64), (2, 2), (4, 3), (6, 1), (3, 9)] {
        let mut allotment = vec![0; counts];
        let base = u64::from(s) + 1;
        for number in 0..base.pow(counts as u32) {
            let read = allotment.iter().fold(0, |n, c| n * base + u64::from(*c));
            assert_eq!(read, number);
            let is_last = number + 1 == base.pow(counts as u32);
            assert_eq!(advance(&mut allotment, s), !is_last);
        }
    }
}

// ---- the run call alone ----

/// The steps of an allotment that are not left out, up to one that blocks, as a schedule; whether it
/// blocks; and the cells. Only the run call is asked: "reason 4, or an entry unused at finished, tells
/// that a thread is finished".
fn by_the_run_call(table: &[u8], allotment: &[u8], cells: usize) -> (Vec<u8>, bool, Vec<u8>) {
    let threads = read_concurrent(table).threads as usize;
    let mut schedule = Vec::new();
    for (place, count) in allotment.iter().enumerate() {
        for _ in 0..*count {
            schedule.push((place % threads) as u8);
            let (answer, _) = run_with(table, &schedule, cells);
            if answer.end == BLOCKED && answer.reason != FINISHED_THREAD {
                let (_, cells) = run_with(table, &schedule, cells);
                return (schedule, true, cells);
            }
            if answer.unused > 0 {
                schedule.pop();
            }
        }
    }
    let (answer, cells) = run_with(table, &schedule, cells);
    assert!(answer.end != BLOCKED && answer.unused == 0);
    (schedule, false, cells)
}

fn run_with(table: &[u8], schedule: &[u8], cells: usize) -> (RunAnswer, Vec<u8>) {
    let mut cells = vec![200; cells];
    let answer = run_concurrent(table, schedule, &mut cells, &mut []);
    assert_eq!(answer.number, 0);
    (answer, cells)
}

/// Tries every allotment by the run call, and holds the bench against it. True if one blocks.
fn hold(program: &Program, rounds: u64, most: u64) -> bool {
    let table = table(program);
    let length = 5 * program.cells() + 3;
    let (answer, cells) = bench_with(&table, rounds, most, length);
    assert_eq!(answer.number, 0);
    let mut allotment = first_allotment(rounds, most, program.mains.len()).unwrap();
    for number in 0.. {
        let (schedule, blocks, left) = by_the_run_call(&table, &allotment, length);
        if blocks {
            assert_eq!((answer.found, answer.allotment), (true, number));
            assert_eq!(answer.counts[..allotment.len()], allotment);
            assert_eq!(answer.counts[allotment.len()..].iter().max(), Some(&0));
            assert_eq!(cells, left);
            // The counts allotted are those run: else a smaller allotment would block before.
            let allotted: usize = allotment.iter().map(|count| usize::from(*count)).sum();
            assert_eq!(schedule.len(), allotted);
            return true;
        }
        if !advance(&mut allotment, most as u8) {
            assert_eq!((answer, cells), (BenchAnswer::default(), left));
            return false;
        }
    }
    unreachable!()
}

#[test]
fn the_worked_programs_by_the_run_call() {
    for (rounds, most) in [(1, 1), (1, 9), (2, 3), (2, 4), (2, 6), (3, 3)] {
        assert!(!hold(&b(), rounds, most));
        let finds = rounds > 1 && (rounds, most) != (2, 3);
        assert_eq!(hold(&d(), rounds, most), finds);
    }
    for steps in 1..4 {
        assert!(hold(&one_finishes(steps), 2, 3));
    }
}

/// Random bounds with at most so many allotments.
fn some_bounds(threads: usize, most: u64, random: &mut Random) -> (u64, u64) {
    loop {
        let (rounds, steps) = (random.between(1, 4), random.between(1, 9) as u64);
        let counts = rounds * threads;
        if counts <= COUNTS && (steps + 1).pow(counts as u32) <= most {
            return (rounds as u64, steps);
        }
    }
}

#[test]
fn racing_threads_by_the_run_call() {
    let mut random = Random::new(102);
    let (mut blocked, mut later) = (0, 0);
    for _ in 0..250 {
        let program = racing(&mut random);
        let (rounds, most) = some_bounds(program.mains.len(), 1_300, &mut random);
        let blocks = hold(&program, rounds, most);
        blocked += usize::from(blocks);
        // Not at the first step of a thread.
        later += usize::from(blocks && !hold(&program, 1, 1));
    }
    assert!(blocked > 30, "{blocked} blocked");
    assert!(later > 30, "{later} blocked later");
}

#[test]
fn random_programs_by_the_run_call() {
    let mut random = Random::new(103);
    for _ in 0..150 {
        let program = program_of(Kind::Concurrent, Scale::Small, &mut random);
        // With more threads no bounds have so few allotments.
        let few = program.mains.len() <= 8;
        if few && verdict(&table(&program), Kind::Concurrent).is_ok() {
            let (rounds, most) = some_bounds(program.mains.len(), 300, &mut random);
            hold(&program, rounds, most);
        }
    }
}
