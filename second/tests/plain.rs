//! The plain engine against the first one: ends, reasons, counts, cells and events but for their
//! label bytes, which are 0; refusals; and the room that it needs.

use second::and_samples::{self, all_placed};
use second::builder::*;
use second::calls::*;
use second::concurrent::Concurrent;
use second::event_samples::{e, traced};
use second::machine::EVENT;
use second::plain::Plain;
use second::program::{Kind, Program};
use second::random::{damaged, program_of, schedule_for, Random, Scale};
use second::reason_samples::{self, blocks};
use second::run_samples::ran;
use second::samples::{b, deepest, deepest_turns, judged, one_thread};
use second::verdict::verdict;
use second::write;

/// What a call answers and leaves in buffers that held 200 in each byte.
type Left = (RunAnswer, Vec<u8>, Vec<u8>);

fn by_first(table: &[u8], schedule: &[u8], cells: usize, events: usize) -> Left {
    let (mut cells, mut events) = (vec![200; cells], vec![200; events]);
    let answer = run_concurrent(table, schedule, &mut cells, &mut events);
    (answer, cells, events)
}

fn by_plain(table: &[u8], schedule: &[u8], cells: usize, events: usize) -> Left {
    let (mut cells, mut events) = (vec![200; cells], vec![200; events]);
    let answer = run_plain(table, schedule, &mut cells, &mut events);
    (answer, cells, events)
}

/// The events with 0 in their label bytes, as far as they are written.
fn without_labels(mut left: Left) -> Left {
    let written = left.0.events as usize;
    for event in left.2.chunks_exact_mut(EVENT).take(written) {
        event[11..].fill(0);
    }
    left
}

/// Both engines with these buffers.
fn both(table: &[u8], schedule: &[u8], cells: usize, events: usize) -> RunAnswer {
    let first = by_first(table, schedule, cells, events);
    let plain = by_plain(table, schedule, cells, events);
    assert_eq!(without_labels(first), plain);
    plain.0
}

/// Both engines, with event buffers of each length about the events.
fn with_all_buffers(table: &[u8], schedule: &[u8]) -> RunAnswer {
    let enough = 5 * read_concurrent(table).cells as usize;
    let answer = both(table, schedule, enough, 4_000);
    let exact = EVENT * answer.events as usize;
    for events in [
        0,
        12,
        13,
        14,
        25,
        26,
        exact.saturating_sub(1),
        exact,
        exact + 12,
    ] {
        assert_eq!(both(table, schedule, enough + 3, events), answer);
    }
    if enough > 0 {
        assert_eq!(both(table, schedule, enough - 1, 26).number, 12);
    }
    answer
}

#[test]
fn runs_by_hand() {
    for sample in ran() {
        if sample.kind == Kind::Concurrent {
            let answer = with_all_buffers(&sample.table, &sample.schedule);
            assert_eq!(answer, sample.answer, "{}", sample.name);
        }
    }
    for sample in traced() {
        if sample.kind == Kind::Concurrent {
            with_all_buffers(&sample.table, &sample.schedule);
        }
    }
}

#[test]
fn each_reason() {
    for sample in blocks() {
        let mut programs = vec![reason_samples::concurrent(&sample)];
        if sample.may_be_in_atomic() {
            programs.push(reason_samples::in_atomic(&sample));
            programs.push(reason_samples::in_a_branch(&sample));
        }
        for program in programs {
            let answer = with_all_buffers(&table(&program), &[0; 5]);
            assert_eq!(answer.reason, sample.reason as u8, "{}", sample.name);
        }
    }
    for placed in all_placed() {
        with_all_buffers(&table(&and_samples::concurrent(&placed)), &[0; 12]);
    }
}

#[test]
fn the_bytes_of_e() {
    let table = table(&e());
    let (answer, cells, events) = by_plain(&table, &[0; 6], 10, 40);
    assert_eq!((answer.number, answer.end, answer.steps), (0, 0, 6));
    assert_eq!((answer.unused, answer.events, answer.reason), (0, 3, 0));
    assert_eq!(cells, [4, 0, 0, 0, 0, 1, 7, 0, 0, 0]);
    #[rustfmt::skip]
    let expected = [
        0, 0, 0, 0, 0, 0, 1, 0, 0, 0, 0, 0, 0,
        0, 1, 0, 0, 1, 0, 1, 7, 0, 0, 0, 0, 0,
        0, 1, 0, 0, 0, 0, 4, 0, 0, 0, 0, 0, 0,
        200,
    ];
    assert_eq!(events, expected);
}

/// "It refuses exactly what the first refuses."
#[test]
fn refusals() {
    let mut seen = [0; 13];
    for sample in judged() {
        for schedule in [&[0, 0][..], &[9], &[0; 4_097]] {
            for cells in [0, 3_000] {
                let answer = both(&sample.table, schedule, cells, 100);
                seen[usize::from(answer.number)] += 1;
            }
        }
    }
    // 9 and 10 are the translator's.
    let missing: Vec<usize> = (0..13).filter(|number| seen[*number] == 0).collect();
    assert_eq!(missing, [9, 10]);
    let b = table(&b());
    for (schedule, cells, number) in [
        (vec![2], 4, 11),
        (vec![0, 1, 255], 5, 11),
        (vec![0; 4_097], 4, 11),
        (vec![0], 4, 12),
        (vec![0; 4_096], 5, 0),
    ] {
        assert_eq!(both(&b, &schedule, cells, 13).number, number);
    }
}

/// Step by step: the same cells, and as many frames of the same procedures. "Its room may be bounded
/// by the depth limit": a row for each block, and a frame for each procedure at most.
fn in_step(program: &Program, schedule: &[u8]) -> usize {
    let mut first = Concurrent::new(program);
    let mut plain = Plain::new(program);
    let mut most_rows = 0;
    for thread in schedule.iter().map(|thread| usize::from(*thread)) {
        let one = first.step(thread).map(|step| step.touches);
        assert_eq!(one, plain.step(thread));
        assert_eq!(first.heap, plain.heap);
        for (stack, frames) in first.threads.iter().zip(&plain.threads) {
            let procedures = stack.iter().map(|frame| frame.procedure);
            assert!(procedures.eq(frames.iter().map(|frame| frame.procedure)));
            assert!(frames.len() <= program.procedures.len());
            let rows = frames.iter().map(|frame| frame.rows());
            most_rows = most_rows.max(rows.max().unwrap_or(0));
        }
        if one.is_err() {
            break;
        }
    }
    assert!(most_rows <= 16);
    most_rows
}

fn random_runs(count: usize, scale: Scale, seed: u64, longest: usize) -> [usize; 5] {
    let mut random = Random::new(seed);
    let mut reasons = [0; 5];
    for _ in 0..count {
        let program = program_of(Kind::Concurrent, scale, &mut random);
        let table = write::table(&program, Kind::Concurrent);
        if verdict(&table, Kind::Concurrent).is_err() {
            continue;
        }
        let schedule = schedule_for(&program, longest, &mut random);
        let answer = with_all_buffers(&table, &schedule);
        assert_eq!(answer.number, 0);
        in_step(&program, &schedule);
        reasons[usize::from(answer.reason)] += 1;
    }
    reasons
}

#[test]
fn random_programs() {
    let reasons = random_runs(4_000, Scale::Small, 109, 150);
    println!("{reasons:?}");
    assert!(reasons.iter().all(|count| *count > 50));
}

#[test]
fn large_random_programs() {
    random_runs(60, Scale::Large, 1_109, 400);
}

#[test]
fn damaged_tables() {
    let mut random = Random::new(2_109);
    for _ in 0..1_500 {
        let program = program_of(Kind::Concurrent, Scale::Small, &mut random);
        let bytes = damaged(&write::table(&program, Kind::Concurrent), &mut random);
        let schedule: Vec<u8> = (0..random.below(30)).map(|_| random.byte() % 3).collect();
        both(&bytes, &schedule, 200, 300);
    }
}

/// 16 rows in one frame and 16 frames, and no more.
#[test]
fn the_deepest_program() {
    let program = deepest(Kind::Concurrent);
    let schedule = deepest_turns();
    // Each if is alone in its row, which goes away before its block comes.
    assert_eq!(in_step(&program, &schedule), 1);
    both(&table(&program), &schedule, 10_240, 500);

    let loops = (0..15).fold(vec![], |inner, _| vec![while_do(truth(true), inner)]);
    let program = one_thread(0, loops);
    assert_eq!(in_step(&program, &[0; 40]), 15);
    let loops = (0..15).fold(vec![assign(0, number(1))], |inner, _| {
        vec![while_do(truth(true), inner)]
    });
    let program = one_thread(1, loops);
    assert_eq!(in_step(&program, &[0; 40]), 16);
    assert_eq!(both(&table(&program), &[0; 4_096], 10, 0).steps, 4_096);
}
