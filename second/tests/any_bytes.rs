//! Any bytes at all: no call panics, needs much stack or leaves a mark after a refusal.

use second::builder::table;
use second::calls::*;
use second::line::line;
use second::placement::MODES;
use second::program::{Instruction, Kind};
use second::random::{damaged, holds, program_of, Random, Scale};
use second::samples::{deepest, judged, number_9};
use second::verdict::verdict;
use second::write;

/// Gives a table to every call. Answers whether a reader accepted it.
fn give_to_all_calls(bytes: &[u8], schedule: &[u8]) -> bool {
    let mut out = vec![3; 66_000];
    let mut cells = vec![3; 86_000];
    let mut events = vec![3; 500];
    let concurrent = read_concurrent(bytes);
    let sequential = read_sequential(bytes);
    assert!(concurrent.number != 0 || sequential.number != 0);

    for mode in MODES {
        out.fill(3);
        let translated = translate(bytes, mode, &mut out);
        let length = translated.length as usize;
        assert!(out[length..].iter().all(|byte| *byte == 3));
        if translated.number == 0 {
            assert_eq!(read_sequential(&out[..length]).number, 0);
        }
        if concurrent.number != 0 {
            assert_eq!(translated.number, concurrent.number);
        }
    }

    let ran = run_concurrent(bytes, schedule, &mut cells, &mut events);
    only_blocked_runs_have_a_reason(&ran);
    if concurrent.number != 0 {
        assert_eq!(ran.number, concurrent.number);
    }
    if ran.number != 0 {
        assert!(cells.iter().chain(&events).all(|byte| *byte == 3));
    }

    let (mut cells, mut events) = (vec![3; 86_000], vec![3; 500]);
    let ran = run_sequential(bytes, schedule, 2_000, 3, &mut cells, &mut events);
    only_blocked_runs_have_a_reason(&ran);
    if ran.number != 0 {
        assert!(cells.iter().chain(&events).all(|byte| *byte == 3));
    }
    for kind in [Kind::Concurrent, Kind::Sequential] {
        if let Ok(program) = verdict(bytes, kind) {
            assert_eq!(write::table(&program, kind), bytes);
        }
    }
    give_to_other_calls(bytes, schedule);
    concurrent.number == 0 || sequential.number == 0
}

/// Prices, the plain engine, C text and the mender.
fn give_to_other_calls(bytes: &[u8], schedule: &[u8]) {
    let concurrent = read_concurrent(bytes).number;
    let sequential = read_sequential(bytes).number;
    assert_eq!(prices(bytes, 1).number, concurrent);
    let (mut cells, mut events) = (vec![3; 86_000], vec![3; 500]);
    let ran = run_plain(bytes, schedule, &mut cells, &mut events);
    only_blocked_runs_have_a_reason(&ran);
    if ran.number != 0 {
        assert!(cells.iter().chain(&events).all(|byte| *byte == 3));
    }

    let mut out = vec![3; 30_000];
    let printed = print_c(bytes, &mut out);
    assert!(printed.number == sequential || printed.number == 10);
    let (text, behind) = out.split_at(printed.length as usize);
    assert!(behind.iter().all(|byte| *byte == 3));
    if printed.number == 0 {
        let mut table = vec![3; bytes.len()];
        assert_eq!(read_c(text, &mut table).number, 0);
        assert_eq!(table, bytes);
    }
    assert_eq!(read_c(bytes, &mut out).number, 1);

    // The mender tries all choices on short tables, so only very short and long ones are given to it.
    if bytes.len() < 60 || bytes.len() > 300 {
        for kind in [Kind::Concurrent, Kind::Sequential] {
            let (mut table, mut list) = (bytes.to_vec(), [3; 96]);
            let mended = mend(&mut table, kind, &mut list);
            assert_eq!(mended.number != 0 || !mended.mended, table == bytes);
            assert_eq!(mended.number == 0, verdict(&table, kind).is_ok());
            let listed = 6 * mended.changes as usize;
            assert!(list[listed..].iter().all(|byte| *byte == 3));
        }
    }
}

fn only_blocked_runs_have_a_reason(answer: &RunAnswer) {
    assert_eq!(answer.end == 2, answer.reason != 0);
    assert!(answer.reason <= 4);
}

#[test]
fn random_bytes() {
    let mut random = Random::new(11);
    for _ in 0..3_000 {
        let length = random.below(80);
        let bytes: Vec<u8> = (0..length).map(|_| random.byte()).collect();
        give_to_all_calls(&bytes, &[0, 1]);
        line(&bytes);
    }
}

#[test]
fn damaged_tables() {
    let mut random = Random::new(12);
    let mut accepted = 0;
    for i in 0..6_000 {
        let kind = match i % 2 {
            0 => Kind::Concurrent,
            _ => Kind::Sequential,
        };
        let program = program_of(kind, Scale::Small, &mut random);
        let bytes = damaged(&write::table(&program, kind), &mut random);
        let schedule: Vec<u8> = (0..random.below(30)).map(|_| random.byte() % 4).collect();
        accepted += usize::from(give_to_all_calls(&bytes, &schedule));
        line(&[vec![schedule.len() as u8, 0], schedule, bytes].concat());
    }
    println!("{accepted} of 6,000 damaged tables are accepted");
    assert!(accepted > 500);
}

/// All of it with 128 kB of stack.
#[test]
fn a_small_stack_is_enough() {
    let work = || {
        let judged = judged().into_iter().chain(number_9());
        let deep = [Kind::Concurrent, Kind::Sequential].map(|kind| table(&deepest(kind)));
        for bytes in judged.map(|sample| sample.table).chain(deep) {
            give_to_all_calls(&bytes, &[0; 258]);
            line(&[vec![2, 1], vec![0; 258], bytes].concat());
        }
    };
    let thread = std::thread::Builder::new().stack_size(128 * 1_024);
    thread.spawn(work).unwrap().join().unwrap();
}

/// The random programs hold every kind of instruction, and most are accepted.
#[test]
fn random_programs_are_varied() {
    let mut random = Random::new(13);
    let shapes: [fn(&Instruction) -> bool; 8] = [
        |i| matches!(i, Instruction::Assign { .. }),
        |i| matches!(i, Instruction::Read { .. }),
        |i| matches!(i, Instruction::Write { .. }),
        |i| matches!(i, Instruction::While { .. }),
        |i| matches!(i, Instruction::If { .. }),
        |i| matches!(i, Instruction::Call { arguments, .. } if !arguments.is_empty()),
        |i| matches!(i, Instruction::Atomic { body } if body.len() > 1),
        |i| matches!(i, Instruction::Select { .. }),
    ];
    let mut counts = [0; 8];
    let mut accepted = 0;
    for i in 0..2_000 {
        let kind = match i % 2 {
            0 => Kind::Concurrent,
            _ => Kind::Sequential,
        };
        let program = program_of(kind, Scale::Small, &mut random);
        if kind == Kind::Concurrent {
            assert_eq!(table(&program), write::table(&program, kind));
        }
        accepted += usize::from(verdict(&write::table(&program, kind), kind).is_ok());
        for (count, shape) in counts.iter_mut().zip(shapes) {
            *count += usize::from(holds(&program, shape));
        }
    }
    println!("programs with each instruction: {counts:?}; accepted {accepted} of 2,000");
    assert!(accepted > 1_800);
    assert!(counts.iter().all(|count| *count > 200));
}
