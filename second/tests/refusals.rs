//! Refusals 1 to 12 on tables written by hand.

use second::builder::{assign, number, procedure, program, table};
use second::calls::*;
use second::placement::{Mode, MODES};
use second::program::Kind;
use second::samples::{b, judged, number_9, sequential, translating_to, Judged, A};

fn read(kind: Kind, table: &[u8]) -> ReadAnswer {
    match kind {
        Kind::Concurrent => read_concurrent(table),
        Kind::Sequential => read_sequential(table),
    }
}

fn run(kind: Kind, table: &[u8], cells: &mut [u8], events: &mut [u8]) -> RunAnswer {
    match kind {
        Kind::Concurrent => run_concurrent(table, &[0], cells, events),
        Kind::Sequential => run_sequential(table, &[0], 100, 9, cells, events),
    }
}

fn refused_run(number: u8) -> RunAnswer {
    RunAnswer {
        number,
        ..RunAnswer::default()
    }
}

#[test]
fn each_judged_table_gets_its_number() {
    for sample in judged() {
        let answer = read(sample.kind, &sample.table);
        assert_eq!(
            answer.number, sample.number,
            "{:?}: {}",
            sample.kind, sample.name
        );
        if sample.number != 0 {
            let refusal = ReadAnswer {
                number: sample.number,
                ..ReadAnswer::default()
            };
            assert_eq!(answer, refusal);
        }
    }
}

/// The translator refuses the table by its number in both modes, and writes nothing.
fn refuses_to_translate(sample: &Judged, room: usize) {
    for mode in MODES {
        let mut out = vec![7; room];
        let answer = translate(&sample.table, mode, &mut out);
        let refusal = WriteAnswer {
            number: sample.number,
            length: 0,
        };
        assert_eq!(answer, refusal, "{}", sample.name);
        assert!(out.iter().all(|byte| *byte == 7));
    }
}

#[test]
fn refused_tables_are_refused_by_every_call_and_nothing_is_written() {
    for sample in judged().into_iter().filter(|sample| sample.number != 0) {
        let mut cells = vec![7; 86_000];
        let mut events = vec![7; 1_000];
        let answer = run(sample.kind, &sample.table, &mut cells, &mut events);
        assert_eq!(answer, refused_run(sample.number), "{}", sample.name);
        assert!(cells.iter().chain(&events).all(|byte| *byte == 7));
        if sample.kind == Kind::Concurrent {
            refuses_to_translate(&sample, 66_000);
        }
    }
}

#[test]
fn at_least_three_tables_for_each_number_and_kind() {
    let all = judged();
    for kind in [Kind::Concurrent, Kind::Sequential] {
        for number in [1, 2, 3, 4, 5, 7, 8] {
            let count = all.iter().filter(|s| s.kind == kind && s.number == number);
            assert!(count.count() >= 3, "{kind:?} {number}");
        }
    }
    assert!(all.iter().filter(|s| s.number == 6).count() >= 3);
    assert!(number_9().len() >= 3);
}

/// The other kind's reader refuses every accepted table with 1.
#[test]
fn each_kind_has_its_own_marks() {
    for sample in judged().into_iter().filter(|sample| sample.number == 0) {
        let other = match sample.kind {
            Kind::Concurrent => Kind::Sequential,
            Kind::Sequential => Kind::Concurrent,
        };
        assert_eq!(read(other, &sample.table).number, 1, "{}", sample.name);
    }
}

#[test]
fn number_9_is_given_when_the_copy_would_be_too_long() {
    for sample in number_9() {
        assert_eq!(read_concurrent(&sample.table).number, 0, "{}", sample.name);
        // 9 is smaller than 10, so the buffer does not matter.
        for length in [0, 65_536, 70_000] {
            refuses_to_translate(&sample, length);
        }
        // The runs do not know the translator's numbers.
        let answer = run_concurrent(&sample.table, &[], &mut [0; 100], &mut []);
        assert_eq!(answer.number, 0);
    }
}

#[test]
fn the_longest_copy_passes() {
    let source = translating_to(65_536);
    let mut out = vec![7; 65_540];
    let answer = translate(&source, Mode::Own, &mut out);
    assert_eq!((answer.number, answer.length), (0, 65_536));
    assert_eq!(out[65_536..], [7; 4]);
    assert_eq!(read_sequential(&out[..65_536]).number, 0);
    let mut out = vec![7; 65_535];
    assert_eq!(translate(&source, Mode::Own, &mut out).number, 10);
    assert!(out.iter().all(|byte| *byte == 7));
}

#[test]
fn number_10_is_given_when_the_buffer_is_too_short() {
    for (source, length) in [(A.to_vec(), 173), (table(&b()), 419)] {
        for short in [0, 1, length - 1] {
            let mut out = vec![7; short];
            let answer = translate(&source, Mode::Own, &mut out);
            assert_eq!((answer.number, answer.length), (10, 0));
            assert!(out.iter().all(|byte| *byte == 7));
        }
        let mut out = vec![7; length + 2];
        let answer = translate(&source, Mode::Own, &mut out);
        assert_eq!((answer.number, answer.length), (0, length as u64));
        assert_eq!(out[length..], [7; 2]);
    }
}

#[test]
fn number_11_is_given_for_the_schedule() {
    let b = table(&b());
    let mut schedules = vec![vec![0; 4_097], vec![2], vec![0, 1, 255]];
    // An entry behind the run's end counts too.
    schedules.push(vec![0, 0, 0, 0, 1, 1, 1, 1, 2]);
    for schedule in schedules {
        let answer = run_concurrent(&b, &schedule, &mut [0; 5], &mut [0; 50]);
        assert_eq!(answer, refused_run(11));
        // 11 is smaller than 12.
        let answer = run_concurrent(&b, &schedule, &mut [], &mut []);
        assert_eq!(answer, refused_run(11));
    }
    let copy = table(&sequential(1, vec![assign(0, number(1))]));
    for length in [4_097, 5_000, 9_000] {
        let answer = run_sequential(&copy, &vec![0; length], 9, 1, &mut [0; 10], &mut []);
        assert_eq!(answer, refused_run(11));
    }
    // A sequential entry may be any byte.
    let answer = run_sequential(&copy, &[255; 4_096], 9, 1, &mut [0; 10], &mut []);
    assert_eq!((answer.number, answer.unused), (0, 4_096));
}

#[test]
fn number_12_is_given_for_a_short_cell_buffer() {
    for sizes in [vec![1], vec![2, 3], vec![256; 8]] {
        let cells: u16 = sizes.iter().sum();
        let enough = 5 * usize::from(cells);
        for kind in [Kind::Concurrent, Kind::Sequential] {
            let mains: &[u16] = if kind == Kind::Concurrent { &[0] } else { &[] };
            let table = table(&program(vec![procedure(0, 0, vec![])], &sizes, mains));
            for short in [0, enough - 1] {
                let mut buffer = vec![7; short];
                assert_eq!(run(kind, &table, &mut buffer, &mut []), refused_run(12));
                assert!(buffer.iter().all(|byte| *byte == 7));
            }
            let mut buffer = vec![7; enough + 3];
            assert_eq!(run(kind, &table, &mut buffer, &mut []).number, 0);
            assert_eq!(buffer[enough..], [7; 3]);
            assert_eq!(buffer[..5], [1, 0, 0, 0, 0]);
        }
    }
}
