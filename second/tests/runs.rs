//! Runs of both machines: ends, counts, cells and events.

use second::builder::*;
use second::calls::*;
use second::line::{input, line};
use second::program::Kind;
use second::run_samples::{ran, Ran};
use second::samples::{b, number_9, one_thread, sequential, table_of_length, A};

/// What a run answers and leaves in its buffers, which held 200 in each byte.
fn run(sample: &Ran, cells: usize, events: usize) -> (RunAnswer, Vec<u8>, Vec<u8>) {
    let mut cells = vec![200; cells];
    let mut events = vec![200; events];
    let answer = match sample.kind {
        Kind::Concurrent => {
            run_concurrent(&sample.table, &sample.schedule, &mut cells, &mut events)
        }
        Kind::Sequential => run_sequential(
            &sample.table,
            &sample.schedule,
            sample.budget,
            sample.h,
            &mut cells,
            &mut events,
        ),
    };
    (answer, cells, events)
}

fn named(name: &str) -> Vec<Ran> {
    let found: Vec<Ran> = ran().into_iter().filter(|s| s.name == name).collect();
    assert!(!found.is_empty(), "{name}");
    found
}

#[test]
fn each_run_gives_its_answer() {
    for sample in ran() {
        let (answer, _, _) = run(&sample, 86_000, 20_000);
        assert_eq!(answer, sample.answer, "{:?}: {}", sample.kind, sample.name);
    }
}

/// "Events that fit whole are written, later ones only counted." "All other bytes stay."
#[test]
fn events_that_fit_whole_are_written() {
    for sample in ran() {
        let (answer, cells, all) = run(&sample, 86_000, 20_000);
        let count = answer.events as usize;
        let exact = 13 * count;
        let rooms = [0, 1, 11, 12, 13, 14, 22, 25, 26, 27];
        for room in [&rooms[..], &[exact.saturating_sub(1), exact, exact + 12]].concat() {
            let (other, other_cells, some) = run(&sample, 86_000, room);
            let whole = 13 * count.min(room / 13);
            assert_eq!((other, &other_cells), (answer, &cells));
            assert_eq!(some[..whole], all[..whole], "{}", sample.name);
            assert!(some[whole..].iter().all(|byte| *byte == 200));
        }
    }
}

#[test]
fn cells_are_written_and_no_more() {
    for sample in ran() {
        let read = match sample.kind {
            Kind::Concurrent => read_concurrent(&sample.table),
            Kind::Sequential => read_sequential(&sample.table),
        };
        let exact = 5 * read.cells as usize;
        let (answer, cells, _) = run(&sample, exact, 0);
        let (_, more, _) = run(&sample, exact + 7, 0);
        assert_eq!(answer, sample.answer);
        assert_eq!(cells, more[..exact]);
        assert_eq!(more[exact..], [200; 7]);
        if exact > 0 {
            let (refused, untouched, _) = run(&sample, exact - 1, 0);
            assert_eq!(refused.number, 12);
            assert!(untouched.iter().all(|byte| *byte == 200));
        }
    }
}

/// "the state stays as before the step, and no event of that step is written or counted"
#[test]
fn a_blocked_atomic_block_leaves_no_trace() {
    for name in [
        "atomic: assign blocks",
        "atomic: read blocks",
        "atomic: write blocks",
        "atomic: test blocks",
        "atomic: a branch blocks",
    ] {
        let (answer, cells, events) = run(&named(name)[0], 10, 99);
        assert_eq!(answer.events, 1);
        assert_eq!(cells, [1, 0, 0, 0, 0, 1, 3, 0, 0, 0]);
        assert_eq!(events[..13], [0, 1, 0, 0, 1, 0, 1, 3, 0, 0, 0, 2, 0]);
        assert!(events[13..].iter().all(|byte| *byte == 200));
    }
}

#[test]
fn values_of_each_kind_in_cells_and_events() {
    let (_, cells, events) = run(&named("values of each kind")[0], 10, 52);
    assert_eq!(cells, [2, 0, 0, 0, 0, 4, 0, 0, 0, 0]);
    #[rustfmt::skip]
    let expected = [
        0, 1, 0, 0, 0, 0, 2, 0, 0, 0, 0, 2, 0,
        0, 0, 0, 0, 0, 0, 2, 0, 0, 0, 0, 2, 0,
        0, 1, 0, 0, 1, 0, 4, 0, 0, 0, 0, 2, 0,
        0, 0, 0, 0, 1, 0, 4, 0, 0, 0, 0, 3, 0,
    ];
    assert_eq!(events, expected);
}

/// A select's entry is the thread of later events; the write into a[0] is no event.
#[test]
fn a_select_names_the_thread() {
    let sample = &named("select a negative number")[0];
    let (_, cells, events) = run(sample, 20, 39);
    #[rustfmt::skip]
    let expected_cells = [
        1, 2, 0, 0, 0,
        1, 1, 0, 0, 0,
        1, 0, 0, 0, 0,
        1, 255, 255, 255, 255,
    ];
    assert_eq!(cells, expected_cells);
    #[rustfmt::skip]
    let expected = [
        0, 1, 1, 0, 0, 0, 1, 1, 0, 0, 0, 0, 0,
        0, 1, 1, 0, 2, 0, 1, 255, 255, 255, 255, 0, 0,
        2, 0, 0, 0, 0, 0, 1, 2, 0, 0, 0, 0, 0,
    ];
    assert_eq!(events, expected);
}

/// A blocked select leaves a[0] and the last selected thread as they were.
#[test]
fn a_blocked_select_changes_nothing() {
    let (_, cells, _) = run(&named("select a cell with 0")[0], 20, 0);
    assert_eq!(cells[..5], [1, 0, 0, 0, 0]);
}

/// An index of two bytes and a location of two bytes.
#[test]
fn high_bytes_of_events() {
    let body = vec![
        assign(0, location(511)),
        write(0, number(255), number(-2)),
        read(0, 0, number(255)),
    ];
    let mut sizes = vec![1; 511];
    sizes.push(256);
    let program = program(vec![procedure(0, 1, body)], &sizes, &[]);
    let mut events = [0; 26];
    let mut cells = vec![0; 5 * (511 + 256)];
    let answer = run_sequential(&table(&program), &[], 99, 512, &mut cells, &mut events);
    assert_eq!((answer.end, answer.steps, answer.events), (0, 4, 2));
    let first = [0, 1, 255, 1, 255, 0, 1, 254, 255, 255, 255, 0, 0];
    assert_eq!(events[..13], first);
    assert_eq!(cells[cells.len() - 5..], [1, 254, 255, 255, 255]);
}

// ---- the run program ----

/// "If the input ends before the schedule does, the table is empty"
#[test]
fn short_inputs_have_an_empty_table() {
    assert_eq!(line(&[]), "refused 1");
    assert_eq!(line(&[0]), "refused 1");
    assert_eq!(line(&[0, 0]), "refused 1");
    assert_eq!(line(&[2, 0, 0]), "refused 1");
    assert_eq!(line(&input(&[0, 0], &[])), "refused 1");
    let mut bytes = input(&[0], &A);
    bytes[0] = 27;
    assert_eq!(line(&bytes), "refused 1");
    bytes[1] = 255;
    assert_eq!(line(&bytes), "refused 1");
}

#[test]
fn long_inputs() {
    let longest = table_of_length(Kind::Concurrent, 16_384);
    let bytes = input(&[0; 4_096], &longest);
    assert_eq!(bytes.len(), 20_482);
    // An atomic block of 5,451 assignments, then the return.
    let copy = 5 + (14 + 2 * 5_451 + 2) + (14 + 4) + 2;
    assert_eq!(line(&bytes), format!("finished 2 {copy} 4094 0 0"));
    assert_eq!(line(&[bytes.clone(), vec![0]].concat()), "refused 2");
    assert_eq!(line(&vec![0; 20_482]), "refused 1");
    assert_eq!(line(&vec![0; 20_483]), "refused 2");
    // A table of 16,385 bytes within the input.
    let too_long = table_of_length(Kind::Concurrent, 16_385);
    assert_eq!(line(&input(&[], &too_long)), "refused 2");
}

/// The numbers of the table come before 11.
#[test]
fn order_of_refusals() {
    let unset = table(&one_thread(2, vec![assign(0, local(1))]));
    assert_eq!(line(&input(&[9], &unset)), "refused 8");
    assert_eq!(line(&input(&[0; 5_000], &unset)), "refused 8");
    assert_eq!(line(&input(&[9], &table(&b()))), "refused 11");
    assert_eq!(line(&input(&[0; 4_097], &table(&b()))), "refused 11");
    assert_eq!(line(&input(&[0; 20_400], &table(&b()))), "refused 11");
    for sample in number_9() {
        assert_eq!(line(&input(&[0], &sample.table)), "refused 9");
        assert_eq!(line(&input(&[9], &sample.table)), "refused 9");
    }
    let copied = table(&sequential(0, vec![]));
    assert_eq!(line(&input(&[], &copied)), "refused 1");
}

/// "a blocking one among them"
#[test]
fn a_blocked_line() {
    let text = line(&input(&[0, 0, 0, 0, 0, 1], &table(&b())));
    // Four rounds, then the test; the select blocks.
    let copy = 8 + 4 * 18 + 4 + 7 + 7 + 4 + 1;
    assert_eq!(text, format!("blocked 4 {copy} 2 2 4"));
    // Inside an atomic block the copy does one write before it blocks; the program none.
    let program = one_thread(
        1,
        vec![
            assign(0, location(0)),
            atomic(vec![
                write(0, number(0), number(1)),
                write(0, number(2), number(1)),
            ]),
        ],
    );
    let text = line(&input(&[0, 0], &table(&program)));
    // Test, select, four, label 1's test and label 2's, the call, load and write, load.
    let copy = 5 + (3 + 2 + 10 + 4) + 1 + 1 + 4 + 2 + 1 + 3 + 2;
    assert_eq!(text, format!("blocked 1 {copy} 1 0 3"));
}
