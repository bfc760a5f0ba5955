//! Labels in events: worked bytes, labels by hand, and buffers too short for an event.

use second::calls::*;
use second::event_samples::{e, traced, Traced};
use second::line::BUDGET;
use second::machine::EVENT;
use second::placement::{Mode, MODES};
use second::program::Kind;
use second::samples::A;

/// The answer and the event buffer, whose bytes were 200; cells have room.
fn run(sample: &Traced, events: usize) -> (RunAnswer, Vec<u8>) {
    let mut cells = vec![200; 86_000];
    let mut events = vec![200; events];
    let (table, schedule) = (&sample.table, &sample.schedule);
    let answer = match sample.kind {
        Kind::Concurrent => run_concurrent(table, schedule, &mut cells, &mut events),
        Kind::Sequential => {
            let h = sample.h;
            run_sequential(table, schedule, BUDGET, h, &mut cells, &mut events)
        }
    };
    (answer, events)
}

fn label(event: &[u8]) -> u16 {
    u16::from_le_bytes([event[11], event[12]])
}

#[test]
fn each_event_has_its_label() {
    for sample in traced() {
        let (answer, events) = run(&sample, 500 * EVENT);
        assert_eq!(answer.number, 0, "{}", sample.name);
        let count = answer.events as usize;
        let labels: Vec<u16> = events.chunks(EVENT).take(count).map(label).collect();
        assert_eq!(labels, sample.labels, "{}", sample.name);
    }
}

/// "The buffer rule (whole events only) is unchanged with the new size."
#[test]
fn whole_events_only() {
    for sample in traced() {
        let count = sample.labels.len();
        let (whole_answer, all) = run(&sample, count * EVENT);
        let exact = count * EVENT;
        let rooms = [0, 1, 11, 12, 13, 14, 24, 25, 26, 27, 38, 39];
        for room in [&rooms[..], &[exact.saturating_sub(1), exact, exact + 12]].concat() {
            let (answer, events) = run(&sample, room);
            let written = EVENT * count.min(room / EVENT);
            assert_eq!(answer, whole_answer);
            assert_eq!(events[..written], all[..written]);
            assert!(events[written..].iter().all(|byte| *byte == 200));
        }
    }
}

/// "Reading a trace, nobody can tell which of two equal reads made an entry."
#[test]
fn two_equal_reads_differ_by_their_label_alone() {
    let samples = traced();
    let sample = samples.iter().find(|s| s.name == "two equal reads");
    let (_, events) = run(sample.unwrap(), 26);
    assert_eq!(events[..11], events[13..24]);
    assert_eq!((&events[11..13], &events[24..]), (&[2, 0][..], &[3, 0][..]));
}

const E: [u8; 86] = [
    0x20, 0x00, 0x02, 0x00, 0x00, //
    0x26, 0x22, 0x01, 0x00, 0x01, 0x00, 0x00, 0x00, 0x00, 0x24, 0x14, 0x05, 0x01, 0x01, 0x00, 0x00,
    0x00, 0x00, 0x21, 0x00, 0x01, 0x01, 0x00, 0x00, 0x00, 0x01, 0x07, 0x00, 0x00, 0x00, 0x00, 0x00,
    0x00, //
    0x25, 0x01, 0x00, 0x01, 0x05, 0x00, //
    0x00, //
    0x21, 0x00, 0x01, 0x00, 0x00, 0x00, 0x00, 0x04, //
    0x00, //
    0x00, 0x02, 0x00, 0x00, 0x00, 0x00, //
    0x01, 0x01, 0x2D, 0x00, 0x00, 0x00, //
    0x02, 0x00, //
    0x00, 0x00, //
    0x43, 0x50, 0x02, 0x00, 0x01, 0x00, 0x01, 0x00, 0x10, 0x00, 0x00, 0x00, 0x56, 0x00, 0x00, 0x00,
];

#[rustfmt::skip]
const EVENTS_OF_E: [u8; 39] = [
    0, 0, 0, 0, 0, 0, 1, 0, 0, 0, 0, 2, 0,
    0, 1, 0, 0, 1, 0, 1, 7, 0, 0, 0, 2, 0,
    0, 1, 0, 0, 0, 0, 4, 0, 0, 0, 0, 5, 0,
];

#[test]
fn the_bytes_of_e() {
    assert_eq!(second::builder::table(&e()), E);
    let mut cells = [0; 10];
    let mut events = [9; 40];
    let answer = run_concurrent(&E, &[0; 6], &mut cells, &mut events);
    let wanted = RunAnswer {
        number: 0,
        end: 0,
        steps: 6,
        unused: 0,
        events: 3,
        reason: 0,
    };
    assert_eq!(answer, wanted);
    assert_eq!(cells, [4, 0, 0, 0, 0, 1, 7, 0, 0, 0]);
    assert_eq!(events[..39], EVENTS_OF_E);
    assert_eq!(events[39], 9);

    let mut copy = vec![0; 517];
    assert_eq!(translate(&E, Mode::Own, &mut copy).length, 517);
    let mut cells = [0; 86_000];
    let mut events = [9; 40];
    let answer = run_sequential(&copy, &[0; 6], BUDGET, 1, &mut cells, &mut events);
    assert_eq!((answer.end, answer.steps, answer.events), (0, 153, 3));
    assert_eq!(events[..39], EVENTS_OF_E);
    let mut line = vec![6, 0, 0, 0, 0, 0, 0, 0];
    line.extend(E);
    assert_eq!(second::line::line(&line), "finished 6 153 0 3 0");
}

/// A's copy with h = 3: pct and from are prepared, ptid and pct read, then label 1 returns.
#[test]
fn the_bytes_of_the_copy_of_a() {
    let mut copy = vec![0; 173];
    assert_eq!(translate(&A, Mode::Own, &mut copy).length, 173);
    let (mut cells, mut events) = ([0; 15], [9; 92]);
    let answer = run_sequential(&copy, &[0], 24, 3, &mut cells, &mut events);
    assert_eq!((answer.end, answer.steps, answer.events), (0, 24, 7));
    #[rustfmt::skip]
    let expected = [
        0, 1, 1, 0, 0, 0, 1, 1, 0, 0, 0, 0, 0,
        0, 1, 2, 0, 0, 0, 1, 0, 0, 0, 0, 0, 0,
        0, 0, 0, 0, 0, 0, 1, 0, 0, 0, 0, 0, 0,
        0, 0, 1, 0, 0, 0, 1, 1, 0, 0, 0, 0, 0,
        0, 0, 2, 0, 0, 0, 1, 0, 0, 0, 0, 1, 0,
        0, 1, 1, 0, 0, 0, 1, 0, 0, 0, 0, 1, 0,
        0, 0, 1, 0, 0, 0, 1, 0, 0, 0, 0, 0, 0,
        9,
    ];
    assert_eq!(events, expected);
}

/// "Demand 3's equal reads and writes then include the label": the copy's events are the same
/// bytes.
#[test]
fn copies_have_the_same_events() {
    let mut copies = 0;
    for (sample, mode) in traced()
        .iter()
        .flat_map(|one| MODES.map(|mode| (one, mode)))
    {
        let Ok(table) = copy_in(mode, &sample.table) else {
            assert_eq!(sample.kind, Kind::Sequential);
            continue;
        };
        let copy = Traced {
            kind: Kind::Sequential,
            table,
            h: read_concurrent(&sample.table).locations as u32,
            ..sample.clone()
        };
        let count = sample.labels.len();
        let (_, events) = run(sample, count * EVENT);
        let (_, copied) = run(&copy, count * EVENT);
        assert_eq!(events, copied, "{}", sample.name);
        copies += 1;
    }
    assert!(copies > 16);
}
