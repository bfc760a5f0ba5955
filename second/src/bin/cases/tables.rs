//! Cases of tables written by hand: reading, translating, and the paper's worked runs.

use crate::maker::*;
use crate::Batch;
use second::batch::Case;
use second::builder::*;
use second::calls::read_concurrent;
use second::line::BUDGET;
use second::program::Kind;
use second::samples::{b, judged, number_9, one_thread, sequential, translating_to, Judged, A};
use second::wide_samples;

/// The paper's worked cases; labels, depths and schedules stand among the judged tables and runs.
pub fn worked(batch: &mut Batch) {
    let b = table(&b());
    let cases: [(&[u8], &[u8]); 5] = [
        (&A, &[0]),
        (&A, &[0, 0]),
        (&b, &[0, 0, 0, 0, 1, 1, 1, 1]),
        (&b, &[0, 0, 1, 1, 0, 1, 0, 1]),
        (&b, &[]),
    ];
    for (source, schedule) in cases {
        let copy = copy_of(source).expect("a worked table has a copy");
        let cells = cell_bytes(Kind::Concurrent, source);
        let copy_run = Case {
            budget: BUDGET,
            h: read_concurrent(source).locations as u32,
            ..run_case(Kind::Sequential, &copy, schedule, 200, events(4))
        };
        let run = run_case(Kind::Concurrent, source, schedule, cells, events(4));
        batch.add(shown(read_case(Kind::Concurrent, source)));
        batch.add(shown(read_case(Kind::Sequential, &copy)));
        batch.add(shown(translate_case(source, copy.len() as u32)));
        batch.add(shown(run));
        batch.add(shown(copy_run));
        batch.add(shown(line_case(schedule, source)));
    }
    ranges(batch);
}

/// The new bounds of request #110, and one beyond: each call, and its copy's run.
pub fn wide(batch: &mut Batch) {
    for sample in wide_samples::all() {
        let (source, schedule) = (&sample.table, &sample.schedule);
        batch.add(read_case(Kind::Concurrent, source));
        batch.add(translate_case(source, 50_000));
        batch.add(run_case(Kind::Concurrent, source, schedule, 0, 0));
        batch.add(line_case(schedule, source));
        if let Some(copy) = copy_of(source) {
            let cells = cell_bytes(Kind::Sequential, &copy);
            batch.add(read_case(Kind::Sequential, &copy));
            batch.add(Case {
                budget: BUDGET,
                ..run_case(Kind::Sequential, &copy, schedule, cells, 0)
            });
        }
    }
}

/// Both ends of the range of numbers.
fn ranges(batch: &mut Batch) {
    for expression in [
        add(number(i32::MAX), number(1)),
        negate(number(i32::MIN)),
        number(i32::MIN),
        add(number(i32::MIN), number(-1)),
        subtract(number(i32::MIN), number(1)),
        subtract(number(0), number(i32::MIN)),
        multiply(number(-65_536), number(32_768)),
        multiply(number(65_536), number(32_768)),
        multiply(number(i32::MIN), number(-1)),
        add(number(i32::MAX), number(i32::MIN)),
        negate(number(i32::MAX)),
    ] {
        let body = vec![assign(0, location(0)), write(0, number(1), expression)];
        let concurrent = table(&one_thread(1, body.clone()));
        let sequential = table(&sequential(1, body));
        batch.add(run_case(
            Kind::Concurrent,
            &concurrent,
            &[0; 3],
            10,
            events(1),
        ));
        batch.add(run_case(Kind::Sequential, &sequential, &[], 10, events(1)));
        batch.add(line_case(&[0; 3], &concurrent));
    }
}

/// Every table written by hand, given to every call of its kind unless it is long.
pub fn judged_tables(batch: &mut Batch) {
    for Judged { kind, table, .. } in judged() {
        batch.add(read_case(kind, &table));
        if table.len() > 20_000 {
            continue;
        }
        let schedule: &[u8] = match read_concurrent(&table).threads {
            1 => &[0, 0, 0],
            _ => &[0, 0, 0, 1, 0, 0, 1, 0],
        };
        let cells = cell_bytes(kind, &table);
        batch.add(run_case(kind, &table, schedule, cells, 30));
        if kind == Kind::Concurrent && table.len() < 12_000 {
            batch.add(translate_case(&table, 30_000));
            batch.add(line_case(schedule, &table));
        }
        if table.len() < 100 {
            batch.add(read_case(other(kind), &table));
        }
    }
}

/// Copies of about 65,536 bytes, and out buffers too short by one byte, exact and longer.
pub fn long_copies(batch: &mut Batch) {
    for sample in number_9() {
        batch.add(translate_case(&sample.table, 70_000));
        batch.add(line_case(&[0], &sample.table));
    }
    // 9 comes before 10 and 11.
    let too_long = &number_9()[0].table;
    batch.add(translate_case(too_long, 10));
    batch.add(line_case(&[9], too_long));
    let longest = translating_to(65_536);
    let copy = copy_of(&longest).expect("65,536 bytes are not too long");
    batch.add(read_case(Kind::Sequential, &copy));
    batch.add(line_case(&[0; 5], &longest));
    for out in [65_535, 65_536, 65_537] {
        batch.add(translate_case(&longest, out));
    }
    for source in [A.to_vec(), table(&b())] {
        let length = copy_of(&source).map_or(0, |copy| copy.len() as u32);
        for out in [0, 1, length - 1, length, length + 1, length + 300] {
            batch.add(shown(translate_case(&source, out)));
        }
    }
}
