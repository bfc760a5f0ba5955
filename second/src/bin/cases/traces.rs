//! Cases of events with their labels.

use crate::maker::*;
use crate::Batch;
use second::batch::Case;
use second::event_samples::{traced, Traced};
use second::line::BUDGET;
use second::program::Kind;

/// Every run whose labels are worked, with event buffers of few bytes, one byte short of all events,
/// exact and longer, all shown; and the same runs of copies.
pub fn labelled_events(batch: &mut Batch) {
    for sample in traced() {
        let exact = events(sample.labels.len() as u32);
        let few: &[u32] = match sample.table.len() {
            0..=1_000 => &[0, 12, 13, 14, 25, 26],
            _ => &[13, 25],
        };
        let about_all = [exact.saturating_sub(1), exact, exact + 12];
        for room in few.iter().chain(&about_all) {
            batch.add(traced_case(&sample, *room));
        }
        if sample.kind == Kind::Concurrent && sample.table.len() < 1_000 {
            traced_copy(batch, &sample);
        }
    }
}

fn traced_case(sample: &Traced, events: u32) -> Case {
    let cells = cell_bytes(sample.kind, &sample.table);
    shown(Case {
        budget: BUDGET,
        h: sample.h,
        ..run_case(sample.kind, &sample.table, &sample.schedule, cells, events)
    })
}

/// The copy's run: the events of the program's locations, and those of all its own too.
fn traced_copy(batch: &mut Batch, sample: &Traced) {
    let copy = Traced {
        kind: Kind::Sequential,
        table: copy_of(&sample.table).expect("an accepted table"),
        ..sample.clone()
    };
    let exact = events(sample.labels.len() as u32);
    batch.add(traced_case(&copy, exact));
    let all = Traced { h: 600, ..copy };
    batch.add(traced_case(&all, 700));
}
