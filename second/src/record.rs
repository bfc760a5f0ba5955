//! What runs leave in lent memory.

use crate::machine::{End, Event, Heap};

/// The result of a run.
#[derive(Clone, PartialEq, Eq, Debug)]
pub struct Run {
    pub end: End,
    pub steps: u64,
    pub unused: u64,
    pub events: u64,
    pub heap: Heap,
}

/// The lent buffer of events. "Events that fit whole are written, later ones only counted."
pub struct Events<'a> {
    buffer: &'a mut [u8],
    count: u64,
}

impl<'a> Events<'a> {
    pub fn new(buffer: &'a mut [u8]) -> Events<'a> {
        Events { buffer, count: 0 }
    }

    pub fn count(&self) -> u64 {
        self.count
    }

    pub fn record(&mut self, event: &Event) {
        let bytes = event.bytes();
        let room = usize::try_from(self.count)
            .ok()
            .and_then(|count| count.checked_mul(bytes.len()))
            .and_then(|at| self.buffer.get_mut(at..)?.get_mut(..bytes.len()));
        if let Some(room) = room {
            room.copy_from_slice(&bytes);
        }
        self.count += 1;
    }
}

/// "Final cells are written as such values, in location order. All other bytes stay."
pub fn write_cells(heap: &Heap, buffer: &mut [u8]) {
    for (value, room) in heap.cells().zip(buffer.chunks_exact_mut(5)) {
        room.copy_from_slice(&value.five_bytes());
    }
}
