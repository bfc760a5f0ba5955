//! Makers of one case, and what they need to know of a table.

use second::batch::*;
use second::calls::{copy_in, read_concurrent, read_sequential};
use second::line::input;
use second::machine::EVENT;
use second::placement::Mode;
use second::program::Kind;

pub fn read_case(kind: Kind, table: &[u8]) -> Case {
    Case {
        op: match kind {
            Kind::Concurrent => READ_CONCURRENT,
            Kind::Sequential => READ_SEQUENTIAL,
        },
        table: table.to_vec(),
        ..Case::default()
    }
}

/// In the old mode.
pub fn translate_case(table: &[u8], out: u32) -> Case {
    numbered_case(Mode::Own.number(), table, out)
}

/// In the mode that has this number.
pub fn numbered_case(mode: u32, table: &[u8], out: u32) -> Case {
    Case {
        op: TRANSLATE,
        table: table.to_vec(),
        h: mode,
        out,
        ..Case::default()
    }
}

pub fn run_case(kind: Kind, table: &[u8], schedule: &[u8], cells: u32, events: u32) -> Case {
    Case {
        op: match kind {
            Kind::Concurrent => RUN_CONCURRENT,
            Kind::Sequential => RUN_SEQUENTIAL,
        },
        table: table.to_vec(),
        schedule: schedule.to_vec(),
        budget: 1_000,
        h: 1,
        cells,
        events,
        ..Case::default()
    }
}

pub fn line_case(schedule: &[u8], table: &[u8]) -> Case {
    input_case(&input(schedule, table))
}

pub fn input_case(input: &[u8]) -> Case {
    Case {
        op: LINE,
        table: input.to_vec(),
        ..Case::default()
    }
}

pub fn bench_case(table: &[u8], rounds: u64, most: u32, cells: u32) -> Case {
    Case {
        op: BENCH,
        table: table.to_vec(),
        budget: rounds,
        h: most,
        cells,
        ..Case::default()
    }
}

pub fn prices_case(table: &[u8], label: u64) -> Case {
    Case {
        op: PRICES,
        table: table.to_vec(),
        budget: label,
        ..Case::default()
    }
}

pub fn print_case(table: &[u8], out: u32) -> Case {
    Case {
        op: PRINT_C,
        table: table.to_vec(),
        out,
        ..Case::default()
    }
}

/// A C text to be read.
pub fn text_case(text: &[u8], out: u32) -> Case {
    Case {
        op: READ_C,
        table: text.to_vec(),
        out,
        ..Case::default()
    }
}

/// A table to be mended, and the length of the list of changes.
pub fn mend_case(kind: Kind, table: &[u8], list: u32) -> Case {
    Case {
        op: MEND,
        table: table.to_vec(),
        h: match kind {
            Kind::Concurrent => 0,
            Kind::Sequential => 1,
        },
        events: list,
        ..Case::default()
    }
}

/// The case with the bytes of its lent buffers behind its line.
pub fn shown(case: Case) -> Case {
    Case {
        shown: true,
        ..case
    }
}

/// The copy of an accepted table whose copy is not too long, in the old mode.
pub fn copy_of(table: &[u8]) -> Option<Vec<u8>> {
    copy_in(Mode::Own, table).ok()
}

/// The bytes that the cells of a table need; 100 where it is refused.
pub fn cell_bytes(kind: Kind, table: &[u8]) -> u32 {
    let answer = match kind {
        Kind::Concurrent => read_concurrent(table),
        Kind::Sequential => read_sequential(table),
    };
    match answer.number {
        0 => 5 * answer.cells as u32,
        _ => 100,
    }
}

/// The bytes of so many events.
pub fn events(count: u32) -> u32 {
    EVENT as u32 * count
}

pub fn other(kind: Kind) -> Kind {
    match kind {
        Kind::Concurrent => Kind::Sequential,
        Kind::Sequential => Kind::Concurrent,
    }
}
