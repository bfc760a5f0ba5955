//! What stands behind the bodies: procedure records, sizes, mains and the trailer.
//! Refusals 1, 2 and 3.

use crate::program::Kind;
use std::ops::RangeInclusive;

pub const TRAILER: usize = 16;

/// The three counts of the trailer.
#[derive(Clone, Copy, PartialEq, Eq, Debug)]
pub struct Counts {
    pub procedures: usize,
    pub locations: usize,
    pub threads: usize,
}

/// "per procedure 6 bytes: parameters, locals (parameters first and included), body offset (4)"
#[derive(Clone, Copy, Debug)]
pub struct Record {
    pub parameters: u8,
    pub locals: u8,
    pub offset: usize,
}

#[derive(Clone, Debug)]
pub struct Head {
    pub records: Vec<Record>,
    pub sizes: Vec<u16>,
    pub mains: Vec<u16>,
    /// Where the procedure records begin, which is where the bodies end.
    pub bodies_end: usize,
}

/// "1: under 16 bytes; wrong kind marks, distance or length; distance over length - 16"
pub fn refusal_1(table: &[u8], kind: Kind) -> Result<Counts, u8> {
    if table.len() < TRAILER {
        return Err(1);
    }
    let trailer = &table[table.len() - TRAILER..];
    let counts = Counts {
        procedures: two_bytes(trailer, 2),
        locations: two_bytes(trailer, 4),
        threads: two_bytes(trailer, 6),
    };
    let marks_are_right = trailer[0..2] == marks(kind);
    let distance_is_right = four_bytes(trailer, 8) == distance(counts);
    let length_is_right = four_bytes(trailer, 12) == table.len();
    let records_have_room = distance(counts) <= table.len() - TRAILER;
    if marks_are_right && distance_is_right && length_is_right && records_have_room {
        Ok(counts)
    } else {
        Err(1)
    }
}

/// "43 50 concurrent or 53 50 sequential"
pub fn marks(kind: Kind) -> [u8; 2] {
    match kind {
        Kind::Concurrent => [0x43, 0x50],
        Kind::Sequential => [0x53, 0x50],
    }
}

/// "the distance from the trailer back to the procedure records, 6P+2M+2T"
pub fn distance(counts: Counts) -> usize {
    6 * counts.procedures + 2 * counts.locations + 2 * counts.threads
}

/// What number 2 allows.
#[derive(Clone, Debug)]
pub struct Limits {
    pub length: usize,
    pub procedures: RangeInclusive<usize>,
    pub locations: RangeInclusive<usize>,
    pub threads: RangeInclusive<usize>,
}

/// "2: concurrent: over 16,384 bytes, P not 1..16, M over 64, T not 1..8.
/// Sequential: over 65,536 bytes, P not 1..512, M over 512, T not 0"; request #110: "T goes to 32",
/// "sequential tables may have 1,024 procedures and 16,384 cells"
pub fn limits(kind: Kind) -> Limits {
    match kind {
        Kind::Concurrent => Limits {
            length: 16_384,
            procedures: 1..=16,
            locations: 0..=64,
            threads: 1..=32,
        },
        Kind::Sequential => Limits {
            length: 65_536,
            procedures: 1..=1_024,
            locations: 0..=512,
            threads: 0..=0,
        },
    }
}

pub fn refusal_2(length: usize, kind: Kind, counts: Counts) -> Result<(), u8> {
    let limits = limits(kind);
    let within = length <= limits.length
        && limits.procedures.contains(&counts.procedures)
        && limits.locations.contains(&counts.locations)
        && limits.threads.contains(&counts.threads);
    if within {
        Ok(())
    } else {
        Err(2)
    }
}

/// Reads the records, sizes and mains of a table that 1 does not refuse.
pub fn read_head(table: &[u8], counts: Counts) -> Head {
    let bodies_end = table.len() - TRAILER - distance(counts);
    let sizes_begin = bodies_end + 6 * counts.procedures;
    let mains_begin = sizes_begin + 2 * counts.locations;
    Head {
        records: (0..counts.procedures)
            .map(|i| read_record(table, bodies_end + 6 * i))
            .collect(),
        sizes: (0..counts.locations)
            .map(|i| small(table, sizes_begin + 2 * i))
            .collect(),
        mains: (0..counts.threads)
            .map(|i| small(table, mains_begin + 2 * i))
            .collect(),
        bodies_end,
    }
}

fn read_record(table: &[u8], at: usize) -> Record {
    Record {
        parameters: table[at],
        locals: table[at + 1],
        offset: four_bytes(table, at + 2),
    }
}

/// "3: parameters over locals; locals over 16 (sequential 32); size not 1..256; all sizes together
/// over 2,048 (sequential 8,192; since request #110 16,384); a main that is not below P or has parameters (sequential:
/// procedure 0)"
pub fn refusal_3(kind: Kind, head: &Head) -> Result<(), u8> {
    let (most_locals, most_cells) = match kind {
        Kind::Concurrent => (16, 2_048),
        Kind::Sequential => (32, 16_384),
    };
    let records_are_right = head
        .records
        .iter()
        .all(|record| record.parameters <= record.locals && record.locals <= most_locals);
    let sizes_are_right = head.sizes.iter().all(|size| (1..=256).contains(size));
    let cells: usize = head.sizes.iter().map(|size| usize::from(*size)).sum();
    let mains_are_right = match kind {
        Kind::Concurrent => head.mains.iter().all(|main| can_start(head, *main)),
        Kind::Sequential => can_start(head, 0),
    };
    if records_are_right && sizes_are_right && cells <= most_cells && mains_are_right {
        Ok(())
    } else {
        Err(3)
    }
}

fn can_start(head: &Head, main: u16) -> bool {
    match head.records.get(usize::from(main)) {
        Some(record) => record.parameters == 0,
        None => false,
    }
}

/// "numbers of several bytes are low byte first"
fn small(bytes: &[u8], at: usize) -> u16 {
    u16::from_le_bytes([bytes[at], bytes[at + 1]])
}

fn two_bytes(bytes: &[u8], at: usize) -> usize {
    usize::from(small(bytes, at))
}

fn four_bytes(bytes: &[u8], at: usize) -> usize {
    let four = [bytes[at], bytes[at + 1], bytes[at + 2], bytes[at + 3]];
    u32::from_le_bytes(four) as usize
}
