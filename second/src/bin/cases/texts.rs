//! Cases of C text. A text is over 5,000 bytes long, so few of them are stored.

use crate::maker::*;
use crate::Batch;
use second::batch::LONGEST_TEXT;
use second::builder::table;
use second::c_text::text;
use second::program::Kind;
use second::random::{damaged, program_of, Random, Scale};
use second::samples::{judged, Judged};
use second::text_samples::{foreign, longest, printed, refused_programs};
use second::verdict::verdict;
use second::write;

const PRINTED_PROGRAMS: usize = 50;
const PRINTED_COPIES: usize = 8;
/// Of the texts that are no program's, one of so many is stored, and all whose tables are refused.
const APART: usize = 6;

/// Buffers too short by a byte, exact and longer.
fn rooms(length: usize) -> [u32; 4] {
    let length = length as u32;
    [0, length - 1, length, length + 5]
}

/// Programs by hand, a text too long for its buffer, and tables of each refusal.
pub fn printed_tables(batch: &mut Batch) {
    for (name, program) in printed() {
        let table = table(&program);
        let length = text(&program).len();
        for room in rooms(length) {
            let lent = room as usize <= LONGEST_TEXT;
            if lent && (table.len() < 600 || room == length as u32) {
                batch.add(print_case(&table, room));
            }
        }
        if name == "each instruction" {
            batch.add(shown(print_case(&table, length as u32 + 5)));
        }
    }
    batch.add(print_case(&table(&longest()), LONGEST_TEXT as u32));
    for Judged { table, .. } in judged() {
        if table.len() < 1_000 {
            match verdict(&table, Kind::Sequential) {
                Ok(program) => {
                    batch.add(print_case(&table, text(&program).len() as u32));
                    batch.add(print_case(&table, 5_071));
                }
                Err(_) => batch.add(print_case(&table, 0)),
            }
        }
    }
}

/// Random sequential programs, copies and damaged tables.
pub fn random_texts(batch: &mut Batch, random: &mut Random) {
    for _ in 0..PRINTED_PROGRAMS {
        let program = program_of(Kind::Sequential, Scale::Small, random);
        print_about(batch, &write::table(&program, Kind::Sequential), random);
    }
    let mut copies = 0;
    while copies < PRINTED_COPIES {
        let program = program_of(Kind::Concurrent, Scale::Small, random);
        match copy_of(&write::table(&program, Kind::Concurrent)) {
            Some(copy) if copy.len() < 1_500 => {
                copies += 1;
                print_about(batch, &copy, random);
            }
            _ => {}
        }
    }
}

/// A table and what is left of it when it is damaged.
fn print_about(batch: &mut Batch, table: &[u8], random: &mut Random) {
    let length = verdict(table, Kind::Sequential).map_or(0, |program| text(&program).len());
    let room = match random.below(8) {
        0 => length.saturating_sub(1),
        1 => length + random.below(40),
        _ => length,
    };
    batch.add(print_case(table, room as u32));
    batch.add(print_case(&damaged(table, random), 30_000));
}

/// Texts of programs, and texts that are no program's.
pub fn texts_read(batch: &mut Batch) {
    for (name, program) in printed() {
        let text = text(&program).into_bytes();
        if text.len() > 8_000 {
            continue;
        }
        let length = table(&program).len();
        if name == "A's copy" {
            for room in rooms(length) {
                batch.add(shown(text_case(&text, room)));
            }
        } else {
            batch.add(text_case(&text, length as u32));
        }
    }
    let refused = refused_programs();
    let others = foreign().len() - refused.len();
    for foreign in foreign().iter().take(others).step_by(APART) {
        batch.add(text_case(&foreign.text, 300));
    }
    for foreign in refused.iter().step_by(2) {
        batch.add(text_case(&foreign.text, 300));
    }
}
