//! Cases of the mender.

use crate::maker::*;
use crate::Batch;
use second::calls::mend;
use second::mend::CHANGE;
use second::mend_samples::{all_worn, longest, scrambled, Worn};
use second::program::Kind;
use second::random::{damaged, program_of, Random, Scale};
use second::samples::{judged, Judged};
use second::write;

/// A list for sixteen changes.
const WHOLE_LIST: u32 = 16 * CHANGE as u32;

const WORN_PROGRAMS: usize = 120;

/// Every table whose outcome is worked; most also with lists too short by a byte, exact and longer.
pub fn worn_tables(batch: &mut Batch) {
    for Worn {
        name, kind, table, ..
    } in all_worn()
    {
        let is_one_of_many = name == "zeros" || name == "one byte";
        let case = mend_case(kind, &table, WHOLE_LIST);
        if is_one_of_many || table.len() > 500 {
            batch.add(case);
        } else {
            batch.add(shown(case));
            batch.add(mend_case(other(kind), &table, WHOLE_LIST));
            lists(batch, kind, &table);
        }
    }
    for sample in longest() {
        // 14 of many zeros is asked for where it does not need many bytes.
        if sample.name != "many zeros" || sample.kind == Kind::Concurrent {
            batch.add(mend_case(sample.kind, &sample.table, WHOLE_LIST));
        }
    }
}

fn lists(batch: &mut Batch, kind: Kind, table: &[u8]) {
    let mut list = vec![0; WHOLE_LIST as usize];
    let answer = mend(&mut table.to_vec(), kind, &mut list);
    let exact = CHANGE as u32 * answer.changes as u32;
    for length in [0, exact.saturating_sub(1), exact, exact + 5] {
        batch.add(shown(mend_case(kind, table, length)));
    }
}

/// Tables that the readers refuse, each by one number, as they are and without their trailers.
pub fn judged_mends(batch: &mut Batch) {
    for Judged { kind, table, .. } in judged() {
        if table.len() < 16 || table.len() > 1_300 {
            continue;
        }
        batch.add(mend_case(kind, &table, WHOLE_LIST));
        batch.add(mend_case(kind, &scrambled(&table), WHOLE_LIST));
    }
}

/// Random programs of both kinds, some of them damaged too, most without their trailers.
pub fn random_mends(batch: &mut Batch, random: &mut Random) {
    let mut programs = 0;
    while programs < WORN_PROGRAMS {
        let kind = random.pick(&[Kind::Concurrent, Kind::Concurrent, Kind::Sequential]);
        let mut program = program_of(kind, Scale::Small, random);
        // A location that nothing names: its size may look like a main.
        if random.percent(40) {
            program.sizes.push(random.between(1, 3) as u16);
        }
        let mut bytes = write::table(&program, kind);
        if random.percent(25) {
            bytes = damaged(&bytes, random);
        }
        if bytes.len() < 16 || bytes.len() > 400 {
            continue;
        }
        programs += 1;
        let kept = bytes.len() - 16;
        match random.below(8) {
            0 => {}
            1..=2 => bytes[kept + random.below(16)] = random.byte(),
            3 => bytes[kept..].fill(0),
            _ => bytes[kept..].fill_with(|| random.byte()),
        }
        let list = random.pick(&[WHOLE_LIST, WHOLE_LIST, WHOLE_LIST, 89, 6]);
        batch.add(mend_case(kind, &bytes, list));
    }
}
