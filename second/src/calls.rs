//! The public calls: what they answer and what they write into lent memory.
//!
//! "A refusal returns its number and zeros and writes nothing."

use crate::bench::{self, Search};
use crate::placement::Mode;
use crate::program::{Kind, Program};
use crate::record::{write_cells, Events, Run};
use crate::verdict::verdict;
use crate::{
    c_reader, c_text, concurrent, labels, mend, plain, price, sequential, translate, write,
};

/// "Sequential: over 65,536 bytes"
const LONGEST_COPY: usize = 65_536;

/// "An accepted read answers 0 with P, M, T, the number of labels (sequential: 0) and of cells."
#[derive(Clone, Copy, PartialEq, Eq, Debug, Default)]
pub struct ReadAnswer {
    pub number: u8,
    pub procedures: u64,
    pub locations: u64,
    pub threads: u64,
    pub labels: u64,
    pub cells: u64,
}

/// "An accepted translation writes its length of bytes and no more." So do the calls that write and
/// read C text.
#[derive(Clone, Copy, PartialEq, Eq, Debug, Default)]
pub struct WriteAnswer {
    pub number: u8,
    pub length: u64,
}

/// "A run answers 0 with its end, its steps, its unused entries and its events, those not written
/// included." Last is the reason why it blocked, 0 if it did not.
#[derive(Clone, Copy, PartialEq, Eq, Debug, Default)]
pub struct RunAnswer {
    pub number: u8,
    pub end: u8,
    pub steps: u64,
    pub unused: u64,
    pub events: u64,
    pub reason: u8,
}

/// The bench "answers that allotment (at most 19 counts, the rest 0) and its number from 0, or
/// "none""; without a find the number and all counts are 0.
#[derive(Clone, Copy, PartialEq, Eq, Debug, Default)]
pub struct BenchAnswer {
    pub number: u8,
    pub found: bool,
    pub allotment: u64,
    pub counts: [u8; bench::COUNTS],
}

/// The least and the most listed price of the step at a label, zeros if there is no such label.
#[derive(Clone, Copy, PartialEq, Eq, Debug, Default)]
pub struct PricesAnswer {
    pub number: u8,
    pub least: u64,
    pub most: u64,
}

/// The mender's answer: whether bytes were changed, and how many.
#[derive(Clone, Copy, PartialEq, Eq, Debug, Default)]
pub struct MendAnswer {
    pub number: u8,
    pub mended: bool,
    pub changes: u64,
}

pub fn read_concurrent(table: &[u8]) -> ReadAnswer {
    read(table, Kind::Concurrent)
}

pub fn read_sequential(table: &[u8]) -> ReadAnswer {
    read(table, Kind::Sequential)
}

fn read(table: &[u8], kind: Kind) -> ReadAnswer {
    match verdict(table, kind) {
        Err(number) => ReadAnswer {
            number,
            ..ReadAnswer::default()
        },
        Ok(program) => ReadAnswer {
            number: 0,
            procedures: program.procedures.len() as u64,
            locations: program.sizes.len() as u64,
            threads: program.mains.len() as u64,
            labels: match kind {
                Kind::Concurrent => labels::of_program(&program) as u64,
                Kind::Sequential => 0,
            },
            cells: program.cells() as u64,
        },
    }
}

/// "A caller of the translator names the mode".
pub fn translate(table: &[u8], mode: Mode, out: &mut [u8]) -> WriteAnswer {
    write_answer(copy_table(table, mode).and_then(|copy| put(&copy, out)))
}

/// The copy's bytes, by the call with a buffer that is long enough for every copy; or the number of
/// refusal.
pub fn copy_in(mode: Mode, table: &[u8]) -> Result<Vec<u8>, u8> {
    let mut out = vec![0; LONGEST_COPY];
    let answer = translate(table, mode, &mut out);
    out.truncate(answer.length as usize);
    match answer.number {
        0 => Ok(out),
        number => Err(number),
    }
}

fn write_answer(written: Result<u64, u8>) -> WriteAnswer {
    match written {
        Ok(length) => WriteAnswer { number: 0, length },
        Err(number) => WriteAnswer { number, length: 0 },
    }
}

/// "9: translator: the sequential table would pass 65,536 bytes". "Numbers 9 and 10 use the chosen
/// mode's length."
fn copy_table(table: &[u8], mode: Mode) -> Result<Vec<u8>, u8> {
    let program = verdict(table, Kind::Concurrent)?;
    let copy = write::table(&translate::translate(&program, mode), Kind::Sequential);
    if copy.len() > LONGEST_COPY {
        return Err(9);
    }
    Ok(copy)
}

/// "10: translator, and each later call that writes a table or text: output buffer too short for
/// it"
fn put(copy: &[u8], out: &mut [u8]) -> Result<u64, u8> {
    let room = out.get_mut(..copy.len()).ok_or(10)?;
    room.copy_from_slice(copy);
    Ok(copy.len() as u64)
}

pub fn run_concurrent(
    table: &[u8],
    schedule: &[u8],
    cells: &mut [u8],
    events: &mut [u8],
) -> RunAnswer {
    let judged = judged_concurrent(table, schedule, cells);
    let run = judged.map(|program| concurrent::run(&program, schedule, &mut Events::new(events)));
    run_answer(run, cells)
}

/// The plain engine. "It refuses exactly what the first refuses."
pub fn run_plain(table: &[u8], schedule: &[u8], cells: &mut [u8], events: &mut [u8]) -> RunAnswer {
    let judged = judged_concurrent(table, schedule, cells);
    let run = judged.map(|program| plain::run(&program, schedule, &mut Events::new(events)));
    run_answer(run, cells)
}

fn judged_concurrent(table: &[u8], schedule: &[u8], cells: &[u8]) -> Result<Program, u8> {
    let program = verdict(table, Kind::Concurrent)?;
    schedule_fits(schedule)?;
    entries_are_threads(schedule, &program)?;
    cells_fit(&program, cells)?;
    Ok(program)
}

pub fn run_sequential(
    table: &[u8],
    schedule: &[u8],
    budget: u64,
    h: u32,
    cells: &mut [u8],
    events: &mut [u8],
) -> RunAnswer {
    let judged = verdict(table, Kind::Sequential).and_then(|program| {
        schedule_fits(schedule)?;
        cells_fit(&program, cells)?;
        Ok(program)
    });
    let run = judged
        .map(|program| sequential::run(&program, schedule, budget, h, &mut Events::new(events)));
    run_answer(run, cells)
}

/// "11: run: schedule over 4,096 entries, or (concurrent) an entry not below T". The whole
/// schedule is judged, entries behind the run's end too.
fn schedule_fits(schedule: &[u8]) -> Result<(), u8> {
    if schedule.len() > 4_096 {
        return Err(11);
    }
    Ok(())
}

fn entries_are_threads(schedule: &[u8], program: &Program) -> Result<(), u8> {
    let threads = program.mains.len();
    if schedule.iter().any(|entry| usize::from(*entry) >= threads) {
        return Err(11);
    }
    Ok(())
}

/// "12: run: cell buffer shorter than 5 bytes a cell"
fn cells_fit(program: &Program, cells: &[u8]) -> Result<(), u8> {
    if cells.len() < 5 * program.cells() {
        return Err(12);
    }
    Ok(())
}

fn run_answer(run: Result<Run, u8>, cells: &mut [u8]) -> RunAnswer {
    match run {
        Err(number) => RunAnswer {
            number,
            ..RunAnswer::default()
        },
        Ok(run) => {
            write_cells(&run.heap, cells);
            RunAnswer {
                number: 0,
                end: run.end.number(),
                steps: run.steps,
                unused: run.unused,
                events: run.events,
                reason: run.end.reason(),
            }
        }
    }
}

/// "Refusals: 13 [..] after 8; 12 as in a run, after 13."
pub fn bench(table: &[u8], k: u64, s: u64, cells: &mut [u8]) -> BenchAnswer {
    let search = verdict(table, Kind::Concurrent).and_then(|program| {
        let allotment = bench::first_allotment(k, s, program.mains.len())?;
        cells_fit(&program, cells)?;
        Ok(bench::search(&program, allotment, s as u8))
    });
    match search {
        Err(number) => BenchAnswer {
            number,
            ..BenchAnswer::default()
        },
        Ok(search) => {
            write_cells(&search.heap, cells);
            bench_answer(&search)
        }
    }
}

fn bench_answer(search: &Search) -> BenchAnswer {
    let Some((number, allotment)) = &search.blocked else {
        return BenchAnswer::default();
    };
    let mut counts = [0; bench::COUNTS];
    for (place, count) in counts.iter_mut().zip(allotment) {
        *place = *count;
    }
    BenchAnswer {
        number: 0,
        found: true,
        allotment: *number,
        counts,
    }
}

/// The prices of the step at a label of a concurrent table.
pub fn prices(table: &[u8], label: u64) -> PricesAnswer {
    match verdict(table, Kind::Concurrent) {
        Err(number) => PricesAnswer {
            number,
            ..PricesAnswer::default()
        },
        Ok(program) => {
            let price::Span { least, most } = price::at_label(&program, label).unwrap_or_default();
            PricesAnswer {
                number: 0,
                least,
                most,
            }
        }
    }
}

/// Mends a table in place, and lists what it changes. A list too short for all changes is 10, and
/// nothing is written.
pub fn mend(table: &mut [u8], kind: Kind, list: &mut [u8]) -> MendAnswer {
    match mend_and_list(table, kind, list) {
        Err(number) => MendAnswer {
            number,
            ..MendAnswer::default()
        },
        Ok(changes) => MendAnswer {
            number: 0,
            mended: changes > 0,
            changes,
        },
    }
}

fn mend_and_list(table: &mut [u8], kind: Kind, list: &mut [u8]) -> Result<u64, u8> {
    let changes = mend::changes(table, kind)?;
    let listed: Vec<u8> = changes.iter().flat_map(mend::Change::bytes).collect();
    put(&listed, list)?;
    for change in &changes {
        table[change.place] = change.new;
    }
    Ok(changes.len() as u64)
}

/// "Print an accepted sequential table as C11 text". 1 to 8, then 10.
pub fn print_c(table: &[u8], out: &mut [u8]) -> WriteAnswer {
    let text = verdict(table, Kind::Sequential).map(|program| c_text::text(&program));
    write_answer(text.and_then(|text| put(text.as_bytes(), out)))
}

/// "A reader for exactly that text gives back the table, byte by byte, and refuses all other text.
/// Text that doesn't fit the buffer is answered by 10; text that isn't ours by 1."
pub fn read_c(text: &[u8], out: &mut [u8]) -> WriteAnswer {
    let table = c_reader::table_of(text).ok_or(1);
    write_answer(table.and_then(|table| put(&table, out)))
}
