//! The run program: what it prints for its standard input.

use crate::calls::{
    copy_in, read_concurrent, read_sequential, run_concurrent, run_sequential, RunAnswer,
};
use crate::placement::Mode;

/// What demand 3 gives the copy.
pub const BUDGET: u64 = 140_000_000;

/// The most bytes that an input can need: a length, 4,096 entries and 16,384 bytes of table.
const LONGEST_INPUT: usize = 20_482;

/// The run program's input: "a schedule length (2 bytes), the schedule, a concurrent table".
pub fn input(schedule: &[u8], table: &[u8]) -> Vec<u8> {
    let length = (schedule.len() as u16).to_le_bytes();
    [&length, schedule, table].concat()
}

/// The line that the run program prints, without its newline.
pub fn line(input: &[u8]) -> String {
    match answers(input) {
        // "A refusal prints `refused N`."
        Err(number) => format!("refused {number}"),
        // "the program's end and steps, the copy's steps, the program's unused entries and shared
        // events"; the reason is "a sixth field (0 when not blocked)"
        Ok((program, copy)) => format!(
            "{} {} {} {} {} {}",
            word(program.end),
            program.steps,
            copy.steps,
            program.unused,
            program.events,
            program.reason
        ),
    }
}

/// The program's run and the copy's. The numbers are judged 1 to 8, then 9, then 11.
fn answers(input: &[u8]) -> Result<(RunAnswer, RunAnswer), u8> {
    // "an input over 20,482 bytes is answered 2"
    if input.len() > LONGEST_INPUT {
        return Err(2);
    }
    let (schedule, table) = split(input);
    let read = read_concurrent(table);
    accepted(read.number)?;
    let copy = copy_in(Mode::Own, table)?;
    let program_run = run_concurrent(table, schedule, &mut cell_buffer(read.cells), &mut []);
    accepted(program_run.number)?;
    let copy_cells = read_sequential(&copy).cells;
    let copy_run = run_sequential(
        &copy,
        schedule,
        BUDGET,
        read.locations as u32,
        &mut cell_buffer(copy_cells),
        &mut [],
    );
    accepted(copy_run.number)?;
    Ok((program_run, copy_run))
}

/// "a schedule length (2 bytes), the schedule, a concurrent table. If the input ends before the
/// schedule does, the table is empty".
fn split(input: &[u8]) -> (&[u8], &[u8]) {
    let (length, rest) = match input {
        [low, high, rest @ ..] => (u16::from_le_bytes([*low, *high]), rest),
        _ => return (&[], &[]),
    };
    let length = usize::from(length);
    if rest.len() < length {
        return (rest, &[]);
    }
    rest.split_at(length)
}

fn accepted(number: u8) -> Result<(), u8> {
    if number == 0 {
        Ok(())
    } else {
        Err(number)
    }
}

/// "It lends buffers that are large enough".
fn cell_buffer(cells: u64) -> Vec<u8> {
    vec![0; 5 * cells as usize]
}

/// "Ends are written `finished`, `used`, `blocked`." A concurrent run has no other.
fn word(end: u8) -> &'static str {
    match end {
        0 => "finished",
        1 => "used",
        _ => "blocked",
    }
}
