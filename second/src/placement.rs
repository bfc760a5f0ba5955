//! Where the copy keeps the locals of each procedure: a row of locations of size T behind the
//! `from`s, and the place in it at which a procedure's locals begin.

use crate::program::Program;
use crate::rules::callees;
use std::collections::BTreeSet;

/// "A caller of the translator names the mode; the old mode stays as it was."
#[derive(Clone, Copy, PartialEq, Eq, Debug)]
pub enum Mode {
    /// Each local of each procedure has a location of its own.
    Own,
    /// "each thread-sized location of that row is shared by all procedures placed there"
    Shared,
}

pub const MODES: [Mode; 2] = [Mode::Own, Mode::Shared];

impl Mode {
    /// Where a mode is told by a number: 0 is the old one, any other the second.
    pub fn numbered(number: u64) -> Mode {
        match number {
            0 => Mode::Own,
            _ => Mode::Shared,
        }
    }

    pub fn number(self) -> u32 {
        match self {
            Mode::Own => 0,
            Mode::Shared => 1,
        }
    }
}

/// The row of locations for locals.
#[derive(Clone, PartialEq, Eq, Debug)]
pub struct Row {
    /// Where the locals of each procedure begin.
    pub starts: Vec<u16>,
    pub length: u16,
}

/// The row of a program without recursion.
pub fn row(program: &Program, mode: Mode) -> Row {
    let starts = match mode {
        Mode::Own => own_starts(program),
        Mode::Shared => shared_starts(program),
    };
    let ends = starts.iter().zip(&program.procedures);
    let length = ends.map(|(start, p)| start + u16::from(p.locals)).max();
    Row {
        starts,
        length: length.unwrap_or(0),
    }
}

/// "one per local of each procedure in order"
fn own_starts(program: &Program) -> Vec<u16> {
    let mut end = 0;
    let mut starts = Vec::new();
    for procedure in &program.procedures {
        starts.push(end);
        end += u16::from(procedure.locals);
    }
    starts
}

/// "a procedure's locals begin after the largest end among its callers' locals (at 0 without
/// callers)": a longest way to the procedure along calls, each procedure before it as long as it
/// has locals.
fn shared_starts(program: &Program) -> Vec<u16> {
    let count = program.procedures.len();
    let calls: Vec<BTreeSet<u16>> = program.procedures.iter().map(callees).collect();
    let mut found = vec![None; count];
    (0..count)
        .map(|procedure| start_of(program, &calls, procedure, &mut found))
        .collect()
}

/// The start of one procedure, by those of its callers; what was found is kept.
fn start_of(
    program: &Program,
    calls: &[BTreeSet<u16>],
    procedure: usize,
    found: &mut [Option<u16>],
) -> u16 {
    if let Some(start) = found[procedure] {
        return start;
    }
    let mut start = 0;
    for (caller, callees) in calls.iter().enumerate() {
        if callees.contains(&(procedure as u16)) {
            let locals = u16::from(program.procedures[caller].locals);
            start = start.max(start_of(program, calls, caller, found) + locals);
        }
    }
    found[procedure] = Some(start);
    start
}
