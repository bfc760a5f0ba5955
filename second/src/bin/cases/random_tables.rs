//! Cases of random programs and damaged tables.

use crate::maker::*;
use crate::Batch;
use second::batch::Case;
use second::calls::run_sequential;
use second::concurrent::Concurrent;
use second::line::BUDGET;
use second::program::{Instruction, Kind, Program};
use second::random::{damaged, program_of, schedule_for, Random, Scale};
use second::verdict::verdict;
use second::write;

/// A random program given to every call, its copy among them.
pub fn random_program(scale: Scale, batch: &mut Batch, random: &mut Random) {
    let program = program_of(Kind::Concurrent, scale, random);
    let source = write::table(&program, Kind::Concurrent);
    let most = random.pick(&[40, 80, 150]);
    let is_accepted = verdict(&source, Kind::Concurrent).is_ok();
    let schedule = if is_accepted {
        schedule_for(&program, most, random)
    } else {
        vec![0; 5]
    };
    if is_accepted {
        note_blocked_step(batch, &program, &schedule);
    }
    batch.add(read_case(Kind::Concurrent, &source));
    let cells = about(cell_bytes(Kind::Concurrent, &source), random);
    let events = event_room(random);
    batch.add(run_case(
        Kind::Concurrent,
        &source,
        &schedule,
        cells,
        events,
    ));
    batch.add(line_case(&schedule, &source));
    match copy_of(&source) {
        None => batch.add(translate_case(&source, 500)),
        Some(copy) => {
            batch.add(translate_case(&source, about(copy.len() as u32, random)));
            let locations = program.sizes.len() as u32;
            batch.add(copy_case(&copy, locations, &schedule, random));
        }
    }
}

/// Notes at which kind of step a run is blocked.
fn note_blocked_step(batch: &mut Batch, program: &Program, schedule: &[u8]) {
    let mut machine = Concurrent::new(program);
    for thread in schedule {
        if machine.is_finished() {
            return;
        }
        let thread = usize::from(*thread);
        let next = machine.threads[thread].last().and_then(|f| f.next());
        if machine.step(thread).is_err() {
            let name = next.map_or("finished thread", name_of);
            batch.note(format!("random programs blocked at: {name}"));
            return;
        }
    }
}

fn name_of(instruction: &Instruction) -> &'static str {
    match instruction {
        Instruction::Assign { .. } => "assign",
        Instruction::Write { .. } => "write",
        Instruction::Read { .. } => "read",
        Instruction::While { .. } | Instruction::If { .. } => "test",
        Instruction::Call { .. } => "call",
        Instruction::Atomic { .. } => "atomic",
        Instruction::Select { .. } => "select",
    }
}

/// Most often exactly this length; sometimes one less or some more.
pub fn about(length: u32, random: &mut Random) -> u32 {
    match random.below(12) {
        0 => length.saturating_sub(1),
        1 => length + random.between(1, 40) as u32,
        _ => length,
    }
}

pub fn event_room(random: &mut Random) -> u32 {
    match random.below(4) {
        0 => random.below(60) as u32,
        1 => events(random.below(12) as u32),
        _ => random.between(300, 700) as u32,
    }
}

/// A run of a copy: most often with demand 3's budget and h = M, sometimes with a budget near its
/// steps or another h.
pub fn copy_case(copy: &[u8], locations: u32, schedule: &[u8], random: &mut Random) -> Case {
    let cells = cell_bytes(Kind::Sequential, copy);
    let mut buffer = vec![0; cells as usize];
    let steps = run_sequential(copy, schedule, BUDGET, 0, &mut buffer, &mut []).steps;
    let budget = match random.below(10) {
        0 => steps,
        1 => steps.saturating_sub(1),
        2 => random.below(steps as usize + 1) as u64,
        _ => BUDGET,
    };
    let h = match random.below(8) {
        0 => random.below(locations as usize + 8) as u32,
        _ => locations,
    };
    let (cells, events) = (about(cells, random), event_room(random));
    Case {
        budget,
        h,
        ..run_case(Kind::Sequential, copy, schedule, cells, events)
    }
}

/// A random program in the sequential language itself.
pub fn random_sequential_program(scale: Scale, batch: &mut Batch, random: &mut Random) {
    let program = program_of(Kind::Sequential, scale, random);
    let source = write::table(&program, Kind::Sequential);
    batch.add(read_case(Kind::Sequential, &source));
    batch.add(sequential_case(&source, program.sizes.len(), random));
}

fn sequential_case(source: &[u8], locations: usize, random: &mut Random) -> Case {
    let length = random.below(8);
    let schedule: Vec<u8> = (0..length).map(|_| random.below(3) as u8).collect();
    let cells = about(cell_bytes(Kind::Sequential, source), random);
    let events = event_room(random);
    Case {
        budget: random.pick(&[0, 1, 10, 30, 100, 1_000, 3_000, 3_000]),
        h: random.below(locations + 2) as u32,
        ..run_case(Kind::Sequential, source, &schedule, cells, events)
    }
}

/// A damaged table: concurrent, a copy, or any sequential one, in turn.
pub fn damaged_table(number: usize, batch: &mut Batch, random: &mut Random) {
    match number % 4 {
        0 | 1 => damaged_concurrent(batch, random),
        2 => damaged_copy(batch, random),
        _ => damaged_sequential(batch, random),
    }
}

fn damaged_concurrent(batch: &mut Batch, random: &mut Random) {
    let program = program_of(Kind::Concurrent, Scale::Small, random);
    let good = write::table(&program, Kind::Concurrent);
    let bytes = damaged(&good, random);
    let schedule = match verdict(&good, Kind::Concurrent) {
        Ok(program) => schedule_for(&program, 60, random),
        Err(_) => vec![0; 5],
    };
    let cells = about(cell_bytes(Kind::Concurrent, &bytes), random);
    let events = event_room(random);
    batch.add(read_case(Kind::Concurrent, &bytes));
    batch.add(translate_case(&bytes, 8_000));
    batch.add(run_case(Kind::Concurrent, &bytes, &schedule, cells, events));
    if random.percent(15) {
        let input = line_case(&schedule, &good).table;
        batch.add(input_case(&damaged(&input, random)));
    } else {
        batch.add(line_case(&schedule, &bytes));
    }
}

/// A damaged copy of a small program.
fn damaged_copy(batch: &mut Batch, random: &mut Random) {
    let (program, copy) = small_copy(random);
    let schedule = schedule_for(&program, 60, random);
    let bytes = damaged(&copy, random);
    let cells = about(cell_bytes(Kind::Sequential, &bytes), random);
    let events = event_room(random);
    batch.add(read_case(Kind::Sequential, &bytes));
    batch.add(Case {
        budget: 5_000,
        h: program.sizes.len() as u32,
        ..run_case(Kind::Sequential, &bytes, &schedule, cells, events)
    });
}

fn small_copy(random: &mut Random) -> (Program, Vec<u8>) {
    loop {
        let program = program_of(Kind::Concurrent, Scale::Small, random);
        match copy_of(&write::table(&program, Kind::Concurrent)) {
            Some(copy) if copy.len() < 1_500 => return (program, copy),
            _ => {}
        }
    }
}

fn damaged_sequential(batch: &mut Batch, random: &mut Random) {
    let program = program_of(Kind::Sequential, Scale::Small, random);
    let bytes = damaged(&write::table(&program, Kind::Sequential), random);
    batch.add(read_case(Kind::Sequential, &bytes));
    batch.add(sequential_case(&bytes, program.sizes.len(), random));
}
