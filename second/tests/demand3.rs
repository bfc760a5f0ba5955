//! Demand 3 on random programs: the copy reaches its loop head a (k+1)th time exactly when the
//! program takes k steps, and what can be compared there is equal.

use second::and_samples;
use second::builder::*;
use second::calls::*;
use second::concurrent::{Concurrent, Done};
use second::expression::Expression;
use second::labels;
use second::line::BUDGET;
use second::machine::{End, Event, Frame, Heap, EVENT};
use second::place_samples::samples;
use second::placement::{self, Mode, MODES};
use second::price;
use second::program::{Instruction, Kind, Program};
use second::random::{program_of, schedule_for, Random, Scale};
use second::reason::Reason;
use second::reason_samples::{self, blocks};
use second::samples::{deepest, deepest_turns};
use second::sequential::{Next, Sequential};
use second::translate::translate as translate_tree;
use second::value::Value;
use second::verdict::verdict;
use second::write;

/// A program after some steps, or its copy at a loop head.
#[derive(Clone, PartialEq, Eq, Debug)]
struct Moment {
    shared: Vec<Vec<Value>>,
    labels: Vec<Value>,
    events: usize,
    steps: u64,
}

struct Story {
    moments: Vec<Moment>,
    events: Vec<Event>,
    end: End,
    steps: u64,
}

fn shared(heap: &Heap, source: &Program) -> Vec<Vec<Value>> {
    let locations = 0..source.sizes.len();
    locations.map(|l| heap.location(l).to_vec()).collect()
}

/// Where a frame stands: the label of its next instruction, or the end label.
fn label_of_frame(program: &Program, frame: &Frame) -> usize {
    match frame.next() {
        Some(instruction) => labels::find(program, instruction).unwrap(),
        None => labels::end(program, frame.procedure),
    }
}

fn label_of_thread(program: &Program, stack: &[Frame]) -> usize {
    let frame = stack.last();
    frame.map_or(0, |frame| label_of_frame(program, frame))
}

/// The program's moments; `steps` counts what the copy should have done by then.
fn story_of_program(program: &Program, schedule: &[u8], table_length: u64) -> Story {
    let labels = labels::of_program(program) as u64;
    let threads = program.mains.len() as u64;
    let mut machine = Concurrent::new(program);
    let mut events = Vec::new();
    let mut copy_steps = 3 * threads + 2;
    let mut moments = Vec::new();
    let mut entries = schedule.iter();
    let end = loop {
        moments.push(Moment {
            shared: shared(&machine.heap, program),
            labels: machine
                .threads
                .iter()
                .map(|stack| Value::Whole(label_of_thread(program, stack) as i32))
                .collect(),
            events: events.len(),
            steps: copy_steps,
        });
        if machine.is_finished() {
            break End::Finished;
        }
        let Some(thread) = entries.next() else {
            break End::Used;
        };
        let before = machine.clone();
        let label = label_of_thread(program, &machine.threads[usize::from(*thread)]);
        check_rule_8(&machine.threads[usize::from(*thread)]);
        let step = match machine.step(usize::from(*thread)) {
            Ok(step) => step,
            Err(reason) => {
                assert_eq!(before.heap, machine.heap, "a blocked step changed a cell");
                break End::Blocked(reason);
            }
        };
        let price = price::of_step(&step.done);
        assert!(
            price <= 2 * table_length,
            "price {price} of {:?}",
            step.done
        );
        check_price(program, label, price);
        copy_steps += labels + 2 * threads + 10 + price;
        let touches = step.touches.into_iter();
        // "Demand 3's equal reads and writes then include the label."
        events.extend(touches.map(|touch| Event {
            thread: *thread,
            touch,
            label: label as u16,
        }));
    };
    Story {
        steps: moments.len() as u64 - 1,
        moments,
        events,
        end,
    }
}

/// The price of a step lies between the least and the most price that is listed for its label.
fn check_price(program: &Program, label: usize, price: u64) {
    let listed = price::at_label(program, label as u64).unwrap();
    assert!(
        (listed.least..=listed.most).contains(&price),
        "label {label}: {price} is not in {listed:?}"
    );
}

/// What the next instruction mentions for its value is set, as number 8 promises.
fn check_rule_8(stack: &[Frame]) {
    let Some(frame) = stack.last() else { return };
    let is_set = |e: &Expression| {
        let mut variables = e.variables().into_iter();
        variables.all(|x| frame.locals[usize::from(x)].is_some())
    };
    let right = match frame.next() {
        Some(Instruction::Assign { value, .. }) => is_set(value),
        Some(Instruction::Read { pointer, index, .. }) => {
            is_set(&Expression::Local(*pointer)) && is_set(index)
        }
        Some(Instruction::Write {
            pointer,
            index,
            value,
        }) => is_set(&Expression::Local(*pointer)) && is_set(index) && is_set(value),
        Some(Instruction::While { test, .. } | Instruction::If { test, .. }) => is_set(test),
        Some(Instruction::Call { arguments, .. }) => arguments.iter().all(is_set),
        _ => true,
    };
    assert!(right, "a local is read before it is set");
}

/// The copy stands at the head of procedure 0's loop.
fn at_loop_head(machine: &Sequential) -> bool {
    machine.stack.len() == 1 && matches!(machine.next(), Some(Instruction::While { .. }))
}

fn story_of_copy(source: &Program, copy: &Program, schedule: &[u8]) -> Story {
    let pct = source.sizes.len() + 1;
    let mut machine = Sequential::new(copy, schedule);
    let mut moments = Vec::new();
    let mut events = Vec::new();
    let end = loop {
        if at_loop_head(&machine) {
            moments.push(Moment {
                shared: shared(&machine.heap, source),
                labels: machine.heap.location(pct).to_vec(),
                events: events.len(),
                steps: machine.steps,
            });
        }
        match machine.advance(BUDGET) {
            Next::Ended(end) => break end,
            Next::Stepped(Some(event))
                if usize::from(event.touch.location) < source.sizes.len() =>
            {
                events.push(event)
            }
            Next::Stepped(_) => {}
        }
    };
    Story {
        moments,
        events,
        end,
        steps: machine.steps,
    }
}

/// The locals of all frames are found again in the copy's cells, as in the report's relation (2). In
/// the second mode that is true of live frames only: others may have lost their cells.
fn check_locals(program: &Program, mode: Mode, copy: &Program, schedule: &[u8], steps: usize) {
    let starts = placement::row(program, mode).starts;
    let mut machine = Concurrent::new(program);
    for thread in &schedule[..steps] {
        machine.step(usize::from(*thread)).unwrap();
    }
    let mut sequential = Sequential::new(copy, schedule);
    let mut heads = 0;
    loop {
        heads += usize::from(at_loop_head(&sequential));
        if heads == steps + 1 {
            break;
        }
        assert!(matches!(sequential.advance(BUDGET), Next::Stepped(_)));
    }
    let first = program.sizes.len() + 2;
    for (thread, stack) in machine.threads.iter().enumerate() {
        let mut back = Value::Whole(0);
        for frame in stack {
            assert_eq!(
                sequential.heap.location(first + frame.procedure)[thread],
                back
            );
            back = Value::Whole(label_of_frame(program, frame) as i32);
            let row = first + program.procedures.len() + usize::from(starts[frame.procedure]);
            for (x, value) in frame.locals.iter().enumerate() {
                if let Some(value) = value {
                    assert_eq!(sequential.heap.location(row + x)[thread], *value);
                }
            }
        }
    }
}

/// The program and its copy in both modes; the second is not run where it is the same.
fn check(program: &Program, schedule: &[u8]) -> End {
    let table = write::table(program, Kind::Concurrent);
    let [own, shared] = MODES.map(|mode| copy_in(mode, &table).unwrap());
    if own != shared {
        check_copy(program, &table, Mode::Shared, &shared, schedule);
    }
    check_copy(program, &table, Mode::Own, &own, schedule)
}

fn check_copy(
    program: &Program,
    table: &[u8],
    mode: Mode,
    copy_table: &[u8],
    schedule: &[u8],
) -> End {
    assert_eq!(read_sequential(copy_table).number, 0);
    let copy = verdict(copy_table, Kind::Sequential).unwrap();
    assert_eq!(copy, translate_tree(program, mode));

    let story = story_of_program(program, schedule, table.len() as u64);
    let copy_story = story_of_copy(program, &copy, schedule);
    assert_eq!(story.moments, copy_story.moments);
    // "demand 3 now includes equal reasons"
    assert_eq!(story.end, copy_story.end);
    let last = story.moments.last().unwrap();
    match story.end {
        End::Finished => {
            assert_eq!(copy_story.steps, last.steps + 2);
            assert_eq!(story.events, copy_story.events);
        }
        End::Used => {
            assert_eq!(copy_story.steps, last.steps + 1);
            assert_eq!(story.events, copy_story.events);
        }
        // A block that is blocked inside may have been done in part by the copy.
        End::Blocked(_) => {
            assert!(copy_story.steps > last.steps);
            assert!(copy_story.events.starts_with(&story.events));
        }
        End::Budget => panic!("the copy met demand 3's budget"),
    }
    check_locals(program, mode, &copy, schedule, story.steps as usize);
    check_calls(table, copy_table, schedule, &story, &copy_story);
    story.end
}

/// The public calls tell the same stories.
fn check_calls(table: &[u8], copy: &[u8], schedule: &[u8], story: &Story, copy_story: &Story) {
    let read = read_concurrent(table);
    let mut cells = vec![0; 5 * read.cells as usize];
    let mut events = vec![0; EVENT * story.events.len()];
    let run = run_concurrent(table, schedule, &mut cells, &mut events);
    assert_eq!((run.number, run.end), (0, story.end.number()));
    assert_eq!(run.reason, story.end.reason());
    assert_eq!(run.steps, story.steps);
    assert_eq!(run.steps + run.unused, schedule.len() as u64);
    assert_eq!(run.events, story.events.len() as u64);

    let mut copy_cells = vec![0; 5 * read_sequential(copy).cells as usize];
    let mut copy_events = vec![0; EVENT * copy_story.events.len()];
    let h = read.locations as u32;
    let copy_run = run_sequential(copy, schedule, BUDGET, h, &mut copy_cells, &mut copy_events);
    assert_eq!((copy_run.number, copy_run.end), (0, run.end));
    assert_eq!(copy_run.reason, run.reason);
    assert_eq!(copy_run.steps, copy_story.steps);
    assert_eq!(copy_run.events, copy_story.events.len() as u64);
    assert!(copy_events.starts_with(&events));
    if run.reason == 0 {
        assert!(copy_cells.starts_with(&cells));
        assert_eq!(copy_run.unused, run.unused);
    }
    // A blocking entry is unused, but the copy has taken it unless its select blocked.
    assert!(copy_run.unused == run.unused || copy_run.unused + 1 == run.unused);

    // One step less is not enough, and exactly so many are.
    let exact = copy_run.steps;
    let again = run_sequential(copy, schedule, exact, h, &mut copy_cells, &mut []);
    if story.end == End::Finished {
        assert_eq!((again.end, again.steps), (End::Finished.number(), exact));
    } else {
        assert_eq!((again.end, again.steps), (End::Budget.number(), exact));
    }
    // At its budget a run has no reason, also where the next step would block.
    assert_eq!(again.reason, 0);
    let again = run_sequential(copy, schedule, exact - 1, h, &mut copy_cells, &mut []);
    assert_eq!(
        (again.end, again.steps, again.reason),
        (End::Budget.number(), exact - 1, 0)
    );
}

/// How many runs ended in each way, how many by each reason (0: not blocked), and how many tables
/// were refused.
#[derive(Default, Debug)]
struct Counts {
    ends: [usize; 4],
    reasons: [usize; 5],
    refused: usize,
    /// Programs whose locals share locations in the second mode, so that both copies were run.
    sharing: usize,
}

/// Random programs under random schedules.
fn check_many(count: usize, scale: Scale, seed: u64, longest: usize) -> Counts {
    let mut random = Random::new(seed);
    let mut counts = Counts::default();
    for _ in 0..count {
        let made = program_of(Kind::Concurrent, scale, &mut random);
        let table = write::table(&made, Kind::Concurrent);
        match verdict(&table, Kind::Concurrent) {
            Err(_) => counts.refused += 1,
            Ok(program) => {
                assert_eq!(program, made);
                let schedule = schedule_for(&program, longest, &mut random);
                let end = check(&program, &schedule);
                counts.ends[usize::from(end.number())] += 1;
                counts.reasons[usize::from(end.reason())] += 1;
                let [own, shared] = MODES.map(|mode| placement::row(&program, mode));
                counts.sharing += usize::from(own.length != shared.length);
            }
        }
    }
    println!("{scale:?}: {counts:?}");
    counts
}

#[test]
fn demand_3_on_random_programs() {
    let counts = check_many(12_000, Scale::Small, 3, 150);
    assert!(counts.ends[0] > 5_000);
    assert!(counts.ends[1] > 1_000);
    assert!(counts.ends[2] > 1_000);
    assert!(counts.reasons.iter().all(|count| *count > 200));
    assert!(counts.refused < 1_000);
    assert!(counts.sharing > 3_000);
}

#[test]
fn demand_3_on_large_random_programs() {
    let counts = check_many(200, Scale::Large, 4, 400);
    assert!(counts.ends[..3].iter().all(|count| *count > 20));
    assert!(counts.refused < 40);
    assert!(counts.sharing > 100);
}

/// Every instruction that blocks, also inside atomic blocks: the copy blocks by the same reason.
#[test]
fn demand_3_on_each_reason() {
    for sample in blocks() {
        let mut programs = vec![reason_samples::concurrent(&sample)];
        if sample.may_be_in_atomic() {
            programs.push(reason_samples::in_atomic(&sample));
            programs.push(reason_samples::in_a_branch(&sample));
        }
        for program in programs {
            let end = check(&program, &[0; 5]);
            assert_eq!(end, End::Blocked(sample.reason), "{}", sample.name);
        }
    }
}

/// Every way through `and`: the copy goes on, or blocks by the same reason.
#[test]
fn demand_3_on_each_and() {
    for placed in and_samples::all_placed() {
        let end = check(&and_samples::concurrent(&placed), &[0; 12]);
        let wanted = match placed.shown {
            Err(reason) => End::Blocked(reason),
            Ok(_) if placed.is_endless => End::Used,
            Ok(_) => End::Finished,
        };
        assert_eq!(end, wanted, "{}", placed.name);
    }
}

/// A longer hunt; takes some minutes.
#[test]
#[ignore]
fn demand_3_on_many_random_programs() {
    check_many(100_000, Scale::Small, 5, 150);
    check_many(1_000, Scale::Large, 6, 400);
}

/// The longest atomic block whose copy is not too long, 4,096 entries: far below the budget.
#[test]
fn demand_3_on_a_long_run() {
    let inner = vec![assign(0, truth(true)); 5_400];
    let body = vec![while_do(truth(true), vec![atomic(inner)])];
    let program = program(vec![procedure(0, 1, body)], &[1], &[0; 32]);
    let schedule = [0; 4_096];
    let length = write::table(&program, Kind::Concurrent).len() as u64;
    let copy = translate_tree(&program, Mode::Own);
    let story = story_of_program(&program, &schedule, length);
    let copy_story = story_of_copy(&program, &copy, &schedule);
    assert_eq!(story.moments, copy_story.moments);
    assert_eq!((story.end, copy_story.end), (End::Used, End::Used));
    // 3T+2 and 1; L+2T+10 for each step; 3 for each test and 2 * 5,400 + 2 for each block.
    let steps = 98 + 1 + 4_096 * (3 + 64 + 10) + 2_048 * (3 + 10_802);
    assert_eq!(copy_story.steps, steps);
    assert!(steps < BUDGET);
}

/// Everything as deep as it may be, the last eight threads in turns up to their end.
#[test]
fn demand_3_on_the_deepest_program() {
    let program = deepest(Kind::Concurrent);
    let mut schedule = deepest_turns();
    assert_eq!(check(&program, &schedule), End::Used);
    schedule.push(31);
    let finished = End::Blocked(Reason::FinishedThread);
    assert_eq!(check(&program, &schedule), finished);
}

/// Programs whose procedures share locations, under schedules with each thread in turn.
#[test]
fn demand_3_on_shared_locations() {
    for sample in samples() {
        let threads = sample.program.mains.len();
        let turns: Vec<u8> = (0..300).map(|step| (step % threads) as u8).collect();
        let blocks: Vec<u8> = (0..300).map(|step| (step / 7 % threads) as u8).collect();
        for schedule in [turns, blocks] {
            check(&sample.program, &schedule);
        }
    }
}

/// A return is priced like its end label, an empty atomic block like its pc.
#[test]
fn smallest_prices() {
    assert_eq!(price::of_step(&Done::Return), 4);
    assert_eq!(price::of_step(&Done::Atomic(Vec::new())), 2);
}
