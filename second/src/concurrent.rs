//! The concurrent machine.

use crate::labels;
use crate::machine::{run_in_place, step, Effect, End, Event, Frame, Heap, Stack, Touch};
use crate::program::{Block, Instruction, Program};
use crate::reason::Reason;
use crate::record::{Events, Run};

/// The state of a concurrent program.
#[derive(Clone, Debug)]
pub struct Concurrent<'a> {
    program: &'a Program,
    pub threads: Vec<Stack<'a>>,
    pub heap: Heap,
}

/// What a thread did in one step.
#[derive(Clone, PartialEq, Eq, Debug)]
pub enum Done<'a> {
    /// An instruction that is no atomic block.
    One(&'a Instruction),
    /// An atomic block, with the instructions inside it that were done, in order.
    Atomic(Vec<&'a Instruction>),
    Return,
}

#[derive(Clone, PartialEq, Eq, Debug)]
pub struct Step<'a> {
    pub done: Done<'a>,
    pub touches: Vec<Touch>,
    /// The instruction that the thread was at, an atomic block too; `None` at an end label.
    at: Option<&'a Instruction>,
}

impl Step<'_> {
    /// The events of the step: "the last two [bytes] being the label of the step; inside an atomic
    /// block it is the block's label".
    fn events(&self, program: &Program, thread: u8) -> Vec<Event> {
        if self.touches.is_empty() {
            return Vec::new();
        }
        // A return touches nothing, and an instruction of the program has a label.
        let label = self.at.and_then(|at| labels::find(program, at));
        let label = label.unwrap_or(0) as u16;
        let event = |touch: &Touch| Event {
            thread,
            touch: *touch,
            label,
        };
        self.touches.iter().map(event).collect()
    }
}

impl<'a> Concurrent<'a> {
    pub fn new(program: &'a Program) -> Concurrent<'a> {
        let mains = program.mains.iter();
        Concurrent {
            program,
            threads: mains
                .map(|main| vec![Frame::enter(program, usize::from(*main), &[])])
                .collect(),
            heap: Heap::new(&program.sizes),
        }
    }

    pub fn is_finished(&self) -> bool {
        self.threads.iter().all(Vec::is_empty)
    }

    /// One step of a thread, or the reason why it blocks: "the state stays as before the step".
    pub fn step(&mut self, thread: usize) -> Result<Step<'a>, Reason> {
        let stack = self.threads.get_mut(thread);
        let stack = stack.ok_or(Reason::FinishedThread)?;
        let next = stack.last().ok_or(Reason::FinishedThread)?.next();
        if let Some(Instruction::Atomic { body }) = next {
            return self.atomic_step(thread, next, body);
        }
        let effect = step(self.program, stack, &mut self.heap)?;
        Ok(Step {
            done: next.map_or(Done::Return, Done::One),
            touches: match effect {
                Effect::Silent => Vec::new(),
                Effect::Touched(touch) => vec![touch],
            },
            at: next,
        })
    }

    /// A "whole atomic block" is one step: it works on copies, which replace the state only when
    /// the block has come to its end.
    fn atomic_step(
        &mut self,
        thread: usize,
        at: Option<&'a Instruction>,
        body: &'a Block,
    ) -> Result<Step<'a>, Reason> {
        let frame = self.threads.get_mut(thread).and_then(|s| s.last_mut());
        let frame = frame.ok_or(Reason::FinishedThread)?;
        let mut locals = frame.locals.clone();
        let mut heap = self.heap.clone();
        let mut done = Vec::new();
        let mut touches = Vec::new();
        run_in_place(body, &mut locals, &mut heap, &mut done, &mut touches)?;
        frame.locals = locals;
        frame.go_past();
        self.heap = heap;
        Ok(Step {
            done: Done::Atomic(done),
            touches,
            at,
        })
    }
}

/// Runs a program under a schedule. "the schedule's next entry, one byte, names the thread."
///
/// "A finished run is answered before the schedule is asked; unused entries are counted, a
/// blocking one among them."
pub fn run(program: &Program, schedule: &[u8], events: &mut Events) -> Run {
    let mut machine = Concurrent::new(program);
    let mut taken = 0;
    let end = loop {
        if machine.is_finished() {
            break End::Finished;
        }
        let Some(thread) = schedule.get(taken) else {
            break End::Used;
        };
        let step = match machine.step(usize::from(*thread)) {
            Ok(step) => step,
            Err(reason) => break End::Blocked(reason),
        };
        taken += 1;
        for event in step.events(program, *thread) {
            events.record(&event);
        }
    };
    Run {
        end,
        steps: taken as u64,
        unused: (schedule.len() - taken) as u64,
        events: events.count(),
        heap: machine.heap,
    }
}
