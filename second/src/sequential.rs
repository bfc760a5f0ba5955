//! The sequential machine.

use crate::machine::{step, Effect, End, Event, Frame, Heap, Stack};
use crate::program::{Instruction, Program};
use crate::reason::Reason;
use crate::record::{Events, Run};
use crate::value::Value;

/// The state of a sequential program under a schedule.
#[derive(Clone, Debug)]
pub struct Sequential<'a> {
    program: &'a Program,
    schedule: &'a [u8],
    /// Entries that selects have taken.
    pub taken: usize,
    pub steps: u64,
    pub stack: Stack<'a>,
    pub heap: Heap,
    /// "thread (sequential: last selected, 0 before)"
    selected: u8,
}

/// What comes of asking for one more step.
#[derive(Clone, Copy, PartialEq, Eq, Debug)]
pub enum Next {
    Stepped(Option<Event>),
    Ended(End),
}

impl<'a> Sequential<'a> {
    /// "Sequential tables have T = 0 and start at procedure 0."
    pub fn new(program: &'a Program, schedule: &'a [u8]) -> Sequential<'a> {
        Sequential {
            program,
            schedule,
            taken: 0,
            steps: 0,
            stack: vec![Frame::enter(program, 0, &[])],
            heap: Heap::new(&program.sizes),
            selected: 0,
        }
    }

    /// The instruction to be done next, `None` at the end of a procedure or of the run.
    pub fn next(&self) -> Option<&'a Instruction> {
        self.stack.last()?.next()
    }

    /// "Before each step a run is judged finished, at its budget, used up (select and no entry),
    /// blocked, in this order."
    pub fn advance(&mut self, budget: u64) -> Next {
        let Some(frame) = self.stack.last() else {
            return Next::Ended(End::Finished);
        };
        let procedure = frame.procedure;
        if self.steps >= budget {
            return Next::Ended(End::Budget);
        }
        let effect = match self.next() {
            Some(Instruction::Select { a, b }) => {
                let Some(entry) = self.schedule.get(self.taken) else {
                    return Next::Ended(End::Used);
                };
                self.select(*a, *b, *entry)
            }
            _ => step(self.program, &mut self.stack, &mut self.heap),
        };
        match effect {
            Err(reason) => Next::Ended(End::Blocked(reason)),
            Ok(effect) => {
                self.steps += 1;
                Next::Stepped(self.event(effect, procedure))
            }
        }
    }

    /// "Select takes the next entry t and writes t into a[0], without an event, if b[t] exists and
    /// is a number other than 0; else it blocks and takes none." "A sequential select whose entry
    /// lies outside b gives 3, one whose cell isn't a number 2, one whose cell is 0 gives 4."
    fn select(&mut self, a: u16, b: u16, entry: u8) -> Result<Effect, Reason> {
        match self.heap.get(b, usize::from(entry)) {
            None => return Err(Reason::IndexOutside),
            Some(Value::Location(_) | Value::Truth(_)) => return Err(Reason::WrongKind),
            Some(Value::Whole(0)) => return Err(Reason::FinishedThread),
            Some(Value::Whole(_)) => {}
        }
        // No size is 0, so there is an a[0].
        let written = self.heap.set(a, 0, Value::Whole(i32::from(entry)));
        written.ok_or(Reason::IndexOutside)?;
        let frame = self.stack.last_mut().ok_or(Reason::FinishedThread)?;
        frame.go_past();
        self.taken += 1;
        self.selected = entry;
        Ok(Effect::Silent)
    }

    /// "The sequential machine writes the number of the procedure it is in, which for procedure 0
    /// is 0."
    fn event(&self, effect: Effect, procedure: usize) -> Option<Event> {
        match effect {
            Effect::Silent => None,
            Effect::Touched(touch) => Some(Event {
                thread: self.selected,
                touch,
                label: procedure as u16,
            }),
        }
    }
}

/// Runs a program under a schedule, at most `budget` steps. "The sequential run is told a location
/// number h and records only locations below h".
pub fn run(program: &Program, schedule: &[u8], budget: u64, h: u32, events: &mut Events) -> Run {
    let mut machine = Sequential::new(program, schedule);
    let end = loop {
        match machine.advance(budget) {
            Next::Ended(end) => break end,
            Next::Stepped(None) => {}
            Next::Stepped(Some(event)) => {
                if u32::from(event.touch.location) < h {
                    events.record(&event);
                }
            }
        }
    };
    Run {
        end,
        steps: machine.steps,
        unused: (schedule.len() - machine.taken) as u64,
        events: events.count(),
        heap: machine.heap,
    }
}
