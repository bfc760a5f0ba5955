//! The report's machine, kept plain: "a frame is a procedure, its locals and the rows of
//! instructions still to do", without labels. Each rule of the report's figures 1 and 2 is a
//! function here; nothing but values, expressions and cells is shared with the other machines.
//!
//! The report's code that remains is one sequence, and a block is put before it. Here each block has
//! a row of its own, the innermost last. A row that is used up goes away without a step.

use crate::expression::Expression;
use crate::machine::{Access, End, Event, Heap, Touch};
use crate::program::{Block, Instruction, Program};
use crate::reason::Reason;
use crate::record::{Events, Run};
use crate::value::Value;
use std::collections::VecDeque;

/// The instructions of one block that are still to be done.
type Row<'a> = VecDeque<&'a Instruction>;

/// "A local execution context is composed of the name of the procedure being executed, a local
/// environment and the code that remains to execute."
#[derive(Clone, Debug)]
pub struct Frame<'a> {
    pub procedure: usize,
    locals: Vec<Option<Value>>,
    rows: Vec<Row<'a>>,
}

/// Frames, the one that is run last; empty when the thread is finished.
pub type Frames<'a> = Vec<Frame<'a>>;

/// All threads and the shared cells.
#[derive(Clone, Debug)]
pub struct Plain<'a> {
    program: &'a Program,
    pub threads: Vec<Frames<'a>>,
    pub heap: Heap,
}

/// What the first instruction of a frame asks for beyond the frame and the cells.
enum Wish {
    Nothing,
    /// A call of a procedure with these values.
    Call(usize, Vec<Value>),
}

impl<'a> Frame<'a> {
    fn of_procedure(program: &'a Program, procedure: usize, arguments: &[Value]) -> Frame<'a> {
        let callee = &program.procedures[procedure];
        let mut locals: Vec<Option<Value>> = arguments.iter().copied().map(Some).collect();
        locals.resize(usize::from(callee.locals), None);
        let mut frame = Frame {
            procedure,
            locals,
            rows: Vec::new(),
        };
        frame.put_before(&callee.body);
        frame
    }

    /// The rows that are still to be done.
    pub fn rows(&self) -> usize {
        self.rows.len()
    }

    fn first(&self) -> Option<&'a Instruction> {
        self.rows.last()?.front().copied()
    }

    /// c_1 # c: a block is put before the code that remains.
    fn put_before(&mut self, block: &'a Block) {
        self.rows.push(block.iter().collect());
        self.clear_away();
    }

    /// x; c becomes c.
    fn take_first(&mut self) {
        if let Some(row) = self.rows.last_mut() {
            row.pop_front();
        }
        self.clear_away();
    }

    fn clear_away(&mut self) {
        while self.rows.last().is_some_and(VecDeque::is_empty) {
            self.rows.pop();
        }
    }

    fn value(&self, expression: &Expression) -> Result<Value, Reason> {
        expression.value(&self.locals)
    }

    /// A value of the kind that is wanted.
    fn wanted<T>(&self, e: &Expression, pick: fn(Value) -> Option<T>) -> Result<T, Reason> {
        pick(self.value(e)?).ok_or(Reason::WrongKind)
    }

    fn assign(&mut self, x: u8, value: Value) {
        self.locals[usize::from(x)] = Some(value);
    }

    /// One step of a frame that is neither a return nor an atomic block. Where it blocks, nothing
    /// has been changed.
    fn reduce(
        &mut self,
        instruction: &'a Instruction,
        heap: &mut Heap,
        touches: &mut Vec<Touch>,
    ) -> Result<Wish, Reason> {
        match instruction {
            // [assign]
            Instruction::Assign { target, value } => {
                let value = self.value(value)?;
                self.take_first();
                self.assign(*target, value);
            }
            // x := y[o]: "a read does the same without a value"
            Instruction::Read {
                target,
                pointer,
                index,
            } => {
                let touch = self.look_up(Access::Read, *pointer, index, heap)?;
                self.take_first();
                self.assign(*target, touch.value);
                touches.push(touch);
            }
            // y[o] := e: "a write judges the value, then the index expression, then the pointer,
            // then the index against the size"
            Instruction::Write {
                pointer,
                index,
                value,
            } => {
                let value = self.value(value)?;
                let found = self.look_up(Access::Write, *pointer, index, heap)?;
                let touch = Touch { value, ..found };
                heap.set(touch.location, usize::from(touch.index), value);
                self.take_first();
                touches.push(touch);
            }
            // [while : true] leaves the loop where it is, below its body.
            Instruction::While { test, body } => match self.wanted(test, truth)? {
                true => self.put_before(body),
                false => self.take_first(),
            },
            // [if : true] and [if : false]
            Instruction::If {
                test,
                then,
                otherwise,
            } => {
                let chosen = match self.wanted(test, truth)? {
                    true => then,
                    false => otherwise,
                };
                self.take_first();
                self.put_before(chosen);
            }
            // [call]: "a call judges its arguments in order"
            Instruction::Call {
                procedure,
                arguments,
            } => {
                let mut values = Vec::new();
                for argument in arguments {
                    values.push(self.value(argument)?);
                }
                self.take_first();
                return Ok(Wish::Call(usize::from(*procedure), values));
            }
            // Neither stands where this is asked for (number 4).
            Instruction::Atomic { .. } | Instruction::Select { .. } => {
                return Err(Reason::WrongKind);
            }
        }
        Ok(Wish::Nothing)
    }

    /// The cell that y[o] names, with the value that it has.
    fn look_up(
        &self,
        access: Access,
        pointer: u8,
        index: &Expression,
        heap: &Heap,
    ) -> Result<Touch, Reason> {
        let index = self.wanted(index, number)?;
        let location = self.wanted(&Expression::Local(pointer), place)?;
        let index = u16::try_from(index).map_err(|_| Reason::IndexOutside)?;
        match heap.get(location, usize::from(index)) {
            None => Err(Reason::IndexOutside),
            Some(value) => Ok(Touch {
                access,
                location,
                index,
                value,
            }),
        }
    }
}

fn truth(value: Value) -> Option<bool> {
    match value {
        Value::Truth(truth) => Some(truth),
        _ => None,
    }
}

fn number(value: Value) -> Option<i32> {
    match value {
        Value::Whole(number) => Some(number),
        _ => None,
    }
}

fn place(value: Value) -> Option<u16> {
    match value {
        Value::Location(location) => Some(location),
        _ => None,
    }
}

impl<'a> Plain<'a> {
    pub fn new(program: &'a Program) -> Plain<'a> {
        let start = |main: &u16| vec![Frame::of_procedure(program, usize::from(*main), &[])];
        Plain {
            program,
            threads: program.mains.iter().map(start).collect(),
            heap: Heap::new(&program.sizes),
        }
    }

    fn is_finished(&self) -> bool {
        self.threads.iter().all(|frames| frames.is_empty())
    }

    /// One step of a thread, and what it read and wrote; or the reason why it blocks, with the state
    /// as it was.
    pub fn step(&mut self, thread: usize) -> Result<Vec<Touch>, Reason> {
        let frames = &mut self.threads[thread];
        let frame = frames.last_mut().ok_or(Reason::FinishedThread)?;
        let mut touches = Vec::new();
        match frame.first() {
            // [return]: "(m, ρ, []) · s" becomes "s"
            None => {
                frames.pop();
            }
            // [atomic]
            Some(Instruction::Atomic { body }) => {
                let (locals, heap) = whole_block(frame, body, &self.heap, &mut touches)?;
                frame.locals = locals;
                frame.take_first();
                self.heap = heap;
            }
            // [seq]
            Some(other) => {
                if let Wish::Call(procedure, values) =
                    frame.reduce(other, &mut self.heap, &mut touches)?
                {
                    let callee = Frame::of_procedure(self.program, procedure, &values);
                    frames.push(callee);
                }
            }
        }
        Ok(touches)
    }
}

type Locals = Vec<Option<Value>>;

/// "we use the sequential semantics to reduce the whole block": a frame of its own, with the block
/// as its code, is reduced until nothing remains. Answers its locals and the cells.
fn whole_block<'a>(
    frame: &Frame<'a>,
    body: &'a Block,
    heap: &Heap,
    touches: &mut Vec<Touch>,
) -> Result<(Locals, Heap), Reason> {
    let mut heap = heap.clone();
    let mut inner = Frame {
        procedure: frame.procedure,
        locals: frame.locals.clone(),
        rows: Vec::new(),
    };
    inner.put_before(body);
    while let Some(instruction) = inner.first() {
        inner.reduce(instruction, &mut heap, touches)?;
    }
    Ok((inner.locals, heap))
}

/// Runs a program under a schedule: "the same end, reason, cells, counts and events (0 in their label
/// bytes)".
pub fn run(program: &Program, schedule: &[u8], events: &mut Events) -> Run {
    let mut machine = Plain::new(program);
    let mut entries = schedule.iter();
    let mut steps = 0;
    let end = loop {
        if machine.is_finished() {
            break End::Finished;
        }
        let Some(thread) = entries.next() else {
            break End::Used;
        };
        match machine.step(usize::from(*thread)) {
            Err(reason) => break End::Blocked(reason),
            Ok(touches) => {
                steps += 1;
                record(*thread, &touches, events);
            }
        }
    };
    Run {
        end,
        steps,
        // "unused entries are counted, a blocking one among them"
        unused: schedule.len() as u64 - steps,
        events: events.count(),
        heap: machine.heap,
    }
}

fn record(thread: u8, touches: &[Touch], events: &mut Events) {
    for touch in touches {
        events.record(&Event {
            thread,
            touch: *touch,
            label: 0,
        });
    }
}
