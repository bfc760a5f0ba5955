//! What both machines share: cells, frames and the steps of the sequential semantics.
//!
//! As in the report, a frame is a procedure, its locals and the code that remains to be done. The
//! remaining code is held as rows of instructions, the innermost block's row last.

use crate::expression::{local, Expression, Locals};
use crate::program::{Block, Instruction, Program};
use crate::reason::Reason;
use crate::value::Value;

/// How a run ends; a blocked one says why.
#[derive(Clone, Copy, PartialEq, Eq, Debug)]
pub enum End {
    Finished,
    Used,
    Blocked(Reason),
    Budget,
}

impl End {
    /// The number that the calls answer.
    pub fn number(self) -> u8 {
        match self {
            End::Finished => 0,
            End::Used => 1,
            End::Blocked(_) => 2,
            End::Budget => 3,
        }
    }

    /// The reason that the calls answer, "(0 when not blocked)".
    pub fn reason(self) -> u8 {
        match self {
            End::Blocked(reason) => reason as u8,
            End::Finished | End::Used | End::Budget => 0,
        }
    }
}

#[derive(Clone, Copy, PartialEq, Eq, Debug)]
pub enum Access {
    Read = 0,
    Write = 1,
}

/// One read or write of a cell.
#[derive(Clone, Copy, PartialEq, Eq, Debug)]
pub struct Touch {
    pub access: Access,
    pub location: u16,
    pub index: u16,
    pub value: Value,
}

/// "The event record becomes 13 bytes".
pub const EVENT: usize = 13;

/// A touch, the thread that made it, and where.
#[derive(Clone, Copy, PartialEq, Eq, Debug)]
pub struct Event {
    pub thread: u8,
    pub touch: Touch,
    /// "the label of the step; inside an atomic block it is the block's label. The sequential
    /// machine writes the number of the procedure it is in".
    pub label: u16,
}

impl Event {
    /// "thread, 0 read or 1 write, location (2), index (2), value (5)", "the last two being the
    /// label of the step"
    pub fn bytes(&self) -> [u8; EVENT] {
        let mut bytes = [0; EVENT];
        bytes[0] = self.thread;
        bytes[1] = self.touch.access as u8;
        bytes[2..4].copy_from_slice(&self.touch.location.to_le_bytes());
        bytes[4..6].copy_from_slice(&self.touch.index.to_le_bytes());
        bytes[6..11].copy_from_slice(&self.touch.value.five_bytes());
        bytes[11..13].copy_from_slice(&self.label.to_le_bytes());
        bytes
    }
}

/// The cells of all locations.
#[derive(Clone, PartialEq, Eq, Debug)]
pub struct Heap {
    locations: Vec<Vec<Value>>,
}

impl Heap {
    /// "All cells start as number 0."
    pub fn new(sizes: &[u16]) -> Heap {
        let cells = |size: &u16| vec![Value::Whole(0); usize::from(*size)];
        Heap {
            locations: sizes.iter().map(cells).collect(),
        }
    }

    /// A cell, `None` for "an index outside the size".
    pub fn get(&self, location: u16, index: usize) -> Option<Value> {
        let cells = self.locations.get(usize::from(location))?;
        cells.get(index).copied()
    }

    /// Changes a cell, `None` where there is none.
    pub fn set(&mut self, location: u16, index: usize, value: Value) -> Option<()> {
        let cells = self.locations.get_mut(usize::from(location))?;
        *cells.get_mut(index)? = value;
        Some(())
    }

    /// The cells of one location.
    pub fn location(&self, location: usize) -> &[Value] {
        &self.locations[location]
    }

    /// All cells "in location order".
    pub fn cells(&self) -> impl Iterator<Item = Value> + '_ {
        self.locations.iter().flatten().copied()
    }
}

/// A procedure that is being run.
#[derive(Clone, Debug)]
pub struct Frame<'a> {
    pub procedure: usize,
    pub locals: Vec<Option<Value>>,
    /// No row is empty.
    rows: Vec<&'a [Instruction]>,
}

pub type Stack<'a> = Vec<Frame<'a>>;

impl<'a> Frame<'a> {
    /// A call has just entered `procedure` with these values of its parameters.
    pub fn enter(program: &'a Program, procedure: usize, arguments: &[Value]) -> Frame<'a> {
        let callee = &program.procedures[procedure];
        let mut locals = vec![None; usize::from(callee.locals)];
        for (local, argument) in locals.iter_mut().zip(arguments) {
            *local = Some(*argument);
        }
        let mut frame = Frame {
            procedure,
            locals,
            rows: Vec::new(),
        };
        frame.go_into(&callee.body);
        frame
    }

    /// The instruction to be done next, `None` at the end of the procedure.
    pub fn next(&self) -> Option<&'a Instruction> {
        self.rows.last()?.first()
    }

    /// Leaves the next instruction behind.
    pub fn go_past(&mut self) {
        if let Some(row) = self.rows.pop() {
            if row.len() > 1 {
                self.rows.push(&row[1..]);
            }
        }
    }

    /// Puts a block before the remaining code.
    pub fn go_into(&mut self, block: &'a Block) {
        if !block.is_empty() {
            self.rows.push(block);
        }
    }

    fn set(&mut self, target: u8, value: Value) {
        set_local(&mut self.locals, target, value);
    }
}

fn set_local(locals: &mut [Option<Value>], target: u8, value: Value) {
    if let Some(local) = locals.get_mut(usize::from(target)) {
        *local = Some(value);
    }
}

/// What one step did.
#[derive(Clone, Copy, PartialEq, Eq, Debug)]
pub enum Effect {
    Silent,
    Touched(Touch),
}

/// "One step is one assign, read, write, test, call, return". A reason is a step that blocks: "the
/// state stays as before the step". "Every caller of the evaluator passes the reason on". Select and
/// atomic belong to one machine each, which does not come here with them.
pub fn step<'a>(
    program: &'a Program,
    stack: &mut Stack<'a>,
    heap: &mut Heap,
) -> Result<Effect, Reason> {
    let frame = stack.last_mut().ok_or(Reason::FinishedThread)?;
    let Some(instruction) = frame.next() else {
        stack.pop();
        return Ok(Effect::Silent);
    };
    match instruction {
        Instruction::Assign { target, value } => {
            let value = value.value(&frame.locals)?;
            frame.set(*target, value);
            frame.go_past();
            Ok(Effect::Silent)
        }
        Instruction::Read {
            target,
            pointer,
            index,
        } => {
            let touch = read(heap, &frame.locals, *pointer, index)?;
            frame.set(*target, touch.value);
            frame.go_past();
            Ok(Effect::Touched(touch))
        }
        Instruction::Write {
            pointer,
            index,
            value,
        } => {
            let touch = write(heap, &frame.locals, *pointer, index, value)?;
            frame.go_past();
            Ok(Effect::Touched(touch))
        }
        Instruction::While { test, body } => {
            if truth(test, &frame.locals)? {
                frame.go_into(body);
            } else {
                frame.go_past();
            }
            Ok(Effect::Silent)
        }
        Instruction::If {
            test,
            then,
            otherwise,
        } => {
            let branch = if truth(test, &frame.locals)? {
                then
            } else {
                otherwise
            };
            frame.go_past();
            frame.go_into(branch);
            Ok(Effect::Silent)
        }
        Instruction::Call {
            procedure,
            arguments,
        } => {
            // "a call judges its arguments in order"
            let values = arguments.iter().map(|e| e.value(&frame.locals));
            let values: Vec<Value> = values.collect::<Result<_, _>>()?;
            frame.go_past();
            stack.push(Frame::enter(program, usize::from(*procedure), &values));
            Ok(Effect::Silent)
        }
        Instruction::Atomic { .. } | Instruction::Select { .. } => Err(Reason::WrongKind),
    }
}

/// Runs the block of an atomic instruction to its end. It pushes each instruction done and each
/// touch. The first inner step that blocks gives its reason; locals and heap may have changed then.
pub fn run_in_place<'a>(
    block: &'a Block,
    locals: &mut [Option<Value>],
    heap: &mut Heap,
    done: &mut Vec<&'a Instruction>,
    touches: &mut Vec<Touch>,
) -> Result<(), Reason> {
    for instruction in block {
        done.push(instruction);
        match instruction {
            Instruction::Assign { target, value } => {
                let value = value.value(locals)?;
                set_local(locals, *target, value);
            }
            Instruction::Read {
                target,
                pointer,
                index,
            } => {
                let touch = read(heap, locals, *pointer, index)?;
                set_local(locals, *target, touch.value);
                touches.push(touch);
            }
            Instruction::Write {
                pointer,
                index,
                value,
            } => touches.push(write(heap, locals, *pointer, index, value)?),
            Instruction::If {
                test,
                then,
                otherwise,
            } => {
                let branch = if truth(test, locals)? {
                    then
                } else {
                    otherwise
                };
                run_in_place(branch, locals, heap, done, touches)?;
            }
            // "within it no while, call or atomic" (number 4).
            _ => return Err(Reason::WrongKind),
        }
    }
    Ok(())
}

/// x := y[o], but for the change of x. "a read does the same without a value".
fn read(heap: &Heap, locals: &Locals, pointer: u8, index: &Expression) -> Result<Touch, Reason> {
    let index = whole(index, locals)?;
    let location = location(pointer, locals)?;
    let index = cell_index(index)?;
    let value = heap.get(location, usize::from(index));
    Ok(Touch {
        access: Access::Read,
        location,
        index,
        value: value.ok_or(Reason::IndexOutside)?,
    })
}

/// y[o] := e. "a write judges the value, then the index expression, then the pointer, then the
/// index against the size".
fn write(
    heap: &mut Heap,
    locals: &Locals,
    pointer: u8,
    index: &Expression,
    value: &Expression,
) -> Result<Touch, Reason> {
    let value = value.value(locals)?;
    let index = whole(index, locals)?;
    let location = location(pointer, locals)?;
    let index = cell_index(index)?;
    let written = heap.set(location, usize::from(index), value);
    written.ok_or(Reason::IndexOutside)?;
    Ok(Touch {
        access: Access::Write,
        location,
        index,
        value,
    })
}

/// The truth of a test; a number or a location is the wrong kind.
fn truth(test: &Expression, locals: &Locals) -> Result<bool, Reason> {
    match test.value(locals)? {
        Value::Truth(truth) => Ok(truth),
        Value::Whole(_) | Value::Location(_) => Err(Reason::WrongKind),
    }
}

/// The number of an index expression; a location or a truth value is the wrong kind.
fn whole(index: &Expression, locals: &Locals) -> Result<i32, Reason> {
    match index.value(locals)? {
        Value::Whole(index) => Ok(index),
        Value::Location(_) | Value::Truth(_) => Err(Reason::WrongKind),
    }
}

/// An index as a number of two bytes. No size is over 256, so any other is outside, a negative one
/// too.
fn cell_index(index: i32) -> Result<u16, Reason> {
    u16::try_from(index).map_err(|_| Reason::IndexOutside)
}

fn location(pointer: u8, locals: &Locals) -> Result<u16, Reason> {
    match local(pointer, locals)? {
        Value::Location(location) => Ok(location),
        Value::Whole(_) | Value::Truth(_) => Err(Reason::WrongKind),
    }
}
