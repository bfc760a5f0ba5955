//! The translation: from the tree of a concurrent program to the tree of its sequential copy.

use crate::expression::{Expression, One, Two};
use crate::labels;
use crate::placement::{self, Mode, Row};
use crate::program::{Block, Instruction, Procedure, Program};
use crate::value::Value;
use std::collections::BTreeSet;

/// "it has parameter tid = 0, then tmp = 1, aux = 2, and local i as 3+i"
const TID: u8 = 0;
const TMP: u8 = 1;
const AUX: u8 = 2;
const FIRST_LOCAL: u8 = 3;

/// "Procedure 0 has no parameters and locals tid, tmp, stmt, terminated."
const STMT: u8 = 2;
const TERMINATED: u8 = 3;

/// The copy of a program that the concurrent reader accepts.
///
/// Procedures are pushed in the order of the labels, so "Procedure l simulates label l" holds
/// without a map.
pub fn translate(source: &Program, mode: Mode) -> Program {
    let row = placement::row(source, mode);
    let mut procedures = vec![interleavings(source)];
    for (number, procedure) in source.procedures.iter().enumerate() {
        let begin = labels::begin(source, number);
        let end = labels::end(source, number);
        let copier = Copier {
            source,
            row: &row,
            procedure: number,
        };
        copier.block(&procedure.body, begin, end, &mut procedures);
        procedures.push(copier.label_procedure(copier.return_code()));
    }
    Program {
        procedures,
        sizes: sizes(source, &row),
        mains: Vec::new(),
    }
}

/// "New locations after the source's: ptid (size 1), pct, one "from" per procedure, one per local
/// of each procedure in order (size T each)." In the second mode the locals share a row.
fn sizes(source: &Program, row: &Row) -> Vec<u16> {
    let threads = source.mains.len() as u16;
    let mut sizes = source.sizes.clone();
    sizes.push(1);
    sizes.push(threads);
    sizes.extend(vec![threads; source.procedures.len()]);
    sizes.extend(vec![threads; usize::from(row.length)]);
    sizes
}

fn ptid(source: &Program) -> u16 {
    source.sizes.len() as u16
}

fn pct(source: &Program) -> u16 {
    ptid(source) + 1
}

fn from(source: &Program, procedure: usize) -> u16 {
    pct(source) + 1 + procedure as u16
}

/// The row begins behind the last "from".
fn local_location(source: &Program, row: &Row, procedure: usize, local: u8) -> u16 {
    from(source, source.procedures.len()) + row.starts[procedure] + u16::from(local)
}

// ---- small pieces of generated code ----

fn whole(number: usize) -> Expression {
    Expression::Constant(Value::Whole(number as i32))
}

fn truth(truth: bool) -> Expression {
    Expression::Constant(Value::Truth(truth))
}

fn local(x: u8) -> Expression {
    Expression::Local(x)
}

fn not(operand: Expression) -> Expression {
    Expression::One(One::Not, Box::new(operand))
}

fn two(operator: Two, left: Expression, right: Expression) -> Expression {
    Expression::Two(operator, Box::new(left), Box::new(right))
}

fn assign(target: u8, value: Expression) -> Instruction {
    Instruction::Assign { target, value }
}

/// tmp := location
fn point(location: u16) -> Instruction {
    assign(TMP, Expression::Constant(Value::Location(location)))
}

/// tmp[index] := value
fn put(index: Expression, value: Expression) -> Instruction {
    Instruction::Write {
        pointer: TMP,
        index,
        value,
    }
}

/// target := tmp[index]
fn get(target: u8, index: Expression) -> Instruction {
    Instruction::Read {
        target,
        pointer: TMP,
        index,
    }
}

// ---- procedure 0 ----

fn interleavings(source: &Program) -> Procedure {
    let mut body = initialisation(source);
    body.push(Instruction::While {
        test: not(local(TERMINATED)),
        body: round(source),
    });
    Procedure {
        parameters: 0,
        locals: 4,
        body,
    }
}

/// "tmp := pct; for each t, tmp[t] := beginning of its main; for each t, tmp := from of its main,
/// tmp[t] := 0; terminated := false"
fn initialisation(source: &Program) -> Block {
    let mut code = vec![point(pct(source))];
    for (t, main) in source.mains.iter().enumerate() {
        let begin = labels::begin(source, usize::from(*main));
        code.push(put(whole(t), whole(begin)));
    }
    for (t, main) in source.mains.iter().enumerate() {
        code.push(point(from(source, usize::from(*main))));
        code.push(put(whole(t), whole(0)));
    }
    code.push(assign(TERMINATED, truth(false)));
    code
}

/// "select(ptid, pct); tmp := ptid; tid := tmp[0]; tmp := pct; stmt := tmp[tid]; for each label a
/// separate "if stmt = l, call l with tid, else nothing"; terminated := true; tmp := pct; for each
/// t, stmt := tmp[t], terminated := terminated and (stmt = 0)"
fn round(source: &Program) -> Block {
    let mut code = vec![
        Instruction::Select {
            a: ptid(source),
            b: pct(source),
        },
        point(ptid(source)),
        get(TID, whole(0)),
        point(pct(source)),
        get(STMT, local(TID)),
    ];
    for label in 1..=labels::of_program(source) {
        code.push(dispatch(label));
    }
    code.push(assign(TERMINATED, truth(true)));
    code.push(point(pct(source)));
    for t in 0..source.mains.len() {
        code.push(get(STMT, whole(t)));
        let stopped = two(Two::Equal, local(STMT), whole(0));
        code.push(assign(
            TERMINATED,
            two(Two::And, local(TERMINATED), stopped),
        ));
    }
    code
}

fn dispatch(label: usize) -> Instruction {
    Instruction::If {
        test: two(Two::Equal, local(STMT), whole(label)),
        then: vec![Instruction::Call {
            procedure: label as u16,
            arguments: vec![local(TID)],
        }],
        otherwise: Vec::new(),
    }
}

// ---- one procedure for each label ----

/// Copies the code of one procedure of the source.
struct Copier<'a> {
    source: &'a Program,
    row: &'a Row,
    procedure: usize,
}

impl Copier<'_> {
    /// "it has parameter tid = 0, then tmp = 1, aux = 2, and local i as 3+i (all of the procedure's
    /// locals)"
    fn label_procedure(&self, body: Block) -> Procedure {
        let locals = self.source.procedures[self.procedure].locals;
        Procedure {
            parameters: 1,
            locals: FIRST_LOCAL + locals,
            body,
        }
    }

    /// Copies a block whose first instruction has label `first`; `after` is the label that comes
    /// after its last instruction.
    fn block(&self, block: &Block, first: usize, after: usize, out: &mut Vec<Procedure>) {
        let mut label = first;
        for (place, instruction) in block.iter().enumerate() {
            let following = label + labels::of_instruction(instruction);
            let is_last = place + 1 == block.len();
            let next = if is_last { after } else { following };
            out.push(self.label_procedure(self.code(instruction, label, next)));
            self.blocks_inside(instruction, label, next, out);
            label = following;
        }
    }

    /// "After the last instruction of a while body comes the while; after the last of a branch,
    /// what follows the if"
    fn blocks_inside(
        &self,
        instruction: &Instruction,
        label: usize,
        next: usize,
        out: &mut Vec<Procedure>,
    ) {
        match instruction {
            Instruction::While { body, .. } => self.block(body, label + 1, label, out),
            Instruction::If {
                then, otherwise, ..
            } => {
                self.block(then, label + 1, next, out);
                self.block(otherwise, label + 1 + labels::of_block(then), next, out);
            }
            _ => {}
        }
    }

    /// The code of label `label`, after which `next` comes.
    fn code(&self, instruction: &Instruction, label: usize, next: usize) -> Block {
        match instruction {
            Instruction::Assign { target, value } => {
                [self.assign_code(*target, value), self.pc(next)].concat()
            }
            Instruction::Read {
                target,
                pointer,
                index,
            } => [self.read_code(*target, *pointer, index), self.pc(next)].concat(),
            Instruction::Write {
                pointer,
                index,
                value,
            } => [self.write_code(*pointer, index, value), self.pc(next)].concat(),
            // "an empty loop body leads to the loop itself"
            Instruction::While { test, body } => {
                let inside = if body.is_empty() { label } else { label + 1 };
                self.test_code(test, inside, next)
            }
            // "An empty then or else leads to what follows the if"
            Instruction::If {
                test,
                then,
                otherwise,
            } => {
                let first_otherwise = label + 1 + labels::of_block(then);
                let if_true = if then.is_empty() { next } else { label + 1 };
                let if_false = if otherwise.is_empty() {
                    next
                } else {
                    first_otherwise
                };
                self.test_code(test, if_true, if_false)
            }
            Instruction::Call {
                procedure,
                arguments,
            } => self.call_code(usize::from(*procedure), arguments, next),
            Instruction::Atomic { body } => [self.atomic_code(body), self.pc(next)].concat(),
            // No concurrent program holds a select (number 4).
            Instruction::Select { .. } => Vec::new(),
        }
    }

    fn location(&self, x: u8) -> u16 {
        local_location(self.source, self.row, self.procedure, x)
    }

    /// "To load x: tmp := location of x; x := tmp[tid]."
    fn load(&self, x: u8) -> Block {
        vec![point(self.location(x)), get(FIRST_LOCAL + x, local(TID))]
    }

    /// "Loads go over distinct variables, rising."
    fn loads(&self, variables: &BTreeSet<u8>) -> Block {
        variables.iter().flat_map(|x| self.load(*x)).collect()
    }

    /// tmp := location; tmp[tid] := value
    fn store(&self, location: u16, value: Expression) -> Block {
        vec![point(location), put(local(TID), value)]
    }

    /// ""pc" is tmp := pct; tmp[tid] := label."
    fn pc(&self, label: usize) -> Block {
        self.store(pct(self.source), whole(label))
    }

    /// assign: "tmp := location of x; tmp[tid] := e", without its pc
    fn assign_code(&self, target: u8, value: &Expression) -> Block {
        let mut code = self.loads(&value.variables());
        code.extend(self.store(self.location(target), moved(value)));
        code
    }

    /// read: "load o's k variables, load p; x := p[o]; store x as above", without its pc
    fn read_code(&self, target: u8, pointer: u8, index: &Expression) -> Block {
        let mut code = self.loads(&index.variables());
        code.extend(self.load(pointer));
        code.push(Instruction::Read {
            target: FIRST_LOCAL + target,
            pointer: FIRST_LOCAL + pointer,
            index: moved(index),
        });
        code.extend(self.store(self.location(target), local(FIRST_LOCAL + target)));
        code
    }

    /// write: "load e's j, then o's k, then p; p[o] := e", without its pc
    fn write_code(&self, pointer: u8, index: &Expression, value: &Expression) -> Block {
        let mut code = self.loads(&value.variables());
        code.extend(self.loads(&index.variables()));
        code.extend(self.load(pointer));
        code.push(Instruction::Write {
            pointer: FIRST_LOCAL + pointer,
            index: moved(index),
            value: moved(value),
        });
        code
    }

    /// if, while: "tmp := pct; if e, each branch holding one tmp[tid] := label"
    fn test_code(&self, test: &Expression, if_true: usize, if_false: usize) -> Block {
        let mut code = self.loads(&test.variables());
        code.push(point(pct(self.source)));
        code.push(Instruction::If {
            test: moved(test),
            then: vec![put(local(TID), whole(if_true))],
            otherwise: vec![put(local(TID), whole(if_false))],
        });
        code
    }

    /// call: "store each argument in its parameter; store next label in from(m); pc to its
    /// beginning". "For a call, k counts the variables of all arguments together."
    fn call_code(&self, callee: usize, arguments: &[Expression], next: usize) -> Block {
        let variables = arguments.iter().flat_map(Expression::variables).collect();
        let mut code = self.loads(&variables);
        for (parameter, argument) in arguments.iter().enumerate() {
            let location = local_location(self.source, self.row, callee, parameter as u8);
            code.extend(self.store(location, moved(argument)));
        }
        code.extend(self.store(from(self.source, callee), whole(next)));
        code.extend(self.pc(labels::begin(self.source, callee)));
        code
    }

    /// end label: "tmp := from; aux := tmp[tid]; tmp := pct; tmp[tid] := aux"
    fn return_code(&self) -> Block {
        let mut code = vec![
            point(from(self.source, self.procedure)),
            get(AUX, local(TID)),
        ];
        code.extend(self.store(pct(self.source), local(AUX)));
        code
    }

    /// atomic: "its instructions in place without pc; an inner if keeps its blocks"
    fn atomic_code(&self, block: &Block) -> Block {
        block.iter().flat_map(|i| self.code_in_place(i)).collect()
    }

    fn code_in_place(&self, instruction: &Instruction) -> Block {
        match instruction {
            Instruction::Assign { target, value } => self.assign_code(*target, value),
            Instruction::Read {
                target,
                pointer,
                index,
            } => self.read_code(*target, *pointer, index),
            Instruction::Write {
                pointer,
                index,
                value,
            } => self.write_code(*pointer, index, value),
            Instruction::If {
                test,
                then,
                otherwise,
            } => {
                let mut code = self.loads(&test.variables());
                code.push(Instruction::If {
                    test: moved(test),
                    then: self.atomic_code(then),
                    otherwise: self.atomic_code(otherwise),
                });
                code
            }
            // "within it no while, call or atomic" (number 4).
            _ => Vec::new(),
        }
    }
}

/// The same expression over the loaded variables: "local i as 3+i".
fn moved(expression: &Expression) -> Expression {
    match expression {
        Expression::Constant(value) => Expression::Constant(*value),
        Expression::Local(x) => local(FIRST_LOCAL + x),
        Expression::One(operator, operand) => Expression::One(*operator, Box::new(moved(operand))),
        Expression::Two(operator, left, right) => two(*operator, moved(left), moved(right)),
    }
}
