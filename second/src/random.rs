//! Random programs and schedules from a fixed seed.

use crate::builder::*;
use crate::concurrent::Concurrent;
use crate::expression::{Expression, Two};
use crate::program::{Block, Instruction, Kind, Procedure, Program};
use std::collections::BTreeSet;

/// splitmix64
#[derive(Clone, Debug)]
pub struct Random {
    state: u64,
}

impl Random {
    pub fn new(seed: u64) -> Random {
        Random { state: seed }
    }

    pub fn draw(&mut self) -> u64 {
        self.state = self.state.wrapping_add(0x9E37_79B9_7F4A_7C15);
        let mut z = self.state;
        z = (z ^ (z >> 30)).wrapping_mul(0xBF58_476D_1CE4_E5B9);
        z = (z ^ (z >> 27)).wrapping_mul(0x94D0_49BB_1331_11EB);
        z ^ (z >> 31)
    }

    /// A number below `bound`, which is not 0.
    pub fn below(&mut self, bound: usize) -> usize {
        (self.draw() % bound as u64) as usize
    }

    /// A number from `low` to `high`, both included.
    pub fn between(&mut self, low: usize, high: usize) -> usize {
        low + self.below(high - low + 1)
    }

    pub fn percent(&mut self, percent: usize) -> bool {
        self.below(100) < percent
    }

    pub fn pick<T: Clone>(&mut self, of: &[T]) -> T {
        of[self.below(of.len())].clone()
    }

    pub fn byte(&mut self) -> u8 {
        self.draw() as u8
    }
}

/// The kind of value that a local is meant to hold. Mistakes are made on purpose now and then.
#[derive(Clone, Copy, PartialEq, Eq, Debug)]
enum Sort {
    Number,
    Truth,
    Place,
}

/// What a procedure looks like from outside, and the sorts of all its locals.
#[derive(Clone, Debug)]
struct Signature {
    parameters: u8,
    sorts: Vec<Sort>,
}

/// How large random programs are made.
#[derive(Clone, Copy, PartialEq, Eq, Debug)]
pub enum Scale {
    Small,
    /// Up to the paper's limits of procedures, locals, locations and threads.
    Large,
}

/// A random program of the kind. Most are accepted; a few break rule 5 or 8.
pub fn program_of(kind: Kind, scale: Scale, random: &mut Random) -> Program {
    let sizes = random_sizes(kind, scale, random);
    let signatures = random_signatures(kind, scale, !sizes.is_empty(), random);
    let careless = scale == Scale::Small && random.percent(3);
    let mut maker = Maker {
        random,
        kind,
        scale,
        sizes: &sizes,
        signatures: &signatures,
        careless,
        scope: Scope::new(0, 0),
        room: 0,
    };
    let count = signatures.len();
    let procedures: Vec<Procedure> = (0..count).map(|number| maker.procedure(number)).collect();
    let mains = match kind {
        Kind::Concurrent => random_mains(&signatures, random),
        Kind::Sequential => Vec::new(),
    };
    Program {
        procedures,
        sizes,
        mains,
    }
}

fn random_sizes(kind: Kind, scale: Scale, random: &mut Random) -> Vec<u16> {
    if scale == Scale::Large {
        let (count, most) = match kind {
            Kind::Concurrent => (random.between(20, 64), 32),
            Kind::Sequential => (random.between(100, 512), 16),
        };
        return (0..count).map(|_| random.between(1, most) as u16).collect();
    }
    let fewest = match kind {
        Kind::Concurrent => usize::from(!random.percent(5)),
        Kind::Sequential => 2,
    };
    let size = |random: &mut Random| match random.below(12) {
        0 => random.between(1, 20) as u16,
        _ => random.between(1, 4) as u16,
    };
    (0..random.between(fewest, 4))
        .map(|_| size(random))
        .collect()
}

/// Procedure 0 has no parameters; the others may have some.
fn random_signatures(
    kind: Kind,
    scale: Scale,
    has_locations: bool,
    random: &mut Random,
) -> Vec<Signature> {
    let count = match scale {
        Scale::Small => random.pick(&[1, 1, 2, 2, 3, 4]),
        Scale::Large => random.between(8, 16),
    };
    let most_locals = match kind {
        Kind::Concurrent => 16,
        Kind::Sequential => 32,
    };
    let signature = |number: usize, random: &mut Random| {
        let most = match (number, scale) {
            (0, _) => 0,
            (_, Scale::Small) => 3,
            (_, Scale::Large) => 6,
        };
        let parameters = random.between(0, most);
        let locals = match (random.below(30), scale) {
            (0, _) => parameters,
            (1, _) | (_, Scale::Large) => random.between(10, most_locals),
            _ => parameters + random.between(1, 4),
        };
        Signature {
            parameters: parameters as u8,
            sorts: (0..locals)
                .map(|_| random_sort(has_locations, random))
                .collect(),
        }
    };
    (0..count).map(|number| signature(number, random)).collect()
}

fn random_sort(has_locations: bool, random: &mut Random) -> Sort {
    match random.below(10) {
        0..=4 => Sort::Number,
        5..=6 => Sort::Truth,
        _ if has_locations => Sort::Place,
        _ => Sort::Number,
    }
}

fn random_mains(signatures: &[Signature], random: &mut Random) -> Vec<u16> {
    let starters: Vec<u16> = (0..signatures.len() as u16)
        .filter(|number| signatures[usize::from(*number)].parameters == 0)
        .collect();
    let threads = random.pick(&[1, 2, 2, 2, 3, 3, 4, 8, 32]);
    (0..threads).map(|_| random.pick(&starters)).collect()
}

/// Where the maker is: the procedure and the locals that are set there.
#[derive(Clone, Debug)]
struct Scope {
    procedure: usize,
    set: BTreeSet<u8>,
    in_atomic: bool,
    depth: usize,
}

impl Scope {
    fn new(procedure: usize, parameters: u8) -> Scope {
        Scope {
            procedure,
            set: (0..parameters).collect(),
            in_atomic: false,
            depth: 1,
        }
    }
}

struct Maker<'a> {
    random: &'a mut Random,
    kind: Kind,
    scale: Scale,
    sizes: &'a [u16],
    signatures: &'a [Signature],
    careless: bool,
    scope: Scope,
    /// How many more instructions the procedure may get.
    room: usize,
}

impl Maker<'_> {
    fn procedure(&mut self, number: usize) -> Procedure {
        let parameters = self.signatures[number].parameters;
        self.scope = Scope::new(number, parameters);
        self.room = match (self.scale, self.random.below(15)) {
            (_, 0) => 0,
            (Scale::Large, _) => self.random.between(4, 18),
            (_, 1) => 25,
            _ => self.random.between(2, 12),
        };
        let mut body = Block::new();
        if self.kind == Kind::Sequential && number == 0 {
            body.extend(self.open_doors());
        }
        while self.room > 0 {
            body.extend(self.piece());
        }
        if self.random.percent(1) {
            body.extend(nested(15));
        }
        Procedure {
            parameters,
            locals: self.signatures[number].sorts.len() as u8,
            body,
        }
    }

    fn sorts(&self) -> &[Sort] {
        &self.signatures[self.scope.procedure].sorts
    }

    /// The locals of a sort; only those that are set, unless the program is careless.
    fn readable(&mut self, sort: Sort) -> Vec<u8> {
        let anything = self.careless && self.random.percent(15);
        let set = &self.scope.set;
        let all = (0u8..).zip(self.sorts());
        let wanted = all.filter(|(x, s)| **s == sort && (anything || set.contains(x)));
        wanted.map(|(x, _)| x).collect()
    }

    /// A local of a sort to be changed.
    fn target(&mut self, sort: Sort) -> Option<u8> {
        if self.careless && self.random.percent(2) {
            return Some(self.random.byte() % 20);
        }
        let all = (0u8..).zip(self.sorts());
        let wanted: Vec<u8> = all.filter(|(_, s)| **s == sort).map(|(x, _)| x).collect();
        if wanted.is_empty() {
            return None;
        }
        Some(self.random.pick(&wanted))
    }

    // ---- expressions ----

    fn expression(&mut self, sort: Sort) -> Expression {
        if self.random.percent(1) {
            return self.deep(sort);
        }
        let depth = self.random.pick(&[1, 1, 2, 2, 3, 4]);
        self.expression_of(sort, depth)
    }

    /// Up to 16 deep.
    fn deep(&mut self, sort: Sort) -> Expression {
        let times = self.random.between(8, 15);
        let leaf = self.leaf(sort);
        (0..times).fold(leaf, |inner, _| match sort {
            Sort::Number if self.random.percent(50) => negate(inner),
            Sort::Number => subtract(number(1), inner),
            Sort::Truth if self.random.percent(50) => not(inner),
            Sort::Truth => equal(truth(true), inner),
            Sort::Place => inner,
        })
    }

    fn expression_of(&mut self, sort: Sort, depth: usize) -> Expression {
        let sort = if self.random.below(250) == 0 {
            self.random.pick(&[Sort::Number, Sort::Truth, Sort::Place])
        } else {
            sort
        };
        if depth <= 1 {
            return self.leaf(sort);
        }
        match sort {
            Sort::Number => self.number_operator(depth - 1),
            Sort::Truth => self.truth_operator(depth - 1),
            Sort::Place => self.leaf(sort),
        }
    }

    fn leaf(&mut self, sort: Sort) -> Expression {
        let readable = self.readable(sort);
        if !readable.is_empty() && self.random.percent(70) {
            return local(self.random.pick(&readable));
        }
        match sort {
            Sort::Number => number(self.some_number()),
            Sort::Truth => truth(self.random.percent(50)),
            Sort::Place if self.sizes.is_empty() => number(0),
            Sort::Place => location(self.random.below(self.sizes.len()) as u16),
        }
    }

    fn some_number(&mut self) -> i32 {
        match self.random.below(60) {
            0 => i32::MAX,
            1 => i32::MIN,
            2 => self.random.draw() as i32,
            _ => self.random.between(0, 9) as i32 - 2,
        }
    }

    fn number_operator(&mut self, depth: usize) -> Expression {
        let left = self.expression_of(Sort::Number, depth);
        match self.random.below(8) {
            0 => negate(left),
            1..=2 => subtract(left, self.expression_of(Sort::Number, depth)),
            3 => multiply(left, self.expression_of(Sort::Number, depth)),
            _ => add(left, self.expression_of(Sort::Number, depth)),
        }
    }

    fn truth_operator(&mut self, depth: usize) -> Expression {
        let operator = self.random.pick(&[Two::Less, Two::Equal, Two::And]);
        if self.random.percent(20) {
            return not(self.expression_of(Sort::Truth, depth));
        }
        let sort = match operator {
            Two::And => Sort::Truth,
            Two::Equal => self
                .random
                .pick(&[Sort::Number, Sort::Number, Sort::Truth, Sort::Place]),
            _ => Sort::Number,
        };
        let left = self.expression_of(sort, depth);
        two(operator, left, self.expression_of(sort, depth))
    }

    // ---- instructions ----

    /// One or a few instructions that belong together.
    fn piece(&mut self) -> Block {
        self.room = self.room.saturating_sub(1);
        let inside = self.scope.in_atomic;
        let shallow = self.scope.depth < 4;
        match self.random.below(100) {
            0..=29 => self.assignment(),
            30..=46 => self.writing(),
            47..=63 => self.reading(),
            64..=73 if shallow => self.branching(),
            74..=80 if shallow && !inside => self.looping(),
            81..=88 if !inside => self.calling(),
            89..=99 if !inside && self.kind == Kind::Concurrent => self.atomically(),
            89..=99 if self.kind == Kind::Sequential && self.scope.procedure == 0 => {
                self.selecting()
            }
            _ => self.assignment(),
        }
    }

    fn assignment(&mut self) -> Block {
        let sort = self.random.pick(&[Sort::Number, Sort::Truth, Sort::Place]);
        let Some(target) = self.target(sort) else {
            return Block::new();
        };
        let value = self.expression(sort);
        self.scope.set.insert(target);
        vec![assign(target, value)]
    }

    /// A pointer that is set, most often by an assignment put before the access, and an index.
    fn pointer(&mut self, code: &mut Block) -> Option<(u8, Expression)> {
        if self.sizes.is_empty() {
            return None;
        }
        let readable = self.readable(Sort::Place);
        if !readable.is_empty() && self.random.percent(35) {
            let pointer = self.random.pick(&readable);
            return Some((pointer, self.index(1)));
        }
        let pointer = self.target(Sort::Place)?;
        let place = self.random.below(self.sizes.len());
        code.push(assign(pointer, location(place as u16)));
        self.scope.set.insert(pointer);
        Some((pointer, self.index(usize::from(self.sizes[place]))))
    }

    fn index(&mut self, size: usize) -> Expression {
        let inside = number(self.random.below(size) as i32);
        match self.random.below(40) {
            0 => self.expression(Sort::Number),
            1 => number(self.random.between(0, size) as i32),
            2 => number(size as i32),
            3..=12 => add(inside, self.nought()),
            13..=15 => self.nought(),
            _ => inside,
        }
    }

    /// The number 0, most often written with variables.
    fn nought(&mut self) -> Expression {
        let x = self.leaf(Sort::Number);
        multiply(number(0), x)
    }

    fn writing(&mut self) -> Block {
        let mut code = Block::new();
        let Some((pointer, index)) = self.pointer(&mut code) else {
            return code;
        };
        let sort = match self.random.below(25) {
            0 => Sort::Truth,
            1 => Sort::Place,
            _ => Sort::Number,
        };
        code.push(write(pointer, index, self.expression(sort)));
        code
    }

    fn reading(&mut self) -> Block {
        let mut code = Block::new();
        let Some((pointer, index)) = self.pointer(&mut code) else {
            return code;
        };
        let sort = match self.random.below(30) {
            0 => Sort::Truth,
            1 => Sort::Place,
            _ => Sort::Number,
        };
        let Some(target) = self.target(sort) else {
            return code;
        };
        code.push(read(target, pointer, index));
        self.scope.set.insert(target);
        code
    }

    /// A block one deeper; afterwards the scope is as before but for what the block has set.
    fn inner_block(&mut self, most: usize) -> (Block, BTreeSet<u8>) {
        let before = self.scope.clone();
        self.scope.depth += 1;
        let mut block = Block::new();
        for _ in 0..self.random.between(0, most) {
            if self.room > 0 {
                block.extend(self.piece());
            }
        }
        let set = std::mem::replace(&mut self.scope, before).set;
        (block, set)
    }

    fn branching(&mut self) -> Block {
        let test = self.expression(Sort::Truth);
        let (then, set_by_then) = self.inner_block(3);
        let (otherwise, set_by_otherwise) = self.inner_block(3);
        self.scope.set = &set_by_then & &set_by_otherwise;
        vec![if_else(test, then, otherwise)]
    }

    /// Most often a loop that counts; else one with any test, which may be endless.
    fn looping(&mut self) -> Block {
        if self.random.percent(15) {
            let test = self.expression(Sort::Truth);
            return vec![while_do(test, self.inner_block(3).0)];
        }
        let Some(counter) = self.target(Sort::Number) else {
            return Block::new();
        };
        self.scope.set.insert(counter);
        let (mut body, _) = self.inner_block(2);
        body.push(assign(counter, add(local(counter), number(1))));
        let bound = self.random.between(0, 3) as i32;
        vec![
            assign(counter, number(0)),
            while_do(less(local(counter), number(bound)), body),
        ]
    }

    /// A call of a later procedure, so that none reaches itself.
    fn calling(&mut self) -> Block {
        let first = self.scope.procedure + 1;
        if first >= self.signatures.len() {
            return Block::new();
        }
        let callee = self.random.between(first, self.signatures.len() - 1);
        let signature = &self.signatures[callee];
        let sorts = &signature.sorts[..usize::from(signature.parameters)];
        let arguments = sorts.iter().map(|sort| self.expression(*sort)).collect();
        vec![call(callee as u16, arguments)]
    }

    fn atomically(&mut self) -> Block {
        self.scope.in_atomic = true;
        let (body, set) = self.inner_block(5);
        self.scope.in_atomic = false;
        self.scope.set = set;
        vec![atomic(body)]
    }

    // ---- sequential programs only ----

    /// Writes numbers other than 0 into the first cells of the last location, so that selects from
    /// it can succeed.
    fn open_doors(&mut self) -> Block {
        let Some(pointer) = self.target(Sort::Place) else {
            return Block::new();
        };
        let last = self.sizes.len() - 1;
        let mut code = vec![assign(pointer, location(last as u16))];
        self.scope.set.insert(pointer);
        for index in 0..i32::from(self.sizes[last]).min(4) {
            let value = self.random.pick(&[1, 1, 2, -1]);
            code.push(write(pointer, number(index), number(value)));
        }
        code
    }

    fn selecting(&mut self) -> Block {
        let last = self.sizes.len() - 1;
        let any = self.random.below(self.sizes.len());
        let a = self.random.below(last) as u16;
        let b = if self.random.percent(95) { last } else { any };
        vec![select(a, b as u16)]
    }
}

/// A schedule for a concurrent program that the reader accepts: threads that can still go on are
/// chosen at random. Sometimes it is cut, goes on behind the end, or holds any entries.
pub fn schedule_for(program: &Program, most: usize, random: &mut Random) -> Vec<u8> {
    let threads = program.mains.len();
    let mut schedule = Vec::new();
    let mut machine = Concurrent::new(program);
    let favourite = random.below(threads);
    while schedule.len() < most && !machine.is_finished() {
        let going: Vec<usize> = (0..threads)
            .filter(|thread| !machine.threads[*thread].is_empty())
            .collect();
        let thread = match going.contains(&favourite) && random.percent(25) {
            true => favourite,
            false => random.pick(&going),
        };
        schedule.push(thread as u8);
        if machine.step(thread).is_err() {
            break;
        }
    }
    change_schedule(&mut schedule, threads, random);
    schedule
}

fn change_schedule(schedule: &mut Vec<u8>, threads: usize, random: &mut Random) {
    match random.below(20) {
        0..=1 => {
            let rest = random.below(schedule.len() + 1);
            schedule.truncate(rest);
        }
        2 => schedule.extend((0..random.between(1, 5)).map(|_| 0)),
        3 if !schedule.is_empty() => {
            let place = random.below(schedule.len());
            schedule[place] = random.below(threads) as u8;
        }
        4 => {
            let length = random.below(40);
            *schedule = (0..length).map(|_| random.below(threads) as u8).collect();
        }
        _ => {}
    }
}

/// Bytes that are changed, cut or lengthened at random.
pub fn damaged(table: &[u8], random: &mut Random) -> Vec<u8> {
    let mut bytes = table.to_vec();
    for _ in 0..random.pick(&[1, 1, 1, 2, 3]) {
        damage(&mut bytes, random);
    }
    bytes
}

fn damage(bytes: &mut Vec<u8>, random: &mut Random) {
    if bytes.is_empty() {
        bytes.push(random.byte());
        return;
    }
    let place = random.below(bytes.len());
    let before_trailer = place.min(bytes.len().saturating_sub(17));
    match random.below(24) {
        0 => bytes.truncate(place),
        1 => bytes.push(random.byte()),
        2 => bytes.insert(place, random.byte()),
        3 => {
            bytes.remove(place);
        }
        // A change of length that the trailer agrees with.
        4..=5 if bytes.len() > 16 => {
            bytes.remove(before_trailer);
            tell_length(bytes);
        }
        6..=7 if bytes.len() > 16 => {
            bytes.insert(before_trailer, random.byte());
            tell_length(bytes);
        }
        8..=12 => bytes[place] ^= 1 << random.below(8),
        13..=18 => {
            bytes[place] = random.pick(&[
                0x00, 0x01, 0x02, 0x03, 0x04, 0x05, 0x10, 0x13, 0x14, 0x15, 0x16, 0x17, 0x20, 0x21,
                0x22, 0x23, 0x24, 0x25, 0x26, 0x27,
            ]);
        }
        _ => bytes[place] = random.byte(),
    }
}

/// Writes the length into the trailer, where there is one.
fn tell_length(bytes: &mut [u8]) {
    let length = bytes.len();
    if length >= 16 {
        bytes[length - 4..].copy_from_slice(&(length as u32).to_le_bytes());
    }
}

/// True if an instruction of this shape stands anywhere in the program.
pub fn holds(program: &Program, shape: fn(&Instruction) -> bool) -> bool {
    program
        .procedures
        .iter()
        .any(|procedure| block_holds(&procedure.body, shape))
}

fn block_holds(block: &Block, shape: fn(&Instruction) -> bool) -> bool {
    block.iter().any(|instruction| {
        shape(instruction)
            || match instruction {
                Instruction::While { body, .. } | Instruction::Atomic { body } => {
                    block_holds(body, shape)
                }
                Instruction::If {
                    then, otherwise, ..
                } => block_holds(then, shape) || block_holds(otherwise, shape),
                _ => false,
            }
    })
}
