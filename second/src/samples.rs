//! Tables written by hand, each with the number that the paper gives for it.

use crate::builder::*;
use crate::expression::Expression;
use crate::placement::Mode;
use crate::program::{Block, Instruction, Kind, Procedure, Program};
use crate::write;

/// A table, the reader it is given to and the number that must be answered; 0 is accepted.
#[derive(Clone, Debug)]
pub struct Judged {
    pub name: &'static str,
    pub kind: Kind,
    pub number: u8,
    pub table: Vec<u8>,
}

/// "A: 00 / 00 00 00 00 00 00 / 00 00 / 43 50 01 00 00 00 01 00 08 00 00 00 19 00 00 00"
pub const A: [u8; 25] = [
    0x00, //
    0x00, 0x00, 0x00, 0x00, 0x00, 0x00, //
    0x00, 0x00, //
    0x43, 0x50, 0x01, 0x00, 0x00, 0x00, 0x01, 0x00, 0x08, 0x00, 0x00, 0x00, 0x19, 0x00, 0x00, 0x00,
];

/// "B: one location of size 1; one procedure, locals p, v; p := location 0; v := p[0];
/// p[0] := v + 1; two threads."
pub fn b() -> Program {
    let body = vec![
        assign(0, location(0)),
        read(1, 0, number(0)),
        write(0, number(0), add(local(1), number(1))),
    ];
    program(vec![procedure(0, 2, body)], &[1], &[0, 0])
}

/// One thread, one location of size 2, one procedure without parameters.
pub fn one_thread(locals: u8, body: Block) -> Program {
    program(vec![procedure(0, locals, body)], &[2], &[0])
}

/// One location of size 2 and procedure 0.
pub fn sequential(locals: u8, body: Block) -> Program {
    program(vec![procedure(0, locals, body)], &[2], &[])
}

/// All the judged tables.
pub fn judged() -> Vec<Judged> {
    let mut all = Vec::new();
    all.extend(accepted());
    for kind in [Kind::Concurrent, Kind::Sequential] {
        all.extend(number_1(kind));
        all.extend(number_2(kind));
        all.extend(number_3(kind));
        all.extend(number_4(kind));
        all.extend(number_5(kind));
        all.extend(number_7(kind));
        all.extend(number_8(kind));
        all.extend(smallest_number(kind));
    }
    all.extend(number_6());
    all
}

/// Collects tables under one kind and number.
struct Shelf {
    kind: Kind,
    number: u8,
    tables: Vec<Judged>,
}

impl Shelf {
    fn new(kind: Kind, number: u8) -> Shelf {
        Shelf {
            kind,
            number,
            tables: Vec::new(),
        }
    }

    fn bytes(&mut self, name: &'static str, table: Vec<u8>) {
        self.tables.push(Judged {
            name,
            kind: self.kind,
            number: self.number,
            table,
        });
    }

    fn fields(&mut self, name: &'static str, change: impl FnOnce(&mut Fields)) {
        let mut fields = Fields::new(&base(self.kind));
        change(&mut fields);
        self.bytes(name, fields.bytes());
    }

    fn program(&mut self, name: &'static str, program: Program) {
        self.bytes(name, write::table(&program, self.kind));
    }

    /// The base program with this body of procedure 0, which has 2 locals.
    fn body(&mut self, name: &'static str, body: Block) {
        let mut program = base(self.kind);
        program.procedures[0].body = body;
        self.program(name, program);
    }

    /// The base program with these bytes as the body of procedure 0.
    fn body_bytes(&mut self, name: &'static str, body: &[u8]) {
        let base = base(self.kind);
        let mut fields = Fields::empty(self.kind);
        fields.sizes = base.sizes.clone();
        fields.mains = base.mains.clone();
        fields.push(0, 2, body);
        for procedure in &base.procedures[1..] {
            let bytes = write::block(&procedure.body);
            fields.push(procedure.parameters, procedure.locals, &bytes);
        }
        self.bytes(name, fields.bytes());
    }
}

/// A right program: procedure 0 with 2 locals, procedure 1 with 2 parameters and 3 locals,
/// locations of sizes 2 and 1; two threads, or none.
fn base(kind: Kind) -> Program {
    let main = vec![assign(0, number(5)), call(1, vec![local(0), truth(true)])];
    let helper = vec![
        assign(2, location(0)),
        write(2, number(1), local(0)),
        if_else(local(1), vec![read(0, 2, number(1))], vec![]),
    ];
    let mains: &[u16] = match kind {
        Kind::Concurrent => &[0, 0],
        Kind::Sequential => &[],
    };
    program(
        vec![procedure(0, 2, main), procedure(2, 3, helper)],
        &[2, 1],
        mains,
    )
}

fn accepted() -> Vec<Judged> {
    let mut shelf = Shelf::new(Kind::Concurrent, 0);
    shelf.bytes("A", A.to_vec());
    shelf.program("B", b());
    accepted_of_both(&mut shelf);
    shelf.program("1,000 labels", one_thread(1, assignments(999)));
    shelf.program("1,000 labels of 16 procedures", sixteen_procedures(984));
    shelf.body("an empty atomic block", vec![atomic(vec![])]);
    shelf.body(
        "an atomic block sets",
        vec![atomic(vec![assign(0, number(1))]), assign(1, local(0))],
    );
    shelf.fields("16 locals, 64 locations, 2,048 cells, 32 threads", |f| {
        f.records[0].1 = 16;
        f.sizes = vec![32; 64];
        f.mains = vec![0; 32];
    });
    shelf.bytes("16,384 bytes", table_of_length(Kind::Concurrent, 16_384));
    let mut sequentials = Shelf::new(Kind::Sequential, 0);
    accepted_of_both(&mut sequentials);
    sequentials.program(
        "1,001 labels do not matter",
        sequential(1, assignments(1_000)),
    );
    sequentials.fields("32 locals, 512 locations, 16,384 cells", |f| {
        f.records[0].1 = 32;
        f.sizes = vec![32; 512];
    });
    sequentials.program("1,024 procedures in a chain", chain_of_calls(1_024));
    sequentials.body(
        "select in while and if",
        vec![
            while_do(truth(false), vec![select(0, 1)]),
            if_else(truth(true), vec![select(1, 0)], vec![select(1, 1)]),
        ],
    );
    sequentials.bytes("65,536 bytes", table_of_length(Kind::Sequential, 65_536));
    [shelf.tables, sequentials.tables].concat()
}

fn accepted_of_both(shelf: &mut Shelf) {
    shelf.program("the base", base(shelf.kind));
    shelf.body("expression 16 deep", vec![assign(0, of_depth(16))]);
    shelf.body("block 16 deep", nested(15));
    shelf.body("no instruction", vec![]);
    shelf.body(
        "set in both branches",
        vec![
            if_else(
                truth(true),
                vec![assign(0, number(1))],
                vec![assign(0, truth(false))],
            ),
            assign(1, local(0)),
        ],
    );
    shelf.body(
        "set before a while",
        vec![
            assign(0, number(0)),
            while_do(
                less(local(0), number(3)),
                vec![assign(0, add(local(0), number(1)))],
            ),
            assign(1, local(0)),
        ],
    );
    shelf.body(
        "a pointer in its own index and value",
        vec![
            assign(0, location(0)),
            write(0, number(0), local(0)),
            write(0, local(0), local(0)),
            read(1, 0, add(local(0), number(1))),
            read(0, 0, local(0)),
        ],
    );
    shelf.fields("sizes 1 and 256", |f| f.sizes = vec![1, 256]);
    let diamond = vec![
        procedure(0, 0, vec![call(1, vec![]), call(2, vec![])]),
        procedure(0, 0, vec![call(3, vec![])]),
        procedure(0, 0, vec![call(3, vec![]), call(1, vec![])]),
        procedure(0, 0, vec![]),
    ];
    shelf.program(
        "one procedure called by three",
        with_kind(shelf.kind, diamond),
    );
}

/// Procedures without locations, one thread or none.
fn with_kind(kind: Kind, procedures: Vec<Procedure>) -> Program {
    match kind {
        Kind::Concurrent => program(procedures, &[], &[0]),
        Kind::Sequential => program(procedures, &[], &[]),
    }
}

fn assignments(count: usize) -> Block {
    vec![assign(0, truth(true)); count]
}

/// 16 procedures that share this many assignments.
fn sixteen_procedures(count: usize) -> Program {
    let share = |i: usize| count / 16 + usize::from(i < count % 16);
    let procedures = (0..16).map(|i| procedure(0, 1, assignments(share(i))));
    program(procedures.collect(), &[], &[3])
}

/// Each procedure calls the next one.
fn chain_of_calls(count: usize) -> Program {
    let body = |i: usize| match i + 1 < count {
        true => vec![call(i as u16 + 1, vec![])],
        false => vec![],
    };
    let procedures = (0..count).map(|i| procedure(0, 0, body(i)));
    program(procedures.collect(), &[], &[])
}

/// A right table of exactly this length: assignments of 3 and 4 bytes in an atomic block or,
/// sequential, in a while.
pub fn table_of_length(kind: Kind, length: usize) -> Vec<u8> {
    let make = |fours: usize, threes: usize| {
        let mut body = vec![assign(0, not(truth(true))); fours];
        body.extend(vec![assign(0, truth(true)); threes]);
        match kind {
            Kind::Concurrent => table(&one_thread(1, vec![atomic(body)])),
            Kind::Sequential => table(&sequential(1, vec![while_do(truth(false), body)])),
        }
    };
    let rest = length - make(0, 0).len();
    let fours = rest % 3;
    make(fours, (rest - 4 * fours) / 3)
}

/// The last 8 of the deepest program's threads take turns until they are finished.
pub fn deepest_turns() -> Vec<u8> {
    let steps = 8 * (15 * 16 + 3 + 15);
    (0..steps).map(|step| 24 + (step % 8) as u8).collect()
}

/// Everything as deep and as wide as the rules allow: as many procedures as there may be, each with
/// all its locals, calling in a row; each call of a concurrent program, and the last write of either,
/// at the bottom of 16 blocks; each expression 16 deep; all cells.
pub fn deepest(kind: Kind) -> Program {
    let (procedures, parameters, locals) = match kind {
        Kind::Concurrent => (16, 15, 16),
        Kind::Sequential => (1_024, 2, 32),
    };
    let procedures = (0..procedures).map(|i| {
        let body = match (i + 1 < procedures, kind) {
            (true, Kind::Concurrent) => in_ifs(15, vec![deep_call(i + 1, parameters)]),
            (true, Kind::Sequential) => vec![deep_call(i + 1, parameters)],
            (false, _) => deep_writes(kind, locals - 1),
        };
        procedure(if i == 0 { 0 } else { parameters }, locals, body)
    });
    let procedures = procedures.collect();
    match kind {
        Kind::Concurrent => program(procedures, &[32; 64], &[0; 32]),
        Kind::Sequential => program(procedures, &[32; 512], &[]),
    }
}

fn deep_call(callee: u16, parameters: u8) -> Instruction {
    call(callee, vec![of_depth(16); usize::from(parameters)])
}

/// Writes a cell and reads it back, at the bottom of 16 blocks.
fn deep_writes(kind: Kind, pointer: u8) -> Block {
    let index = || (1..16).fold(number(0), |inner, _| negate(inner));
    let both = vec![
        write(pointer, index(), of_depth(16)),
        read(0, pointer, index()),
    ];
    let inner = match kind {
        Kind::Concurrent => vec![atomic(in_ifs(14, both))],
        Kind::Sequential => in_ifs(15, both),
    };
    [vec![assign(pointer, location(0))], inner].concat()
}

/// A block inside so many ifs, each with a true test 16 deep.
fn in_ifs(count: usize, block: Block) -> Block {
    let test = || (1..16).fold(truth(true), |inner, _| and(truth(true), inner));
    (0..count).fold(block, |inner, _| vec![if_else(test(), inner, Vec::new())])
}

/// "1: under 16 bytes; wrong kind marks, distance or length; distance over length - 16"
fn number_1(kind: Kind) -> Vec<Judged> {
    let mut shelf = Shelf::new(kind, 1);
    let right = write::table(&base(kind), kind);
    shelf.bytes("no byte", vec![]);
    shelf.bytes("15 bytes", right[right.len() - 15..].to_vec());
    shelf.bytes("a trailer alone", right[right.len() - 16..].to_vec());
    shelf.bytes("the first byte is missing", right[1..].to_vec());
    shelf.bytes(
        "the last byte is missing",
        right[..right.len() - 1].to_vec(),
    );
    shelf.bytes("one byte more", [right.clone(), vec![0]].concat());
    shelf.fields("marks of the other kind", |f| f.marks[0] ^= 0x10);
    shelf.fields("form 2", |f| f.marks[1] = 0x51);
    shelf.fields("distance 0", |f| f.distance = Some(0));
    shelf.fields("distance with a high byte", |f| {
        f.distance = Some(right_distance(f) + 0x0100_0000)
    });
    shelf.fields("length 0", |f| f.length = Some(0));
    shelf.fields("distance two too small", |f| {
        f.distance = Some(right_distance(f) - 2)
    });
    shelf.fields("distance two too large", |f| {
        f.distance = Some(right_distance(f) + 2)
    });
    shelf.fields("one procedure has no room", |f| {
        *f = Fields::empty(kind);
        f.counts = Some([1, 0, 0]);
    });
    shelf.fields("all counts 65,535", |f| f.counts = Some([65_535; 3]));
    shelf.tables
}

fn right_distance(fields: &Fields) -> u32 {
    (6 * fields.records.len() + 2 * fields.sizes.len() + 2 * fields.mains.len()) as u32
}

/// "2: concurrent: over 16,384 bytes, P not 1..16, M over 64, T not 1..8. Sequential: over 65,536
/// bytes, P not 1..512, M over 512, T not 0"; T and P by request #110
fn number_2(kind: Kind) -> Vec<Judged> {
    let mut shelf = Shelf::new(kind, 2);
    let (p, m, length) = match kind {
        Kind::Concurrent => (17, 65, 16_385),
        Kind::Sequential => (1_025, 513, 65_537),
    };
    shelf.fields("P is 0", |f| f.records.clear());
    shelf.fields("P is one too many", |f| {
        while f.records.len() < p {
            f.push(0, 0, &[0x00]);
        }
    });
    shelf.fields("M is one too many", |f| f.sizes = vec![1; m]);
    shelf.bytes("one byte too long", table_of_length(kind, length));
    match kind {
        Kind::Concurrent => {
            shelf.fields("T is 0", |f| f.mains.clear());
            shelf.fields("T is 33", |f| f.mains = vec![0; 33]);
            shelf.fields("T is 256", |f| f.mains = vec![0; 256]);
        }
        Kind::Sequential => {
            shelf.fields("T is 1", |f| f.mains = vec![0]);
            shelf.fields("T is 256", |f| f.mains = vec![0; 256]);
        }
    }
    shelf.bytes(
        "no procedure, location or thread",
        Fields::empty(kind).bytes(),
    );
    shelf.tables
}

/// "3: parameters over locals; locals over 16 (sequential 32); size not 1..256; all sizes together
/// over 2,048 (sequential 8,192; since request #110 16,384); a main that is not below P or has
/// parameters (sequential: procedure 0)"
fn number_3(kind: Kind) -> Vec<Judged> {
    let mut shelf = Shelf::new(kind, 3);
    let (locals, cells) = match kind {
        Kind::Concurrent => (17, 2_048),
        Kind::Sequential => (33, 16_384),
    };
    shelf.fields("parameters over locals", |f| f.records[1].0 = 4);
    shelf.fields("one local too many", |f| f.records[0].1 = locals);
    shelf.fields("255 locals", |f| f.records[1].1 = 255);
    shelf.fields("size 0", |f| f.sizes[1] = 0);
    shelf.fields("size 257", |f| f.sizes[0] = 257);
    shelf.fields("size 65,535", |f| f.sizes[0] = 65_535);
    shelf.fields("one cell too many", |f| {
        f.sizes = vec![256; cells / 256];
        f.sizes.push(1);
    });
    shelf.fields("procedure 0 has a parameter", |f| f.records[0].0 = 1);
    if kind == Kind::Concurrent {
        shelf.fields("a main that is P", |f| f.mains[1] = 2);
        shelf.fields("a main that is 65,535", |f| f.mains[0] = 65_535);
        shelf.fields("a main with parameters", |f| f.mains[1] = 1);
    }
    shelf.tables
}

/// "4: bodies aren't blocks as above, are too deep, hold an instruction not allowed there, leave a
/// gap or differ from an offset"
fn number_4(kind: Kind) -> Vec<Judged> {
    let mut shelf = Shelf::new(kind, 4);
    shelf.body_bytes("no end of the body", &[0x20, 0x00, 0x04]);
    shelf.body_bytes("no body at all", &[]);
    shelf.body_bytes("no end of a while", &[0x23, 0x03, 0x00]);
    shelf.body_bytes("no else", &[0x24, 0x03, 0x00, 0x00]);
    shelf.body_bytes("mark 01 as an instruction", &[0x01, 0x00]);
    shelf.body_bytes("mark 1F", &[0x1F, 0x00, 0x04, 0x00]);
    shelf.body_bytes("mark 28", &[0x28, 0x00, 0x04, 0x00]);
    shelf.body_bytes("expression mark 00", &[0x20, 0x00, 0x00, 0x00]);
    shelf.body_bytes("expression mark 06", &[0x20, 0x00, 0x06, 0x00, 0x00]);
    shelf.body_bytes("expression mark 0F", &[0x20, 0x00, 0x0F, 0x04, 0x04, 0x00]);
    shelf.body_bytes("expression mark 18", &[0x20, 0x00, 0x18, 0x04, 0x00]);
    shelf.body_bytes(
        "an operand is missing",
        &[0x20, 0x00, 0x10, 0x05, 0x00, 0x00],
    );
    shelf.body_bytes(
        "an argument is missing",
        &[0x25, 0x01, 0x00, 0x02, 0x03, 0x00],
    );
    shelf.body_bytes(
        "an argument too many",
        &[0x25, 0x01, 0x00, 0x01, 0x03, 0x03, 0x00],
    );
    shelf.body("expression 17 deep", vec![assign(0, of_depth(17))]);
    shelf.body(
        "right operand 17 deep",
        vec![assign(0, (1..17).fold(number(1), |e, _| add(number(0), e)))],
    );
    shelf.body("empty block at depth 17", nested(16));
    shelf.body("empty else at depth 17", empty_else_at(17));
    shelf.fields("an offset too small", |f| f.records[1].2 -= 1);
    shelf.fields("an offset with a high byte", |f| {
        f.records[1].2 += 0x0100_0000
    });
    shelf.fields("the first offset is 1", |f| f.records[0].2 = 1);
    shelf.fields("a gap before the records", |f| f.bodies.push(0x00));
    shelf.fields("the last byte of the bodies is missing", |f| {
        f.bodies.pop();
    });
    shelf.fields("a gap between bodies", |f| {
        let second = f.records[1].2 as usize;
        f.bodies.insert(second, 0x00);
        f.records[1].2 += 1;
    });
    match kind {
        Kind::Concurrent => not_allowed_in_concurrent(&mut shelf),
        Kind::Sequential => not_allowed_in_sequential(&mut shelf),
    }
    shelf.tables
}

/// Ifs whose elses nest; the innermost is empty and at this depth.
fn empty_else_at(depth: usize) -> Block {
    (1..depth).fold(Vec::new(), |inner, _| {
        vec![if_else(truth(true), Vec::new(), inner)]
    })
}

fn not_allowed_in_concurrent(shelf: &mut Shelf) {
    let in_atomic = |i: Instruction| vec![atomic(vec![i])];
    let in_if = |i: Instruction| vec![atomic(vec![if_else(truth(true), vec![], vec![i])])];
    shelf.body("select", vec![select(0, 1)]);
    shelf.body("while in atomic", in_atomic(while_do(truth(false), vec![])));
    shelf.body(
        "call in atomic",
        in_atomic(call(1, vec![number(0), truth(true)])),
    );
    shelf.body("atomic in atomic", in_atomic(atomic(vec![])));
    shelf.body(
        "while in an if in atomic",
        in_if(while_do(truth(false), vec![])),
    );
    shelf.body(
        "call in an if in atomic",
        in_if(call(1, vec![number(0), truth(true)])),
    );
    shelf.body("atomic in an if in atomic", in_if(atomic(vec![])));
    shelf.body("select in atomic", in_atomic(select(0, 1)));
    shelf.body(
        "an atomic block at depth 17",
        (0..15).fold(vec![atomic(vec![])], |inner, _| {
            vec![if_else(truth(true), inner, vec![])]
        }),
    );
}

fn not_allowed_in_sequential(shelf: &mut Shelf) {
    shelf.body("atomic", vec![atomic(vec![])]);
    let mut program = base(Kind::Sequential);
    program.procedures[1].body.push(select(0, 1));
    shelf.program("select in procedure 1", program);
    shelf.body_bytes("select without b", &[0x27, 0x00, 0x00, 0x00]);
}

/// "5: a local, location or procedure not below its count; n not the callee's parameters"
fn number_5(kind: Kind) -> Vec<Judged> {
    let mut shelf = Shelf::new(kind, 5);
    let place = || assign(0, location(0));
    shelf.body("target of an assignment", vec![assign(2, number(1))]);
    shelf.body("target of a read", vec![place(), read(2, 0, number(0))]);
    shelf.body("pointer of a read", vec![read(0, 2, number(0))]);
    shelf.body("pointer of a write", vec![write(255, number(0), number(0))]);
    shelf.body(
        "local in an expression",
        vec![assign(0, add(number(1), local(2)))],
    );
    shelf.body(
        "local in an index",
        vec![place(), write(0, local(2), number(0))],
    );
    shelf.body(
        "local in an argument",
        vec![call(1, vec![number(0), local(9)])],
    );
    shelf.body("location 2", vec![assign(0, location(2))]);
    shelf.body(
        "location 65,535",
        vec![assign(0, equal(location(0), location(65_535)))],
    );
    shelf.body("procedure 2", vec![call(2, vec![])]);
    shelf.body("procedure 65,535", vec![call(65_535, vec![])]);
    shelf.body("one argument too few", vec![call(1, vec![number(0)])]);
    shelf.body("one argument too many", vec![call(1, vec![number(0); 3])]);
    shelf.body("255 arguments", vec![call(1, vec![truth(true); 255])]);
    shelf.body(
        "in a while in an else",
        vec![if_else(
            truth(true),
            vec![],
            vec![while_do(truth(false), vec![assign(7, number(0))])],
        )],
    );
    if kind == Kind::Sequential {
        shelf.body("select into location 2", vec![select(2, 0)]);
        shelf.body("select from location 2", vec![select(0, 2)]);
    } else {
        shelf.body("in atomic", vec![atomic(vec![assign(3, number(0))])]);
    }
    shelf.tables
}

/// "6: concurrent: over 400 labels"; request #110: "labels to 1,000"
fn number_6() -> Vec<Judged> {
    let mut shelf = Shelf::new(Kind::Concurrent, 6);
    shelf.program("1,001 labels", one_thread(1, assignments(1_000)));
    shelf.program("1,001 labels of 16 procedures", sixteen_procedures(985));
    let half = assignments(499);
    shelf.program(
        "1,001 labels in both branches",
        one_thread(
            1,
            vec![
                if_else(truth(true), half.clone(), half),
                assign(0, number(1)),
            ],
        ),
    );
    shelf.program(
        "1,001 labels in a while",
        one_thread(1, vec![while_do(truth(true), assignments(999))]),
    );
    shelf.program(
        "1,001 empty atomic blocks and ends",
        one_thread(0, vec![atomic(vec![]); 1_000]),
    );
    shelf.program("2,001 labels", one_thread(1, assignments(2_000)));
    shelf.tables
}

/// "7: some procedure can reach itself by calls"
fn number_7(kind: Kind) -> Vec<Judged> {
    let mut shelf = Shelf::new(kind, 7);
    let calls = |to: &[u16]| procedure(0, 0, to.iter().map(|m| call(*m, vec![])).collect());
    let mut loops = |name, procedures| shelf.program(name, with_kind(kind, procedures));
    loops("a procedure calls itself", vec![calls(&[0])]);
    loops("two call each other", vec![calls(&[1]), calls(&[0])]);
    loops(
        "two that nobody calls",
        vec![calls(&[]), calls(&[2]), calls(&[1])],
    );
    loops(
        "a ring of three behind a tail",
        vec![calls(&[1]), calls(&[2]), calls(&[3]), calls(&[1])],
    );
    let dead = vec![while_do(
        truth(false),
        vec![if_else(truth(true), vec![], vec![call(0, vec![])])],
    )];
    loops("a call in dead code", vec![procedure(0, 0, dead)]);
    let ring: Vec<_> = (0..16).map(|i| calls(&[(i + 1) % 16])).collect();
    loops("a ring of 16", ring);
    if kind == Kind::Sequential {
        let ring: Vec<_> = (0..1_024).map(|i| calls(&[(i + 1) % 1_024])).collect();
        loops("a ring of 1,024", ring);
        let all: Vec<u16> = (1..64).collect();
        let mut many: Vec<_> = (1..64).map(|i| calls(&all[i - 1..])).collect();
        many.insert(0, calls(&[1]));
        loops("64 that call all later ones, and themselves", many);
    }
    shelf.tables
}

/// "8: a local may be read before it is set"
fn number_8(kind: Kind) -> Vec<Judged> {
    let mut shelf = Shelf::new(kind, 8);
    let one = || number(1);
    shelf.body("in an assignment", vec![assign(0, local(1))]);
    shelf.body(
        "a target is set only after its value",
        vec![assign(0, local(0))],
    );
    shelf.body("the pointer of a read", vec![read(0, 1, number(0))]);
    shelf.body(
        "a read sets only after its pointer",
        vec![read(0, 0, number(0))],
    );
    shelf.body(
        "the index of a read",
        vec![assign(0, location(0)), read(0, 0, local(1))],
    );
    shelf.body(
        "the pointer of a write",
        vec![write(0, number(0), number(0))],
    );
    shelf.body(
        "the index of a write",
        vec![assign(0, location(0)), write(0, local(1), one())],
    );
    shelf.body(
        "the value of a write",
        vec![assign(0, location(0)), write(0, one(), local(1))],
    );
    shelf.body("the test of an if", vec![if_else(local(0), vec![], vec![])]);
    shelf.body("the test of a while", vec![while_do(local(0), vec![])]);
    shelf.body(
        "set in the body only",
        vec![while_do(local(0), vec![assign(0, truth(false))])],
    );
    shelf.body("an argument", vec![call(1, vec![number(0), local(1)])]);
    shelf.body("right of and", vec![assign(0, and(truth(false), local(1)))]);
    shelf.body(
        "set in one branch",
        vec![
            if_else(truth(true), vec![assign(0, one())], vec![assign(1, one())]),
            assign(1, local(0)),
        ],
    );
    shelf.body(
        "set in a while",
        vec![
            while_do(truth(true), vec![assign(0, one())]),
            assign(1, local(0)),
        ],
    );
    shelf.body(
        "in dead code",
        vec![if_else(truth(true), vec![], vec![assign(0, local(1))])],
    );
    shelf.body(
        "set in the other branch",
        vec![if_else(
            truth(true),
            vec![assign(0, one())],
            vec![assign(1, local(0))],
        )],
    );
    let mut program = base(kind);
    program.procedures[1].body.insert(0, assign(2, local(2)));
    shelf.program("a local behind the parameters", program);
    if kind == Kind::Concurrent {
        shelf.body("in atomic", vec![atomic(vec![assign(0, local(1))])]);
        shelf.body(
            "set in a branch in atomic",
            vec![
                atomic(vec![if_else(truth(true), vec![assign(0, one())], vec![])]),
                assign(1, local(0)),
            ],
        );
    }
    shelf.tables
}

/// Tables that break two rules. "The smallest number that applies is answered."
fn smallest_number(kind: Kind) -> Vec<Judged> {
    let mut all = Vec::new();
    let mut both = |name, number, change: &dyn Fn(&mut Fields)| {
        let mut shelf = Shelf::new(kind, number);
        shelf.fields(name, change);
        all.extend(shelf.tables);
    };
    both("1 before 2", 1, &|f| {
        f.sizes = vec![1; 600];
        f.distance = Some(1);
    });
    both("2 before 3", 2, &|f| f.sizes = vec![0; 600]);
    both("3 before 4", 3, &|f| {
        f.sizes[1] = 0;
        f.bodies[0] = 0xFF;
    });
    both("4 in the last body before 5 in the first", 4, &|f| {
        f.bodies[1] = 77;
        f.records[1].2 += 1;
    });
    both("5 in the last body before 8 in the first", 5, &|f| {
        // x := 5 in procedure 0 sets local 1 instead, so the argument is not set.
        f.bodies[1] = 1;
        f.records[1].1 = 2;
    });
    let mut shelf = Shelf::new(kind, 7);
    let unset: Expression = local(0);
    let body = vec![assign(0, unset), call(0, vec![])];
    shelf.program("7 before 8", with_kind(kind, vec![procedure(0, 1, body)]));
    all.extend(shelf.tables);
    if kind == Kind::Concurrent {
        let mut shelf = Shelf::new(kind, 6);
        let mut body = vec![call(0, vec![])];
        body.extend(assignments(1_000));
        shelf.program("6 before 7", with_kind(kind, vec![procedure(0, 1, body)]));
        let mut shelf_5 = Shelf::new(kind, 5);
        shelf_5.program(
            "5 before 6",
            with_kind(kind, vec![procedure(0, 0, assignments(1_000))]),
        );
        all.extend(shelf.tables);
        all.extend(shelf_5.tables);
    }
    all
}

/// A right concurrent table whose translation has exactly this many bytes.
pub fn translating_to(length: usize) -> Vec<u8> {
    let make = |twenties: usize, elevens: usize, tens: usize| {
        let mut inner = vec![assign(0, local(0)); twenties];
        inner.extend(vec![assign(0, not(truth(true))); elevens]);
        inner.extend(vec![assign(0, truth(true)); tens]);
        one_thread(1, vec![assign(0, truth(true)), atomic(inner)])
    };
    // An inner x := x becomes 21 bytes, x := not true 11, x := true 10.
    let bare = crate::translate::translate(&make(0, 0, 0), Mode::Own);
    let rest = length - write::table(&bare, Kind::Sequential).len();
    let twenties = rest / 21 - 20;
    let rest = rest - 21 * twenties;
    let elevens = rest % 10;
    table(&make(twenties, elevens, (rest - 11 * elevens) / 10))
}

/// "9: translator: the sequential table would pass 65,536 bytes"
pub fn number_9() -> Vec<Judged> {
    let mut shelf = Shelf::new(Kind::Concurrent, 9);
    shelf.bytes("one byte too long", translating_to(65_537));
    let copies = vec![assign(0, local(1)); 3_300];
    let body = vec![assign(0, number(0)), assign(1, number(0)), atomic(copies)];
    shelf.program(
        "3,300 copies in an atomic block",
        program(vec![procedure(0, 2, body)], &[], &[0; 32]),
    );
    let reads = vec![read(1, 0, local(1)); 1_500];
    let branch = if_else(truth(true), reads.clone(), reads[..600].to_vec());
    let body = vec![
        assign(0, location(0)),
        assign(1, number(0)),
        atomic(vec![branch]),
    ];
    shelf.program(
        "2,100 reads in branches",
        program(vec![procedure(0, 2, body)], &[4], &[0, 0]),
    );
    let writes = vec![write(0, local(1), add(local(1), local(2))); 1_400];
    let body = vec![
        assign(0, location(0)),
        assign(1, number(0)),
        assign(2, number(0)),
        atomic(writes),
    ];
    shelf.program(
        "1,400 writes",
        program(vec![procedure(0, 3, body)], &[4], &[0, 0]),
    );
    shelf.tables
}
