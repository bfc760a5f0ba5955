//! The verdict on a table: the tree of its program, or the number of its refusal.

use crate::bodies::refusal_4;
use crate::head::{read_head, refusal_1, refusal_2, refusal_3, Head};
use crate::program::{Block, Kind, Procedure, Program};
use crate::rules::{refusal_5, refusal_6, refusal_7, refusal_8};

/// "The smallest number that applies is answered." Each rule judges the whole table before the
/// next one is asked.
pub fn verdict(table: &[u8], kind: Kind) -> Result<Program, u8> {
    let counts = refusal_1(table, kind)?;
    refusal_2(table.len(), kind, counts)?;
    let head = read_head(table, counts);
    refusal_3(kind, &head)?;
    let bodies = refusal_4(&table[..head.bodies_end], &head.records, kind)?;
    let program = program(head, bodies);
    refusal_5(&program)?;
    if kind == Kind::Concurrent {
        refusal_6(&program)?;
    }
    refusal_7(&program)?;
    refusal_8(&program)?;
    Ok(program)
}

fn program(head: Head, bodies: Vec<Block>) -> Program {
    let records = head.records.iter().zip(bodies);
    let procedures = records.map(|(record, body)| Procedure {
        parameters: record.parameters,
        locals: record.locals,
        body,
    });
    Program {
        procedures: procedures.collect(),
        sizes: head.sizes,
        mains: head.mains,
    }
}
