//! Labels, found by walking the trees: no map from labels to instructions is kept anywhere.
//!
//! "Procedures in order; in each, instructions in textual order, those inside an atomic block
//! having none, then one end label. Count from 1; 0 is a finished thread."

use crate::program::{Block, Instruction, Procedure, Program};

/// How many labels an instruction takes, those of the instructions inside it included.
pub fn of_instruction(instruction: &Instruction) -> usize {
    match instruction {
        Instruction::While { body, .. } => 1 + of_block(body),
        Instruction::If {
            then, otherwise, ..
        } => 1 + of_block(then) + of_block(otherwise),
        Instruction::Assign { .. }
        | Instruction::Write { .. }
        | Instruction::Read { .. }
        | Instruction::Call { .. }
        | Instruction::Atomic { .. }
        | Instruction::Select { .. } => 1,
    }
}

pub fn of_block(block: &Block) -> usize {
    block.iter().map(of_instruction).sum()
}

/// The number of labels of a program: one end label for each procedure besides its instructions.
pub fn of_program(program: &Program) -> usize {
    let bodies = program.procedures.iter();
    bodies.map(|procedure| of_block(&procedure.body) + 1).sum()
}

/// The label at which a procedure begins. "An empty body begins at its end label", which is then
/// the first label of the procedure too.
pub fn begin(program: &Program, procedure: usize) -> usize {
    let before = program.procedures.iter().take(procedure);
    let labels: usize = before.map(|earlier| of_block(&earlier.body) + 1).sum();
    1 + labels
}

/// The end label of a procedure.
pub fn end(program: &Program, procedure: usize) -> usize {
    let body = &program.procedures[procedure].body;
    begin(program, procedure) + of_block(body)
}

/// The label of one instruction of a program, told apart by its place in memory; `None` for an
/// instruction inside an atomic block or of another program.
pub fn find(program: &Program, wanted: &Instruction) -> Option<usize> {
    let procedures = program.procedures.iter().enumerate();
    let mut found =
        procedures.filter_map(|(i, p)| find_in_block(&p.body, begin(program, i), wanted));
    found.next()
}

fn find_in_block(block: &Block, first: usize, wanted: &Instruction) -> Option<usize> {
    let mut label = first;
    for instruction in block {
        if std::ptr::eq(instruction, wanted) {
            return Some(label);
        }
        if let Some(found) = find_inside(instruction, label, wanted) {
            return Some(found);
        }
        label += of_instruction(instruction);
    }
    None
}

fn find_inside(instruction: &Instruction, label: usize, wanted: &Instruction) -> Option<usize> {
    match instruction {
        Instruction::While { body, .. } => find_in_block(body, label + 1, wanted),
        Instruction::If {
            then, otherwise, ..
        } => find_in_block(then, label + 1, wanted)
            .or_else(|| find_in_block(otherwise, label + 1 + of_block(then), wanted)),
        _ => None,
    }
}

/// What stands at a label.
#[derive(Clone, Copy, PartialEq, Eq, Debug)]
pub enum At<'a> {
    Instruction(&'a Instruction),
    /// The end label of this procedure.
    End(usize),
}

/// What stands at a label, `None` at 0 and behind the last label.
pub fn at(program: &Program, label: u64) -> Option<At<'_>> {
    let mut left = usize::try_from(label).ok()?.checked_sub(1)?;
    for (procedure, Procedure { body, .. }) in program.procedures.iter().enumerate() {
        let labels = of_block(body);
        if left < labels {
            return at_in_block(body, left).map(At::Instruction);
        }
        if left == labels {
            return Some(At::End(procedure));
        }
        left -= labels + 1;
    }
    None
}

/// The instruction that so many labels of the block come before.
fn at_in_block(block: &Block, mut left: usize) -> Option<&Instruction> {
    for instruction in block {
        let labels = of_instruction(instruction);
        if left == 0 {
            return Some(instruction);
        }
        if left < labels {
            return at_inside(instruction, left - 1);
        }
        left -= labels;
    }
    None
}

fn at_inside(instruction: &Instruction, left: usize) -> Option<&Instruction> {
    match instruction {
        Instruction::While { body, .. } => at_in_block(body, left),
        Instruction::If {
            then, otherwise, ..
        } => match left.checked_sub(of_block(then)) {
            None => at_in_block(then, left),
            Some(left) => at_in_block(otherwise, left),
        },
        _ => None,
    }
}

#[cfg(test)]
mod tests {
    use super::*;
    use crate::builder::*;

    fn blocks(instruction: &Instruction) -> (&Block, &Block) {
        match instruction {
            Instruction::If {
                then, otherwise, ..
            } => (then, otherwise),
            Instruction::While { body, .. } | Instruction::Atomic { body } => (body, body),
            _ => panic!("no block"),
        }
    }

    #[test]
    fn labels_by_hand() {
        let some = || assign(0, number(1));
        let test = || truth(true);
        let first = vec![
            some(),                                                      // 1
            while_do(test(), vec![some(), while_do(test(), vec![])]),    // 2: 3, 4
            atomic(vec![some(), if_else(test(), vec![some()], vec![])]), // 5
            if_else(test(), vec![some()], vec![some(), some()]),         // 6: 7; 8, 9
            if_else(test(), vec![], vec![]),                             // 10
        ]; // 11
        let third = vec![call(1, vec![])]; // 13, 14
        let program = program(
            vec![
                procedure(0, 1, first),
                procedure(0, 0, vec![]), // 12
                procedure(0, 0, third),
            ],
            &[],
            &[0],
        );
        assert_eq!(of_program(&program), 14);
        let begins: Vec<usize> = (0..3).map(|p| begin(&program, p)).collect();
        let ends: Vec<usize> = (0..3).map(|p| end(&program, p)).collect();
        assert_eq!((begins, ends), (vec![1, 12, 13], vec![11, 12, 14]));

        let body = &program.procedures[0].body;
        let found: Vec<_> = body.iter().map(|i| find(&program, i)).collect();
        assert_eq!(found, [Some(1), Some(2), Some(5), Some(6), Some(10)]);
        let (inner, _) = blocks(&body[1]);
        assert_eq!(find(&program, &inner[1]), Some(4));
        let (inside_atomic, _) = blocks(&body[2]);
        assert_eq!(find(&program, &inside_atomic[0]), None);
        let (then, otherwise) = blocks(&body[3]);
        assert_eq!(find(&program, &then[0]), Some(7));
        assert_eq!(find(&program, &otherwise[1]), Some(9));
        assert_eq!(find(&program, &program.procedures[2].body[0]), Some(13));

        assert_eq!(at(&program, 3), Some(At::Instruction(&inner[0])));
        assert_eq!(at(&program, 9), Some(At::Instruction(&otherwise[1])));
        for label in 1..=14 {
            match at(&program, label).unwrap() {
                At::Instruction(there) => assert_eq!(find(&program, there), Some(label as usize)),
                At::End(procedure) => assert_eq!(end(&program, procedure), label as usize),
            }
        }
        for label in [0, 15, 65_537, 1 << 32, (1 << 32) + 1, u64::MAX] {
            assert_eq!(at(&program, label), None);
        }
    }
}
