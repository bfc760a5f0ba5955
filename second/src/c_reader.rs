//! The way back from C11 text: "0, the length and the table t exactly if t is an accepted sequential
//! table and the input is the text of t".
//!
//! A reader walks over the text piece by piece. What it has read counts only if the sequential
//! reader accepts the table, and if that table's text is the input, byte by byte.

use crate::c_text::{self, indentation, separator};
use crate::expression::{Expression, One, Two};
use crate::program::{Block, Instruction, Kind, Procedure, Program};
use crate::value::Value;
use crate::verdict::verdict;
use crate::write;
use std::str::FromStr;

/// Nothing in a table nests deeper, neither expressions nor blocks.
const DEPTH: usize = 16;

/// The table whose text this is.
pub fn table_of(input: &[u8]) -> Option<Vec<u8>> {
    let input = std::str::from_utf8(input).ok()?;
    let mut reader = Reader { rest: input };
    let program = reader.program()?;
    let table = write::table(&program, Kind::Sequential);
    let accepted = verdict(&table, Kind::Sequential).ok()?;
    (c_text::text(&accepted) == input).then_some(table)
}

/// Reads from the beginning of what is left. `None`: this is no text of ours.
struct Reader<'a> {
    rest: &'a str,
}

impl Reader<'_> {
    /// Goes over a piece that must be there.
    fn over(&mut self, piece: &str) -> Option<()> {
        self.rest = self.rest.strip_prefix(piece)?;
        Some(())
    }

    /// Goes over a piece if it is there.
    fn goes_over(&mut self, piece: &str) -> bool {
        self.over(piece).is_some()
    }

    /// "decimal, no leading zero, no plus sign; only a negative number has a `-` before its digits"
    fn number<N: FromStr + ToString>(&mut self) -> Option<N> {
        let is_part = |c: char| c.is_ascii_digit() || c == '-';
        let end = self.rest.find(|c: char| !is_part(c))?;
        let (digits, rest) = self.rest.split_at(end);
        let number: N = digits.parse().ok()?;
        self.rest = rest;
        (number.to_string() == digits).then_some(number)
    }

    /// A number that is known before.
    fn this(&mut self, number: usize) -> Option<()> {
        self.over(&number.to_string())
    }

    fn program(&mut self) -> Option<Program> {
        self.over(c_text::PRELUDE)?;
        let sizes = self.locations()?;
        let mut parameters = Vec::new();
        while self.rest.starts_with("void p") {
            parameters.push(self.head(parameters.len())?);
            self.over(";\n")?;
        }
        let mut procedures = Vec::new();
        for (k, parameters) in parameters.into_iter().enumerate() {
            procedures.push(self.definition(k, parameters)?);
        }
        self.rest.is_empty().then_some(Program {
            procedures,
            sizes,
            mains: Vec::new(),
        })
    }

    /// The locations, and the areas that say the same once more.
    fn locations(&mut self) -> Option<Vec<u16>> {
        let mut sizes: Vec<u16> = Vec::new();
        while self.goes_over("z_value m") {
            self.this(sizes.len())?;
            self.over("[")?;
            sizes.push(self.number()?);
            self.over("];\n")?;
        }
        self.over("const z_area z_areas[] = {\n")?;
        for (k, size) in sizes.iter().enumerate() {
            self.over(&format!("  {{ m{k}, {size} }},\n"))?;
        }
        self.over("  { 0, 0 }\n};\n\n")?;
        Some(sizes)
    }

    /// The number of parameters.
    fn head(&mut self, k: usize) -> Option<u8> {
        self.over(&format!("void p{k}("))?;
        if self.goes_over("void)") {
            return Some(0);
        }
        let mut parameters: u8 = 0;
        loop {
            self.over(&format!("z_value x{parameters}"))?;
            parameters = parameters.checked_add(1)?;
            if self.goes_over(")") {
                return Some(parameters);
            }
            self.over(", ")?;
        }
    }

    fn definition(&mut self, k: usize, parameters: u8) -> Option<Procedure> {
        self.over("\n")?;
        if self.head(k)? != parameters {
            return None;
        }
        self.over(&format!(" {{\n  enum {{ here = {k} }};\n"))?;
        for j in 0..parameters {
            self.over(&format!("  x{j} = z_arg(x{j});\n"))?;
        }
        let mut locals = parameters;
        while self.goes_over(&format!(
            "  z_value x{locals} = z_unset(); (void)x{locals};\n"
        )) {
            locals = locals.checked_add(1)?;
        }
        let body = self.block(1, "  z_return();\n}\n")?;
        Some(Procedure {
            parameters,
            locals,
            body,
        })
    }

    /// A block, and what follows its last instruction.
    fn block(&mut self, depth: usize, end: &str) -> Option<Block> {
        if depth > DEPTH {
            return None;
        }
        let mut block = Block::new();
        while !self.goes_over(end) {
            self.over(&indentation(depth))?;
            block.push(self.instruction(depth)?);
        }
        Some(block)
    }

    fn instruction(&mut self, depth: usize) -> Option<Instruction> {
        let indentation = indentation(depth);
        let closed = format!("{indentation}}}\n");
        if self.goes_over("while (z_test(") {
            let test = self.expression(1)?;
            self.over(")) {\n")?;
            let body = self.block(depth + 1, &closed)?;
            return Some(Instruction::While { test, body });
        }
        if self.goes_over("if (z_test(") {
            let test = self.expression(1)?;
            self.over(")) {\n")?;
            let then = self.block(depth + 1, &format!("{indentation}}} else {{\n"))?;
            let otherwise = self.block(depth + 1, &closed)?;
            return Some(Instruction::If {
                test,
                then,
                otherwise,
            });
        }
        let instruction = self.plain_instruction()?;
        self.over(");\n")?;
        Some(instruction)
    }

    /// An instruction without blocks, up to its last parenthesis.
    fn plain_instruction(&mut self) -> Option<Instruction> {
        if self.goes_over("z_write(here, x") {
            let pointer = self.number()?;
            self.over(", ")?;
            let index = self.expression(1)?;
            self.over(", ")?;
            let value = self.expression(1)?;
            return Some(Instruction::Write {
                pointer,
                index,
                value,
            });
        }
        if self.goes_over("z_select(") {
            let a = self.number()?;
            self.over(", ")?;
            let b = self.number()?;
            return Some(Instruction::Select { a, b });
        }
        if self.goes_over("z_call(); p") {
            let procedure = self.number()?;
            self.over("(")?;
            let arguments = self.arguments()?;
            return Some(Instruction::Call {
                procedure,
                arguments,
            });
        }
        self.over("x")?;
        let target = self.number()?;
        if self.goes_over(" = z_set(") {
            let value = self.expression(1)?;
            return Some(Instruction::Assign { target, value });
        }
        self.over(" = z_read(here, x")?;
        let pointer = self.number()?;
        self.over(", ")?;
        let index = self.expression(1)?;
        Some(Instruction::Read {
            target,
            pointer,
            index,
        })
    }

    /// "E.. with `,\n` between two of them"
    fn arguments(&mut self) -> Option<Vec<Expression>> {
        let mut arguments = Vec::new();
        if self.rest.starts_with(')') {
            return Some(arguments);
        }
        loop {
            arguments.push(self.expression(1)?);
            if !self.goes_over(",\n") {
                return Some(arguments);
            }
        }
    }

    fn expression(&mut self, level: usize) -> Option<Expression> {
        if level > DEPTH {
            return None;
        }
        if self.goes_over("x") {
            return Some(Expression::Local(self.number()?));
        }
        let (name, _) = self.rest.split_once('(')?;
        self.over(name)?;
        self.over("(")?;
        let expression = self.inside(name, level)?;
        self.over(")")?;
        Some(expression)
    }

    /// What stands in the parentheses behind a name.
    fn inside(&mut self, name: &str, level: usize) -> Option<Expression> {
        match name {
            "z_num" => return Some(Expression::Constant(Value::Whole(self.number()?))),
            "z_loc" => return Some(Expression::Constant(Value::Location(self.number()?))),
            "z_false" => return Some(Expression::Constant(Value::Truth(false))),
            "z_true" => return Some(Expression::Constant(Value::Truth(true))),
            _ => {}
        }
        if let Some(operator) = [One::Not, One::Negate]
            .into_iter()
            .find(|o| c_text::one(*o) == name)
        {
            let operand = self.expression(level + 1)?;
            return Some(Expression::One(operator, Box::new(operand)));
        }
        let all = [
            Two::Add,
            Two::Subtract,
            Two::Multiply,
            Two::Less,
            Two::Equal,
            Two::And,
        ];
        let operator = all.into_iter().find(|o| c_text::two(*o) == name)?;
        let left = self.expression(level + 1)?;
        self.over(separator(level))?;
        let right = self.expression(level + 1)?;
        Some(Expression::Two(operator, Box::new(left), Box::new(right)))
    }
}
