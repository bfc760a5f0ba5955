//! Writes a batch of cases and the lines that answer them.
//!
//! Usage: cases STDIN STDOUT [OP]... The batch goes to the file STDIN, the lines to the file STDOUT,
//! and a summary to standard error. With numbers of calls behind them, only the cases of those calls
//! are written, behind the greeting. The seed is fixed, so both files are always the same.

mod benches;
mod maker;
mod mends;
mod placements;
mod prices;
mod random_tables;
mod runs;
mod tables;
mod texts;
mod traces;

use benches::*;
use mends::*;
use placements::*;
use prices::*;
use random_tables::*;
use runs::*;
use second::batch::*;
use second::random::{Random, Scale};
use std::collections::BTreeMap;
use std::fs;
use tables::*;
use texts::*;
use traces::labelled_events;

const SEED: u64 = 20_170_301;
const RANDOM_PROGRAMS: usize = 500;
const LARGE_PROGRAMS: usize = 4;
const RANDOM_SEQUENTIAL_PROGRAMS: usize = 200;
const LARGE_SEQUENTIAL_PROGRAMS: usize = 10;
const DAMAGED_TABLES: usize = 500;
const RANDOM_BENCHES: usize = 400;
const PLAIN_PROGRAMS: usize = 150;

fn main() -> std::io::Result<()> {
    let words: Vec<String> = std::env::args().skip(1).collect();
    let [stdin, stdout, ops @ ..] = words.as_slice() else {
        eprintln!("usage: cases STDIN STDOUT [OP]...");
        std::process::exit(2);
    };
    let batch = whole_batch(ops.iter().filter_map(|op| op.parse().ok()).collect());
    fs::write(stdin, &batch.input)?;
    fs::write(stdout, &batch.lines)?;
    batch.print_summary();
    Ok(())
}

fn whole_batch(ops: Vec<u8>) -> Batch {
    let mut batch = Batch {
        ops,
        section: "worked",
        ..Batch::default()
    };
    batch.put(Case {
        op: GREETING,
        ..Case::default()
    });
    worked(&mut batch);
    wide(&mut batch);
    batch.section = "judged tables";
    judged_tables(&mut batch);
    batch.section = "long copies";
    long_copies(&mut batch);
    batch.section = "runs";
    runs(&mut batch);
    batch.section = "reasons";
    reasons(&mut batch);
    batch.section = "and";
    ands(&mut batch);
    batch.section = "schedules and cell buffers";
    schedules(&mut batch);
    cell_buffers(&mut batch);
    all_cells(&mut batch);
    batch.section = "inputs of the run program";
    inputs(&mut batch);
    batch.section = "largest programs";
    largest_programs(&mut batch);
    let mut random = Random::new(SEED);
    batch.section = "random programs";
    for _ in 0..RANDOM_PROGRAMS {
        random_program(Scale::Small, &mut batch, &mut random);
    }
    for _ in 0..LARGE_PROGRAMS {
        random_program(Scale::Large, &mut batch, &mut random);
    }
    batch.section = "random sequential programs";
    for _ in 0..RANDOM_SEQUENTIAL_PROGRAMS {
        random_sequential_program(Scale::Small, &mut batch, &mut random);
    }
    for _ in 0..LARGE_SEQUENTIAL_PROGRAMS {
        random_sequential_program(Scale::Large, &mut batch, &mut random);
    }
    batch.section = "damaged tables";
    for number in 0..DAMAGED_TABLES {
        damaged_table(number, &mut batch, &mut random);
    }
    batch.section = "benches";
    benches(&mut batch);
    batch.section = "random benches";
    let mut random = Random::new(SEED + 102);
    for number in 0..RANDOM_BENCHES {
        random_bench(number, &mut batch, &mut random);
    }
    batch.section = "prices";
    worked_prices(&mut batch);
    refused_prices(&mut batch);
    random_prices(&mut batch, &mut Random::new(SEED + 104));
    batch.section = "labels of events";
    labelled_events(&mut batch);
    batch.section = "mends";
    worn_tables(&mut batch);
    judged_mends(&mut batch);
    random_mends(&mut batch, &mut Random::new(SEED + 108));
    batch.section = "plain engine";
    batch.plainly(1, runs);
    batch.plainly(1, labelled_events);
    batch.plainly(1, judged_tables);
    batch.plainly(2, reasons);
    batch.plainly(6, ands);
    batch.plainly(2, schedules);
    batch.plainly(1, cell_buffers);
    batch.plainly(1, wide);
    batch.plainly(1, largest_programs);
    let mut random = Random::new(SEED + 109);
    batch.plainly(1, |batch| {
        for _ in 0..PLAIN_PROGRAMS {
            random_program(Scale::Small, batch, &mut random);
        }
        random_program(Scale::Large, batch, &mut random);
        for _ in 0..DAMAGED_TABLES / 10 {
            damaged_table(0, batch, &mut random);
        }
    });
    batch.section = "C text";
    printed_tables(&mut batch);
    random_texts(&mut batch, &mut Random::new(SEED + 106));
    texts_read(&mut batch);
    batch.section = "shared locations";
    placed_samples(&mut batch);
    numbers_of_modes(&mut batch);
    edges_of_9_and_10(&mut batch);
    judged_in_the_second_mode(&mut batch);
    random_placements(&mut batch, &mut Random::new(SEED + 107));
    batch.input.extend(last_header());
    batch
}

/// The cases so far, their lines, and counts for the summary.
#[derive(Default)]
struct Batch {
    /// The calls whose cases are kept; all of them if there is none.
    ops: Vec<u8>,
    input: Vec<u8>,
    lines: Vec<u8>,
    section: &'static str,
    cases: BTreeMap<&'static str, usize>,
    outcomes: BTreeMap<String, usize>,
    plain: Option<Plainly>,
}

/// Says that concurrent runs are turned into runs by the plain engine.
struct Plainly {
    /// One of so many is kept.
    apart: usize,
    /// Runs so far.
    runs: usize,
}

impl Batch {
    /// The case, if it is one of the calls that are kept.
    fn add(&mut self, case: Case) {
        let Some(case) = self.turned(case) else {
            return;
        };
        if self.ops.is_empty() || self.ops.contains(&case.op) {
            self.put(case);
        }
    }

    /// The concurrent runs of a part once more, one of so many, by the plain engine; nothing else of it.
    fn plainly(&mut self, apart: usize, part: impl FnOnce(&mut Batch)) {
        self.plain = Some(Plainly { apart, runs: 0 });
        part(self);
        self.plain = None;
    }

    /// The case as it is, or what comes of it in such a part.
    fn turned(&mut self, case: Case) -> Option<Case> {
        let Some(plainly) = &mut self.plain else {
            return Some(case);
        };
        if case.op != RUN_CONCURRENT {
            return None;
        }
        plainly.runs += 1;
        (plainly.runs % plainly.apart == 0).then_some(Case {
            op: RUN_PLAIN,
            ..case
        })
    }

    fn put(&mut self, case: Case) {
        assert!(case.keeps_limits(), "a case is over a limit");
        let answer = case.answer();
        *self.cases.entry(self.section).or_insert(0) += 1;
        self.note(outcome(&answer.line));
        self.input.extend(case.bytes());
        self.lines.extend(answer.bytes());
    }

    fn note(&mut self, what: String) {
        *self.outcomes.entry(what).or_insert(0) += 1;
    }

    fn print_summary(&self) {
        let cases: usize = self.cases.values().sum();
        eprintln!("{cases} cases, {} bytes", self.input.len());
        for (section, count) in &self.cases {
            eprintln!("{count:6}  {section}");
        }
        eprintln!();
        for (outcome, count) in &self.outcomes {
            eprintln!("{count:6}  {outcome}");
        }
    }
}

/// What a line tells, for the summary.
fn outcome(line: &str) -> String {
    let words: Vec<&str> = line.split(' ').collect();
    if words[0] == GREETING.to_string() {
        return "greeting".to_string();
    }
    let name = match words[0] {
        "1" => "read_concurrent",
        "2" => "read_sequential",
        "3" => "translate",
        "4" => "run_concurrent",
        "5" => "run_sequential",
        "7" => "bench",
        "8" => "prices",
        "9" => "print_c",
        "10" => "read_c",
        "11" => "mend",
        "12" => "run_plain",
        _ => "line",
    };
    let result = match (words[0], words[1], words[2]) {
        ("6", "refused", number) => format!("refused {number:>2}"),
        ("6", "blocked", _) => format!("blocked by {}", words[6]),
        ("6", end, _) => end.to_string(),
        ("4" | "5" | "12", "0", "2") => format!("blocked by {}", words[6]),
        ("4" | "5" | "12", "0", end) => end_name(end).to_string(),
        ("7", "0", "0") => "none".to_string(),
        ("7", "0", _) => "found".to_string(),
        ("11", "0", "0") => "nothing to mend".to_string(),
        ("11", "0", _) => "mended".to_string(),
        ("8", "0", "0") => "no such label".to_string(),
        ("8", "0", least) if least == words[3] => "one".to_string(),
        ("8", "0", _) => "least and most".to_string(),
        (_, "0", _) => "accepted".to_string(),
        (_, number, _) => format!("refused {number:>2}"),
    };
    format!("{name}: {result}")
}

fn end_name(end: &str) -> &'static str {
    match end {
        "0" => "finished",
        "1" => "used",
        _ => "at its budget",
    }
}
