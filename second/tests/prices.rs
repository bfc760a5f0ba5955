//! Prices of labels: worked ones, all ways through random atomic blocks, and refusals.

use second::builder::*;
use second::calls::{prices, PricesAnswer};
use second::concurrent::{Concurrent, Done};
use second::labels;
use second::price::{self, Span};
use second::price_samples::priced;
use second::program::{Block, Instruction, Kind, Program};
use second::random::{program_of, Random, Scale};
use second::samples::{b, judged, A};
use second::verdict::verdict;
use second::write;

fn answer(number: u8, least: u64, most: u64) -> PricesAnswer {
    PricesAnswer {
        number,
        least,
        most,
    }
}

/// Labels that a program of so many labels does not have.
fn other_labels(labels: u64) -> Vec<u64> {
    let mut all = vec![0, labels + 1, labels + 2, u64::MAX, u64::MAX - 1];
    for high in [1 << 8, 1 << 16, 1 << 31, 1 << 32, 1 << 63] {
        for low in [0, 1, labels] {
            if high + low > labels {
                all.push(high + low);
            }
        }
    }
    all
}

#[test]
fn each_label_has_its_prices() {
    for sample in priced() {
        let table = table(&sample.program);
        for (label, Span { least, most }) in &sample.prices {
            let wanted = answer(0, *least, *most);
            let name = sample.name;
            assert_eq!(prices(&table, *label), wanted, "{name}, label {label}");
        }
        let labels = labels::of_program(&sample.program) as u64;
        for label in other_labels(labels) {
            assert_eq!(prices(&table, label), answer(0, 0, 0), "{}", sample.name);
        }
    }
}

/// "refusals 1 to 8, as the concurrent reader", whatever the label is.
#[test]
fn refusals_are_the_readers() {
    let mut seen = [0; 9];
    for sample in judged() {
        let number = match verdict(&sample.table, Kind::Concurrent) {
            Ok(_) => 0,
            Err(number) => number,
        };
        if sample.kind == Kind::Concurrent {
            assert_eq!(number, sample.number, "{}", sample.name);
        }
        seen[usize::from(number)] += 1;
        for label in [0, 1, u64::MAX] {
            let given = prices(&sample.table, label);
            assert_eq!(given.number, number, "{}", sample.name);
            if number != 0 {
                assert_eq!(given, answer(number, 0, 0), "{}", sample.name);
            }
        }
    }
    assert!(seen.iter().all(|count| *count > 2), "{seen:?}");
}

/// Every way through a block, each as the row of instructions done. There may be many.
fn ways(block: &Block) -> Vec<Vec<&Instruction>> {
    let mut all = vec![Vec::new()];
    for instruction in block {
        let further = match instruction {
            Instruction::If {
                then, otherwise, ..
            } => [ways(then), ways(otherwise)].concat(),
            _ => vec![Vec::new()],
        };
        let mut longer = Vec::new();
        for way in &all {
            for rest in &further {
                longer.push([way, &vec![instruction], rest].map(Clone::clone).concat());
            }
        }
        all = longer;
    }
    all
}

fn by_brute_force(block: &Block) -> Span {
    let prices = ways(block).into_iter().map(Done::Atomic);
    let prices: Vec<u64> = prices.map(|done| price::of_step(&done)).collect();
    Span {
        least: *prices.iter().min().unwrap(),
        most: *prices.iter().max().unwrap(),
    }
}

/// A random block of assignments, reads, writes and ifs.
fn random_block(depth: usize, random: &mut Random) -> Block {
    let count = random.below(4);
    (0..count)
        .map(|_| match random.below(6) {
            0 => assign(0, number(0)),
            1 => assign(0, add(local(0), local(1))),
            2 => read(0, 1, local(2)),
            3 => write(0, local(1), local(2)),
            _ if depth == 0 => assign(1, local(2)),
            _ => if_else(
                random.pick(&[truth(true), local(0), less(local(0), local(1))]),
                random_block(depth - 1, random),
                random_block(depth - 1, random),
            ),
        })
        .collect()
}

#[test]
fn an_atomic_block_is_priced_by_all_its_ways() {
    let mut random = Random::new(104);
    let mut unequal = 0;
    for _ in 0..3_000 {
        let block = random_block(3, &mut random);
        if ways(&block).len() > 4_000 {
            continue;
        }
        let wanted = by_brute_force(&block);
        unequal += usize::from(wanted.least < wanted.most);
        let sets = (0..3).map(|x| assign(x, number(0)));
        let body = sets.chain([atomic(block)]).collect();
        let program = program(vec![procedure(0, 3, body)], &[1], &[0]);
        let Span { least, most } = wanted;
        assert_eq!(prices(&table(&program), 4), answer(0, least, most));
    }
    assert!(unequal > 800, "{unequal}");
}

/// The labels of random programs, each found a second time by walking all instructions.
#[test]
fn labels_of_random_programs() {
    let mut random = Random::new(1_104);
    for _ in 0..500 {
        let program = program_of(Kind::Concurrent, Scale::Small, &mut random);
        let table = write::table(&program, Kind::Concurrent);
        if verdict(&table, Kind::Concurrent).is_err() {
            continue;
        }
        let walked = walk(&program);
        assert_eq!(walked.len(), labels::of_program(&program));
        for (label, Span { least, most }) in (1..).zip(walked) {
            assert_eq!(prices(&table, label), answer(0, least, most));
        }
    }
}

/// The prices of all labels in the order of the text.
fn walk(program: &Program) -> Vec<Span> {
    let mut all = Vec::new();
    for procedure in &program.procedures {
        walk_block(&procedure.body, &mut all);
        all.push(one(price::of_step(&Done::Return)));
    }
    all
}

fn one(price: u64) -> Span {
    Span {
        least: price,
        most: price,
    }
}

fn walk_block(block: &Block, all: &mut Vec<Span>) {
    for instruction in block {
        all.push(match instruction {
            Instruction::Atomic { body } => by_brute_force(body),
            _ => one(price::of_step(&Done::One(instruction))),
        });
        match instruction {
            Instruction::While { body, .. } => walk_block(body, all),
            Instruction::If {
                then, otherwise, ..
            } => {
                walk_block(then, all);
                walk_block(otherwise, all);
            }
            _ => {}
        }
    }
}

/// Both ends of a span are prices of steps that can be taken.
#[test]
fn both_ends_are_taken() {
    for (test, price) in [(true, 5), (false, 3)] {
        let inner = if_else(truth(test), vec![assign(0, number(1))], vec![]);
        let program = program(vec![procedure(0, 1, vec![atomic(vec![inner])])], &[], &[0]);
        let mut machine = Concurrent::new(&program);
        let step = machine.step(0).unwrap();
        assert_eq!(price::of_step(&step.done), price);
        assert_eq!(prices(&table(&program), 1), answer(0, 3, 5));
    }
}

/// B's prices in the paper, and A's one label.
#[test]
fn worked_prices() {
    let b = table(&b());
    let all: Vec<PricesAnswer> = (0..6).map(|label| prices(&b, label)).collect();
    assert_eq!(all, [0, 4, 7, 7, 4, 0].map(|price| answer(0, price, price)));
    assert_eq!(prices(&A, 1), answer(0, 4, 4));
    assert_eq!(prices(&A, 2), answer(0, 0, 0));
}
