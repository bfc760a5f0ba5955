//! The mender: worked tables, brute force on random ones, buffers and refusals.

use second::builder::table;
use second::calls::{mend, read_concurrent, read_sequential, MendAnswer};
use second::mend::{choices_by_bodies, choices_of_all, CHANGE};
use second::mend_samples::{all_worn, longest, scrambled, Outcome, Worn};
use second::program::Kind;
use second::random::{damaged, program_of, Random, Scale};
use second::samples::{b, judged, A};
use second::verdict::verdict;
use second::write;

const MOST: usize = 16 * CHANGE;

/// The answer, the table and the list afterwards; the list held 200 in each byte.
fn mended(table: &[u8], kind: Kind, list: usize) -> (MendAnswer, Vec<u8>, Vec<u8>) {
    let mut bytes = table.to_vec();
    let mut list = vec![200; list];
    let answer = mend(&mut bytes, kind, &mut list);
    (answer, bytes, list)
}

fn answer(number: u8, changes: usize) -> MendAnswer {
    MendAnswer {
        number,
        mended: changes > 0,
        changes: changes as u64,
    }
}

/// Places, old and new bytes of all that differs.
fn differences(before: &[u8], after: &[u8]) -> Vec<u8> {
    let mut list = Vec::new();
    for (place, (old, new)) in before.iter().zip(after).enumerate() {
        if old != new {
            list.extend((place as u32).to_le_bytes());
            list.extend([*old, *new]);
        }
    }
    list
}

fn check(sample: &Worn) {
    let name = sample.name;
    let (given, after, list) = mended(&sample.table, sample.kind, MOST + 5);
    let wanted = match &sample.outcome {
        Outcome::Mended(table) => table.clone(),
        _ => sample.table.clone(),
    };
    let changed = differences(&sample.table, &wanted);
    let number = match sample.outcome {
        Outcome::Refused(number) => number,
        _ => 0,
    };
    assert_eq!(given, answer(number, changed.len() / CHANGE), "{name}");
    assert_eq!(after, wanted, "{name}");
    assert_eq!(list[..changed.len()], changed, "{name}");
    assert!(list[changed.len()..].iter().all(|byte| *byte == 200));
    lists_of_each_length(sample, &changed);
}

/// "too short a list buffer is 10, nothing written"; it is judged last.
fn lists_of_each_length(sample: &Worn, changed: &[u8]) {
    let (given, after, _) = mended(&sample.table, sample.kind, MOST);
    for length in [0, 1, 5, 6, 95, 96, changed.len()] {
        let (other, table, list) = mended(&sample.table, sample.kind, length);
        if length < changed.len() {
            assert_eq!(other, answer(10, 0));
            assert_eq!(table, sample.table);
            assert!(list.iter().all(|byte| *byte == 200));
        } else {
            assert_eq!((other, &table), (given, &after));
            assert_eq!(list[..changed.len()], *changed);
        }
    }
    if let Some(short) = changed.len().checked_sub(1) {
        assert_eq!(mended(&sample.table, sample.kind, short).0.number, 10);
    }
}

#[test]
fn each_worn_table_has_its_outcome() {
    let mut outcomes = [0; 3];
    for sample in all_worn() {
        check(&sample);
        outcomes[match sample.outcome {
            Outcome::Nothing => 0,
            Outcome::Mended(_) => 1,
            Outcome::Refused(_) => 2,
        }] += 1;
    }
    assert!(outcomes[0] > 3 && outcomes[1] > 70 && outcomes[2] > 50);
}

#[test]
fn the_longest_tables() {
    for sample in longest() {
        check(&sample);
    }
}

/// "A: 16 changes, places 9 to 24, first 9 EE 43, last 24 EE 00"; two bytes of A; B.
#[test]
fn worked_lists() {
    let (given, after, list) = mended(&scrambled(&A), Kind::Concurrent, MOST);
    assert_eq!((given, &after[..]), (answer(0, 16), &A[..]));
    assert_eq!(list[..6], [9, 0, 0, 0, 0xEE, 0x43]);
    assert_eq!(list[90..], [24, 0, 0, 0, 0xEE, 0x00]);

    let mut two = A;
    (two[9], two[21]) = (0x00, 0x99);
    let (given, after, list) = mended(&two, Kind::Concurrent, 13);
    assert_eq!((given, &after[..]), (answer(0, 2), &A[..]));
    assert_eq!(list, [9, 0, 0, 0, 0x00, 0x43, 21, 0, 0, 0, 0x99, 0x19, 200]);

    assert_eq!(mended(&A, Kind::Sequential, MOST).0, answer(14, 0));
    assert_eq!(mended(&A, Kind::Concurrent, 0).0, answer(0, 0));
    let b = table(&b());
    assert_eq!(mended(&scrambled(&b), Kind::Concurrent, MOST).1, b);
}

/// Refusals of the readers make no difference: each table comes back, or is 14 or 15.
#[test]
fn judged_tables() {
    let mut lost = 0;
    for sample in judged() {
        let kind = sample.kind;
        if sample.number == 0 {
            assert_eq!(mended(&sample.table, kind, 0).0, answer(0, 0));
        }
        if sample.table.len() < 16 || sample.table.len() > 3_000 {
            continue;
        }
        let worn = scrambled(&sample.table);
        let (given, after, _) = mended(&worn, kind, MOST);
        match given.number {
            0 => assert!(verdict(&after, kind).is_ok(), "{}", sample.name),
            14 => lost += 1,
            15 => assert_eq!(kind, Kind::Concurrent),
            other => panic!("{other}: {}", sample.name),
        }
        if sample.number == 0 {
            assert_ne!(given.number, 14, "{}", sample.name);
        }
    }
    assert!(lost > 100, "{lost}");
}

/// The mender on any bytes, against all choices one by one: the outcome, that the number of
/// procedures is the same in all choices, and that a sequential table has one choice at most.
fn against_all_choices(bytes: &[u8], kind: Kind) -> u8 {
    let choices = choices_of_all(bytes, kind);
    assert_eq!(choices, choices_by_bodies(bytes, kind));
    assert!(choices
        .windows(2)
        .all(|two| two[0].procedures == two[1].procedures));
    assert!(kind == Kind::Concurrent || choices.len() <= 1);
    let (given, after, _) = mended(bytes, kind, MOST);
    let kept = bytes.len() - 16;
    assert_eq!(bytes[..kept], after[..kept]);
    let expected = match (verdict(bytes, kind).is_ok(), choices.len()) {
        (true, _) => 0,
        (false, 0) => 14,
        (false, 1) => 0,
        (false, _) => 15,
    };
    assert_eq!(given.number, expected);
    if expected == 0 {
        let read = match kind {
            Kind::Concurrent => read_concurrent(&after),
            Kind::Sequential => read_sequential(&after),
        };
        assert_eq!(read.number, 0);
        assert_eq!(mended(&after, kind, 0).0, answer(0, 0));
    }
    given.number
}

#[test]
fn random_tables() {
    let mut random = Random::new(108);
    let mut numbers = [0; 16];
    for i in 0..300 {
        let kind = match i % 2 {
            0 => Kind::Concurrent,
            _ => Kind::Sequential,
        };
        let mut program = program_of(kind, Scale::Small, &mut random);
        // A location that nothing names: its size may look like a main.
        if random.percent(40) {
            program.sizes.push(random.between(1, 3) as u16);
        }
        let good = write::table(&program, kind);
        if good.len() > 400 {
            continue;
        }
        let mut bytes = match i % 3 {
            0 => damaged(&good, &mut random),
            _ => good.clone(),
        };
        if bytes.len() < 16 {
            continue;
        }
        if i % 5 != 0 {
            let kept = bytes.len() - 16;
            bytes[kept..].fill_with(|| random.byte());
        }
        let number = against_all_choices(&bytes, kind);
        numbers[usize::from(number)] += 1;
        // "A table that was accepted, with scrambled last bytes, comes back as it was or gives 15"
        let was_accepted = verdict(&good, kind).is_ok();
        if was_accepted && i % 3 != 0 {
            let (given, after, _) = mended(&bytes, kind, MOST);
            assert!(given.number == 15 || after == good);
            assert!(kind == Kind::Concurrent || given.number == 0);
        }
    }
    println!("{numbers:?}");
    assert!(numbers[0] > 100 && numbers[14] > 40 && numbers[15] > 10);
}

/// Small bytes of few values, where other choices come up by chance.
#[test]
fn small_bytes() {
    let mut random = Random::new(1_108);
    let mut numbers = [0; 16];
    for i in 0..2_000 {
        let kind = match i % 2 {
            0 => Kind::Concurrent,
            _ => Kind::Sequential,
        };
        let bodies = random.between(1, 3);
        let mut bytes = vec![0; bodies];
        for body in 0..bodies {
            bytes.extend([0, random.pick(&[0, 0, 1]), body as u8, 0, 0, 0]);
        }
        for _ in 0..random.between(0, 6) {
            bytes.extend([random.pick(&[0, 1, 1, 2]), random.pick(&[0, 0, 0, 1])]);
        }
        if i % 4 < 2 {
            let place = random.below(bytes.len());
            bytes[place] = random.pick(&[0, 1, 2]);
        }
        bytes.extend([0xEE; 16]);
        numbers[usize::from(against_all_choices(&bytes, kind))] += 1;
    }
    println!("{numbers:?}");
    assert!([0, 14, 15].iter().all(|number| numbers[*number] > 50));
}
