//! Why runs block: every fault alone, every two at once, and whole tables with their exact lines.

use second::builder::table;
use second::calls::*;
use second::expression::Locals;
use second::line::line;
use second::machine::End;
use second::program::Program;
use second::reason::Reason::{self, *};
use second::reason_samples::*;
use second::value::Value;
use second::{builder::*, samples};

/// A run of a program that blocks behind `READY_STEPS`, nothing being left of its last step.
fn check_concurrent(name: &str, program: &Program, reason: Reason) {
    let mut cells = [7; 10];
    let mut events = [7; 26];
    let answer = run_concurrent(&table(program), &[0; 5], &mut cells, &mut events);
    let wanted = RunAnswer {
        number: 0,
        end: End::Blocked(reason).number(),
        steps: READY_STEPS,
        unused: 5 - READY_STEPS,
        events: 0,
        reason: reason as u8,
    };
    assert_eq!(answer, wanted, "{name}");
    assert_eq!(cells, [1, 0, 0, 0, 0, 1, 0, 0, 0, 0], "{name}");
    assert_eq!(events, [7; 26], "{name}");
}

#[test]
fn each_instruction_blocks_by_its_reason() {
    for sample in blocks() {
        check_concurrent(&sample.name, &concurrent(&sample), sample.reason);
        let program = table(&sequential(&sample));
        let answer = run_sequential(&program, &[0; 2], 99, 1, &mut [0; 10], &mut []);
        assert_eq!(
            (answer.number, answer.end, answer.steps),
            (0, 2, READY_STEPS)
        );
        assert_eq!((answer.unused, answer.events), (2, 0));
        assert_eq!(answer.reason, sample.reason as u8, "{}", sample.name);
    }
}

/// "the reason of the first instruction inside it that blocks"
#[test]
fn each_instruction_blocks_in_an_atomic_block() {
    for sample in blocks().iter().filter(|one| one.may_be_in_atomic()) {
        check_concurrent(&sample.name, &in_atomic(sample), sample.reason);
        check_concurrent(&sample.name, &in_a_branch(sample), sample.reason);
    }
}

/// Each reason that an instruction can give is among the samples.
#[test]
fn reasons_of_each_instruction() {
    let has = |start: &str, reason: Reason| {
        let mut all = blocks().into_iter();
        all.any(|one| one.name.starts_with(start) && one.reason == reason)
    };
    for (start, reasons) in [
        ("assign", vec![OutOfRange, WrongKind]),
        ("read", vec![OutOfRange, WrongKind, IndexOutside]),
        ("write", vec![OutOfRange, WrongKind, IndexOutside]),
        ("if", vec![OutOfRange, WrongKind]),
        ("while", vec![OutOfRange, WrongKind]),
        ("call", vec![OutOfRange, WrongKind]),
    ] {
        for reason in [OutOfRange, WrongKind, IndexOutside, FinishedThread] {
            assert_eq!(
                has(start, reason),
                reasons.contains(&reason),
                "{start} {reason:?}"
            );
        }
    }
}

fn reason_of(name: &str) -> Reason {
    let mut all = blocks().into_iter();
    let found = all.find(|one| one.name == name);
    found.unwrap_or_else(|| panic!("{name}")).reason
}

/// Orders that are easily mixed up, by hand.
#[test]
fn orders_by_hand() {
    for (name, reason) in [
        ("assign: true = MAX + 1", OutOfRange),
        ("assign: true + MAX + 1", WrongKind),
        ("assign: MAX + 1 + true", OutOfRange),
        ("assign: 0 and MAX + 1", WrongKind),
        ("assign: true and MAX + 1", OutOfRange),
        ("assign: MAX + 1 and not 0", OutOfRange),
        ("assign: not 0 < MAX + 1", WrongKind),
        ("assign: 1 < location", WrongKind),
        ("assign: 0 = true", WrongKind),
        ("assign: location = not 0", WrongKind),
        ("assign: negate MIN", OutOfRange),
        ("assign: negate true", WrongKind),
        ("assign: negate not 0", WrongKind),
        ("assign: not MAX + 1", OutOfRange),
        ("read: 0[MAX + 1]", OutOfRange),
        ("read: 0[-1]", WrongKind),
        ("read: location[-1]", IndexOutside),
        ("read: location[true]", WrongKind),
        ("write: location[not 0] := MAX + 1", OutOfRange),
        ("write: location[MAX + 1] := not 0", WrongKind),
        ("write: 0[MAX + 1] := true", OutOfRange),
        ("write: 0[2] := true", WrongKind),
        ("write: location[2] := true", IndexOutside),
        ("write: location[65,536] := not 0", WrongKind),
        ("call: MAX + 1, not 0", OutOfRange),
        ("call: not 0, MAX + 1", WrongKind),
        ("call: true, MAX + 1", OutOfRange),
        ("if: 0", WrongKind),
        ("while: MAX + 1", OutOfRange),
    ] {
        assert_eq!(reason_of(name), reason, "{name}");
    }
}

#[test]
fn whole_tables_with_their_lines() {
    for worked in worked() {
        let mut input = (worked.schedule.len() as u16).to_le_bytes().to_vec();
        input.extend(&worked.schedule);
        input.extend(&worked.table);
        assert_eq!(line(&input), worked.line);
    }
}

/// Number 8 keeps a variable that is not set out of every run; the evaluator gives 2 for it.
#[test]
fn a_variable_that_is_not_set() {
    let unset: &Locals = &[None, Some(Value::Whole(1))];
    assert_eq!(local(0).value(unset), Err(WrongKind));
    assert_eq!(local(9).value(unset), Err(WrongKind));
    assert_eq!(add(local(1), local(0)).value(unset), Err(WrongKind));
    let program = samples::one_thread(1, vec![assign(0, local(0))]);
    assert_eq!(read_concurrent(&table(&program)).number, 8);
}

/// "A refusal returns its number and zeros".
#[test]
fn a_refusal_has_no_reason() {
    let b = table(&samples::b());
    let answer = run_concurrent(&b, &[2], &mut [0; 5], &mut []);
    assert_eq!((answer.number, answer.reason), (11, 0));
    let answer = run_concurrent(&b, &[0], &mut [0; 4], &mut []);
    assert_eq!((answer.number, answer.reason), (12, 0));
    let answer = run_sequential(&b, &[0], 9, 1, &mut [0; 5], &mut []);
    assert_eq!((answer.number, answer.reason), (1, 0));
}
