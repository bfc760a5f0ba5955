//! `and`: every operand beside every other, at every place; long rows, bracketed both ways.

use second::and_samples::*;
use second::builder::*;
use second::calls::*;
use second::line::line;
use second::machine::End;
use second::program::Program;
use second::reason::Reason::{self, *};
use second::samples::one_thread;
use second::value::Value;

/// Cell 0 of location 0, whose size is 2.
fn cell_0(cells: &[u8; 10]) -> [u8; 5] {
    [0, 1, 2, 3, 4].map(|i| cells[i])
}

fn check(placed: &Placed, answer: RunAnswer, cells: &[u8; 10], out_of_turns: End) {
    let name = &placed.name;
    let (end, shown) = match placed.shown {
        Err(reason) => (End::Blocked(reason), Value::Whole(0)),
        Ok(value) if placed.is_endless => (out_of_turns, value),
        Ok(value) => (End::Finished, value),
    };
    assert_eq!((answer.number, answer.end), (0, end.number()), "{name}");
    assert_eq!(answer.reason, end.reason(), "{name}");
    assert_eq!(cell_0(cells), shown.five_bytes(), "{name}");
    if matches!(end, End::Blocked(_)) {
        assert_eq!((answer.steps, answer.events), (READY_STEPS, 0), "{name}");
    }
}

#[test]
fn each_pair_at_each_place_and_each_row() {
    for placed in all_placed() {
        let mut cells = [0; 10];
        let program = table(&concurrent(&placed));
        let answer = run_concurrent(&program, &[0; 12], &mut cells, &mut []);
        check(&placed, answer, &cells, End::Used);
        if placed.may_be_sequential() {
            let mut cells = [0; 10];
            let program = table(&sequential(&placed));
            let answer = run_sequential(&program, &[], 40, 1, &mut cells, &mut []);
            check(&placed, answer, &cells, End::Budget);
        }
    }
}

/// What the samples say of some, by hand.
#[test]
fn answers_by_hand() {
    let all = [pairs(), rows()].concat();
    for (name, result) in [
        ("false and true", Ok(false)),
        ("f and 0", Ok(false)),
        ("false and location", Ok(false)),
        ("f and MAX + 1", Ok(false)),
        ("0 < 0 and not 0", Ok(false)),
        ("t and t", Ok(true)),
        ("true and f", Ok(false)),
        ("true and 0", Err(WrongKind)),
        ("t and MAX + 1", Err(OutOfRange)),
        ("t and not 0", Err(WrongKind)),
        ("0 and false", Err(WrongKind)),
        ("0 and MAX + 1", Err(WrongKind)),
        ("location and MAX + 1", Err(WrongKind)),
        ("MAX + 1 and false", Err(OutOfRange)),
        ("MAX + 1 and 0", Err(OutOfRange)),
        ("((t and f) and MAX + 1) and t", Ok(false)),
        ("t and (f and (MAX + 1 and t))", Ok(false)),
        ("((t and t) and MAX + 1) and f", Err(OutOfRange)),
        ("t and (t and (MAX + 1 and f))", Err(OutOfRange)),
        ("((f and MAX + 1) and t) and MAX + 1", Ok(false)),
    ] {
        let found = all.iter().find(|one| one.name == name);
        let found = found.unwrap_or_else(|| panic!("{name}"));
        assert_eq!(found.result, result as Result<bool, Reason>, "{name}");
    }
}

/// The run program's line for x := true and an if with this test.
fn line_of(program: &Program) -> String {
    let mut input = vec![9, 0, 0, 0, 0, 0, 0, 0, 0, 0, 0];
    input.extend(table(program));
    line(&input)
}

fn with_test(test: second::expression::Expression) -> Program {
    let body = vec![assign(0, truth(true)), if_else(test, vec![], vec![])];
    program(vec![procedure(0, 1, body)], &[], &[0])
}

/// "they are still loaded and priced, because loads don't know the outcome": two steps for a variable.
#[test]
fn a_right_side_that_is_skipped_is_loaded() {
    let skipped = with_test(and(truth(false), less(local(0), number(0))));
    assert_eq!(line_of(&skipped), "finished 3 65 6 0 0");
    let without = with_test(and(truth(false), less(number(0), number(0))));
    assert_eq!(line_of(&without), "finished 3 63 6 0 0");
    let evaluated = with_test(and(local(0), less(local(0), number(0))));
    assert_eq!(line_of(&evaluated), "blocked 1 36 8 0 2");
}

/// "Number 8 still asks that the variables on the right are set".
#[test]
fn a_right_side_that_is_skipped_must_be_set() {
    for left in [truth(false), truth(true)] {
        let unset = one_thread(1, vec![if_else(and(left, local(0)), vec![], vec![])]);
        assert_eq!(read_concurrent(&table(&unset)).number, 8);
    }
}
