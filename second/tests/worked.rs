//! The paper's worked examples, starred and not.

use second::builder::*;
use second::calls::*;
use second::expression::Expression;
use second::line::{input, line, BUDGET};
use second::machine::End;
use second::placement::Mode;
use second::program::{Block, Instruction, Kind, Program};
use second::samples::{b, one_thread, A};
use second::sequential::{Next, Sequential};
use second::value::Value;
use second::verdict::verdict;
use second::wide_samples;

const FINISHED: End = End::Finished;
const USED: End = End::Used;

fn translation(table: &[u8]) -> Vec<u8> {
    copy_in(Mode::Own, table).unwrap()
}

fn run_copy(table: &[u8], schedule: &[u8]) -> RunAnswer {
    let read = read_concurrent(table);
    let mut cells = vec![0; 86_000];
    let h = read.locations as u32;
    run_sequential(
        &translation(table),
        schedule,
        BUDGET,
        h,
        &mut cells,
        &mut [],
    )
}

fn answer(end: End, steps: u64, unused: u64, events: u64) -> RunAnswer {
    RunAnswer {
        number: 0,
        end: end.number(),
        steps,
        unused,
        events,
        reason: end.reason(),
    }
}

#[test]
fn a_is_read() {
    let expected = ReadAnswer {
        number: 0,
        procedures: 1,
        locations: 0,
        threads: 1,
        labels: 1,
        cells: 0,
    };
    assert_eq!(A.len(), 25);
    assert_eq!(read_concurrent(&A), expected);
    let built = program(vec![procedure(0, 0, vec![])], &[], &[0]);
    assert_eq!(table(&built), A);
}

/// A's translation, byte for byte by hand.
#[test]
fn a_is_translated_to_173_bytes() {
    #[rustfmt::skip]
    let expected = [
        // procedure 0: tmp := pct; tmp[0] := 1; tmp := from; tmp[0] := 0; terminated := false
        0x20, 1, 0x02, 1, 0,
        0x21, 1, 0x01, 0, 0, 0, 0, 0x01, 1, 0, 0, 0,
        0x20, 1, 0x02, 2, 0,
        0x21, 1, 0x01, 0, 0, 0, 0, 0x01, 0, 0, 0, 0,
        0x20, 3, 0x03,
        // while not terminated: select(ptid, pct); tmp := ptid; tid := tmp[0]; tmp := pct;
        // stmt := tmp[tid]
        0x23, 0x16, 0x05, 3,
        0x27, 0, 0, 1, 0,
        0x20, 1, 0x02, 0, 0,
        0x22, 0, 1, 0x01, 0, 0, 0, 0,
        0x20, 1, 0x02, 1, 0,
        0x22, 2, 1, 0x05, 0,
        // if stmt = 1, call 1 with tid, else nothing
        0x24, 0x14, 0x05, 2, 0x01, 1, 0, 0, 0,
        0x25, 1, 0, 1, 0x05, 0, 0x00,
        0x00,
        // terminated := true; tmp := pct; stmt := tmp[0];
        // terminated := terminated and (stmt = 0)
        0x20, 3, 0x04,
        0x20, 1, 0x02, 1, 0,
        0x22, 2, 1, 0x01, 0, 0, 0, 0,
        0x20, 3, 0x15, 0x05, 3, 0x14, 0x05, 2, 0x01, 0, 0, 0, 0,
        0x00,
        0x00,
        // procedure 1: tmp := from; aux := tmp[tid]; tmp := pct; tmp[tid] := aux
        0x20, 1, 0x02, 2, 0,
        0x22, 2, 1, 0x05, 0,
        0x20, 1, 0x02, 1, 0,
        0x21, 1, 0x05, 0, 0x05, 2,
        0x00,
        // records
        0, 4, 0, 0, 0, 0,
        1, 3, 117, 0, 0, 0,
        // sizes of ptid, pct and from
        1, 0, 1, 0, 1, 0,
        // trailer
        0x53, 0x50, 2, 0, 3, 0, 0, 0, 18, 0, 0, 0, 173, 0, 0, 0,
    ];
    assert_eq!(expected.len(), 173);
    assert_eq!(translation(&A), expected);
}

#[test]
fn a_runs() {
    let run = run_concurrent(&A, &[0], &mut [], &mut []);
    assert_eq!(run, answer(FINISHED, 1, 0, 0));
    assert_eq!(run_copy(&A, &[0]), answer(FINISHED, 24, 0, 0));
    assert_eq!(line(&input(&[0], &A)), "finished 1 24 0 0 0");
}

/// "A, schedule 0 0: finished, one entry unused."
#[test]
fn a_leaves_an_entry_unused() {
    let run = run_concurrent(&A, &[0, 0], &mut [], &mut []);
    assert_eq!(run, answer(FINISHED, 1, 1, 0));
    assert_eq!(run_copy(&A, &[0, 0]), answer(FINISHED, 24, 1, 0));
    assert_eq!(line(&input(&[0, 0], &A)), "finished 1 24 1 0 0");
}

#[test]
fn b_is_read_and_translated() {
    let table = table(&b());
    let expected = ReadAnswer {
        number: 0,
        procedures: 1,
        locations: 1,
        threads: 2,
        labels: 4,
        cells: 1,
    };
    assert_eq!(table.len(), 57);
    assert_eq!(read_concurrent(&table), expected);
    assert_eq!(translation(&table).len(), 419);
}

fn b_ends_with(schedule: &[u8], value: u8) {
    let table = table(&b());
    let mut cells = [0; 5];
    let run = run_concurrent(&table, schedule, &mut cells, &mut []);
    assert_eq!(run, answer(FINISHED, 8, 0, 4));
    assert_eq!(cells, [1, value, 0, 0, 0]);
    assert_eq!(run_copy(&table, schedule), answer(FINISHED, 198, 0, 4));
    assert_eq!(line(&input(schedule, &table)), "finished 8 198 0 4 0");
}

#[test]
fn b_ends_with_2() {
    b_ends_with(&[0, 0, 0, 0, 1, 1, 1, 1], 2);
}

#[test]
fn b_ends_with_1() {
    b_ends_with(&[0, 0, 1, 1, 0, 1, 0, 1], 1);
}

#[test]
fn b_with_an_empty_schedule() {
    let table = table(&b());
    let run = run_concurrent(&table, &[], &mut [0; 5], &mut []);
    assert_eq!(run, answer(USED, 0, 0, 0));
    assert_eq!(run_copy(&table, &[]), answer(USED, 9, 0, 0));
    assert_eq!(line(&input(&[], &table)), "used 0 9 0 0 0");
}

/// B's events under 0 0 1 1 0 1 0 1, byte for byte.
#[test]
fn events_of_b() {
    let mut events = [9; 54];
    run_concurrent(
        &table(&b()),
        &[0, 0, 1, 1, 0, 1, 0, 1],
        &mut [0; 5],
        &mut events,
    );
    #[rustfmt::skip]
    let expected = [
        0, 0, 0, 0, 0, 0, 1, 0, 0, 0, 0, 2, 0,
        1, 0, 0, 0, 0, 0, 1, 0, 0, 0, 0, 2, 0,
        0, 1, 0, 0, 0, 0, 1, 1, 0, 0, 0, 3, 0,
        1, 1, 0, 0, 0, 0, 1, 1, 0, 0, 0, 3, 0,
        9, 9,
    ];
    assert_eq!(events, expected);
}

/// The steps of the copy between two loop heads, without L + 2T + 10.
fn prices(program: &Program, schedule: &[u8]) -> Vec<u64> {
    let table = table(program);
    let read = read_concurrent(&table);
    let copy = verdict(&translation(&table), Kind::Sequential).unwrap();
    let mut machine = Sequential::new(&copy, schedule);
    let mut heads = Vec::new();
    loop {
        if machine.stack.len() == 1 && matches!(machine.next(), Some(Instruction::While { .. })) {
            heads.push(machine.steps);
        }
        if let Next::Ended(_) = machine.advance(BUDGET) {
            break;
        }
    }
    let overhead = read.labels + 2 * read.threads + 10;
    let differences = heads.windows(2).map(|pair| pair[1] - pair[0] - overhead);
    differences.collect()
}

#[test]
fn prices_of_b() {
    assert_eq!(prices(&b(), &[0, 0, 0, 0]), [4, 7, 7, 4]);
}

/// Each row of the price table.
#[test]
fn prices_of_each_instruction() {
    let main = vec![
        assign(0, number(1)),
        assign(1, location(0)),
        // k = 1: 2k+4
        assign(0, add(local(0), local(0))),
        // k = 1: 2k+7
        read(2, 1, subtract(local(0), number(2))),
        // j = 2, k = 1, the variable of both loaded twice: 2j+2k+5
        write(1, subtract(local(0), number(2)), add(local(0), local(2))),
        // k = 1: 2k+3
        while_do(less(local(0), number(2)), vec![]),
        // k = 2, n = 3: 2k+2n+4
        call(1, vec![local(0), add(local(0), local(2)), number(4)]),
        // k = 0: 2k+3
        if_else(truth(true), vec![], vec![assign(0, number(9))]),
        // 2 + (2k+4-2) + (2k+1) + (2k+7-2)
        atomic(vec![
            assign(0, local(2)),
            if_else(
                equal(local(0), number(0)),
                vec![read(2, 1, number(0))],
                vec![assign(0, number(9)), assign(0, number(9))],
            ),
        ]),
        atomic(vec![]),
    ];
    let helper = vec![];
    let program = program(
        vec![procedure(0, 3, main), procedure(3, 3, helper)],
        &[1],
        &[0],
    );
    let expected = [4, 4, 6, 9, 11, 5, 14, 4, 3, 14, 2, 4];
    assert_eq!(prices(&program, &[0; 12]), expected);
}

fn value(expression: Expression) -> Option<Value> {
    expression.value(&[]).ok()
}

/// "2,147,483,647 + 1 and negate of -2,147,483,648 have no value; -2,147,483,648 itself has."
#[test]
fn range() {
    let (most, least) = (i32::MAX, i32::MIN);
    assert_eq!(value(add(number(most), number(1))), None);
    assert_eq!(value(negate(number(least))), None);
    assert_eq!(value(number(least)), Some(Value::Whole(least)));
    assert_eq!(value(add(number(least), number(-1))), None);
    assert_eq!(value(subtract(number(least), number(1))), None);
    assert_eq!(value(subtract(number(0), number(least))), None);
    assert_eq!(value(multiply(number(65_536), number(32_768))), None);
    assert_eq!(value(multiply(number(least), number(-1))), None);
    let edge = multiply(number(65_536), number(-32_768));
    assert_eq!(value(edge), Some(Value::Whole(least)));
    assert_eq!(value(negate(number(most))), Some(Value::Whole(-most)));
    let sum = add(number(most), number(least));
    assert_eq!(value(sum), Some(Value::Whole(-1)));
}

/// "An operator with an operand that has no value, or of the wrong kind, has none itself". Of and a
/// false left side decides alone.
#[test]
fn kinds_of_operands() {
    let nothing = || negate(number(i32::MIN));
    let leaves = [number(1), location(1), truth(true), nothing()];
    for (i, left) in leaves.iter().enumerate() {
        for (j, right) in leaves.iter().enumerate() {
            let (l, r) = (left.clone(), right.clone());
            let numbers = i == 0 && j == 0;
            let one_kind = i == j && i < 3;
            assert_eq!(value(add(l.clone(), r.clone())).is_some(), numbers);
            assert_eq!(value(subtract(l.clone(), r.clone())).is_some(), numbers);
            assert_eq!(value(multiply(l.clone(), r.clone())).is_some(), numbers);
            assert_eq!(value(less(l.clone(), r.clone())).is_some(), numbers);
            assert_eq!(value(equal(l.clone(), r.clone())).is_some(), one_kind);
            assert_eq!(value(and(l, r)).is_some(), i == 2 && j == 2);
        }
        assert_eq!(value(not(left.clone())).is_some(), i == 2);
        assert_eq!(value(negate(left.clone())).is_some(), i == 0);
    }
    assert_eq!(
        value(and(truth(false), nothing())),
        Some(Value::Truth(false))
    );
    assert_eq!(value(and(nothing(), truth(false))), None);
    assert_eq!(
        value(and(truth(false), truth(true))),
        Some(Value::Truth(false))
    );
    assert_eq!(
        value(and(truth(true), truth(true))),
        Some(Value::Truth(true))
    );
    assert_eq!(
        value(equal(location(1), location(2))),
        Some(Value::Truth(false))
    );
    assert_eq!(value(less(number(1), number(1))), Some(Value::Truth(false)));
    assert_eq!(value(less(number(-1), number(1))), Some(Value::Truth(true)));
    assert_eq!(value(not(truth(true))), Some(Value::Truth(false)));
    assert_eq!(
        value(subtract(number(1), number(3))),
        Some(Value::Whole(-2))
    );
}

fn labels_answer(count: usize) -> ReadAnswer {
    let body: Block = vec![assign(0, truth(true)); count - 1];
    read_concurrent(&table(&one_thread(1, body)))
}

/// Request #110: "labels to 1,000".
#[test]
fn labels_1000_and_1001() {
    assert_eq!(
        (labels_answer(1_000).number, labels_answer(1_000).labels),
        (0, 1_000)
    );
    assert_eq!(
        (labels_answer(1_001).number, labels_answer(1_001).labels),
        (6, 0)
    );
}

/// Request #110: the new bounds and one beyond.
#[test]
fn wide_tables_with_their_lines() {
    for sample in wide_samples::all() {
        let line = line(&input(&sample.schedule, &sample.table));
        assert_eq!(line, sample.line, "{}", sample.name);
    }
    let (board, thousand) = (&wide_samples::all()[0], &wide_samples::all()[5]);
    assert_eq!((board.table.len(), thousand.table.len()), (87, 3_022));
    let copies = [board, thousand].map(|sample| translation(&sample.table).len());
    assert_eq!(copies, [1_723, 48_127]);
}

/// "Depth 16 passes, 17 gives 4."
#[test]
fn depth_16_and_17() {
    for make in [
        |depth: usize| vec![assign(0, of_depth(depth))],
        |depth: usize| nested(depth - 1),
    ] {
        let number_at = |depth| read_concurrent(&table(&one_thread(1, make(depth)))).number;
        assert_eq!(number_at(16), 0);
        assert_eq!(number_at(17), 4);
    }
}

/// "Schedule 4,096 passes."
#[test]
fn schedule_4096_and_4097() {
    let endless = table(&one_thread(0, vec![while_do(truth(true), vec![])]));
    let run = |length: usize| run_concurrent(&endless, &vec![0; length], &mut [0; 10], &mut []);
    assert_eq!(run(4_096), answer(USED, 4_096, 0, 0));
    assert_eq!(run(4_097).number, 11);
    // 3T+2 and 1, and for each step L+2T+10+3.
    let copy_steps = 5 + 1 + 4_096 * (2 + 2 + 10 + 3);
    assert_eq!(
        run_copy(&endless, &[0; 4_096]),
        answer(USED, copy_steps, 0, 0)
    );
    let copy = translation(&endless);
    let answer = run_sequential(&copy, &[0; 4_097], 1, 1, &mut [0; 1_000], &mut []);
    assert_eq!(answer.number, 11);
    let line_of = |length: usize| line(&input(&vec![0; length], &endless));
    assert_eq!(line_of(4_096), format!("used 4096 {copy_steps} 0 0 0"));
    assert_eq!(line_of(4_097), "refused 11");
}

/// "Giving the end label of a main to a fresh thread whose body isn't empty" and "Sending the end
/// of a loop body past the loop" are wrong turns.
#[test]
fn wrong_turns() {
    let body = vec![
        assign(0, number(0)),
        while_do(
            less(local(0), number(2)),
            vec![assign(0, add(local(0), number(1)))],
        ),
    ];
    let run = run_concurrent(
        &table(&one_thread(1, body)),
        &[0; 20],
        &mut [0; 10],
        &mut [],
    );
    // One assignment, three tests, two assignments, one return.
    assert_eq!(run, answer(FINISHED, 7, 13, 0));
}
