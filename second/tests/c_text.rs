//! C text: worked bytes, there and back, and texts that are no program's.

use second::batch::fnv;
use second::builder::table;
use second::c_text::{text, LONGEST, PRELUDE};
use second::calls::{print_c, read_c, read_sequential, translate, WriteAnswer};
use second::placement::Mode;
use second::program::{Kind, Program};
use second::random::{damaged, program_of, Random, Scale};
use second::samples::{b, deepest, judged, A};
use second::text_samples::*;
use second::verdict::verdict;
use second::write;

/// The answer, and the buffer, which held 200 in each byte.
type Call = fn(&[u8], &mut [u8]) -> WriteAnswer;

fn given(call: Call, input: &[u8], room: usize) -> (WriteAnswer, Vec<u8>) {
    let mut out = vec![200; room];
    let answer = call(input, &mut out);
    (answer, out)
}

fn answer(number: u8, length: usize) -> WriteAnswer {
    WriteAnswer {
        number,
        length: length as u64,
    }
}

/// What a call writes, with a buffer too short by a byte, exact and longer.
fn writes(call: Call, input: &[u8], wanted: &[u8]) {
    let length = wanted.len();
    assert_eq!(
        given(call, input, length),
        (answer(0, length), wanted.to_vec())
    );
    let (longer, out) = given(call, input, length + 3);
    assert_eq!(longer, answer(0, length));
    assert_eq!((&out[..length], &out[length..]), (wanted, &[200; 3][..]));
    for short in [0, length - 1] {
        assert_eq!(given(call, input, short), (answer(10, 0), vec![200; short]));
    }
}

fn there_and_back(program: &Program) {
    let table = write::table(program, Kind::Sequential);
    assert_eq!(read_sequential(&table).number, 0);
    let text = text(program);
    writes(print_c, &table, text.as_bytes());
    writes(read_c, text.as_bytes(), &table);
}

#[test]
fn the_prelude() {
    assert_eq!(PRELUDE.len(), 5_071);
    assert_eq!(fnv(PRELUDE.as_bytes()), 0xD1A8_8910_8244_0DCD);
}

/// The copy of A, as docs/C-TEXT.md has it behind the prelude.
#[test]
fn the_copy_of_a() {
    let text = text(&copy_of_a());
    assert_eq!(text.len(), 6_239);
    assert_eq!(fnv(text.as_bytes()), 0x59F9_C8F2_D745_DF7A);
    let expected = "\
z_value m0[1];
z_value m1[1];
z_value m2[1];
const z_area z_areas[] = {
  { m0, 1 },
  { m1, 1 },
  { m2, 1 },
  { 0, 0 }
};

void p0(void);
void p1(z_value x0);

void p0(void) {
  enum { here = 0 };
  z_value x0 = z_unset(); (void)x0;
  z_value x1 = z_unset(); (void)x1;
  z_value x2 = z_unset(); (void)x2;
  z_value x3 = z_unset(); (void)x3;
  x1 = z_set(z_loc(1));
  z_write(here, x1, z_num(0), z_num(1));
  x1 = z_set(z_loc(2));
  z_write(here, x1, z_num(0), z_num(0));
  x3 = z_set(z_false());
  while (z_test(z_not(x3))) {
    z_select(0, 1);
    x1 = z_set(z_loc(0));
    x0 = z_read(here, x1, z_num(0));
    x1 = z_set(z_loc(1));
    x2 = z_read(here, x1, x0);
    if (z_test(z_equal(x2, z_num(1)))) {
      z_call(); p1(x0);
    } else {
    }
    x3 = z_set(z_true());
    x1 = z_set(z_loc(1));
    x2 = z_read(here, x1, z_num(0));
    x3 = z_set(z_and(x3, z_equal(x2, z_num(0))));
  }
  z_return();
}

void p1(z_value x0) {
  enum { here = 1 };
  x0 = z_arg(x0);
  z_value x1 = z_unset(); (void)x1;
  z_value x2 = z_unset(); (void)x2;
  x1 = z_set(z_loc(2));
  x2 = z_read(here, x1, x0);
  x1 = z_set(z_loc(1));
  z_write(here, x1, x0, x2);
  z_return();
}
";
    assert_eq!(&text[PRELUDE.len()..], expected);
    let mut copy = vec![0; 173];
    translate(&A, Mode::Own, &mut copy);
    writes(print_c, &copy, text.as_bytes());
}

/// Each rule of the table, by hand.
#[test]
fn each_instruction() {
    let expected = "\
void p0(void);
void p1(z_value x0, z_value x1);
void p2(void);

void p0(void) {
  enum { here = 0 };
  z_value x0 = z_unset(); (void)x0;
  z_value x1 = z_unset(); (void)x1;
  z_value x2 = z_unset(); (void)x2;
  x0 = z_set(z_loc(1));
  x1 = z_set(z_num(7));
  z_write(here, x0, z_num(0), z_add(z_sub(z_num(1), z_num(-2)), z_mul(z_num(3), x1)));
  x2 = z_read(here, x0, x1);
  z_select(0, 1);
  if (z_test(z_and(z_less(z_num(4), z_neg(z_num(5))), z_not(z_equal(z_loc(1), z_loc(0)))))) {
    x1 = z_set(z_true());
  } else {
    x1 = z_set(z_false());
  }
  while (z_test(z_false())) {
    z_call(); p1(x0,
z_num(-5));
  }
  z_call(); p2();
  z_return();
}

void p1(z_value x0, z_value x1) {
  enum { here = 1 };
  x0 = z_arg(x0);
  x1 = z_arg(x1);
  z_value x2 = z_unset(); (void)x2;
  z_write(here, x0, z_num(0), x1);
  z_return();
}

void p2(void) {
  enum { here = 2 };
  z_return();
}
";
    let areas = "\
z_value m0[2];
z_value m1[256];
const z_area z_areas[] = {
  { m0, 2 },
  { m1, 256 },
  { 0, 0 }
};

";
    let text = text(&every_rule());
    assert_eq!(text[PRELUDE.len()..], [areas, expected].concat());
}

#[test]
fn separators_by_level() {
    let programs = printed();
    let (_, program) = programs.iter().find(|p| p.0 == "separators").unwrap();
    let text = text(program);
    // A complete tree: the separators of the levels 4, 3, 4, 2, 4, 3, 4, 1, ..
    let one = "z_num(1)";
    let two = format!("z_add({one},\n{one})");
    let three = format!("z_add({two}, {two})");
    let four = format!("z_add({three}, {three})");
    let five = format!("x0 = z_set(z_add({four}, {four}));\n");
    assert!(text.contains(&five));
    let left = "z_sub(".repeat(15) + "z_num(1)";
    let late = ",\nz_num(2))".repeat(12);
    let early = ", z_num(2))".repeat(3);
    assert!(text.contains(&format!("  x0 = z_set({left}{late}{early});\n")));
    let longest = text.lines().map(str::len).max().unwrap();
    assert!(longest <= 1_849);
}

#[test]
fn programs_by_hand() {
    for (_, program) in printed() {
        there_and_back(&program);
    }
}

#[test]
fn the_longest_text() {
    let program = longest();
    assert_eq!(table(&program).len(), 65_536);
    assert_eq!(text(&program).len(), LONGEST);
    there_and_back(&program);
}

#[test]
fn judged_tables() {
    for sample in judged() {
        let number = match verdict(&sample.table, Kind::Sequential) {
            Ok(program) => {
                there_and_back(&program);
                continue;
            }
            Err(number) => number,
        };
        for room in [0, 9_000] {
            let left = given(print_c, &sample.table, room);
            assert_eq!(
                left,
                (answer(number, 0), vec![200; room]),
                "{}",
                sample.name
            );
        }
    }
    there_and_back(&deepest(Kind::Sequential));
}

#[test]
fn random_programs() {
    let mut random = Random::new(106);
    for i in 0..800 {
        let scale = match i % 40 {
            0 => Scale::Large,
            _ => Scale::Small,
        };
        let program = program_of(Kind::Sequential, scale, &mut random);
        if verdict(&write::table(&program, Kind::Sequential), Kind::Sequential).is_ok() {
            there_and_back(&program);
        }
        let source = program_of(Kind::Concurrent, Scale::Small, &mut random);
        let mut copy = vec![0; 65_536];
        let mode = Mode::numbered(i / 4 % 2);
        let answer = translate(&write::table(&source, Kind::Concurrent), mode, &mut copy);
        if answer.number == 0 && i % 4 == 0 {
            let copy = verdict(&copy[..answer.length as usize], Kind::Sequential);
            there_and_back(&copy.unwrap());
        }
    }
}

#[test]
fn foreign_texts() {
    let all = foreign().into_iter().chain(refused_long_programs());
    for foreign in all {
        for room in [0, 70_000] {
            let left = given(read_c, &foreign.text, room);
            assert_eq!(left, (answer(1, 0), vec![200; room]), "{}", foreign.name);
        }
    }
    let table = table(&b());
    assert_eq!(given(read_c, &table, 9_000).0, answer(1, 0));
}

/// A text that is read is the text of what it was read as. Answers whether it was.
fn is_read(text: &[u8]) -> bool {
    let (answer, out) = given(read_c, text, 1_000);
    if answer.number == 1 {
        assert!(out.iter().all(|byte| *byte == 200));
        return false;
    }
    assert_eq!(answer.number, 0);
    let table = &out[..answer.length as usize];
    let printed = given(print_c, table, text.len());
    assert_eq!(printed.1, text);
    true
}

/// Every byte behind the prelude with some other values, every cut, each byte left out or doubled.
#[test]
fn changed_texts() {
    let ours = text(&every_rule()).into_bytes();
    assert!(is_read(&ours));
    let mut others = 0;
    for place in PRELUDE.len() - 3..ours.len() {
        for byte in [
            b'0', b'1', b'9', b'x', b'z', b' ', b'\n', b'-', b',', 0, 255,
        ] {
            if ours[place] != byte {
                let mut text = ours.clone();
                text[place] = byte;
                others += usize::from(is_read(&text));
            }
        }
        assert!(!is_read(&ours[..place]));
        let mut text = ours.clone();
        text.remove(place);
        others += usize::from(is_read(&text));
        text.insert(place, ours[place]);
        text.insert(place, ours[place]);
        others += usize::from(is_read(&text));
    }
    // Other numbers and other variables make other programs.
    println!("{others} of the changed texts are texts of other programs");
    assert!((20..200).contains(&others), "{others}");
}

/// Bytes of the prelude, and any damage.
#[test]
fn damaged_texts() {
    let ours = text(&copy_of_a()).into_bytes();
    for place in (0..PRELUDE.len()).step_by(7) {
        let mut text = ours.clone();
        text[place] ^= 1;
        assert!(!is_read(&text));
    }
    let mut random = Random::new(1_106);
    for _ in 0..2_000 {
        let behind = damaged(&ours[PRELUDE.len()..], &mut random);
        is_read(&[PRELUDE.as_bytes(), &behind].concat());
    }
}
