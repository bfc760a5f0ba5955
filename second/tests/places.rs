//! The two modes of the translator: where the locals of procedures are, how long the copies get, and
//! that no row is shorter.

use second::batch::fnv;
use second::builder::*;
use second::calls::*;
use second::line::BUDGET;
use second::place_samples::{c, edge_of_9, edge_of_9_in_the_old_mode, helpers, samples};
use second::placement::{row, Mode, Row, MODES};
use second::program::{Kind, Procedure, Program};
use second::random::{program_of, Random, Scale};
use second::verdict::verdict;
use second::write;

/// Example C, byte for byte by hand.
#[rustfmt::skip]
const C: [u8; 69] = [
    0x20, 0, 0x01, 5, 0, 0, 0, 0x25, 1, 0, 1, 0x05, 0, 0x25, 2, 0, 0, 0,
    0x20, 1, 0x10, 0x05, 0, 0x01, 1, 0, 0, 0, 0,
    0x20, 0, 0x04, 0,
    0, 1, 0, 0, 0, 0,
    1, 2, 18, 0, 0, 0,
    0, 1, 29, 0, 0, 0,
    0, 0,
    0x43, 0x50, 3, 0, 0, 0, 1, 0, 20, 0, 0, 0, 69, 0, 0, 0,
];

fn copy_of(mode: Mode, table: &[u8]) -> Vec<u8> {
    copy_in(mode, table).unwrap()
}

#[test]
fn c_in_both_modes() {
    assert_eq!(table(&c()), C);
    let own = copy_of(Mode::Own, &C);
    assert_eq!((own.len(), fnv(&own)), (565, 0x8b38_9fad_9a43_19b6));
    let shared = copy_of(Mode::Shared, &C);
    assert_eq!((shared.len(), fnv(&shared)), (563, 0x3409_a3c0_8443_e6d8));
}

/// The schedule of eight 0: eight steps, and 205 of each copy.
#[test]
fn runs_of_c_in_both_modes() {
    let run = run_concurrent(&C, &[0; 8], &mut [], &mut []);
    assert_eq!((run.end, run.steps, run.unused, run.events), (0, 8, 0, 0));
    for mode in MODES {
        let copy = copy_of(mode, &C);
        let mut cells = vec![0; 5 * read_sequential(&copy).cells as usize];
        let run = run_sequential(&copy, &[0; 8], BUDGET, 0, &mut cells, &mut []);
        let told = (run.number, run.end, run.steps, run.unused, run.events);
        assert_eq!(told, (0, 0, 205, 0, 0), "{mode:?}");
        let rest = match mode {
            // x0 = 5; x0 = 5 and x1 = 6 of 1; x0 = true of 2.
            Mode::Own => vec![
                [1, 5, 0, 0, 0],
                [1, 5, 0, 0, 0],
                [1, 6, 0, 0, 0],
                [4, 0, 0, 0, 0],
            ],
            // 2's local took the place of 1's parameter.
            Mode::Shared => vec![[1, 5, 0, 0, 0], [4, 0, 0, 0, 0], [1, 6, 0, 0, 0]],
        };
        // Before them ptid, pct and three times from, one cell each.
        assert_eq!(cells[25..], rest.concat(), "{mode:?}");
    }
}

#[test]
fn rows_of_samples() {
    for sample in samples() {
        let table = table(&sample.program);
        assert_eq!(read_concurrent(&table).number, 0, "{}", sample.name);
        assert_eq!(
            row(&sample.program, Mode::Own),
            sample.own,
            "{}",
            sample.name
        );
        assert_eq!(
            row(&sample.program, Mode::Shared),
            sample.shared,
            "{}",
            sample.name
        );
        for (mode, row) in [(Mode::Own, &sample.own), (Mode::Shared, &sample.shared)] {
            let copy = read_sequential(&copy_of(mode, &table));
            let before = (sample.program.procedures.len() + 2) as u64;
            let threads = sample.program.mains.len() as u64;
            assert_eq!(
                copy.locations,
                before + u64::from(row.length),
                "{}",
                sample.name
            );
            assert_eq!(
                copy.cells,
                1 + threads * (copy.locations - 1),
                "{}",
                sample.name
            );
        }
    }
}

/// Fifteen helpers of 2 to 16 locals, and main's one: 136 and 17 locations for them, two cells each.
#[test]
fn sixteen_helpers() {
    let table = table(&helpers());
    let [own, shared] = MODES.map(|mode| read_sequential(&copy_of(mode, &table)));
    assert_eq!((own.locations, own.cells), (18 + 136, 35 + 2 * 136));
    assert_eq!((shared.locations, shared.cells), (18 + 17, 35 + 2 * 17));
}

/// "Numbers 9 and 10 use the chosen mode's length."
#[test]
fn number_9_by_the_mode() {
    let lengths = |program: &Program| {
        MODES.map(|mode| {
            let answer = translate(&table(program), mode, &mut [7; 70_000]);
            (answer.number, answer.length)
        })
    };
    assert_eq!(table(&edge_of_9(0)).len(), 10_936);
    assert_eq!(lengths(&edge_of_9(0)), [(9, 0), (0, 65_536)]);
    assert_eq!(lengths(&edge_of_9(1)), [(9, 0), (9, 0)]);
    let shorter = edge_of_9_in_the_old_mode();
    assert_eq!(lengths(&shorter), [(0, 65_536), (0, 65_534)]);
    // What the old mode refuses is written by the other, and can be run.
    let copy = copy_of(Mode::Shared, &table(&edge_of_9(0)));
    assert_eq!(read_sequential(&copy).number, 0);
}

#[test]
fn number_10_by_the_mode() {
    for (mode, length) in [(Mode::Own, 565), (Mode::Shared, 563)] {
        for short in [0, 1, length - 1] {
            let mut out = vec![7; short];
            let answer = translate(&C, mode, &mut out);
            assert_eq!((answer.number, answer.length), (10, 0));
            assert!(out.iter().all(|byte| *byte == 7));
        }
        let mut out = vec![7; length + 2];
        assert_eq!(translate(&C, mode, &mut out).length, length as u64);
        assert_eq!(out[length..], [7; 2]);
    }
    // 9 comes before 10, and 1 to 8 before both.
    for mode in MODES {
        assert_eq!(translate(&table(&edge_of_9(1)), mode, &mut []).number, 9);
        assert_eq!(translate(&C[..68], mode, &mut []).number, 1);
    }
}

#[test]
fn modes_by_their_numbers() {
    assert_eq!(Mode::numbered(0), Mode::Own);
    for number in [1, 2, 255, 256, 1 << 32, u64::MAX] {
        assert_eq!(Mode::numbered(number), Mode::Shared);
    }
    for mode in MODES {
        assert_eq!(Mode::numbered(u64::from(mode.number())), mode);
    }
}

/// For each two procedures whether the second is reached from the first by calls.
fn reached(program: &Program) -> Vec<Vec<bool>> {
    let count = program.procedures.len();
    let callees = program.procedures.iter().map(second::rules::callees);
    let mut reached: Vec<Vec<bool>> = callees
        .map(|all| (0..count).map(|one| all.contains(&(one as u16))).collect())
        .collect();
    for between in 0..count {
        for first in 0..count {
            for last in 0..count {
                reached[first][last] |= reached[first][between] && reached[between][last];
            }
        }
    }
    reached
}

/// "procedures on one call path don't overlap"
fn is_apart(program: &Program, row: &Row) -> bool {
    let reached = reached(program);
    let places = |p: usize| row.starts[p]..row.starts[p] + u16::from(program.procedures[p].locals);
    let count = program.procedures.len();
    (0..count).all(|first| {
        (0..count).all(|last| {
            let (one, other) = (places(first), places(last));
            !reached[first][last]
                || one.is_empty()
                || other.is_empty()
                || one.end <= other.start
                || other.end <= one.start
        })
    })
}

#[test]
fn random_programs_in_both_modes() {
    let mut random = Random::new(107);
    let mut shorter = 0;
    for number in 0..4_000 {
        let scale = if number % 20 == 0 {
            Scale::Large
        } else {
            Scale::Small
        };
        let made = program_of(Kind::Concurrent, scale, &mut random);
        let table = write::table(&made, Kind::Concurrent);
        let Ok(program) = verdict(&table, Kind::Concurrent) else {
            continue;
        };
        let [own, shared] = MODES.map(|mode| row(&program, mode));
        assert!(is_apart(&program, &own) && is_apart(&program, &shared));
        assert!(shared.length <= own.length);
        let [own_copy, shared_copy] = MODES.map(|mode| copy_of(mode, &table));
        let saved = usize::from(own.length - shared.length);
        assert_eq!(own_copy.len(), shared_copy.len() + 2 * saved);
        // Nothing else tells them apart: the same code, with other locations.
        let [one, other] =
            [&own_copy, &shared_copy].map(|copy| verdict(copy, Kind::Sequential).unwrap());
        assert_eq!(one.procedures.len(), other.procedures.len());
        if own == shared {
            assert_eq!(own_copy, shared_copy);
        }
        shorter += usize::from(saved > 0);
    }
    assert!(shorter > 1_000, "{shorter}");
}

/// The program whose procedure i calls procedure j, i < j, where the bits say so.
fn graph(locals: &[u8], bits: usize) -> Program {
    let mut bits = bits;
    let mut procedures: Vec<Procedure> = Vec::new();
    for (caller, locals_of_it) in locals.iter().enumerate() {
        let mut body = Vec::new();
        for callee in caller + 1..locals.len() {
            if bits % 2 == 1 {
                body.push(call(callee as u16, vec![]));
            }
            bits /= 2;
        }
        procedures.push(procedure(0, *locals_of_it, body));
    }
    program(procedures, &[], &[0])
}

/// All numbers of so many digits to this base.
fn digits(count: usize, base: u8) -> Vec<Vec<u8>> {
    (0..count).fold(vec![vec![]], |all, _| {
        let longer = |one: &Vec<u8>| {
            (0..base)
                .map(|digit| [&one[..], &[digit]].concat())
                .collect::<Vec<_>>()
        };
        all.iter().flat_map(longer).collect()
    })
}

/// "no fixed placement with that property has a shorter row": every placement into a row that is
/// one shorter, each procedure anywhere in it, also in places that are not side by side.
#[test]
fn no_row_is_shorter() {
    for count in 1..=4 {
        for locals in digits(count, 3) {
            for bits in 0..1 << (count * (count - 1) / 2) {
                let program = graph(&locals, bits);
                let shared = row(&program, Mode::Shared);
                assert!(is_apart(&program, &shared));
                if shared.length > 0 {
                    let room = shared.length - 1;
                    assert!(
                        !fits(&program, &reached(&program), room, &mut Vec::new()),
                        "{program:?}"
                    );
                    assert!(fits(
                        &program,
                        &reached(&program),
                        room + 1,
                        &mut Vec::new()
                    ));
                }
            }
        }
    }
}

/// Can the procedures behind those that have places (as bits) be given places in so much room?
fn fits(program: &Program, reached: &[Vec<bool>], room: u16, places: &mut Vec<u32>) -> bool {
    let next = places.len();
    let Some(procedure) = program.procedures.get(next) else {
        return true;
    };
    let taken = (0..next)
        .filter(|earlier| reached[*earlier][next] || reached[next][*earlier])
        .fold(0, |taken, earlier| taken | places[earlier]);
    (0..1u32 << room).any(|some| {
        if some.count_ones() != u32::from(procedure.locals) || some & taken != 0 {
            return false;
        }
        places.push(some);
        let found = fits(program, reached, room, places);
        places.pop();
        found
    })
}
