//! Batches of cases: how a case is written down and what answers it.
//!
//! A case is a header of 36 bytes, a table and a schedule. The header is: op (1 byte), whether the
//! lent buffers are to be shown (1 byte, 0 or 1), 2 zero bytes, table length (4), schedule length
//! (4), budget (8), h (4), cell buffer length (4), event buffer length (4), out buffer length (4),
//! low byte first. A header whose op is 0 ends the batch. The bench has its rounds in the budget's
//! place and the most steps of a count in h's; prices have the label in the budget's place. The
//! translator is told its mode by h (0: each local has a location of its own, any other number: they
//! share them). The mender is told by h which kind is wanted (0 concurrent, any other sequential); it
//! mends the table itself, and the event buffer is its list of changes. The text reader has its text
//! in the table's place.

use crate::calls::*;
use crate::line::line;
use crate::machine::EVENT;
use crate::placement::Mode;
use crate::program::Kind;

pub const READ_CONCURRENT: u8 = 1;
pub const READ_SEQUENTIAL: u8 = 2;
/// h is the mode.
pub const TRANSLATE: u8 = 3;
pub const RUN_CONCURRENT: u8 = 4;
pub const RUN_SEQUENTIAL: u8 = 5;
/// The table is the run program's whole standard input.
pub const LINE: u8 = 6;
/// The budget is the number of rounds, h the most steps of a count.
pub const BENCH: u8 = 7;
/// The budget is the label.
pub const PRICES: u8 = 8;
/// A sequential table as C text, in the out buffer.
pub const PRINT_C: u8 = 9;
/// The table is a C text; its table comes into the out buffer.
pub const READ_C: u8 = 10;
/// h is the kind wanted, the event buffer the list of changes; the table itself is lent.
pub const MEND: u8 = 11;
/// As `RUN_CONCURRENT`, by the plain engine.
pub const RUN_PLAIN: u8 = 12;
/// Asks for the version of cases and lines.
pub const GREETING: u8 = 90;

/// One more whenever a case or a line changes its form.
pub const VERSION: u64 = 9;

const HEADER: usize = 36;

/// The lengths that a program without a heap has to be ready for.
pub const LONGEST_TABLE: usize = 66_000;
pub const LONGEST_SCHEDULE: usize = 5_000;
pub const LONGEST_CELLS: u32 = 86_000;
/// An event for each entry of the longest schedule that is run.
pub const LONGEST_EVENTS: u32 = EVENT as u32 * 4_096;
pub const LONGEST_OUT: u32 = 70_000;
/// What the printer may be lent, and what the text reader may be given. There are longer texts.
pub const LONGEST_TEXT: usize = 524_288;

#[derive(Clone, PartialEq, Eq, Debug, Default)]
pub struct Case {
    pub op: u8,
    pub shown: bool,
    pub table: Vec<u8>,
    pub schedule: Vec<u8>,
    pub budget: u64,
    pub h: u32,
    pub cells: u32,
    pub events: u32,
    pub out: u32,
}

/// What answers a case: its line without the newline, and the bytes of the lent buffers if they are
/// to be shown.
#[derive(Clone, PartialEq, Eq, Debug)]
pub struct Answer {
    pub line: String,
    pub shown: Vec<u8>,
}

impl Answer {
    pub fn bytes(&self) -> Vec<u8> {
        [self.line.as_bytes(), b"\n", &self.shown].concat()
    }
}

impl Case {
    /// Header, table and schedule.
    pub fn bytes(&self) -> Vec<u8> {
        let mut bytes = vec![self.op, u8::from(self.shown), 0, 0];
        bytes.extend((self.table.len() as u32).to_le_bytes());
        bytes.extend((self.schedule.len() as u32).to_le_bytes());
        bytes.extend(self.budget.to_le_bytes());
        bytes.extend(self.h.to_le_bytes());
        bytes.extend(self.cells.to_le_bytes());
        bytes.extend(self.events.to_le_bytes());
        bytes.extend(self.out.to_le_bytes());
        bytes.extend(&self.table);
        bytes.extend(&self.schedule);
        bytes
    }

    /// The first case of a batch, and what follows it; `None` at the end of the batch, where it is
    /// cut off, or at an op that there is none of.
    pub fn first_of(batch: &[u8]) -> Option<(Case, &[u8])> {
        let (header, rest) = split(batch, HEADER)?;
        let four = |at: usize| u32::from_le_bytes([0, 1, 2, 3].map(|i| header[at + i]));
        let (table, rest) = split(rest, four(4) as usize)?;
        let (schedule, rest) = split(rest, four(8) as usize)?;
        let case = Case {
            op: header[0],
            shown: header[1] == 1,
            table: table.to_vec(),
            schedule: schedule.to_vec(),
            budget: u64::from(four(12)) + (u64::from(four(16)) << 32),
            h: four(20),
            cells: four(24),
            events: four(28),
            out: four(32),
        };
        let is_known = matches!(case.op, READ_CONCURRENT..=RUN_PLAIN | GREETING);
        is_known.then_some((case, rest))
    }

    /// True if the case keeps to the lengths above.
    pub fn keeps_limits(&self) -> bool {
        let (table, out) = match self.op {
            PRINT_C => (LONGEST_TABLE, LONGEST_TEXT as u32),
            READ_C => (LONGEST_TEXT, LONGEST_OUT),
            _ => (LONGEST_TABLE, LONGEST_OUT),
        };
        self.table.len() <= table
            && self.schedule.len() <= LONGEST_SCHEDULE
            && self.cells <= LONGEST_CELLS
            && self.events <= LONGEST_EVENTS
            && self.out <= out
    }

    /// The line has op and the answer's numbers, then the hash of each lent buffer.
    pub fn answer(&self) -> Answer {
        match self.op {
            READ_CONCURRENT => self.told(read_line(self.op, read_concurrent(&self.table))),
            READ_SEQUENTIAL => self.told(read_line(self.op, read_sequential(&self.table))),
            TRANSLATE => self.written(self.translation()),
            PRINT_C => self.written(print_c),
            READ_C => self.written(read_c),
            RUN_CONCURRENT | RUN_SEQUENTIAL | RUN_PLAIN => self.run(),
            LINE => self.told(format!("{} {}", self.op, line(&self.table))),
            BENCH => self.bench(),
            PRICES => self.prices(),
            MEND => self.mend(),
            _ => self.told(format!("{} {VERSION}", self.op)),
        }
    }

    /// A call that writes into the out buffer.
    fn written(&self, call: impl Fn(&[u8], &mut [u8]) -> WriteAnswer) -> Answer {
        let mut out = lent(self.out);
        let answer = call(&self.table, &mut out);
        let hash = fnv(&out);
        let numbers = format!("{} {} {}", self.op, answer.number, answer.length);
        self.lending(format!("{numbers} {hash:016x}"), out)
    }

    /// The translator in the mode that h tells.
    fn translation(&self) -> impl Fn(&[u8], &mut [u8]) -> WriteAnswer {
        let mode = Mode::numbered(u64::from(self.h));
        move |table, out| translate(table, mode, out)
    }

    fn run(&self) -> Answer {
        let mut cells = lent(self.cells);
        let mut events = lent(self.events);
        let (table, schedule) = (&self.table, &self.schedule);
        let answer = match self.op {
            RUN_CONCURRENT => run_concurrent(table, schedule, &mut cells, &mut events),
            RUN_PLAIN => run_plain(table, schedule, &mut cells, &mut events),
            _ => {
                let (budget, h) = (self.budget, self.h);
                run_sequential(table, schedule, budget, h, &mut cells, &mut events)
            }
        };
        let line = format!(
            "{} {} {} {} {} {} {} {:016x} {:016x}",
            self.op,
            answer.number,
            answer.end,
            answer.steps,
            answer.unused,
            answer.events,
            answer.reason,
            fnv(&cells),
            fnv(&events)
        );
        self.lending(line, [cells, events].concat())
    }

    fn bench(&self) -> Answer {
        let mut cells = lent(self.cells);
        let answer = bench(&self.table, self.budget, u64::from(self.h), &mut cells);
        let found = u8::from(answer.found);
        let numbers = format!("{} {} {found} {}", self.op, answer.number, answer.allotment);
        let counts = answer.counts.map(|count| count.to_string()).join(" ");
        let hash = fnv(&cells);
        self.lending(format!("{numbers} {counts} {hash:016x}"), cells)
    }

    /// No buffer is lent.
    fn prices(&self) -> Answer {
        let PricesAnswer {
            number,
            least,
            most,
        } = prices(&self.table, self.budget);
        self.told(format!("{} {number} {least} {most}", self.op))
    }

    /// Two buffers are lent: the table itself, and the list of changes.
    fn mend(&self) -> Answer {
        let kind = match self.h {
            0 => Kind::Concurrent,
            _ => Kind::Sequential,
        };
        let mut table = self.table.clone();
        let mut list = lent(self.events);
        let answer = mend(&mut table, kind, &mut list);
        let mended = u8::from(answer.mended);
        let numbers = format!("{} {} {mended} {}", self.op, answer.number, answer.changes);
        let hashes = format!("{:016x} {:016x}", fnv(&table), fnv(&list));
        self.lending(format!("{numbers} {hashes}"), [table, list].concat())
    }

    fn told(&self, line: String) -> Answer {
        self.lending(line, Vec::new())
    }

    fn lending(&self, line: String, lent: Vec<u8>) -> Answer {
        let shown = if self.shown { lent } else { Vec::new() };
        Answer { line, shown }
    }
}

/// The header that ends a batch.
pub fn last_header() -> Vec<u8> {
    Case::default().bytes()
}

/// The first bytes, so many of them, and the others.
fn split(bytes: &[u8], length: usize) -> Option<(&[u8], &[u8])> {
    (length <= bytes.len()).then(|| bytes.split_at(length))
}

fn read_line(op: u8, answer: ReadAnswer) -> String {
    format!(
        "{op} {} {} {} {} {} {}",
        answer.number,
        answer.procedures,
        answer.locations,
        answer.threads,
        answer.labels,
        answer.cells
    )
}

/// A lent buffer before the call: byte i is (i * 7 + 13) mod 256.
fn lent(length: u32) -> Vec<u8> {
    (0..u64::from(length))
        .map(|i| ((i * 7 + 13) % 256) as u8)
        .collect()
}

/// FNV-1a with 64 bits.
pub fn fnv(bytes: &[u8]) -> u64 {
    bytes.iter().fold(0xCBF2_9CE4_8422_2325, |hash, byte| {
        (hash ^ u64::from(*byte)).wrapping_mul(0x0000_0100_0000_01B3)
    })
}

#[cfg(test)]
mod tests {
    use super::*;
    use crate::bench::COUNTS;
    use crate::samples::A;

    #[test]
    fn known_hashes() {
        assert_eq!(fnv(b""), 0xCBF2_9CE4_8422_2325);
        assert_eq!(fnv(b"a"), 0xAF63_DC4C_8601_EC8C);
        assert_eq!(fnv(b"foobar"), 0x8594_4171_F739_67E8);
    }

    #[test]
    fn a_case_in_bytes() {
        let case = Case {
            op: RUN_SEQUENTIAL,
            shown: true,
            table: vec![9, 8],
            schedule: vec![7],
            budget: 0x0102_0304_0506_0708,
            h: 6,
            cells: 5,
            events: 258,
            out: 3,
        };
        #[rustfmt::skip]
        let expected = [
            5, 1, 0, 0, 2, 0, 0, 0, 1, 0, 0, 0, 8, 7, 6, 5, 4, 3, 2, 1, 6, 0, 0, 0, 5, 0, 0, 0,
            2, 1, 0, 0, 3, 0, 0, 0,
            9, 8, 7,
        ];
        assert_eq!(case.bytes(), expected);
        assert_eq!(last_header(), [0; 36]);
    }

    #[test]
    fn a_batch_is_read_again() {
        let second = Case {
            budget: 0x0102_0304_0506_0708,
            shown: true,
            ..case_of_a(RUN_CONCURRENT)
        };
        let batch = [case_of_a(GREETING).bytes(), second.bytes(), last_header()].concat();
        let (first, rest) = Case::first_of(&batch).unwrap();
        assert_eq!(first, case_of_a(GREETING));
        let (again, rest) = Case::first_of(rest).unwrap();
        assert_eq!(again, second);
        assert_eq!(Case::first_of(rest), None);
        assert_eq!(Case::first_of(&batch[..35]), None);
        assert_eq!(Case::first_of(&batch[..37]), None);
    }

    fn case_of_a(op: u8) -> Case {
        Case {
            op,
            table: A.to_vec(),
            schedule: vec![0],
            ..Case::default()
        }
    }

    #[test]
    fn lines_of_each_op() {
        let line = |op| case_of_a(op).answer().line;
        let empty = "cbf29ce484222325";
        assert_eq!(line(READ_CONCURRENT), "1 0 1 0 1 1 0");
        assert_eq!(line(READ_SEQUENTIAL), "2 1 0 0 0 0 0");
        assert_eq!(line(TRANSLATE), format!("3 10 0 {empty}"));
        assert_eq!(
            line(RUN_CONCURRENT),
            format!("4 0 0 1 0 0 0 {empty} {empty}")
        );
        assert_eq!(
            line(RUN_SEQUENTIAL),
            format!("5 1 0 0 0 0 0 {empty} {empty}")
        );
        assert_eq!(line(LINE), "6 refused 1");
        assert_eq!(
            line(BENCH),
            format!("7 13 0 0{} {empty}", " 0".repeat(COUNTS))
        );
        assert_eq!(line(PRICES), "8 0 0 0");
        assert_eq!(line(PRINT_C), format!("9 1 0 {empty}"));
        assert_eq!(line(READ_C), format!("10 1 0 {empty}"));
        assert_eq!(line(MEND), format!("11 0 0 0 {:016x} {empty}", fnv(&A)));
        assert_eq!(line(RUN_PLAIN), format!("12 0 0 1 0 0 0 {empty} {empty}"));
        assert_eq!(line(GREETING), "90 9");
    }

    #[test]
    fn prices_of_a() {
        let line = |label| {
            let case = Case {
                budget: label,
                shown: true,
                out: 9,
                ..case_of_a(PRICES)
            };
            case.answer().bytes()
        };
        assert_eq!(line(1), b"8 0 4 4\n");
        assert_eq!(line(2), b"8 0 0 0\n");
        assert_eq!(line(1 << 32 | 1), b"8 0 0 0\n");
    }

    #[test]
    fn lent_buffers_are_shown_behind_the_line() {
        assert_eq!(lent(3), [13, 20, 27]);
        let hidden = Case {
            cells: 2,
            events: 1,
            out: 3,
            ..case_of_a(RUN_CONCURRENT)
        };
        let shown = |case: &Case| {
            let case = Case {
                shown: true,
                ..case.clone()
            };
            case.answer().bytes()
        };
        let line = [hidden.answer().line.as_bytes(), b"\n"].concat();
        assert_eq!(hidden.answer().bytes(), line);
        assert_eq!(shown(&hidden), [&line[..], &[13, 20, 13]].concat());
        let translation = Case {
            op: TRANSLATE,
            ..hidden.clone()
        };
        assert!(shown(&translation).ends_with(&[b'\n', 13, 20, 27]));
        let read = Case {
            op: READ_CONCURRENT,
            ..hidden
        };
        assert_eq!(shown(&read), b"1 0 1 0 1 1 0\n");
    }
}
