//! Why an expression has no value, and why a step blocks.

/// "1 outside the number range, 2 wrong kind. Machines add 3 index outside, 4 finished thread
/// chosen." The numbers are the ones the calls answer.
#[derive(Clone, Copy, PartialEq, Eq, Debug)]
pub enum Reason {
    OutOfRange = 1,
    WrongKind = 2,
    IndexOutside = 3,
    FinishedThread = 4,
}
