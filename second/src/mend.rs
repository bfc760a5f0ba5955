//! The mender: it "overwrites the last sixteen with the trailer for the one choice of the three
//! counts that makes an acceptable table of that length". By brute force: the whole reader judges
//! each choice.

use crate::bodies;
use crate::head::{distance, limits, Counts, TRAILER};
use crate::program::Kind;
use crate::verdict::verdict;
use crate::write::trailer;

/// "lists each changed byte, by rising place, with its old and new value"
#[derive(Clone, Copy, PartialEq, Eq, Debug)]
pub struct Change {
    pub place: usize,
    pub old: u8,
    pub new: u8,
}

/// The bytes of one change in the list: place (4), old and new.
pub const CHANGE: usize = 6;

impl Change {
    pub fn bytes(&self) -> [u8; CHANGE] {
        let [a, b, c, d] = (self.place as u32).to_le_bytes();
        [a, b, c, d, self.old, self.new]
    }
}

/// Above this length a choice is tried only if its bodies end where its records begin.
const SHORT: usize = 300;

/// What has to be changed, nothing if the table is accepted as it is. "Refusals: under 16 bytes 1,
/// over length 2; then 14 if no choice is acceptable, 15 if more than one is."
pub fn changes(table: &[u8], kind: Kind) -> Result<Vec<Change>, u8> {
    if table.len() < TRAILER {
        return Err(1);
    }
    if table.len() > limits(kind).length {
        return Err(2);
    }
    if verdict(table, kind).is_ok() {
        return Ok(Vec::new());
    }
    let choices = match table.len() <= SHORT {
        true => choices_of_all(table, kind),
        false => choices_by_bodies(table, kind),
    };
    match choices.as_slice() {
        [] => Err(14),
        [counts] => Ok(differences(table, &with_trailer(table, kind, *counts))),
        _ => Err(15),
    }
}

/// The table with the trailer of these counts.
fn with_trailer(table: &[u8], kind: Kind, counts: Counts) -> Vec<u8> {
    let (kept, _) = table.split_at(table.len() - TRAILER);
    [kept, &trailer(kind, counts, table.len())].concat()
}

fn differences(before: &[u8], after: &[u8]) -> Vec<Change> {
    let both = before.iter().zip(after).enumerate();
    let all = both.map(|(place, (old, new))| Change {
        place,
        old: *old,
        new: *new,
    });
    all.filter(|change| change.old != change.new).collect()
}

/// All choices that number 2 allows and that have room.
fn allowed(length: usize, kind: Kind) -> Vec<Counts> {
    let limits = limits(kind);
    let mut all = Vec::new();
    for procedures in limits.procedures {
        for locations in limits.locations.clone() {
            for threads in limits.threads.clone() {
                let counts = Counts {
                    procedures,
                    locations,
                    threads,
                };
                if distance(counts) <= length - TRAILER {
                    all.push(counts);
                }
            }
        }
    }
    all
}

/// The choices that make an acceptable table, all of them tried. The table has 16 bytes or more.
pub fn choices_of_all(table: &[u8], kind: Kind) -> Vec<Counts> {
    let mut all = allowed(table.len(), kind);
    all.retain(|counts| verdict(&with_trailer(table, kind, *counts), kind).is_ok());
    all
}

/// The same choices. As a body's bytes say where it ends, the bodies are read once, and only choices
/// are tried whose bodies end where the records begin: number 4 refuses all others.
pub fn choices_by_bodies(table: &[u8], kind: Kind) -> Vec<Counts> {
    let room = table.len() - TRAILER;
    let most = *limits(kind).procedures.end();
    let ends = bodies::ends(&table[..room], kind, most);
    let mut all = allowed(table.len(), kind);
    all.retain(|counts| ends.get(counts.procedures - 1) == Some(&(room - distance(*counts))));
    all.retain(|counts| verdict(&with_trailer(table, kind, *counts), kind).is_ok());
    all
}
