//! Document 02, No. 3, by the letter: a lent table of changes, carried out "from first to last", over the calls of any version.
use crate::waiting::{self, AtOnce};
use crate::{Answer, Record, Records};

const WEIGHT: u16 = 7;

/// A change record: "each with kind, name, weight and a place for its answer".
#[derive(Clone, Copy, Debug, PartialEq, Eq)]
pub struct Entry {
    pub kind: u16,
    pub name: u16,
    pub weight: u16,
    pub number: u16,
    pub value: u64,
}

/// The single call that an entry asks for; "any kind but 1 add and 2 remove is answered 7 first, in its own entry, and changes nothing".
fn single<P: AtOnce>(records: Records, board: &mut [u16], list: &mut [u64], entry: Entry) -> Answer {
    match entry.kind {
        1 => waiting::add::<P>(records, board, list, entry.name, entry.weight),
        2 => waiting::remove::<P>(records, board, list, entry.name),
        _ => Answer::refused(records.own, WEIGHT),
    }
}

/// "Board, record and answers equal those of single calls in that order; a refused entry doesn't stop the rest."
pub fn batch<P: AtOnce>(mut records: Records, board: &mut [u16], list: &mut [u64], table: &mut [Entry]) -> Record {
    for entry in table {
        let answer = single::<P>(records, board, list, *entry);
        records.own = answer.record;
        entry.number = answer.number;
        entry.value = answer.values[0];
    }
    records.own
}
