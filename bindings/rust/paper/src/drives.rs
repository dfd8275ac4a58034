//! Document 02, No. 10, by the letter: what the calls look at where two drives share a board and a waiting list, over the calls of any version that
//! are made at once. One drive is the case in which there is no other record.
use crate::waiting::AtOnce;
use crate::{Answer, Record, Records};

const CAPACITY: u16 = 1;
const SHORT: u16 = 2;
const POSITION: u16 = 3;
const MIDROUND: u16 = 4;

impl Records {
    fn all(self) -> impl Iterator<Item = Record> {
        [Some(self.own), self.other].into_iter().flatten()
    }

    /// "Only when both records are at p = 1."
    pub fn start(self) -> bool {
        self.all().all(|record| record.position == 1)
    }
}

/// "1 and 3 look at both records, 2 at the larger C; 3 also for unequal C." `short` is that another lent slice is too short.
pub fn bounds<P: AtOnce>(records: Records, board: &[u16], short: bool) -> Option<u16> {
    let found: Vec<u16> = records.all().map(|record| P::slot(record, board).number).collect();
    let unequal = records.all().any(|record| record.capacity != records.own.capacity);
    if found.contains(&CAPACITY) {
        Some(CAPACITY)
    } else if found.contains(&SHORT) || short {
        Some(SHORT)
    } else if found.contains(&POSITION) || unequal {
        Some(POSITION)
    } else {
        None
    }
}

/// A call that is lent no list: what both records are refused for, and then the call of the own drive.
fn alone<P: AtOnce>(records: Records, board: &[u16], call: impl FnOnce(Record) -> Answer) -> Answer {
    match bounds::<P>(records, board, false) {
        Some(number) => Answer::refused(records.own, number),
        None => call(records.own),
    }
}

pub fn round<P: AtOnce>(records: Records, board: &[u16], output: &mut [u16]) -> Answer {
    alone::<P>(records, board, |own| P::round(own, board, output))
}

pub fn report<P: AtOnce>(records: Records, board: &[u16], name: u16) -> Answer {
    alone::<P>(records, board, |own| P::report(own, board, name))
}

/// "4 for save of the leaf sheet if either is away from 1."
pub fn save<P: AtOnce>(records: Records, board: &[u16], output: &mut [u8]) -> Answer {
    alone::<P>(records, board, |own| {
        if records.start() {
            P::save(own, board, output)
        } else {
            Answer::refused(own, MIDROUND)
        }
    })
}

/// Document 02, No. 12: "4 being given for this call again, for either drive".
pub fn fresh<P: AtOnce>(records: Records, board: &mut [u16]) -> Answer {
    match bounds::<P>(records, board, false) {
        Some(number) => Answer::refused(records.own, number),
        None if records.start() => P::fresh(records.own, board),
        None => Answer::refused(records.own, MIDROUND),
    }
}
