//! Documents 01 and 02 in plain Rust, written from the papers and from nothing else, to compare the proved library with.
//! [`letter`] follows the papers' words and cares for nothing else; [`hand`] is what one would write for speed. [`waiting`] has the waiting list over
//! either, [`drives`] what changes where two drives share a board, [`batch`] the
//! table of changes, [`shares`] the tables of over-allocated streams, [`piece_sheets`] the sheets that list pieces, [`groups`] a neighbour's group table, and [`tree`] the tree walk, by the letter and by hand; each of these three with its comparison.
pub mod batch;
pub mod drives;
pub mod groups;
pub mod hand;
pub mod letter;
pub mod piece_sheets;
pub mod random;
pub mod shared_trial;
pub mod shares;
pub mod tree;
pub mod trial;
pub mod waiting;

/// The drive record: C, p, and the round number.
#[derive(Clone, Copy, Debug, PartialEq, Eq)]
pub struct Record {
    pub capacity: u16,
    pub position: u16,
    pub round: u64,
}

/// The record with C and p, of round 0.
pub fn at(capacity: u16, position: u16) -> Record {
    Record {
        capacity,
        position,
        round: 0,
    }
}

/// The records that a call is given: that of the drive it is for, and that of the other one where two drives share the board.
#[derive(Clone, Copy, Debug, PartialEq, Eq)]
pub struct Records {
    pub own: Record,
    pub other: Option<Record>,
}

impl From<Record> for Records {
    fn from(own: Record) -> Records {
        Records { own, other: None }
    }
}

/// What a call answers: the record, the number (0 for done), and the values, zeros where it has none. Of the refusals ROOM and WAITING alone have one.
#[derive(Clone, Copy, Debug, PartialEq, Eq)]
pub struct Answer {
    pub record: Record,
    pub number: u16,
    pub values: [u64; 4],
}

impl Answer {
    pub fn done(record: Record, values: [u64; 4]) -> Answer {
        Answer { record, number: 0, values }
    }

    pub fn refused(record: Record, number: u16) -> Answer {
        Answer {
            record,
            number,
            values: [0; 4],
        }
    }

    /// ROOM: the idle leaves there are (document 02, No. 5).
    pub fn no_room(record: Record, idle: u16) -> Answer {
        Answer {
            record,
            number: 10,
            values: [idle.into(), 0, 0, 0],
        }
    }
}
