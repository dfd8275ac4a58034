//! The slot board of one tape drive, or of two that share it: which stream each slot of a round serves.
//!
//! The functions stand in a static library whose every promise is proved; this crate gives them Rust's types. A board is a slice of 16-bit
//! numbers that the caller keeps: a slice is passed as it is, and nothing is copied. Every call accepts every input; a refused one changes
//! neither the record nor a lent slice. The crate needs no operating system and no heap.
//!
//! [`Drive`], [`Pair`] and [`Shares`] are records alone, and each call is lent the board that its record belongs to. [`OwnedDrive`], [`OwnedPair`] and
//! [`OwnedShares`] keep record, board, list and tables together, so that none can be taken for another's; their methods have the calls' names.
//!
//! An add or a remove is made at once where a round starts and no order waits. At any other position it goes on a waiting list, a slice of 64-bit
//! numbers that the caller keeps beside the board, and the slot call that starts the next round carries it out; its answer is fetched by a ticket.
//!
//! ```no_run
//! use mandrozsi::{fetch, Change, Drive, Fetched, Refusal, LIST};
//!
//! let (mut board, mut list) = ([0u16; 8], [0u64; LIST]);
//! let mut drive = Drive::open(8, &mut board, &mut list)?;
//! assert_eq!(drive.add(&mut board, &mut list, 7, 5)?, Change::Done { idle: 3 }); // stream 7 has 5 of 8 slots, 3 are idle
//! assert_eq!(drive.add(&mut board, &mut list, 2, 4), Err(Refusal::Room { idle: 3 }));
//! assert_eq!(drive.slot(&mut board, &mut list)?.name, 7); // the record has moved on: the round runs
//! assert_eq!(drive.remove(&mut board, &mut list, 7)?, Change::Waiting { ticket: 1 });
//! while drive.round == 0 {
//!     drive.slot(&mut board, &mut list)?;
//! }
//! assert_eq!(fetch(&mut list, 1), Fetched::Waiting);
//! drive.slot(&mut board, &mut list)?; // the next round's first slot: the order is carried out before it is picked
//! assert_eq!(fetch(&mut list, 1), Fetched::Done { idle: 8 });
//! # Ok::<(), Refusal>(())
//! ```
#![no_std]
#![deny(missing_docs)]

use core::fmt;

mod batch;
mod convert;
mod groups;
mod owned;
mod owned_pair;
mod owned_shares;
mod pair;
pub mod raw;
mod shares;
mod shown;
mod tree;

pub use batch::Entry;
pub use convert::{to_leaves, to_pieces};
pub use groups::import;
pub use owned::OwnedDrive;
pub use owned_pair::OwnedPair;
pub use owned_shares::OwnedShares;
pub use pair::{Pair, Side};
pub use shares::{Shares, Tables};
pub use shown::Shown;
pub use tree::{walk, Walked};

use raw::{Reply, Said};

/// The drive record, which open, read, read_pieces and [`import`] give back and which slot alone moves on. A round starts at p = 1.
#[repr(C)]
#[derive(Clone, Copy, Debug, Default, PartialEq, Eq, Hash)]
pub struct Drive {
    /// The capacity C: the leaves of the board, and the slots of a round.
    pub capacity: u16,
    /// The position p of the next slot, 1 to 2^k - 1, where C has k binary digits: 1 after open, read and import, and the sheet's after read_pieces.
    pub position: u16,
    /// The number of the round that the next slot belongs to: 0 after open, read, read_pieces and import, one more each time p returns to 1, and 0
    /// again after the largest.
    pub round: u64,
}

/// Why a call is refused. `number` is what document 01 and the C header call it. Later calls may have refusals that are not here yet.
#[derive(Clone, Copy, Debug, PartialEq, Eq, Hash, PartialOrd, Ord)]
#[non_exhaustive]
pub enum Refusal {
    /// C is 0 or above 4,095.
    Capacity,
    /// The board or a table has fewer than C entries, or the list fewer than [`LIST`] numbers; or a walk is lent fewer than C - 1 marks.
    Short,
    /// p is 0 or above 2^k - 1; of two drives also: their capacities differ.
    Position,
    /// p is not 1: a board is saved by its leaves, or laid out afresh, only at the start of a round, of two drives that of both, and
    /// [`to_leaves`] takes a sheet that lists pieces only where its position is 1. By its pieces two drives save a board only where both are at one
    /// position.
    Midround,
    /// The board is not good: two pieces of one name, or two idle ones, have equal size; or the tables of over-allocated streams do not fit it.
    Damaged,
    /// The name is 0.
    Name,
    /// The weight is 0; or a table of changes, or the list, asks for a kind of change that there is none of.
    Weight,
    /// A leaf holds the name.
    Taken,
    /// No leaf holds the name.
    Absent,
    /// The weight exceeds the number of idle leaves; of an over-allocated stream: the leaves R that it needs.
    Room {
        /// The idle leaves, which are what could be asked for.
        idle: u16,
    },
    /// The lent output is too short: fewer than C entries of a round, or fewer bytes than the sheet has.
    Output,
    /// A sheet breaks its layout.
    Block,
    /// No order can wait: the 64 places are taken, by orders and by answers that nobody fetched, or the tickets are used up.
    Queue,
    /// No order and no answer on the list has the ticket.
    Ticket,
    /// C is no power of two, which a walk and a group table need.
    Power,
    /// An over-allocated stream is held, which a sheet cannot hold.
    Kind,
    /// Starts and names are no group table.
    Group,
}

impl Refusal {
    /// Every refusal, in the order of the numbers; `Room` on a full board.
    pub const ALL: &'static [Refusal] = &[
        Refusal::Capacity,
        Refusal::Short,
        Refusal::Position,
        Refusal::Midround,
        Refusal::Damaged,
        Refusal::Name,
        Refusal::Weight,
        Refusal::Taken,
        Refusal::Absent,
        Refusal::Room { idle: 0 },
        Refusal::Output,
        Refusal::Block,
        Refusal::Queue,
        Refusal::Ticket,
        Refusal::Power,
        Refusal::Kind,
        Refusal::Group,
    ];

    /// The number: 1 to 12, 14 to 18. (13 is WAITING, which is no refusal here.)
    pub const fn number(self) -> u16 {
        match self {
            Refusal::Capacity => 1,
            Refusal::Short => 2,
            Refusal::Position => 3,
            Refusal::Midround => 4,
            Refusal::Damaged => 5,
            Refusal::Name => 6,
            Refusal::Weight => 7,
            Refusal::Taken => 8,
            Refusal::Absent => 9,
            Refusal::Room { .. } => 10,
            Refusal::Output => 11,
            Refusal::Block => 12,
            Refusal::Queue => 14,
            Refusal::Ticket => 15,
            Refusal::Power => 16,
            Refusal::Kind => 17,
            Refusal::Group => 18,
        }
    }

    /// The value that goes with the number: the idle leaves for `Room`, and 0 for every other.
    pub const fn value(self) -> u16 {
        match self {
            Refusal::Room { idle } => idle,
            _ => 0,
        }
    }

    /// The refusal of a number and the value that goes with it, if the number is one's.
    pub fn from_number(number: u16, value: u16) -> Option<Refusal> {
        match Refusal::ALL.iter().find(|refusal| refusal.number() == number)? {
            Refusal::Room { .. } => Some(Refusal::Room { idle: value }),
            other => Some(*other),
        }
    }
}

impl fmt::Display for Refusal {
    fn fmt(&self, f: &mut fmt::Formatter<'_>) -> fmt::Result {
        match self {
            Refusal::Capacity => write!(f, "the capacity is 0 or above 4,095"),
            Refusal::Short => write!(
                f,
                "the board or a table has fewer entries than the capacity, or the list or the marks are too few"
            ),
            Refusal::Position => write!(f, "the position is out of range"),
            Refusal::Midround => write!(f, "not at the start of a round, or two drives not at one position"),
            Refusal::Damaged => write!(f, "the board is not good"),
            Refusal::Name => write!(f, "the name is 0"),
            Refusal::Weight => write!(f, "the weight is 0, or there is no such kind of change"),
            Refusal::Taken => write!(f, "a leaf holds the name"),
            Refusal::Absent => write!(f, "no leaf holds the name"),
            Refusal::Room { idle } => write!(f, "the weight exceeds the idle leaves, which are {idle}"),
            Refusal::Output => write!(f, "the output is too short"),
            Refusal::Block => write!(f, "the sheet breaks its layout"),
            Refusal::Queue => write!(f, "no order can wait"),
            Refusal::Ticket => write!(f, "there is no such ticket"),
            Refusal::Power => write!(f, "the capacity is no power of two"),
            Refusal::Kind => write!(f, "an over-allocated stream is held"),
            Refusal::Group => write!(f, "starts and names are no group table"),
        }?;
        write!(f, " ({})", self.number())
    }
}

impl core::error::Error for Refusal {}

/// The numbers of a waiting list: a lent slice has as many or more, and what is beyond them is never changed. As many zeros are an empty list.
pub const LIST: usize = 259;

/// What an add or a remove came to.
#[derive(Clone, Copy, Debug, PartialEq, Eq)]
pub enum Change {
    /// It was made at once.
    Done {
        /// The idle leaves left.
        idle: u16,
    },
    /// Its order waits for the start of a round.
    Waiting {
        /// What its answer is fetched by.
        ticket: u64,
    },
}

/// What a fetch found.
#[derive(Clone, Copy, Debug, PartialEq, Eq)]
pub enum Fetched {
    /// The order was carried out.
    Done {
        /// The idle leaves left then.
        idle: u16,
    },
    /// The order was refused when it was carried out.
    Refused(Refusal),
    /// The order still waits.
    Waiting,
    /// No order and no answer has the ticket; a list that is too short has none.
    Unknown,
    /// An answer that no call leaves: the list was written by something else.
    Foreign {
        /// Its number.
        number: u64,
        /// The value that goes with it.
        value: u64,
    },
}

/// Fetches the answer of an order by its ticket, once: its place is free again. It looks at nothing but the list.
pub fn fetch(list: &mut [u64], ticket: u64) -> Fetched {
    // SAFETY: pointer and length are of one slice, lent for the call alone. So below.
    let Said { number, first, .. } = unsafe { raw::mandrozsi_fetch(list.as_mut_ptr(), list.len(), ticket) };
    let refusal = u16::try_from(number).ok().and_then(|n| Refusal::from_number(n, short(first)));
    match (number, refusal) {
        (0, _) if first <= u16::MAX.into() => Fetched::Done { idle: short(first) },
        (13, _) if first == ticket => Fetched::Waiting,
        (15, _) if first == 0 => Fetched::Unknown,
        (1..=12, Some(refusal)) if u64::from(refusal.value()) == first => Fetched::Refused(refusal),
        _ => Fetched::Foreign { number, value: first },
    }
}

/// One slot.
#[derive(Clone, Copy, Debug, PartialEq, Eq)]
pub struct Slot {
    /// The stream served; 0: none.
    pub name: u16,
    /// The leaf it was found at.
    pub leaf: u16,
    /// The terms of the sequence passed over, 0 or 1.
    pub passed: u16,
    /// The number of its round.
    pub round: u64,
}

/// A report on a stream.
#[derive(Clone, Copy, Debug, PartialEq, Eq)]
pub struct Stream {
    /// Its slots in a round; of an over-allocated stream r.
    pub weight: u16,
    /// The number of its pieces.
    pub pieces: u16,
    /// The largest number of slots from one serve to the next over two rounds of the board, the end of the round included. A stream that is served
    /// once a round has spacing C.
    pub spacing: u16,
}

impl Reply {
    /// The reply itself where the call was done, or why it was refused.
    pub fn done(self) -> Result<Reply, Refusal> {
        match self.said.number {
            0 => Ok(self),
            number => Err(refused(number, self.said.first)),
        }
    }
}

/// A number, a name, a leaf or a count of leaves: the library's are below 65,536.
fn short(value: u64) -> u16 {
    value as u16
}

fn changed(reply: Reply) -> Result<Change, Refusal> {
    change_of(reply.said.number, reply.said.first)
}

/// An answer of add and remove: its number, and the value that goes with it.
fn change_of(number: u64, value: u64) -> Result<Change, Refusal> {
    match number {
        0 => Ok(Change::Done { idle: short(value) }),
        13 => Ok(Change::Waiting { ticket: value }),
        _ => Err(refused(number, value)),
    }
}

fn refused(number: u64, value: u64) -> Refusal {
    Refusal::from_number(short(number), short(value)).expect("the library's numbers are 0 to 18")
}

/// What slot says; the record moves on.
fn served(record: &mut Drive, reply: Reply) -> Result<Slot, Refusal> {
    let Reply { drive, said } = reply.done()?;
    *record = drive;
    Ok(Slot {
        name: short(said.first),
        leaf: short(said.second),
        passed: short(said.third),
        round: said.fourth,
    })
}

fn reported(reply: Reply) -> Result<Stream, Refusal> {
    let Said { first, second, third, .. } = reply.done()?.said;
    Ok(Stream {
        weight: short(first),
        pieces: short(second),
        spacing: short(third),
    })
}

impl Drive {
    /// The record of a drive that has no board.
    const NONE: Drive = Drive {
        capacity: 0,
        position: 0,
        round: 0,
    };

    /// The largest capacity.
    pub const LARGEST: usize = 4095;
    /// The bytes of a sheet's block.
    pub const BLOCK_BYTES: usize = 512;
    /// The leaves of a sheet's block.
    pub const LEAVES_PER_BLOCK: usize = 253;
    /// The entries of a block of a sheet that lists pieces.
    pub const PIECES_PER_BLOCK: usize = 84;

    /// Makes the first `capacity` entries of a board idle, and empties the list: a record at the start of a round. Refused: 1, 2.
    pub fn open(capacity: u16, board: &mut [u16], list: &mut [u64]) -> Result<Drive, Refusal> {
        let reply = unsafe { raw::mandrozsi_open(capacity, board.as_mut_ptr(), board.len(), list.as_mut_ptr(), list.len()) };
        Ok(reply.done()?.drive)
    }

    /// Admits a stream, at once or when its order is carried out. Refused: 1 to 3, 5 to 7; 14 where it would wait; 8, 10 where it is made at once.
    pub fn add(self, board: &mut [u16], list: &mut [u64], name: u16, weight: u16) -> Result<Change, Refusal> {
        let (entries, numbers) = (board.len(), list.len());
        changed(unsafe { raw::mandrozsi_add(self, board.as_mut_ptr(), entries, list.as_mut_ptr(), numbers, name, weight) })
    }

    /// Removes a stream and tidies the board, at once or when its order is carried out. Refused: 1 to 3, 5, 6; 14 where it would wait; 9 where it is
    /// made at once.
    pub fn remove(self, board: &mut [u16], list: &mut [u64], name: u16) -> Result<Change, Refusal> {
        let (entries, numbers) = (board.len(), list.len());
        changed(unsafe { raw::mandrozsi_remove(self, board.as_mut_ptr(), entries, list.as_mut_ptr(), numbers, name) })
    }

    /// Carries out a table of changes from the first entry to the last, each as the single call would; each entry's answer is then in its place. A
    /// refused entry does not stop the rest.
    pub fn batch(self, board: &mut [u16], list: &mut [u64], table: &mut [Entry]) {
        batch::carry_out(self, self, board, list, table)
    }

    /// Lays the board out afresh: as if every stream had been added to an opened board by falling weight, then rising name. What waits stays as it is.
    /// Refused: 1 to 5.
    pub fn fresh(self, board: &mut [u16]) -> Result<(), Refusal> {
        let reply = unsafe { raw::mandrozsi_fresh(self, board.as_mut_ptr(), board.len()) };
        reply.done().map(|_| ())
    }

    /// Serves the slot at the position, and moves the record on. At the start of a round the orders that wait are carried out first. Any board will
    /// do, good or not. Refused: 1 to 3.
    pub fn slot(&mut self, board: &mut [u16], list: &mut [u64]) -> Result<Slot, Refusal> {
        served(self, unsafe {
            raw::mandrozsi_slot(*self, board.as_mut_ptr(), board.len(), list.as_mut_ptr(), list.len())
        })
    }

    /// Writes the C names of a full round from p = 1 to the start of the output and nothing beyond them. Refused: 1 to 3, 11.
    pub fn round(self, board: &[u16], output: &mut [u16]) -> Result<(), Refusal> {
        let reply = unsafe { raw::mandrozsi_round(self, board.as_ptr(), board.len(), output.as_mut_ptr(), output.len()) };
        reply.done().map(|_| ())
    }

    /// Reports on a stream. Refused: 1 to 3, 5, 6, 9.
    pub fn report(self, board: &[u16], name: u16) -> Result<Stream, Refusal> {
        reported(unsafe { raw::mandrozsi_report(self, board.as_ptr(), board.len(), name) })
    }

    /// Writes the board's sheet to the start of the output and nothing beyond it: the bytes written. Refused: 1 to 5, 11.
    pub fn save(self, board: &[u16], output: &mut [u8]) -> Result<usize, Refusal> {
        let reply = unsafe { raw::mandrozsi_save(self, board.as_ptr(), board.len(), output.as_mut_ptr(), output.len()) };
        Ok(reply.done()?.said.first as usize)
    }

    /// Sets the leaves of a board to those of a sheet, and empties the list: a record at the start of a round. Refused: 12 (under 512 bytes), 1, 2,
    /// 12, 5, in this order.
    pub fn read(sheet: &[u8], board: &mut [u16], list: &mut [u64]) -> Result<Drive, Refusal> {
        let (entries, numbers) = (board.len(), list.len());
        let reply = unsafe { raw::mandrozsi_read(sheet.as_ptr(), sheet.len(), board.as_mut_ptr(), entries, list.as_mut_ptr(), numbers) };
        Ok(reply.done()?.drive)
    }

    /// Writes the sheet that lists the board's pieces to the start of the output and nothing beyond it, at any position: the bytes written.
    /// Refused: 1 to 3, 5, 11.
    pub fn save_pieces(self, board: &[u16], output: &mut [u8]) -> Result<usize, Refusal> {
        let reply = unsafe { raw::mandrozsi_save_pieces(self, board.as_ptr(), board.len(), output.as_mut_ptr(), output.len()) };
        Ok(reply.done()?.said.first as usize)
    }

    /// Sets the leaves of a board to those of a sheet that lists pieces, and empties the list: a record at the sheet's position, of round 0. Refused
    /// as [`Drive::read`].
    pub fn read_pieces(sheet: &[u8], board: &mut [u16], list: &mut [u64]) -> Result<Drive, Refusal> {
        let (entries, numbers) = (board.len(), list.len());
        let reply = unsafe { raw::mandrozsi_read_pieces(sheet.as_ptr(), sheet.len(), board.as_mut_ptr(), entries, list.as_mut_ptr(), numbers) };
        Ok(reply.done()?.drive)
    }

    /// The bytes of the sheet of a board of this capacity.
    pub const fn sheet_bytes(self) -> usize {
        (self.capacity as usize).div_ceil(Drive::LEAVES_PER_BLOCK) * Drive::BLOCK_BYTES
    }

    /// The board as text for a person: its trees, its pieces with their starts and names, what is idle and the position, a short line for each. Any
    /// board will do, good or not.
    ///
    /// ```no_run
    /// use mandrozsi::{Drive, Refusal, LIST};
    ///
    /// let (mut board, mut list) = ([0u16; 8], [0u64; LIST]);
    /// let drive = Drive::open(8, &mut board, &mut list)?;
    /// drive.add(&mut board, &mut list, 7, 5)?;
    /// println!("{}", drive.show(&board));
    /// # Ok::<(), Refusal>(())
    /// ```
    pub fn show(self, board: &[u16]) -> Shown<'_> {
        Shown::one(self, board)
    }
}
