//! One drive or two, where streams may be over-allocated, with all that their calls are lent.
use crate::shares::Seen;
use crate::{fetch, Change, Drive, Entry, Fetched, Refusal, Shares, Shown, Side, Slot, Stream, Tables, LIST};
use core::fmt;

/// One drive or two that own their board, their waiting list and the tables of over-allocated streams: as [`OwnedDrive`](crate::OwnedDrive), with the
/// calls of [`Shares`]. Whether there are one or two is said once, by [`OwnedShares::one`] or [`OwnedShares::two`].
///
/// ```no_run
/// use mandrozsi::{OwnedShares, Refusal, Side::First};
///
/// let mut drive = OwnedShares::<4>::one();
/// drive.open(4)?;
/// drive.over(First, 9, 3)?; // one piece of 4 leaves, 3 slots a round
/// let mut names = [0; 4];
/// for name in &mut names {
///     *name = drive.slot(First)?.name;
/// }
/// assert_eq!(names, [9, 9, 9, 0]);
/// # Ok::<(), Refusal>(())
/// ```
#[derive(Debug)]
pub struct OwnedShares<const LEAVES: usize> {
    shares: Shares,
    board: [u16; LEAVES],
    list: [u64; LIST],
    rates: [u16; LEAVES],
    first: [u16; LEAVES],
    second: [u16; LEAVES],
}

/// The parts of an [`OwnedShares`] as a call is lent them, the tables to be changed.
macro_rules! parts {
    ($own:ident) => {
        (
            &mut $own.board,
            &mut $own.list,
            &mut Tables {
                rates: &mut $own.rates,
                first: &mut $own.first,
                second: &mut $own.second,
            },
        )
    };
}

impl<const LEAVES: usize> OwnedShares<LEAVES> {
    const fn with(second: Option<Drive>) -> Self {
        OwnedShares {
            shares: Shares { first: Drive::NONE, second },
            board: [0; LEAVES],
            list: [0; LIST],
            rates: [0; LEAVES],
            first: [0; LEAVES],
            second: [0; LEAVES],
        }
    }

    /// One drive, whichever side a call names. No board yet: C and p are 0.
    pub const fn one() -> Self {
        OwnedShares::with(None)
    }

    /// Two drives. No board yet: C and p are 0.
    pub const fn two() -> Self {
        OwnedShares::with(Some(Drive::NONE))
    }

    /// C, which both drives have, 0 where there is no board yet.
    pub const fn capacity(&self) -> u16 {
        self.shares.first.capacity
    }

    /// The position p of a drive's next slot.
    pub const fn position(&self, side: Side) -> u16 {
        self.shares.own(side).0.position
    }

    /// The number of the round that a drive's next slot belongs to.
    pub const fn round_number(&self, side: Side) -> u64 {
        self.shares.own(side).0.round
    }

    /// The C leaves, to look at.
    pub fn leaves(&self) -> &[u16] {
        &self.board[..self.capacity().into()]
    }

    /// As [`Drive::sheet_bytes`].
    pub const fn sheet_bytes(&self) -> usize {
        self.shares.first.sheet_bytes()
    }

    /// The records of a board that was started, for as many drives as there are.
    fn start(&mut self, started: Shares) {
        self.shares = Shares {
            second: self.shares.second.and(started.second),
            ..started
        };
    }

    fn seen(&self) -> Seen<'_> {
        Seen {
            shares: self.shares,
            board: &self.board,
            tables: [&self.rates, &self.first, &self.second],
        }
    }

    /// As [`Shares::open`]. Refused: 1, 2, which is a capacity above `LEAVES`; then the drives go on with the board they had. So below.
    pub fn open(&mut self, capacity: u16) -> Result<(), Refusal> {
        let (board, list, tables) = parts!(self);
        let opened = Shares::open(capacity, board, list, tables)?;
        self.start(opened);
        Ok(())
    }

    /// As [`Shares::read`].
    pub fn read(&mut self, sheet: &[u8]) -> Result<(), Refusal> {
        let (board, list, tables) = parts!(self);
        let read = Shares::read(sheet, board, list, tables)?;
        self.start(read);
        Ok(())
    }

    /// As [`Shares::read_pieces`].
    pub fn read_pieces(&mut self, sheet: &[u8]) -> Result<(), Refusal> {
        let (board, list, tables) = parts!(self);
        let read = Shares::read_pieces(sheet, board, list, tables)?;
        self.start(read);
        Ok(())
    }

    /// As [`Shares::import`].
    pub fn import(&mut self, capacity: u16, starts: &[u16], names: &[u16], output: &mut [u16]) -> Result<(), Refusal> {
        let (board, list, tables) = parts!(self);
        let imported = Shares::import(capacity, (starts, names), board, list, tables, output)?;
        self.start(imported);
        Ok(())
    }

    /// As [`Shares::add`].
    pub fn add(&mut self, side: Side, name: u16, weight: u16) -> Result<Change, Refusal> {
        let (board, list, tables) = parts!(self);
        self.shares.add(side, board, list, tables, name, weight)
    }

    /// As [`Shares::over`].
    pub fn over(&mut self, side: Side, name: u16, weight: u16) -> Result<Change, Refusal> {
        let (board, list, tables) = parts!(self);
        self.shares.over(side, board, list, tables, name, weight)
    }

    /// As [`Shares::remove`].
    pub fn remove(&mut self, side: Side, name: u16) -> Result<Change, Refusal> {
        let (board, list, tables) = parts!(self);
        self.shares.remove(side, board, list, tables, name)
    }

    /// As [`Shares::batch`].
    pub fn batch(&mut self, side: Side, table: &mut [Entry]) {
        let (board, list, tables) = parts!(self);
        self.shares.batch(side, board, list, tables, table)
    }

    /// As [`fetch`].
    pub fn fetch(&mut self, ticket: u64) -> Fetched {
        fetch(&mut self.list, ticket)
    }

    /// As [`Shares::fresh`].
    pub fn fresh(&mut self, side: Side) -> Result<(), Refusal> {
        let (board, _, tables) = parts!(self);
        self.shares.fresh(side, board, tables)
    }

    /// As [`Shares::slot`].
    pub fn slot(&mut self, side: Side) -> Result<Slot, Refusal> {
        let (board, list, tables) = parts!(self);
        self.shares.slot(side, board, list, tables)
    }

    /// As [`Shares::round`].
    pub fn round(&self, side: Side, output: &mut [u16]) -> Result<(), Refusal> {
        self.seen().round(side, output)
    }

    /// As [`Shares::report`].
    pub fn report(&self, side: Side, name: u16) -> Result<Stream, Refusal> {
        self.seen().report(side, name)
    }

    /// As [`Shares::save`].
    pub fn save(&self, side: Side, output: &mut [u8]) -> Result<usize, Refusal> {
        self.seen().save(side, output)
    }

    /// As [`Shares::save_pieces`].
    pub fn save_pieces(&self, side: Side, output: &mut [u8]) -> Result<usize, Refusal> {
        self.seen().save_pieces(side, output)
    }
}

/// As [`Shares::show`].
impl<const LEAVES: usize> fmt::Display for OwnedShares<LEAVES> {
    fn fmt(&self, f: &mut fmt::Formatter) -> fmt::Result {
        Shown::with_tables(self.seen()).fmt(f)
    }
}
