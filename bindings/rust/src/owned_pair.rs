//! Two drives with all that their calls are lent.
use crate::{fetch, import, Change, Drive, Entry, Fetched, Pair, Refusal, Side, Slot, Stream, LIST};
use core::fmt;

/// Two drives that own the board and the waiting list that they share: as [`OwnedDrive`](crate::OwnedDrive), with the calls of [`Pair`].
///
/// ```no_run
/// use mandrozsi::{Change, Fetched, OwnedPair, Refusal, Side::First, Side::Second};
///
/// let mut pair = OwnedPair::<2>::new();
/// pair.open(2)?;
/// assert_eq!(pair.add(First, 7, 1)?, Change::Done { idle: 1 });
/// pair.slot(First)?; // the first drive's round runs
/// assert_eq!(pair.remove(Second, 7)?, Change::Waiting { ticket: 1 });
/// pair.slot(First)?; // both are at the start of a round again
/// pair.slot(Second)?; // and this slot finds them there
/// assert_eq!(pair.fetch(1), Fetched::Done { idle: 2 });
/// # Ok::<(), Refusal>(())
/// ```
#[derive(Debug)]
pub struct OwnedPair<const LEAVES: usize> {
    pair: Pair,
    board: [u16; LEAVES],
    list: [u64; LIST],
}

impl<const LEAVES: usize> OwnedPair<LEAVES> {
    /// No board yet: C and p are 0.
    pub const fn new() -> Self {
        OwnedPair {
            pair: Pair {
                first: Drive::NONE,
                second: Drive::NONE,
            },
            board: [0; LEAVES],
            list: [0; LIST],
        }
    }

    /// C, which both drives have, 0 where there is no board yet.
    pub const fn capacity(&self) -> u16 {
        self.pair.first.capacity
    }

    /// The position p of a drive's next slot.
    pub const fn position(&self, side: Side) -> u16 {
        self.pair.own(side).0.position
    }

    /// The number of the round that a drive's next slot belongs to.
    pub const fn round_number(&self, side: Side) -> u64 {
        self.pair.own(side).0.round
    }

    /// The C leaves, to look at.
    pub fn leaves(&self) -> &[u16] {
        &self.board[..self.capacity().into()]
    }

    /// As [`Drive::sheet_bytes`].
    pub const fn sheet_bytes(&self) -> usize {
        self.pair.first.sheet_bytes()
    }

    /// As [`Pair::open`]. Refused: 1, 2, which is a capacity above `LEAVES`; then the drives go on with the board they had. So below.
    pub fn open(&mut self, capacity: u16) -> Result<(), Refusal> {
        self.pair = Pair::open(capacity, &mut self.board, &mut self.list)?;
        Ok(())
    }

    /// As [`Pair::read`].
    pub fn read(&mut self, sheet: &[u8]) -> Result<(), Refusal> {
        self.pair = Pair::read(sheet, &mut self.board, &mut self.list)?;
        Ok(())
    }

    /// As [`Pair::read_pieces`].
    pub fn read_pieces(&mut self, sheet: &[u8]) -> Result<(), Refusal> {
        self.pair = Pair::read_pieces(sheet, &mut self.board, &mut self.list)?;
        Ok(())
    }

    /// As [`import`]: both drives are at the start of a round.
    pub fn import(&mut self, capacity: u16, starts: &[u16], names: &[u16], output: &mut [u16]) -> Result<(), Refusal> {
        self.pair = import(capacity, starts, names, &mut self.board, &mut self.list, output).map(Pair::alike)?;
        Ok(())
    }

    /// As [`Pair::add`].
    pub fn add(&mut self, side: Side, name: u16, weight: u16) -> Result<Change, Refusal> {
        self.pair.add(side, &mut self.board, &mut self.list, name, weight)
    }

    /// As [`Pair::remove`].
    pub fn remove(&mut self, side: Side, name: u16) -> Result<Change, Refusal> {
        self.pair.remove(side, &mut self.board, &mut self.list, name)
    }

    /// As [`Pair::batch`].
    pub fn batch(&mut self, side: Side, table: &mut [Entry]) {
        self.pair.batch(side, &mut self.board, &mut self.list, table)
    }

    /// As [`fetch`].
    pub fn fetch(&mut self, ticket: u64) -> Fetched {
        fetch(&mut self.list, ticket)
    }

    /// As [`Pair::fresh`].
    pub fn fresh(&mut self, side: Side) -> Result<(), Refusal> {
        self.pair.fresh(side, &mut self.board)
    }

    /// As [`Pair::slot`].
    pub fn slot(&mut self, side: Side) -> Result<Slot, Refusal> {
        self.pair.slot(side, &mut self.board, &mut self.list)
    }

    /// As [`Pair::round`].
    pub fn round(&self, side: Side, output: &mut [u16]) -> Result<(), Refusal> {
        self.pair.round(side, &self.board, output)
    }

    /// As [`Pair::report`].
    pub fn report(&self, side: Side, name: u16) -> Result<Stream, Refusal> {
        self.pair.report(side, &self.board, name)
    }

    /// As [`Pair::save`].
    pub fn save(&self, side: Side, output: &mut [u8]) -> Result<usize, Refusal> {
        self.pair.save(side, &self.board, output)
    }

    /// As [`Pair::save_pieces`].
    pub fn save_pieces(&self, side: Side, output: &mut [u8]) -> Result<usize, Refusal> {
        self.pair.save_pieces(side, &self.board, output)
    }
}

impl<const LEAVES: usize> Default for OwnedPair<LEAVES> {
    fn default() -> Self {
        OwnedPair::new()
    }
}

/// As [`Pair::show`].
impl<const LEAVES: usize> fmt::Display for OwnedPair<LEAVES> {
    fn fmt(&self, f: &mut fmt::Formatter) -> fmt::Result {
        self.pair.show(&self.board).fmt(f)
    }
}
