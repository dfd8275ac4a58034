//! Two drives that share a board and a waiting list.
use crate::{batch, changed, raw, reported, served, Change, Drive, Entry, Refusal, Shown, Slot, Stream};

/// The drive that a call is for.
#[derive(Clone, Copy, Debug, PartialEq, Eq, Hash)]
pub enum Side {
    /// The first of the two.
    First,
    /// The second.
    Second,
}

/// The records of two drives on one board, each as its last call left it. Each call is that of [`Drive`], with these differences: a change is made at
/// once only where both drives are at the start of a round and no order waits, and the orders that wait are carried out by the slot, of either drive,
/// that finds both there; 1 and 3 are for either record, 2 goes by the larger C, and unequal capacities are 3. A board that [`import`](crate::import)
/// opened is theirs with its record in both places.
///
/// Drives that run out of step may never both be at the start of a round. Then the orders wait on, and once 64 places are taken a change is refused with
/// [`Refusal::Queue`]: hold the drive that is first there back until the other is there too.
///
/// ```no_run
/// use mandrozsi::{fetch, Change, Fetched, Pair, Refusal, Side::First, Side::Second, LIST};
///
/// let (mut board, mut list) = ([0u16; 2], [0u64; LIST]);
/// let mut pair = Pair::open(2, &mut board, &mut list)?;
/// assert_eq!(pair.add(First, &mut board, &mut list, 7, 1)?, Change::Done { idle: 1 });
/// pair.slot(First, &mut board, &mut list)?; // the first drive's round runs
/// assert_eq!(pair.remove(Second, &mut board, &mut list, 7)?, Change::Waiting { ticket: 1 });
/// pair.slot(First, &mut board, &mut list)?; // both are at the start of a round again
/// pair.slot(Second, &mut board, &mut list)?; // and this slot finds them there
/// assert_eq!(fetch(&mut list, 1), Fetched::Done { idle: 2 });
/// # Ok::<(), Refusal>(())
/// ```
#[derive(Clone, Copy, Debug, PartialEq, Eq)]
pub struct Pair {
    /// The record of the first drive.
    pub first: Drive,
    /// The record of the second.
    pub second: Drive,
}

impl Pair {
    /// The record of the drive that a call is for, and that of the other.
    pub(crate) const fn own(self, side: Side) -> (Drive, Drive) {
        match side {
            Side::First => (self.first, self.second),
            Side::Second => (self.second, self.first),
        }
    }

    /// Both drives with one record, as an opened, read or imported board has it.
    pub(crate) fn alike(drive: Drive) -> Pair {
        Pair { first: drive, second: drive }
    }

    /// As [`Drive::open`]: both drives are at the start of a round.
    pub fn open(capacity: u16, board: &mut [u16], list: &mut [u64]) -> Result<Pair, Refusal> {
        Drive::open(capacity, board, list).map(Pair::alike)
    }

    /// As [`Drive::read`]: both drives are at the start of a round.
    pub fn read(sheet: &[u8], board: &mut [u16], list: &mut [u64]) -> Result<Pair, Refusal> {
        Drive::read(sheet, board, list).map(Pair::alike)
    }

    /// As [`Drive::read_pieces`]: both drives are at the sheet's position.
    pub fn read_pieces(sheet: &[u8], board: &mut [u16], list: &mut [u64]) -> Result<Pair, Refusal> {
        Drive::read_pieces(sheet, board, list).map(Pair::alike)
    }

    /// Admits a stream. Refused: 1 to 3, 5 to 7; 14 where it would wait; 8, 10 where it is made at once.
    pub fn add(self, side: Side, board: &mut [u16], list: &mut [u64], name: u16, weight: u16) -> Result<Change, Refusal> {
        let ((own, other), entries, numbers) = (self.own(side), board.len(), list.len());
        // SAFETY: pointer and length are of one slice, lent for the call alone. So below.
        changed(unsafe { raw::mandrozsi_pair_add(own, other, board.as_mut_ptr(), entries, list.as_mut_ptr(), numbers, name, weight) })
    }

    /// Removes a stream and tidies the board. Refused: 1 to 3, 5, 6; 14 where it would wait; 9 where it is made at once.
    pub fn remove(self, side: Side, board: &mut [u16], list: &mut [u64], name: u16) -> Result<Change, Refusal> {
        let ((own, other), entries, numbers) = (self.own(side), board.len(), list.len());
        changed(unsafe { raw::mandrozsi_pair_remove(own, other, board.as_mut_ptr(), entries, list.as_mut_ptr(), numbers, name) })
    }

    /// As [`Drive::batch`].
    pub fn batch(self, side: Side, board: &mut [u16], list: &mut [u64], table: &mut [Entry]) {
        let (own, other) = self.own(side);
        batch::carry_out(own, other, board, list, table)
    }

    /// As [`Drive::fresh`], where both drives are at the start of a round. Refused: 1 to 5.
    pub fn fresh(self, side: Side, board: &mut [u16]) -> Result<(), Refusal> {
        let (own, other) = self.own(side);
        let reply = unsafe { raw::mandrozsi_pair_fresh(own, other, board.as_mut_ptr(), board.len()) };
        reply.done().map(|_| ())
    }

    /// Serves a slot of one drive, and moves its record on. Refused: 1 to 3.
    pub fn slot(&mut self, side: Side, board: &mut [u16], list: &mut [u64]) -> Result<Slot, Refusal> {
        let ((own, other), entries, numbers) = (self.own(side), board.len(), list.len());
        let reply = unsafe { raw::mandrozsi_pair_slot(own, other, board.as_mut_ptr(), entries, list.as_mut_ptr(), numbers) };
        let record = match side {
            Side::First => &mut self.first,
            Side::Second => &mut self.second,
        };
        served(record, reply)
    }

    /// Writes the C names of a full round from p = 1 to the start of the output and nothing beyond them. Refused: 1 to 3, 11.
    pub fn round(self, side: Side, board: &[u16], output: &mut [u16]) -> Result<(), Refusal> {
        let (own, other) = self.own(side);
        let reply = unsafe { raw::mandrozsi_pair_round(own, other, board.as_ptr(), board.len(), output.as_mut_ptr(), output.len()) };
        reply.done().map(|_| ())
    }

    /// Reports on a stream. Refused: 1 to 3, 5, 6, 9.
    pub fn report(self, side: Side, board: &[u16], name: u16) -> Result<Stream, Refusal> {
        let (own, other) = self.own(side);
        reported(unsafe { raw::mandrozsi_pair_report(own, other, board.as_ptr(), board.len(), name) })
    }

    /// Writes the board's sheet to the start of the output and nothing beyond it, where both drives are at the start of a round: the bytes written.
    /// Refused: 1 to 5, 11.
    pub fn save(self, side: Side, board: &[u16], output: &mut [u8]) -> Result<usize, Refusal> {
        let (own, other) = self.own(side);
        let reply = unsafe { raw::mandrozsi_pair_save(own, other, board.as_ptr(), board.len(), output.as_mut_ptr(), output.len()) };
        Ok(reply.done()?.said.first as usize)
    }

    /// Writes the sheet that lists the board's pieces to the start of the output and nothing beyond it, where both drives are at one position: the
    /// bytes written. Refused: 1 to 5, 11.
    pub fn save_pieces(self, side: Side, board: &[u16], output: &mut [u8]) -> Result<usize, Refusal> {
        let (own, other) = self.own(side);
        let reply = unsafe { raw::mandrozsi_pair_save_pieces(own, other, board.as_ptr(), board.len(), output.as_mut_ptr(), output.len()) };
        Ok(reply.done()?.said.first as usize)
    }

    /// As [`Drive::show`], with both positions.
    pub fn show(self, board: &[u16]) -> Shown<'_> {
        Shown::two(self.first, self.second, board)
    }
}
