//! One drive with all that its calls are lent.
use crate::{fetch, import, Change, Drive, Entry, Fetched, Refusal, Slot, Stream, LIST};
use core::fmt;

/// A drive that owns its board of up to `LEAVES` leaves and its waiting list. Each method is the call of [`Drive`] of its name, lent this board and this
/// list; the record stays inside, each call that is done leaves it moved on there, and a refused one changes nothing. So no record can be used with
/// another's board, and as the type is not copied, none can be left behind.
///
/// [`OwnedDrive::new`] is constant and nothing is on a heap: it may stand in a `static`, in a struct or in a `Box`.
///
/// ```no_run
/// use mandrozsi::{Change, Fetched, OwnedDrive, Refusal};
/// use std::sync::Mutex;
///
/// static DRIVE: Mutex<OwnedDrive<8>> = Mutex::new(OwnedDrive::new());
///
/// let mut drive = DRIVE.lock().unwrap();
/// drive.open(8)?;
/// assert_eq!(drive.add(7, 5)?, Change::Done { idle: 3 });
/// assert_eq!(drive.slot()?.name, 7);
/// assert_eq!(drive.remove(7)?, Change::Waiting { ticket: 1 });
/// while drive.round_number() == 0 {
///     drive.slot()?;
/// }
/// drive.slot()?; // the next round's first slot: the order is carried out before it is picked
/// assert_eq!(drive.fetch(1), Fetched::Done { idle: 8 });
/// println!("{drive}");
/// # Ok::<(), Refusal>(())
/// ```
///
/// ```compile_fail
/// let drive = mandrozsi::OwnedDrive::<8>::new();
/// let copy = drive.clone();
/// ```
///
/// ```compile_fail
/// let mut drive = mandrozsi::OwnedDrive::<8>::new();
/// let moved = drive;
/// drive.open(8).unwrap();
/// ```
#[derive(Debug)]
pub struct OwnedDrive<const LEAVES: usize> {
    drive: Drive,
    board: [u16; LEAVES],
    list: [u64; LIST],
}

impl<const LEAVES: usize> OwnedDrive<LEAVES> {
    /// No board yet: C and p are 0, and until open, read, read_pieces or import is done every call that has a record is refused with
    /// [`Refusal::Capacity`].
    pub const fn new() -> Self {
        OwnedDrive {
            drive: Drive::NONE,
            board: [0; LEAVES],
            list: [0; LIST],
        }
    }

    /// C, 0 where there is no board yet.
    pub const fn capacity(&self) -> u16 {
        self.drive.capacity
    }

    /// The position p of the next slot.
    pub const fn position(&self) -> u16 {
        self.drive.position
    }

    /// The number of the round that the next slot belongs to.
    pub const fn round_number(&self) -> u64 {
        self.drive.round
    }

    /// The C leaves, to look at.
    pub fn leaves(&self) -> &[u16] {
        &self.board[..self.drive.capacity.into()]
    }

    /// As [`Drive::sheet_bytes`].
    pub const fn sheet_bytes(&self) -> usize {
        self.drive.sheet_bytes()
    }

    /// As [`Drive::open`]. Refused: 1, 2, which is a capacity above `LEAVES`; then the drive goes on with the board it had. So below.
    pub fn open(&mut self, capacity: u16) -> Result<(), Refusal> {
        self.drive = Drive::open(capacity, &mut self.board, &mut self.list)?;
        Ok(())
    }

    /// As [`Drive::read`].
    pub fn read(&mut self, sheet: &[u8]) -> Result<(), Refusal> {
        self.drive = Drive::read(sheet, &mut self.board, &mut self.list)?;
        Ok(())
    }

    /// As [`Drive::read_pieces`].
    pub fn read_pieces(&mut self, sheet: &[u8]) -> Result<(), Refusal> {
        self.drive = Drive::read_pieces(sheet, &mut self.board, &mut self.list)?;
        Ok(())
    }

    /// As [`import`].
    pub fn import(&mut self, capacity: u16, starts: &[u16], names: &[u16], output: &mut [u16]) -> Result<(), Refusal> {
        self.drive = import(capacity, starts, names, &mut self.board, &mut self.list, output)?;
        Ok(())
    }

    /// As [`Drive::add`].
    pub fn add(&mut self, name: u16, weight: u16) -> Result<Change, Refusal> {
        self.drive.add(&mut self.board, &mut self.list, name, weight)
    }

    /// As [`Drive::remove`].
    pub fn remove(&mut self, name: u16) -> Result<Change, Refusal> {
        self.drive.remove(&mut self.board, &mut self.list, name)
    }

    /// As [`Drive::batch`].
    pub fn batch(&mut self, table: &mut [Entry]) {
        self.drive.batch(&mut self.board, &mut self.list, table)
    }

    /// As [`fetch`].
    pub fn fetch(&mut self, ticket: u64) -> Fetched {
        fetch(&mut self.list, ticket)
    }

    /// As [`Drive::fresh`].
    pub fn fresh(&mut self) -> Result<(), Refusal> {
        self.drive.fresh(&mut self.board)
    }

    /// As [`Drive::slot`].
    pub fn slot(&mut self) -> Result<Slot, Refusal> {
        self.drive.slot(&mut self.board, &mut self.list)
    }

    /// As [`Drive::round`].
    pub fn round(&self, output: &mut [u16]) -> Result<(), Refusal> {
        self.drive.round(&self.board, output)
    }

    /// As [`Drive::report`].
    pub fn report(&self, name: u16) -> Result<Stream, Refusal> {
        self.drive.report(&self.board, name)
    }

    /// As [`Drive::save`].
    pub fn save(&self, output: &mut [u8]) -> Result<usize, Refusal> {
        self.drive.save(&self.board, output)
    }

    /// As [`Drive::save_pieces`].
    pub fn save_pieces(&self, output: &mut [u8]) -> Result<usize, Refusal> {
        self.drive.save_pieces(&self.board, output)
    }
}

impl<const LEAVES: usize> Default for OwnedDrive<LEAVES> {
    fn default() -> Self {
        OwnedDrive::new()
    }
}

/// As [`Drive::show`].
impl<const LEAVES: usize> fmt::Display for OwnedDrive<LEAVES> {
    fn fmt(&self, f: &mut fmt::Formatter) -> fmt::Result {
        self.drive.show(&self.board).fmt(f)
    }
}
