//! Over-allocated streams: the calls that are lent their tables.
use crate::{changed, raw, reported, served, Change, Drive, Entry, Refusal, Shown, Side, Slot, Stream};

/// The tables of over-allocated streams, each with an entry for each leaf or more. What they say of a stream stands at the lowest leaf of its piece.
/// What is beyond C is never changed.
#[derive(Debug)]
pub struct Tables<'a> {
    /// The weight r of each over-allocated stream.
    pub rates: &'a mut [u16],
    /// How far each one's deficit is below 0 on the first drive, or on the only one.
    pub first: &'a mut [u16],
    /// The same on the second drive; it stays zero where there is one drive.
    pub second: &'a mut [u16],
}

/// The records of one drive, or of two on one board, where streams may be over-allocated: such a stream has one piece of R leaves, the smallest power of
/// two not below its weight r, and is served r times a round, as evenly as one piece lies; the other slots of its leaves go to name 0. Each call is that of
/// [`Pair`](crate::Pair), with these differences: 2 is also for a table that is too short, and every call that has a record answers 5, slot and round too,
/// where the board is not good or the tables do not fit it. So each looks at the whole board. Open, read, read_pieces and import have none: they clear the
/// first C entries of the tables. The fresh layout moves what the tables say with the streams. With one drive every call is for it, whichever side is
/// named.
///
/// ```no_run
/// use mandrozsi::{Refusal, Shares, Side::First, Tables, LIST};
///
/// let (mut board, mut list) = ([0u16; 4], [0u64; LIST]);
/// let (mut rates, mut first, mut second) = ([0; 4], [0; 4], [0; 4]);
/// let mut tables = Tables { rates: &mut rates, first: &mut first, second: &mut second };
/// let mut drive = Shares::open_one(4, &mut board, &mut list, &mut tables)?;
/// drive.over(First, &mut board, &mut list, &mut tables, 9, 3)?; // one piece of 4 leaves, 3 slots a round
/// let mut names = [0; 4];
/// for name in &mut names {
///     *name = drive.slot(First, &mut board, &mut list, &mut tables)?.name;
/// }
/// assert_eq!(names, [9, 9, 9, 0]);
/// # Ok::<(), Refusal>(())
/// ```
#[derive(Clone, Copy, Debug, PartialEq, Eq)]
pub struct Shares {
    /// The record of the first drive, or of the only one.
    pub first: Drive,
    /// The record of the second, where there are two.
    pub second: Option<Drive>,
}

/// Pointers and lengths of what a call is lent, in the order of the library's functions.
macro_rules! lent {
    (with list, $call:ident ( $($before:expr),* ), $board:expr, $list:expr, $tables:expr $(, $after:expr)*) => {{
        let (rates, owed, other) = $tables;
        // SAFETY: each pointer and length are of one slice, lent for the call alone.
        unsafe {
            raw::$call(
                $($before,)*
                $board.as_mut_ptr(),
                $board.len(),
                $list.as_mut_ptr(),
                $list.len(),
                rates.as_mut_ptr(),
                rates.len(),
                owed.as_mut_ptr(),
                owed.len(),
                other.as_mut_ptr(),
                other.len(),
                $($after,)*
            )
        }
    }};
    (to look at, $call:ident ( $($before:expr),* ), $board:expr, $tables:expr $(, $after:expr)*) => {{
        let [rates, owed, other] = $tables;
        // SAFETY: as above.
        unsafe {
            raw::$call(
                $($before,)*
                $board.as_ptr(),
                $board.len(),
                rates.as_ptr(),
                rates.len(),
                owed.as_ptr(),
                owed.len(),
                other.as_ptr(),
                other.len(),
                $($after,)*
            )
        }
    }};
}

impl Tables<'_> {
    /// r, the deficits of the drive that a call is for, and those of the other.
    fn by(&mut self, second: bool) -> (&mut [u16], &mut [u16], &mut [u16]) {
        if second {
            (self.rates, self.second, self.first)
        } else {
            (self.rates, self.first, self.second)
        }
    }
}

/// What a call that changes nothing looks at: the records, the board, and the tables in the order of [`Tables`].
pub(crate) struct Seen<'a> {
    pub shares: Shares,
    pub board: &'a [u16],
    pub tables: [&'a [u16]; 3],
}

impl<'a> Seen<'a> {
    /// The two records, and the tables, in the order of a call for a side.
    fn by(&self, side: Side) -> (Drive, Drive, [&'a [u16]; 3]) {
        let (own, other, second) = self.shares.own(side);
        let [rates, first, last] = self.tables;
        let tables = if second { [rates, last, first] } else { [rates, first, last] };
        (own, other, tables)
    }

    pub fn round(&self, side: Side, output: &mut [u16]) -> Result<(), Refusal> {
        let (own, other, tables) = self.by(side);
        let (start, length) = (output.as_mut_ptr(), output.len());
        let reply = lent!(to look at, mandrozsi_share_round(own, other), self.board, tables, start, length);
        reply.done().map(|_| ())
    }

    pub fn report(&self, side: Side, name: u16) -> Result<Stream, Refusal> {
        let (own, other, tables) = self.by(side);
        reported(lent!(to look at, mandrozsi_share_report(own, other), self.board, tables, name))
    }

    pub fn save(&self, side: Side, output: &mut [u8]) -> Result<usize, Refusal> {
        let (own, other, tables) = self.by(side);
        let (start, length) = (output.as_mut_ptr(), output.len());
        let reply = lent!(to look at, mandrozsi_share_save(own, other), self.board, tables, start, length);
        Ok(reply.done()?.said.first as usize)
    }

    pub fn save_pieces(&self, side: Side, output: &mut [u8]) -> Result<usize, Refusal> {
        let (own, other, tables) = self.by(side);
        let (start, length) = (output.as_mut_ptr(), output.len());
        let reply = lent!(to look at, mandrozsi_share_save_pieces(own, other), self.board, tables, start, length);
        Ok(reply.done()?.said.first as usize)
    }
}

impl Shares {
    /// The record of the drive that a call is for, that of the other, and whether it is the second.
    pub(crate) const fn own(self, side: Side) -> (Drive, Drive, bool) {
        match (side, self.second) {
            (_, None) => (self.first, self.first, false),
            (Side::First, Some(second)) => (self.first, second, false),
            (Side::Second, Some(second)) => (second, self.first, true),
        }
    }

    fn two(drive: Drive) -> Shares {
        Shares {
            first: drive,
            second: Some(drive),
        }
    }

    fn one(drive: Drive) -> Shares {
        Shares { first: drive, second: None }
    }

    fn opened(capacity: u16, board: &mut [u16], list: &mut [u64], tables: &mut Tables) -> Result<Drive, Refusal> {
        let reply = lent!(with list, mandrozsi_share_open(capacity), board, list, tables.by(false));
        Ok(reply.done()?.drive)
    }

    /// Makes the first `capacity` entries of a board idle, clears those of the tables and empties the list: two drives at the start of a round. Refused:
    /// 1, 2.
    pub fn open(capacity: u16, board: &mut [u16], list: &mut [u64], tables: &mut Tables) -> Result<Shares, Refusal> {
        Shares::opened(capacity, board, list, tables).map(Shares::two)
    }

    /// The same for one drive.
    pub fn open_one(capacity: u16, board: &mut [u16], list: &mut [u64], tables: &mut Tables) -> Result<Shares, Refusal> {
        Shares::opened(capacity, board, list, tables).map(Shares::one)
    }

    fn loaded(sheet: &[u8], board: &mut [u16], list: &mut [u64], tables: &mut Tables) -> Result<Drive, Refusal> {
        let reply = lent!(with list, mandrozsi_share_read(sheet.as_ptr(), sheet.len()), board, list, tables.by(false));
        Ok(reply.done()?.drive)
    }

    /// Sets the leaves of a board to those of a sheet, clears the tables' first C entries and empties the list. Refused as [`Drive::read`].
    pub fn read(sheet: &[u8], board: &mut [u16], list: &mut [u64], tables: &mut Tables) -> Result<Shares, Refusal> {
        Shares::loaded(sheet, board, list, tables).map(Shares::two)
    }

    /// The same for one drive.
    pub fn read_one(sheet: &[u8], board: &mut [u16], list: &mut [u64], tables: &mut Tables) -> Result<Shares, Refusal> {
        Shares::loaded(sheet, board, list, tables).map(Shares::one)
    }

    /// Takes a table of groups, as [`import`](crate::import), and clears the tables' first C entries: two drives at the start of a round.
    pub fn import(
        capacity: u16,
        (starts, names): (&[u16], &[u16]),
        board: &mut [u16],
        list: &mut [u64],
        tables: &mut Tables,
        output: &mut [u16],
    ) -> Result<Shares, Refusal> {
        let (start, length) = (output.as_mut_ptr(), output.len());
        let (given, streams) = (starts.len(), names.len());
        let reply = lent!(
            with list,
            mandrozsi_share_import(capacity, starts.as_ptr(), given, names.as_ptr(), streams),
            board, list, tables.by(false), start, length
        );
        Ok(Shares::two(reply.done()?.drive))
    }

    /// Admits a stream in pieces. Refused: 1 to 3, 5 to 7; 14 where it would wait; 8, 10 where it is made at once.
    pub fn add(self, side: Side, board: &mut [u16], list: &mut [u64], tables: &mut Tables, name: u16, weight: u16) -> Result<Change, Refusal> {
        let (own, other, second) = self.own(side);
        changed(lent!(with list, mandrozsi_share_add(own, other), board, list, tables.by(second), name, weight))
    }

    /// Admits a stream of weight r in one piece of R leaves. Refused as [`Shares::add`]; [`Refusal::Room`] where R exceeds the idle leaves, which may be
    /// more than r.
    pub fn over(self, side: Side, board: &mut [u16], list: &mut [u64], tables: &mut Tables, name: u16, weight: u16) -> Result<Change, Refusal> {
        let (own, other, second) = self.own(side);
        changed(lent!(with list, mandrozsi_share_over(own, other), board, list, tables.by(second), name, weight))
    }

    /// Removes a stream and tidies the board; r and the deficits of a stream that moves go with it. Refused: 1 to 3, 5, 6; 14 where it would wait; 9 where
    /// it is made at once.
    pub fn remove(self, side: Side, board: &mut [u16], list: &mut [u64], tables: &mut Tables, name: u16) -> Result<Change, Refusal> {
        let (own, other, second) = self.own(side);
        changed(lent!(with list, mandrozsi_share_remove(own, other), board, list, tables.by(second), name))
    }

    /// Carries out a table of changes, of kinds 1, 2 and 3, as [`Drive::batch`].
    pub fn batch(self, side: Side, board: &mut [u16], list: &mut [u64], tables: &mut Tables, table: &mut [Entry]) {
        let (own, other, second) = self.own(side);
        let (start, changes) = (table.as_mut_ptr(), table.len());
        let after = lent!(with list, mandrozsi_share_batch(own, other), board, list, tables.by(second), start, changes);
        debug_assert_eq!(after, own);
    }

    /// As [`Drive::fresh`]; over-allocated streams count with R, and keep r and their deficits. Refused: 1 to 5.
    pub fn fresh(self, side: Side, board: &mut [u16], tables: &mut Tables) -> Result<(), Refusal> {
        let (own, other, second) = self.own(side);
        let (rates, owed, other_owed) = tables.by(second);
        // SAFETY: as above.
        let reply = unsafe {
            raw::mandrozsi_share_fresh(
                own,
                other,
                board.as_mut_ptr(),
                board.len(),
                rates.as_mut_ptr(),
                rates.len(),
                owed.as_mut_ptr(),
                owed.len(),
                other_owed.as_mut_ptr(),
                other_owed.len(),
            )
        };
        reply.done().map(|_| ())
    }

    /// Serves a slot of one drive, and moves its record on. Refused: 1 to 3, 5.
    pub fn slot(&mut self, side: Side, board: &mut [u16], list: &mut [u64], tables: &mut Tables) -> Result<Slot, Refusal> {
        let (own, other, second) = self.own(side);
        let reply = lent!(with list, mandrozsi_share_slot(own, other), board, list, tables.by(second));
        let record = match (second, &mut self.second) {
            (true, Some(record)) => record,
            _ => &mut self.first,
        };
        served(record, reply)
    }

    fn seen<'a>(self, board: &'a [u16], tables: &'a Tables) -> Seen<'a> {
        Seen {
            shares: self,
            board,
            tables: [tables.rates, tables.first, tables.second],
        }
    }

    /// Writes the C names of a full round from p = 1 with every deficit taken as 0. Refused: 1 to 3, 5, 11.
    pub fn round(self, side: Side, board: &[u16], tables: &Tables, output: &mut [u16]) -> Result<(), Refusal> {
        self.seen(board, tables).round(side, output)
    }

    /// Reports on a stream: of an over-allocated one r, its one piece, and the spacing over its serves. Refused: 1 to 3, 5, 6, 9.
    pub fn report(self, side: Side, board: &[u16], tables: &Tables, name: u16) -> Result<Stream, Refusal> {
        self.seen(board, tables).report(side, name)
    }

    /// Writes the board's sheet where no stream is over-allocated: the bytes written. Refused: 1 to 5, 11, 17.
    pub fn save(self, side: Side, board: &[u16], tables: &Tables, output: &mut [u8]) -> Result<usize, Refusal> {
        self.seen(board, tables).save(side, output)
    }

    /// Writes the sheet that lists the board's pieces where both drives are at one position and no stream is over-allocated: the bytes written. Refused:
    /// 1 to 5, 11, 17.
    pub fn save_pieces(self, side: Side, board: &[u16], tables: &Tables, output: &mut [u8]) -> Result<usize, Refusal> {
        self.seen(board, tables).save_pieces(side, output)
    }

    /// As [`Shares::read`], of a sheet that lists pieces: both drives are at its position.
    pub fn read_pieces(sheet: &[u8], board: &mut [u16], list: &mut [u64], tables: &mut Tables) -> Result<Shares, Refusal> {
        let reply = lent!(with list, mandrozsi_share_read_pieces(sheet.as_ptr(), sheet.len()), board, list, tables.by(false));
        Ok(Shares::two(reply.done()?.drive))
    }

    /// As [`Drive::show`], with what the tables say of a piece.
    pub fn show<'a>(self, board: &'a [u16], tables: &'a Tables) -> Shown<'a> {
        Shown::with_tables(self.seen(board, tables))
    }
}
