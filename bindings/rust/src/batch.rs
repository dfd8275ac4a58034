//! A table of changes in one call.
use crate::{change_of, raw, Change, Drive, Refusal};

/// An entry of a table: what is asked, and the place for its answer, which the call writes.
///
/// ```no_run
/// use mandrozsi::{Change, Drive, Entry, Refusal, LIST};
///
/// let (mut board, mut list) = ([0u16; 8], [0u64; LIST]);
/// let drive = Drive::open(8, &mut board, &mut list)?;
/// let mut table = [Entry::add(7, 5), Entry::add(2, 4), Entry::remove(7)];
/// drive.batch(&mut board, &mut list, &mut table);
/// assert_eq!(table[0].answer(), Ok(Change::Done { idle: 3 }));
/// assert_eq!(table[1].answer(), Err(Refusal::Room { idle: 3 }));
/// assert_eq!(table[2].answer(), Ok(Change::Done { idle: 8 }));
/// # Ok::<(), Refusal>(())
/// ```
#[repr(C)]
#[derive(Clone, Copy, Debug, Default, PartialEq, Eq, Hash)]
pub struct Entry {
    /// 1: add; 2: remove; 3, where tables are lent: over-allocated add. Any other is answered 7.
    pub kind: u16,
    /// The stream's name.
    pub name: u16,
    /// Of an add; a remove looks at none.
    pub weight: u16,
    /// The answer's number.
    pub number: u16,
    /// The value that goes with it: idle leaves, a ticket, or 0.
    pub value: u64,
}

impl Entry {
    /// Asks for an add.
    pub const fn add(name: u16, weight: u16) -> Entry {
        Entry {
            kind: 1,
            name,
            weight,
            number: 0,
            value: 0,
        }
    }

    /// Asks for an over-allocated add, of [`Shares::batch`](crate::Shares::batch).
    pub const fn over(name: u16, weight: u16) -> Entry {
        Entry {
            kind: 3,
            ..Entry::add(name, weight)
        }
    }

    /// Asks for a remove.
    pub const fn remove(name: u16) -> Entry {
        Entry {
            kind: 2,
            ..Entry::add(name, 0)
        }
    }

    /// What the single call would have returned, once the table was carried out.
    pub fn answer(&self) -> Result<Change, Refusal> {
        change_of(self.number.into(), self.value)
    }
}

/// Carries a table out for the drive `own`.
pub(crate) fn carry_out(own: Drive, other: Drive, board: &mut [u16], list: &mut [u64], table: &mut [Entry]) {
    let (board, entries, list, numbers) = (board.as_mut_ptr(), board.len(), list.as_mut_ptr(), list.len());
    // SAFETY: pointer and length are of one slice, lent for the call alone.
    let after = unsafe { raw::mandrozsi_pair_batch(own, other, board, entries, list, numbers, table.as_mut_ptr(), table.len()) };
    debug_assert_eq!(after, own);
}
