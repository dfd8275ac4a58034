//! A neighbour's table of groups: its round, and its streams on an opened board.
use crate::{raw, Drive, Refusal};

/// Takes a table of groups of C = 2^k slots: the k + 1 starting timeslots, and the names in the order of the lists, of which list i has rate
/// 2^(k - i - 1). The table's own round is written to the start of the output, by its rule; the board is opened and the streams admitted in the order of
/// the table, each with its rate as weight; the list is emptied. The imported board's round need not be the table's. Refused, in this order: 1; 16; 2; 18;
/// 11.
///
/// ```no_run
/// use mandrozsi::{import, Refusal, LIST};
///
/// let (mut board, mut list, mut round) = ([0u16; 4], [0u64; LIST], [0u16; 4]);
/// let drive = import(4, &[0, 0, 3], &[1, 2, 3], &mut board, &mut list, &mut round)?; // three streams of rate 1
/// assert_eq!((round, drive.capacity), ([1, 2, 3, 0], 4));
/// drive.round(&board, &mut round)?;
/// assert_eq!(round, [1, 3, 2, 0]);
/// # Ok::<(), Refusal>(())
/// ```
pub fn import(capacity: u16, starts: &[u16], names: &[u16], board: &mut [u16], list: &mut [u64], output: &mut [u16]) -> Result<Drive, Refusal> {
    let (given, streams, entries, numbers, length) = (starts.len(), names.len(), board.len(), list.len(), output.len());
    let (starts, names) = (starts.as_ptr(), names.as_ptr());
    let (board, list, output) = (board.as_mut_ptr(), list.as_mut_ptr(), output.as_mut_ptr());
    // SAFETY: pointer and length are of one slice, lent for the call alone.
    let reply = unsafe { raw::mandrozsi_import(capacity, starts, given, names, streams, board, entries, list, numbers, output, length) };
    Ok(reply.done()?.drive)
}
