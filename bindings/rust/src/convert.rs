//! A sheet of one form as one of the other.
use crate::raw::{self, Said};
use crate::{refused, Refusal};

fn written(said: Said) -> Result<usize, Refusal> {
    match said.number {
        0 => Ok(said.first as usize),
        number => Err(refused(number, said.first)),
    }
}

/// Writes the sheet that lists the pieces of a leaf sheet's board to the start of the output and nothing beyond it: the bytes written. Refused: as
/// [`Drive::read`](crate::Drive::read) but for 2; then 11.
pub fn to_pieces(sheet: &[u8], output: &mut [u8]) -> Result<usize, Refusal> {
    // SAFETY: pointer and length are of one slice, lent for the call alone. So below.
    written(unsafe { raw::mandrozsi_to_pieces(sheet.as_ptr(), sheet.len(), output.as_mut_ptr(), output.len()) })
}

/// Writes the leaf sheet of the board of a sheet that lists pieces to the start of the output and nothing beyond it: the bytes written. Refused: as
/// [`Drive::read_pieces`](crate::Drive::read_pieces) but for 2; then 4 where its position is not 1, and 11.
pub fn to_leaves(sheet: &[u8], output: &mut [u8]) -> Result<usize, Refusal> {
    written(unsafe { raw::mandrozsi_to_leaves(sheet.as_ptr(), sheet.len(), output.as_mut_ptr(), output.len()) })
}
