//! The second engine: a walk down a tree with flip marks, for capacities that are powers of two.
use crate::{raw, refused, short, Refusal};

/// One slot by a walk.
#[derive(Clone, Copy, Debug, PartialEq, Eq)]
pub struct Walked {
    /// The stream served; 0: none.
    pub name: u16,
    /// The leaf it was found at.
    pub leaf: u16,
}

/// Serves a slot by a walk from the root of a tree over the C leaves. At every inner node a mark of 0 becomes 1 and leads left, any other becomes 0 and
/// leads right. There is a mark for each of the C - 1 inner nodes, by level, root first; what is beyond them is never changed. Any board will do, good
/// or not, and it is only read. Refused, in this order: 1; 16 where C is no power of two; 2, also with fewer than C - 1 marks.
///
/// From marks that are all 0 the walks serve the leaves of [`Drive::slot`](crate::Drive::slot) from the start of a round, for any number of rounds, and
/// after each C of them all marks are 0 again.
///
/// ```no_run
/// use mandrozsi::{walk, Refusal};
///
/// let (board, mut marks) = ([7, 7, 2, 0], [0u16; 3]);
/// let round: Vec<u16> = (0..4).map(|_| walk(4, &board, &mut marks).map(|slot| slot.name)).collect::<Result<_, _>>()?;
/// assert_eq!((round, marks), (vec![7, 2, 7, 0], [0; 3]));
/// # Ok::<(), Refusal>(())
/// ```
pub fn walk(capacity: u16, board: &[u16], marks: &mut [u16]) -> Result<Walked, Refusal> {
    // SAFETY: pointer and length are of one slice, lent for the call alone.
    let said = unsafe { raw::mandrozsi_walk(capacity, board.as_ptr(), board.len(), marks.as_mut_ptr(), marks.len()) };
    match said.number {
        0 => Ok(Walked {
            name: short(said.first),
            leaf: short(said.second),
        }),
        number => Err(refused(number, said.first)),
    }
}
