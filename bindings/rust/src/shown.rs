//! A board as text for a person who looks for a fault: nothing here is proved, and no call uses it.
use crate::shares::Seen;
#[cfg(doc)]
use crate::Shares;
use crate::{Drive, Refusal};
use core::{fmt, iter};

/// A board as text: what [`Drive::show`], [`Pair::show`](crate::Pair::show) and [`Shares::show`] give. The first line has C, the idle leaves and each
/// drive's position; then each tree has a line, and below it each of its pieces with its leaves, its lowest leaf and its stream. C = 11 with stream 7 of
/// weight 5 and stream 2 of weight 2:
///
/// ```text
/// C = 11, 4 idle; p = 1 of round 0
/// tree of 8 at 0
///   4 at 0: stream 7
///   4 at 4: idle
/// tree of 2 at 8
///   2 at 8: stream 2
/// tree of 1 at 10
///   1 at 10: stream 7
/// ```
#[derive(Clone, Copy, Debug)]
pub struct Shown<'a> {
    first: Drive,
    second: Option<Drive>,
    board: &'a [u16],
    /// r and each drive's deficits, where tables are lent.
    tables: Option<[&'a [u16]; 3]>,
}

/// A run of one name, or idle, that lies in no larger such run.
struct Piece {
    start: usize,
    size: usize,
    name: u16,
}

/// The piece whose lowest leaf is `start`.
fn piece(leaves: &[u16], start: usize) -> Option<Piece> {
    let name = *leaves.get(start)?;
    let mut size = 1;
    let alike = |half: &[u16]| half.iter().all(|&leaf| leaf == name);
    while start % (2 * size) == 0 && leaves.get(start + size..start + 2 * size).is_some_and(alike) {
        size *= 2;
    }
    Some(Piece { start, size, name })
}

/// Every piece, by rising start.
fn pieces(leaves: &[u16]) -> impl Iterator<Item = Piece> + '_ {
    iter::successors(piece(leaves, 0), |before| piece(leaves, before.start + before.size))
}

impl<'a> Shown<'a> {
    pub(crate) fn one(first: Drive, board: &'a [u16]) -> Self {
        Shown {
            first,
            second: None,
            board,
            tables: None,
        }
    }

    pub(crate) fn two(first: Drive, second: Drive, board: &'a [u16]) -> Self {
        Shown {
            second: Some(second),
            ..Shown::one(first, board)
        }
    }

    pub(crate) fn with_tables(seen: Seen<'a>) -> Self {
        Shown {
            second: seen.shares.second,
            tables: Some(seen.tables),
            ..Shown::one(seen.shares.first, seen.board)
        }
    }

    /// The leaves, or why record, board and tables have none.
    fn leaves(&self) -> Result<&'a [u16], Refusal> {
        let c = usize::from(self.first.capacity);
        if c == 0 || c > Drive::LARGEST {
            return Err(Refusal::Capacity);
        }
        if self.tables.iter().flatten().any(|table| table.len() < c) {
            return Err(Refusal::Short);
        }
        if self.second.is_some_and(|second| second.capacity != self.first.capacity) {
            return Err(Refusal::Position);
        }
        self.board.get(..c).ok_or(Refusal::Short)
    }

    /// What stands behind a piece's name: r and the deficits of an over-allocated stream, and whether the piece makes the board damaged.
    fn remarks(&self, f: &mut fmt::Formatter, leaves: &[u16], piece: &Piece) -> fmt::Result {
        if let Some([rates, first, second]) = self.tables {
            if rates[piece.start] != 0 {
                write!(f, ", r = {}, deficit {}", rates[piece.start], -i32::from(first[piece.start]))?;
                if self.second.is_some() {
                    write!(f, " and {}", -i32::from(second[piece.start]))?;
                }
            }
        }
        let like = |other: &Piece| (other.name, other.size) == (piece.name, piece.size);
        if pieces(leaves).take_while(|other| other.start < piece.start).any(|other| like(&other)) {
            write!(f, ", as large as one before")?;
        }
        Ok(())
    }
}

impl fmt::Display for Shown<'_> {
    fn fmt(&self, f: &mut fmt::Formatter) -> fmt::Result {
        write!(f, "C = {}", self.first.capacity)?;
        let leaves = match self.leaves() {
            Ok(leaves) => leaves,
            Err(why) => return write!(f, "; {why}"),
        };
        let idle = leaves.iter().filter(|&&leaf| leaf == 0).count();
        write!(f, ", {idle} idle; p = {} of round {}", self.first.position, self.first.round)?;
        if let Some(second) = self.second {
            write!(f, "; p = {} of round {}", second.position, second.round)?;
        }
        let mut tree = 0;
        for piece in pieces(leaves) {
            if piece.start == tree {
                let size = 1 << (leaves.len() - tree).ilog2();
                write!(f, "\ntree of {size} at {tree}")?;
                tree += size;
            }
            write!(f, "\n  {} at {}: ", piece.size, piece.start)?;
            match piece.name {
                0 => write!(f, "idle")?,
                name => write!(f, "stream {name}")?,
            }
            self.remarks(f, leaves, &piece)?;
        }
        Ok(())
    }
}
